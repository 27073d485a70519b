"""The parts of scripts/record.py, scripts/chop.py and scripts/check-examples. docs/RECORDING.md is their page."""
