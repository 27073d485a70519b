"""Tests of the recorder and of what works on its scripts: `python3 -m unittest discover -s scripts -t scripts`."""
