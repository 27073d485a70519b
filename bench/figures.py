"""What the measurements share: building the program, running it on a file, and a row of figures."""
import atexit
import contextlib
import functools
import os
import subprocess
import sys
import tempfile

BENCH = os.path.dirname(os.path.abspath(__file__))
ROOT = os.path.dirname(BENCH)
HEADS = ("MB", "seconds", "MB/s", "x-half", "memory/in", "x-plain")


def program():
    """The proved program, built where it was missing or older than its sources."""
    with open(os.devnull) as nothing:
        subprocess.run([os.path.join(ROOT, "waypipe"), "replay"], stdin=nothing, stdout=subprocess.DEVNULL, check=True)
    return os.path.join(ROOT, "crates/waypipe_run/out/waypipe_run")


def plain(name, folder):
    """A plain program in C, which does the same job with no proof."""
    path = os.path.join(folder, name)
    subprocess.run(["gcc", "-O2", "-o", path, os.path.join(BENCH, name + ".c")], check=True)
    return path


@functools.cache
def runner():
    """The small program that a run stands under, built once."""
    holder = folder()
    atexit.register(holder.cleanup)
    return plain("run_once", holder.name)


def run(words, path):
    """The seconds and the peak memory in bytes of one run; its output is thrown away."""
    told = subprocess.run([runner(), path, *words], stdout=subprocess.PIPE, check=True, text=True).stdout.split()
    if told[0] != "0":
        sys.exit(f"{' '.join(words)} < {path}: status {told[0]}")
    return float(told[1]), int(told[2])


def measure(words, path, times=3):
    """The least time and the greatest memory of several runs."""
    runs = [run(words, path) for _ in range(times)]
    return min(seconds for seconds, _ in runs), max(peak for _, peak in runs)


@functools.cache
def build(crate):
    """Proves and builds a small program that does what the lines of its input say, once in a run."""
    folder = os.path.join(ROOT, "crates", crate)
    subprocess.run(["rt", "run"], cwd=folder, stdin=subprocess.DEVNULL, capture_output=True, check=False)


def job_seconds(crate, folder, *job):
    """The least time of one job of such a program."""
    path = os.path.join(folder, "job")
    with open(path, "w") as out:
        print(*job, file=out)
    return measure([os.path.join(ROOT, "crates", crate, "out", crate)], path)[0]


@contextlib.contextmanager
def kept_memory():
    """Meanwhile the C library's allocator gives no block of up to 32 MiB that is let go back to the system."""
    limits = {"MALLOC_MMAP_THRESHOLD_": str(32 << 20), "MALLOC_TRIM_THRESHOLD_": str(64 << 20)}
    os.environ.update(limits)
    try:
        yield
    finally:
        for name in limits:
            del os.environ[name]


def output(words, path):
    """What a program writes."""
    with open(path, "rb") as given:
        return subprocess.run(words, stdin=given, stdout=subprocess.PIPE, check=True).stdout


def heads(*labels):
    """The first line of a table."""
    print("".join(f"{label:<10}" for label in labels) + "".join(f"{head:>10}" for head in HEADS))


def series(labels, files, ours, beside=None):
    """A row for each file, each twice as long as the one before. `beside` writes the same text."""
    before = None
    for path in files:
        if beside and output(ours, path) != output(beside, path):
            sys.exit(f"{path}: {' '.join(beside)} writes another text")
        length = os.path.getsize(path)
        seconds, memory = measure(ours, path)
        figures = [
            f"{length / 1e6:.1f}",
            f"{seconds:.3f}",
            f"{length / 1e6 / seconds:.1f}",
            f"{seconds / before:.2f}" if before else "-",
            f"{memory / length:.2f}",
            f"{seconds / measure(beside, path)[0]:.2f}" if beside else "-",
        ]
        print("".join(f"{label:<10}" for label in labels) + "".join(f"{figure:>10}" for figure in figures), flush=True)
        before = seconds


def folder():
    """A folder for work, which goes with the program."""
    return tempfile.TemporaryDirectory()
