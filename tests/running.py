"""Runs the programs for the tests beside this file, none for longer than SECONDS. Nothing is built: a program is crates/NAME/out/NAME, where rt ci leaves it, and rt run in crates/NAME."""
import concurrent.futures
import contextlib
import fcntl
import os
import pathlib
import struct
import subprocess
import sys
import termios
import threading
import time

ROOT = pathlib.Path(__file__).resolve().parent.parent
SECONDS = 10
PIPE = subprocess.PIPE
# What a run may raise: a test that ends so differs.
FAILURES = (OSError, ValueError, subprocess.SubprocessError)


def program(name):
    return ROOT / "crates" / name / "out" / name


def stop_without(*names):
    """A test that says nothing of a program that is not there would pass."""
    for name in names:
        if not program(name).is_file():
            sys.exit(f"{program(name).relative_to(ROOT)} is missing; make it with: (cd crates/{name} && rt run < /dev/null)")


def run(name, *words, given=b"", redirected="", **streams):
    """What a program writes to its output and its error output, and its status. A redirection is the shell's."""
    streams = {"stdout": PIPE, "stderr": PIPE, **streams}
    if "stdin" not in streams:
        streams["input"] = given
    command = ["sh", "-c", f'exec "$0" "$@" {redirected}', program(name), *words]
    ran = subprocess.run(command, timeout=SECONDS, **streams)
    return ran.stdout, ran.stderr, ran.returncode


@contextlib.contextmanager
def started(name, **streams):
    """A program with pipes, killed after SECONDS, or where the block ends before it."""
    streams = {"stdin": PIPE, "stdout": PIPE, "stderr": PIPE, **streams}
    with subprocess.Popen([program(name)], bufsize=0, **streams) as running:
        clock = threading.Timer(SECONDS, running.kill)
        clock.start()
        try:
            yield running
        finally:
            clock.cancel()
            running.kill()


def ended(running):
    """What is left of its output, its error output and its status."""
    return running.stdout.read(), running.stderr.read(), running.wait()


def pipe():
    """The end to read from, and the end to write to."""
    reading, writing = os.pipe()
    return os.fdopen(reading, "rb", 0), os.fdopen(writing, "wb", 0)


def bytes_in(reading):
    return struct.unpack("i", fcntl.ioctl(reading, termios.FIONREAD, b"\0" * 4))[0]


def run_in_pieces(name, given, size):
    """The same as run, where a piece of the input is written only when the one before it has been read."""
    with started(name) as running, concurrent.futures.ThreadPoolExecutor(1) as readers:
        end = readers.submit(ended, running)
        for at in range(0, len(given), size):
            running.stdin.write(given[at : at + size])
            while bytes_in(running.stdin) and running.poll() is None:
                time.sleep(0.0001)
        running.stdin.close()
        return end.result()
