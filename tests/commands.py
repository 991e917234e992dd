"""How the tests run programs."""

import contextlib
import pathlib
import subprocess
import tempfile

TOP = pathlib.Path(__file__).resolve().parent.parent


def run(*words, **settings):
    """Runs a program, which has to end with status 0. What it printed."""
    return subprocess.run(words, check=True, stdout=subprocess.PIPE, text=True, **settings).stdout


@contextlib.contextmanager
def temporary():
    """A folder that is there within a block."""
    with tempfile.TemporaryDirectory() as folder:
        yield pathlib.Path(folder)
