"""The count of a script's checks."""

import argparse
import contextlib
import io
import sys

import commands

passed = failed = 0


def expect(good, name, said=""):
    """Counts a check, and prints the name if it failed."""
    global passed, failed
    passed += bool(good)
    failed += not good
    if not good:
        print(f"FAILED {name}\n{said}".rstrip())


def expect_failure(check, *words):
    """Makes a check of what is wrong on purpose. It has to fail, which counts as one that passed."""
    global passed, failed
    before = passed, failed
    with contextlib.redirect_stdout(io.StringIO()):
        check(*words)
    has_failed = failed > before[1]
    passed, failed = before[0] + has_failed, before[1] + (not has_failed)
    if not has_failed:
        print(f"FAILED {check.__name__} takes what is wrong on purpose: {words}"[:400])


def end_with(main, doc, *numbers):
    """Ends with the count. The script takes as many words, which are numbers, and --help, which prints this text."""
    parser = argparse.ArgumentParser(description=doc, formatter_class=argparse.RawDescriptionHelpFormatter)
    for name in numbers:
        parser.add_argument(name, type=int)
    main(**vars(parser.parse_args()))
    print(f"{passed} passed, {failed} failed")
    sys.exit(failed > 0)
