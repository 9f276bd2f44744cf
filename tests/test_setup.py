#!/usr/bin/env python3
"""Sets boards up by tools/setup on the proved program, and compares their descriptions with those that were given. The boards
are the last ones of random sessions. It prints nothing where all is well."""

import pathlib
import subprocess
import sys

sys.dont_write_bytecode = True
from plain_machine import described, json_text  # after the line above, so that nothing is left in tests/
from random_sessions import QREC, Maker

TOP = pathlib.Path(__file__).resolve().parent.parent
PROGRAM = TOP / "crates" / "compose_program" / "out" / "compose_program"
SESSIONS = 40
ASKED = '-> {"execute":"x-describe"}'


def ran(words, given):
    """What a program prints."""
    return subprocess.run(words, input=given, capture_output=True, check=True).stdout


def differs(description):
    """Whether a board that is set up has another description; says which."""
    text = json_text(description)
    session = ran([TOP / "tools" / "setup", "--session"], text.encode()).decode()
    lines = ran([PROGRAM, "replay"], QREC.write([*session.splitlines(), ASKED])).decode().splitlines()
    refused = [it for it in lines if it.startswith('0 {"error"')]
    if not refused and lines[-1] == f'0 {{"return":{text}}}':
        return False
    print(f"{text}: {refused}, {lines[-1]}", file=sys.stderr)
    return True


def refuses():
    """Whether what is no description is not told as such; says so."""
    words = [(["{}"], 3), (["[1]"], 3), (["x"], 3), (["{}", "more"], 2)]
    for (given, *more), status in words:
        done = subprocess.run([TOP / "tools" / "setup", *more], input=given.encode(), capture_output=True, check=False)
        if done.returncode != status or done.stdout or not done.stderr:
            print(f"{given}: status {done.returncode}", file=sys.stderr)
            return True
    return False


def main():
    """Sets up the boards, and returns the exit status."""
    makers = [Maker(seed) for seed in range(1, SESSIONS + 1)]
    for it in makers:
        it.make()
    descriptions = [it for it in (described(maker.board) for maker in makers) if it]
    return 1 if any([refuses(), *(differs(it) for it in descriptions)]) else 0


sys.exit(main())
