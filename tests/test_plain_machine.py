#!/usr/bin/env python3
"""Compares the proved program with the plain machine of tests/plain_machine.py, message by message, in random sessions.

    tests/test_plain_machine.py [SESSIONS [SEED]]        200 sessions, from seed 1 on, if not said

Each session is made from a seed of its own, on a small board with few names: devices of all drivers, users' objects,
links, rings, clocks, holds, removals, lines of the guest, interrupt lines, time and sessions, and much that is refused.
It ends with all that can be read: each property of each object that can be reached, registers, interrupt lines, rings,
and all notes; half of them then take away all that was added, and read once more. What `watch` puts of the same record is
compared too. Where the last board has a description, the program rebuilds it, and that description without one of its
items, and with one of them twice. It prints nothing where all agree, and else the first seed that does not, with the first
message that differs; exit status 1 then, and 2 where the program is not built (./build makes it).
`tests/test_plain_machine.py 1 SEED` makes that session alone.
"""

import copy
import pathlib
import subprocess
import sys

sys.dont_write_bytecode = True
from plain_machine import Refused, described, json_text, rebuilt  # after the line above, so that nothing is left in tests/
from random_sessions import QREC, Maker

TOP = pathlib.Path(__file__).resolve().parent.parent
PROGRAM = TOP / "crates" / "compose_program" / "out" / "compose_program"
USUAL_SESSIONS = 200
USUAL_SEED = 1


def as_bytes(line):
    """An input whose end is a blank, which a session's line would lose, as the bytes that are sent."""
    return f"raw g {line.removeprefix('g-> ')}\\n" if line.startswith("g-> ") and line.endswith(" ") else line


def difference(maker):
    """The first message in which the program differs from the plain machine, or None."""
    record = QREC.write([as_bytes(it) for it in maker.lines])
    done = subprocess.run([PROGRAM, "replay"], input=record, capture_output=True, check=False)
    wanted = [f"{it}\n" if it.startswith("g ") else f"{it}\r\n" for it in maker.machine.transcript]
    got = [it.decode("latin-1") for it in done.stdout.splitlines(keepends=True)]
    for count, (one, other) in enumerate(zip(wanted, got), 1):
        if one != other:
            return f"message {count}: plain {one!r}, program {other!r}"
    if done.returncode != 0:
        return f"status {done.returncode}: {done.stderr.decode().strip()}"
    if len(wanted) != len(got):
        return f"plain {len(wanted)} messages, program {len(got)}"
    return unlike_reports(maker, record)


def unlike_reports(maker, record):
    """How what `watch` puts differs from what the plain machine noted, or None."""
    done = subprocess.run([PROGRAM, "watch"], input=record, capture_output=True, check=False)
    if done.returncode != 0:
        return f"watch: status {done.returncode}: {done.stderr.decode().strip()}"
    wanted, got = maker.machine.reports().splitlines(), done.stdout.decode("latin-1").splitlines()
    for count, (one, other) in enumerate(zip(wanted, got), 1):
        if one != other:
            return f"report {count}: plain {one!r}, program {other!r}"
    return None if len(wanted) == len(got) else f"plain {len(wanted)} lines of reports, program {len(got)}"


def spoiled(description, draw):
    """The same description without an item, and with an item twice, where it has any."""
    lists = [name for name, it in description.items() if isinstance(it, list) and it]
    if not lists:
        return []
    fewer, more = copy.deepcopy(description), copy.deepcopy(description)
    name = draw.choice(lists)
    del fewer[name][draw.randrange(len(fewer[name]))]
    more[name].append(draw.choice(more[name]))
    return [fewer, more]


def wanted_of(description):
    """What a description is to be rebuilt to: an exit status, what is put, and what is complained."""
    try:
        board = rebuilt(description)
    except Refused as why:
        number, said = why.code.value
        return 9, b"", f"compose: bad board: E{number} {said}\n".encode()
    return 0, f"{json_text(described(board) or {})}\n".encode(), b""


def rebuilds_otherwise(description):
    """How the program rebuilds a description otherwise than it is to, or None."""
    done = subprocess.run([PROGRAM, "rebuild"], input=json_text(description).encode(), capture_output=True, check=False)
    got, wanted = (done.returncode, done.stdout, done.stderr), wanted_of(description)
    return None if got == wanted else f"rebuild: plain {wanted!r}, program {got!r}"


def board_difference(maker):
    """In what the program rebuilds the last board of a session otherwise, or None."""
    description = described(maker.board)
    if description is None:
        return None
    return next(filter(None, map(rebuilds_otherwise, [description, *spoiled(description, maker.draw)])), None)


def main(words):
    """Compares the sessions of these words, and returns the exit status."""
    if len(words) > 2 or not all(it.isdecimal() for it in words):
        print("usage: test_plain_machine.py [SESSIONS [SEED]]", file=sys.stderr)
        return 2
    if not PROGRAM.exists():
        print("test_plain_machine: the program is not built: ./build makes it", file=sys.stderr)
        return 2
    sessions = int(words[0]) if words else USUAL_SESSIONS
    first = int(words[1]) if len(words) == 2 else USUAL_SEED
    for seed in range(first, first + sessions):
        maker = Maker(seed)
        try:
            maker.make()
        except Exception:
            print(f"test_plain_machine: seed {seed}: the plain machine itself fails", file=sys.stderr)
            raise
        found = difference(maker) or board_difference(maker)
        if found:
            print(f"test_plain_machine: seed {seed}: {found}", file=sys.stderr)
            return 1
    return 0


if __name__ == "__main__":
    sys.exit(main(sys.argv[1:]))
