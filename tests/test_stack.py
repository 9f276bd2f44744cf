#!/usr/bin/env python3
"""Ends 4,000 objects that hold each other, under a stack that suffices for ten, by the proved program.

The objects are tags, each with a strong link to the next. Of a chain all names but that of its first tag are let go; then
one `object-del` ends it. Of a ring all names are let go; then one `x-sever` ends it. For each of the two the least stack is
looked for, in pages, under which the program ends ten so, and the 4,000 are ended under the same stack.

It prints nothing where all is well; else what is wrong, and exit status 1. Exit status 2 where the program is not built
(./build makes it).
"""

import ctypes
import json
import pathlib
import resource
import subprocess
import sys

TOP = pathlib.Path(__file__).resolve().parent.parent
PROGRAM = TOP / "crates" / "compose_program" / "out" / "compose_program"
PAGE = 4096
MOST_PAGES = 2048
SECONDS = 120
ADDR_NO_RANDOMIZE = 0x40000
OPENING = 8
NOTES_AT_ONCE = 256
FEW = 10
MANY = 4000


def command(name, **arguments):
    """A command as JSON."""
    return json.dumps({"execute": name} | ({"arguments": arguments} if arguments else {})).encode()


def tags(count):
    """Makes so many tags, from the last one of the chain to its first: each but the last has the next as its link."""
    added = [command("object-add", **{"qom-type": "tag", "id": f"t{count}"})]
    for n in range(count - 1, 0, -1):
        added.append(command("object-add", **{"qom-type": "tag", "id": f"t{n}", "next": f"/objects/t{n + 1}"}))
    return added


def unnamed(first, count):
    """Lets go the names of the tags from one on to the last."""
    return [command("object-del", id=f"t{n}") for n in range(count, first - 1, -1)]


def chain(count):
    """A chain, and its end."""
    return [*tags(count), *unnamed(2, count), command("object-del", id="t1")]


def ring(count):
    """A ring, and its end: its first tag was made last."""
    closed = command("qom-set", path=f"/objects/t{count}", property="next", value="/objects/t1")
    return [*tags(count), closed, *unnamed(1, count), command("x-sever", birth=OPENING + count)]


def record(commands):
    """A recorded stream of one session that sends commands."""
    return b"qrec 1\nopen 0.000000 0\n" + b"".join(b"bytes 0.000000 0 %d\n%s\n\n" % (len(it) + 1, it) for it in commands)


def limited(pages):
    """Has the process that calls it run under a stack of so many pages, which begins at the same place each time."""
    ctypes.CDLL(None).personality(ADDR_NO_RANDOMIZE)
    resource.setrlimit(resource.RLIMIT_STACK, (pages * PAGE, pages * PAGE))


def transcript(made, pages):
    """What the program sends under a stack of so many pages; nothing where it does not end well."""
    how = {"capture_output": True, "env": {}, "timeout": SECONDS, "check": False}
    ran = subprocess.run([PROGRAM, "replay"], input=made, preexec_fn=lambda: limited(pages), **how)
    return ran.stdout if ran.returncode == 0 else b""


def is_ended(shape, count, pages):
    """Whether so many tags of a shape are ended under a stack: each is noted as final, the last of the chain first."""
    done = [command("qmp_capabilities"), *shape(count)]
    asked = [command("x-query-notes", **{"from": first}) for first in range(count, 2 * count, NOTES_AT_ONCE)]
    asked += [command("x-query-detached"), command("qom-list", path="/objects")]
    replies = [json.loads(it.partition(b" ")[2]) for it in transcript(record([*done, *asked]), pages).splitlines()]
    if len(replies) != 1 + len(done) + len(asked) or replies[1 : 1 + len(done)] != [{"return": {}}] * len(done):
        return False
    *notes, detached, left = (it["return"] for it in replies[1 + len(done) :])
    finals = [note for page in notes for note in page["notes"]]
    is_whole = finals == [f"final {OPENING + n} tag" for n in range(1, count + 1)] and notes[-1]["total"] == 2 * count
    return is_whole and detached == [] and [it["name"] for it in left] == ["type"]


def least(shape):
    """The least stack, in pages, under which a few are ended; none of those that are tried may do."""
    return next((pages for pages in range(1, MOST_PAGES) if is_ended(shape, FEW, pages)), None)


def main():
    if not PROGRAM.is_file():
        print("the program is not built: ./build", file=sys.stderr)
        return 2
    wrong = 0
    for shape in (chain, ring):
        pages = least(shape)
        if pages is None or not is_ended(shape, MANY, pages):
            print(f"a {shape.__name__} of {MANY}: not ended under {pages} pages of stack", file=sys.stderr)
            wrong += 1
    return 1 if wrong else 0


if __name__ == "__main__":
    sys.exit(main())
