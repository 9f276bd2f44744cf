#!/usr/bin/env python3
"""Tests tools/qrec; what it fills in by the proved program where that is built. It prints nothing where all is well."""

import pathlib
import random
import subprocess
import sys

TOP = pathlib.Path(__file__).resolve().parent.parent
PROGRAM = TOP / "crates" / "compose_program" / "out" / "compose_program"
SESSIONS = {
    "": b"qrec 1\n",
    "open 0\n": b"qrec 1\nopen 0.000000 0\n",
    "@1.500000 open 15\n15-> {}\nshut 15\n": b"qrec 1\nopen 1.500000 15\nbytes 1.500000 15 2\n{}\nshut 1.500000 15\n",
    "g-> poll\n": b"qrec 1\nguest 0.000000 5\npoll\n\n",
    "raw g ack 1\n": b"qrec 1\nguest 0.000000 5\nack 1\n",
    "open 0\nraw 0 \\x00\\n\\r\\t\\\\\n": b"qrec 1\nopen 0.000000 0\nbytes 0.000000 0 5\n\x00\n\r\t\\\n",
    "open 0\n-> {\"\u00e9\":1}\n": b"qrec 1\nopen 0.000000 0\nbytes 0.000000 0 8\n{\"\xc3\xa9\":1}\n",
    "qrec 2\n": b"qrec 2\n",
    "qrec 2\nopen ops\nops-> {}\n@1.000000 raw ops \\x00\nshut ops\n": b"qrec 2\nopen 0.000000 ops\nbytes 0.000000 ops 2\n{}\nbytes 1.000000 ops 1\n\x00\nshut 1.000000 ops\n",
    "qrec 2\nopen gg\nopen a-1\ng-> poll\na-1-> {}\n": b"qrec 2\nopen 0.000000 gg\nopen 0.000000 a-1\nguest 0.000000 5\npoll\n\nbytes 0.000000 a-1 2\n{}\n",
    "@9223372036854775807.999999 step 9223372036854775807\n": b"qrec 1\nstep 9223372036854775807.999999 9223372036854775807\n",
}
NO_INPUTS = ["open 16", "open 00", "open 0\nopen 0", "-> {}", "shut 0", "step 0", "step 9223372036854775808", "@1.5 step 1", "raw g \\q", "raw g \\", "g->", "16<- {}", "hello", "open ops", "step 1\nqrec 2"]
NO_NAMED_INPUTS = ["open 0", "open g", "open Ops", "open 1a", "open " + 33 * "a", "open a\nopen a", "a-> {}", "-> {}", "shut a", "step 0"]
NO_ENTRIES = [(b"", 0), (b"qrec 3\n", 0), (b"qrec 2\nopen 0.000000 g\n", 7), (b"qrec 2\nopen 0.000000 0\n", 7), (b"qrec 2\nopen 0.000000 a\nopen 0.000000 a\n", 23), (b"qrec 2\nshut 0.000000 a\n", 7), (b"qrec 1\nopen 0.000000 0", 7), (b"qrec 1\nbytes 0.000000 0 1\na\n", 7), (b"qrec 1\nstep 0.000000 0\n", 7), (b"qrec 1\nguest 0.000000 3\nab\n", 7)]


def run(word, data):
    """The status, the output and the errors of one call."""
    done = subprocess.run([TOP / "tools" / "qrec", word], input=data, capture_output=True, check=False)
    return done.returncode, done.stdout, done.stderr


def test_sessions():
    """Each session is written as its record, and read back."""
    for text, record in SESSIONS.items():
        assert run("write", text.encode()) == (0, record, b""), text
        assert run("read", record) == (0, text.encode(), b""), text


def test_expected():
    """What a session expects is its transcript, and is no input."""
    text = 'open 0\n<- {"a":1}\n1<- {}\ng<- ok\n'
    assert run("expected", text.encode()) == (0, b'0 {"a":1}\r\n1 {}\r\ng ok\n', b"")
    assert run("write", text.encode()) == run("write", b"open 0\n")
    named = "qrec 2\nopen ops\nops<- {}\ng<- ok\n"
    assert run("expected", named.encode()) == (0, b"ops {}\r\ng ok\n", b"")
    assert run("write", named.encode()) == run("write", b"qrec 2\nopen ops\n")


def test_many_names():
    """Sixteen sessions may be open at once, and one more once one of them is shut."""
    opened = "qrec 2\n" + "".join(f"open s{it}\n" for it in range(16))
    assert run("write", opened.encode())[0] == 0
    assert run("write", (opened + "open more\n").encode())[0] == 3
    assert run("write", (opened + "shut s3\nopen more\n").encode())[0] == 0


def test_refusals():
    """What is no input and what is no entry is told, with its place."""
    for text in NO_INPUTS:
        status, out, told = run("write", text.encode())
        assert (status, out) == (3, b"") and told.startswith(f"qrec: line {text.count(chr(10)) + 1}: ".encode()), text
    for text in NO_NAMED_INPUTS:
        status, out, told = run("write", f"qrec 2\n{text}".encode())
        assert (status, out) == (3, b"") and told.startswith(f"qrec: line {text.count(chr(10)) + 2}: ".encode()), text
    for record, place in NO_ENTRIES:
        status, _, told = run("read", record)
        assert status == 3 and told.startswith(f"qrec: bad record at byte {place}: ".encode()), record
    assert subprocess.run([TOP / "tools" / "qrec"], capture_output=True, check=False).returncode == 2


def test_line_ends():
    """Blanks at the ends of a line, carriage returns and empty lines are passed over; a session that is not open is told how it opens."""
    assert run("write", b"  open 0\r\n\r\n# a note\n\t-> {} \r\n") == run("write", b"open 0\n-> {}\n")
    assert run("write", b"-> {}\n") == (3, b"", b"qrec: line 1: session 0 is not open: put `open 0` before it\n")


def test_unwritable():
    """Where what is made cannot be written it says so in one line, and is silent where nobody reads on."""
    for word, given in (("write", b"open 0\n"), ("read", b"qrec 1\nopen 0.000000 0\n")):
        with open("/dev/full", "wb") as full:
            done = subprocess.run([TOP / "tools" / "qrec", word], input=given, stdout=full, stderr=subprocess.PIPE, check=False)
        assert done.returncode == 1 and done.stderr.startswith(b"qrec: ") and done.stderr.count(b"\n") == 1, done.stderr
        with subprocess.Popen([TOP / "tools" / "qrec", word], stdin=subprocess.PIPE, stdout=subprocess.PIPE, stderr=subprocess.PIPE) as going:
            going.stdout.close()
            going.stdin.write(given)
            going.stdin.close()
            assert going.stderr.read() == b"" and going.wait() == 1


def test_fill():
    """Each session of examples/ is what its own inputs are filled with."""
    for path in sorted((TOP / "examples").glob("*.session")) if PROGRAM.exists() else ():
        text = path.read_bytes()
        assert run("fill", text) == (0, text, b""), path


def test_bytes():
    """Bytes of all kinds come back, in one entry or in several."""
    draw = random.Random(1)
    for size in [1, 2, 3, 5, 8, 65_536, 65_537, 200_000]:
        data = bytes(draw.choice(b"ab {}\\\n\r\t\x00\x7f\xc3\xa9\xff") for _ in range(size))
        entries = b"".join(b"guest 0.000000 %d\n%s\n" % (len(it), it) for it in (data[at : at + 65_536] for at in range(0, size, 65_536)))
        status, text, _ = run("read", b"qrec 1\n" + entries)
        assert status == 0 and run("write", text) == (0, b"qrec 1\n" + entries, b""), size


def test_examples():
    """Each example is read, and written again byte for byte."""
    for path in (TOP / "examples").glob("*.qrec"):
        record = path.read_bytes()
        status, text, _ = run("read", record)
        assert status == 0 and run("write", text) == (0, record, b""), path


if __name__ == "__main__":
    for name, test in [*globals().items()]:
        if name.startswith("test_"):
            test()
    sys.exit(0)
