#!/usr/bin/env python3
"""Tests tools/draw: what its pictures tell of boards, and its page, in Chromium where that is installed. It prints nothing
where all is well, and says so where there is no Chromium."""

import os
import pathlib
import re
import shutil
import struct
import subprocess
import sys
import tempfile
import xml.etree.ElementTree
import zlib

TOP = pathlib.Path(__file__).resolve().parent.parent
BROWSER = next((it for it in map(shutil.which, ("chromium", "chromium-browser", "google-chrome")) if it), None)
BEGIN = 'open 0\n-> {"execute":"qmp_capabilities"}\n'
BRIDGE = BEGIN + '-> {"execute":"device_add","arguments":{"driver":"slot-bridge","id":"br","slot":3}}\n'
REMOVAL = BRIDGE + '-> {"execute":"device_del","arguments":{"id":"br"}}\n'
ASK_AGAIN = "step 5000000000\n"  # after which the removal may be asked for again
PENDING_COLOUR = (0xFC, 0x81, 0x81)


def run(words, session):
    """The status, the output and the errors of one call."""
    done = subprocess.run([TOP / "tools" / "draw", *words], input=session.encode(), capture_output=True, check=False)
    return done.returncode, done.stdout.decode(), done.stderr.decode()


def texts(session, words=()):
    """The texts of the picture of a session."""
    status, out, told = run(words, session)
    assert (status, told) == (0, ""), told
    return [it.text for it in xml.etree.ElementTree.fromstring(out).iter("{http://www.w3.org/2000/svg}text")]


def test_words():
    """Wrong words are refused, and so is a line that is no input."""
    for words in (["--step"], ["--inputs"], ["--inputs", "x"], ["a"]):
        assert run(words, BEGIN)[:2] == (2, ""), words
    assert run([], "hello\n") == (3, "", "draw: line 1: no input: 'hello'\n")


def test_tree():
    """A device is drawn with its parts and its slot, and the notice of it."""
    told = texts(BRIDGE)
    assert [told.count(it) for it in ("br", "clk", "bus.0", "root.0", "slot 3", "removal pending")] == [1, 1, 1, 1, 1, 0]
    assert told[:2] == ["running, virtual time 0 ns", "waits for the guest: plug 3"]
    assert told.count("10 ns, 100 MHz") == 2


def test_pending():
    """A removal that is pending is marked, and its notice waits, until the guest lets the device go."""
    told = texts(REMOVAL)
    assert told.count("removal pending") == 1 and told[1] == "waits for the guest: plug 3, unplug 3"
    assert texts(REMOVAL + ASK_AGAIN).count("removal pending") == 1
    assert "br" not in texts(REMOVAL + "g-> ack 3\n")
    assert texts(REMOVAL, ["--inputs", "3"]) == texts(BRIDGE)


def test_stopped():
    """A machine that stands still has its notices too."""
    told = texts(REMOVAL + '-> {"execute":"x-step","arguments":{"ns":25}}\n-> {"execute":"stop"}\n')
    assert told[:2] == ["stopped, virtual time 25 ns", "waits for the guest: plug 3, unplug 3"]


def test_holds():
    """Holds are counted, and what is below them is in reset."""
    hold = '-> {"execute":"x-reset-hold","arguments":{"path":"br"}}\n'
    told = texts(BRIDGE + 2 * hold)
    assert (told.count("2 holds"), told.count("in reset")) == (1, 1)
    told = texts(BRIDGE + hold.replace('"br"', '"/machine"'))
    assert (told.count("1 hold"), told.count("in reset")) == (1, 4)


def test_detached():
    """Objects that are detached are drawn below the tree."""
    session = (TOP / "examples" / "cycle.session").read_text()
    told = texts(session, ["--inputs", "7"])
    assert [told.count(it) for it in ("detached", "birth 9", "birth 10", "references 1")] == [1, 1, 1, 2]
    assert "detached" not in texts(session)


def test_end():
    """After the end of a run the board is the one before."""
    assert texts(REMOVAL + '-> {"execute":"quit"}\n-> {"execute":"stop"}\n') == texts(REMOVAL)
    assert texts(REMOVAL + "g-> shutdown\n") == texts(REMOVAL)


def pixels(data):
    """The colours of a PNG of eight bits a channel, without alpha or with it."""
    width, height, depth, sort = struct.unpack(">IIBB", data[16:26])
    size, packed, at = {2: 3, 6: 4}[sort], b"", 8
    assert depth == 8
    while at < len(data):
        length, name = struct.unpack(">I4s", data[at : at + 8])
        packed += data[at + 8 : at + 8 + length] if name == b"IDAT" else b""
        at += length + 12
    raw, before, found = zlib.decompress(packed), bytes(width * size), set()
    for row in range(height):
        start = row * (width * size + 1)
        line = bytearray(raw[start + 1 : start + 1 + width * size])
        for count in range(len(line)):
            left, above = line[count - size] if count >= size else 0, before[count]
            corner = before[count - size] if count >= size else 0
            line[count] = (line[count] + guess(raw[start], left, above, corner)) % 256
        before = bytes(line)
        found.update(tuple(line[it : it + 3]) for it in range(0, len(line), size))
    return found


def guess(way, left, above, corner):
    """What a row of a PNG takes a byte to be by the ones around it."""
    if way == 4:
        near = left + above - corner
        return min((left, above, corner), key=lambda it: abs(near - it))
    return (0, left, above, (left + above) // 2)[way]


def browse(page, step, *words):
    """What Chromium says of the page at a step."""
    with tempfile.TemporaryDirectory() as folder:
        usual = ["--headless", "--disable-gpu", "--window-size=900,700", f"--user-data-dir={folder}"]
        usual += ["--no-sandbox"] if os.geteuid() == 0 else []
        done = subprocess.run([BROWSER, *usual, *words, f"{page.as_uri()}#{step}"], capture_output=True, timeout=120, check=True)
        return done.stdout.decode()


def test_page():
    """The page has the board after each input, and what was sent; in a browser it shows the one that is asked for."""
    status, out, told = run(["--steps"], "# a bridge\n" + REMOVAL + "g-> ack 3\n")
    assert (status, told) == (0, "") and out.count('class="step"') == 6 and out.count("DEVICE_DELETED") == 1
    assert "http" not in re.sub(r'xmlns="http://www.w3.org/2000/svg"', "", out)
    if BROWSER is None:
        print("test_draw: there is no Chromium, so the page was not opened", file=sys.stderr)
        return
    with tempfile.TemporaryDirectory() as folder:
        page, shot = pathlib.Path(folder) / "board.html", pathlib.Path(folder) / "board.png"
        page.write_text(out)
        for step, is_shown in ((4, True), (5, False)):
            seen = browse(page, step, "--dump-dom")
            now = re.findall(r'<div class="step now" data-picture="(\d+)">', seen)
            shown = [count for count, it in enumerate(re.findall(r"<div( hidden=\"\")?><svg", seen)) if not it]
            assert shown == [int(it) for it in now] and len(shown) == 1, (step, now, shown)
            browse(page, step, f"--screenshot={shot}")
            assert (PENDING_COLOUR in pixels(shot.read_bytes())) == is_shown, step


if __name__ == "__main__":
    for name, test in [*globals().items()]:
        if name.startswith("test_"):
            test()
    sys.exit(0)
