#!/usr/bin/env python3
"""Holds the pages for users to what is there: each block that README and docs/SOCKET, PROFILE and READING show is run or
found, and no block is left over. It prints nothing where all is well, and otherwise each block that is not so.

Lines of a session (`->`, `<-` and the like) are lines of the session of examples/ that the page names, one after the other,
which tools/sessions runs; where the page says that others are left out, each input is there in order with what is sent for
it. Commands are run by the proved program, in a folder as `./build --to` makes it, with standard input open, and what they
print and serve is compared. The Rust of README is a test of tests_compose. Also looked at: that links lead somewhere, and
that README has a line of at most twenty words for each crate. Exit status 2 where the program is not built.
"""

import contextlib
import importlib.machinery
import importlib.util
import json
import pathlib
import re
import shlex
import shutil
import signal
import socket
import subprocess
import sys
import tempfile
import types

from test_socket import EMPTY, GREETING, PROGRAM, SECONDS, STATUS, TOP, Client

PAGES = ("README.md", "docs/SOCKET.md", "docs/PROFILE.md", "docs/READING.md")
SOCKET_PATH = "/tmp/compose.sock"
LINE = re.compile(r"(@\S+ )?([0-9]*|g)(->|<-) |(open|shut|step|raw) ")
SOURCE = re.compile(r"(?:[Oo]f|This is) `examples/(\S+)\.session`")
MOST_WORDS = 20
LONG = 60


class Block:
    """The indented lines of a page that stand together, with the text before and behind them."""

    def __init__(self, page, lines, before):
        self.page, self.lines, self.before, self.behind = page, lines, before, ""

    def is_session(self):
        """Whether all its lines are those of a session."""
        return all(LINE.match(it) for it in self.lines)

    def text(self):
        """Its lines."""
        return "\n".join(self.lines) + "\n"


def blocks_of(page):
    """The blocks of a page; empty lines inside one are of it."""
    found, said = [], ""
    for part in (TOP / page).read_text(encoding="utf-8").split("\n\n"):
        lines = part.strip("\n").split("\n")
        if not all(it.startswith("    ") for it in lines):
            said = part
            if found and not found[-1].behind:
                found[-1].behind = part
        elif found and not found[-1].behind and said == found[-1].before:
            found[-1].lines += ["", *(it[4:] for it in lines)]
        else:
            found.append(Block(page, [it[4:] for it in lines], said))
    return found


# --- sessions


def pieces(lines):
    """Some lines of a session, cut before each input."""
    cut = []
    for line in lines:
        if not cut or "<- " not in line.partition("{")[0]:
            cut.append([])
        cut[-1].append(line)
    return cut


def place(lines, session, start=0):
    """Where some lines are in a session, one after the other; behind them, or None."""
    ends = (at + len(lines) for at in range(start, len(session) - len(lines) + 1) if session[at : at + len(lines)] == lines)
    return next(ends, None)


def check_session(block):
    """What is wrong with the lines of a session."""
    said = next((it for it in (block.behind, block.before) if SOURCE.search(it)), "")
    names = SOURCE.findall(said)
    for path in [TOP / "examples" / f"{names[0]}.session"] if names else sorted((TOP / "examples").glob("*.session")):
        session = [it for it in path.read_text(encoding="utf-8").splitlines() if it and not it.startswith("#")]
        at = 0
        for piece in pieces(block.lines) if "left out between" in said.replace("\n", " ") else [block.lines]:
            at = place(piece, session, at) if at is not None else None
        if at is not None:
            return []
    return [f"is in no session{f' {names[0]}' if names else ''}"]


# --- commands


def load_build():
    """The functions of ./build."""
    sys.dont_write_bytecode = True
    loader = importlib.machinery.SourceFileLoader("build", str(TOP / "build"))
    module = importlib.util.module_from_spec(importlib.util.spec_from_loader("build", loader))
    loader.exec_module(module)
    return module


class Room:
    """A folder as `./build --to` makes it, in which commands are run, with a path for the socket."""

    def __init__(self, folder):
        self.folder, self.socket = folder / "compose", folder / "s"
        with contextlib.redirect_stdout(None):
            load_build().release(self.folder)

    def started(self, command):
        """A command of a page that goes on, with its paths in this room."""
        text = command.replace("/tmp/", f"{self.socket.parent}/").replace(str(self.socket.parent / "compose.sock"), str(self.socket))
        words = ["bash", "-c", f"exec {text.removesuffix(' &')}"]
        return subprocess.Popen(words, cwd=self.folder, stdin=subprocess.PIPE, stdout=subprocess.PIPE, stderr=subprocess.PIPE)

    def printed(self, command):
        """What a command of a page prints, with standard input open."""
        words = ["bash", "-c", f"set -o pipefail; {command}"]
        with subprocess.Popen(words, cwd=self.folder, stdin=subprocess.PIPE, stdout=subprocess.PIPE, stderr=subprocess.PIPE) as ran:
            out, said = b"", b""
            try:
                out, said = finished(ran)
            finally:
                ran.kill()
            assert ran.returncode == 0, (command, ran.returncode, said)
            return out.decode()


def finished(ran):
    """What a program prints and says until it ends; its standard input stays open."""
    given, ran.stdin = ran.stdin, None
    with given:
        return ran.communicate(timeout=6 * SECONDS)


@contextlib.contextmanager
def going(ran):
    """A program that goes on until it is interrupted."""
    try:
        yield ran
    finally:
        if ran.poll() is None:
            ran.send_signal(signal.SIGTERM)
        with contextlib.suppress(subprocess.TimeoutExpired):
            ran.wait(SECONDS)
        ran.kill()
        finished(ran)


def served(room, command):
    """Serves by a command of a page, until a client has asked it to quit."""
    with going(room.started(command)) as server:
        with Client(room.socket) as client:
            client.negotiates()
            client.asks("quit")
            assert client.line()["event"] == "SHUTDOWN"
            client.reads(EMPTY)
        assert server.wait(SECONDS) == 0 and not room.socket.exists()


def test_cycle(room, block):
    """The first command of README prints what README shows, which is the transcript of the example."""
    shown = BLOCKS[block.page][BLOCKS[block.page].index(block) + 1].text()
    transcript = (TOP / "examples" / "cycle.transcript").read_bytes().decode()
    assert room.printed(block.text()).replace("\r\n", "\n") == shown == transcript.replace("\r\n", "\n")


def test_replay(room, block):
    """A session is replayed to what it expects."""
    path = re.search(r"< (\S+)", block.text())[1]
    assert room.printed(block.text()) == room.printed(f"tools/qrec expected < {path}")


def test_picture(room, block):
    """The picture is the one that README shows."""
    room.printed(block.text())
    assert (room.folder / "board.svg").read_bytes() == (TOP / "docs/pictures/hotplug.svg").read_bytes()


def test_tree(room, block):
    """A board with one bridge tells this tree."""
    sent = ({"execute": "qmp_capabilities"}, {"execute": "device_add", "arguments": {"driver": "slot-bridge", "id": "br"}},
            {"execute": "human-monitor-command", "arguments": {"command-line": "info qtree"}})
    session = "open 0\n" + "".join(f"-> {json.dumps(it)}\n" for it in sent)
    (room.folder / "tree.session").write_text(session, encoding="utf-8")
    told = room.printed("tools/qrec write < tree.session | ./run replay").splitlines()[-1]
    assert json.loads(told.partition(" ")[2]) == {"return": block.text()}, told


def test_serving(room, block):
    """A command that serves does so, and ends well; it may come behind one that makes the program, or before another that tests."""
    served(room, next(it for it in block.lines if "serve" in it).replace("compose/run", "./run"))


def test_interrupted(room):
    """Where `./run serve` is interrupted it takes its socket file away; words without input end where standard input stays open."""
    for number in (signal.SIGINT, signal.SIGTERM):
        with going(room.started(f"./run serve --socket {SOCKET_PATH} --connections 2")) as server:
            with Client(room.socket) as client:
                client.reads(GREETING)
            server.send_signal(number)
            assert server.wait(SECONDS) == 130 and not room.socket.exists()
    (room.folder / "linked").symlink_to("run")
    assert room.printed("./linked types").startswith("object - abstract -\n")


def test_library(_, block):
    """The lines of Rust are those of a test, but for how they are broken."""
    source = without_breaks((TOP / "crates/tests_compose/src/readme.rt").read_text(encoding="utf-8"))
    at = 0
    for line in filter(None, map(without_breaks, block.lines)):
        at = source.find(line, at)
        assert at >= 0, line


def without_breaks(text):
    """Rust without blanks, and without commas before a bracket that closes."""
    return re.sub(r",([)}\]])", r"\1", re.sub(r"\s", "", text))


def test_socat(room, block):
    """What is typed or piped in is answered: by socat where it is installed, else by a client that sends the same."""
    piped = next((it for it in block.lines if it.startswith("printf")), None)
    lines = [it for it in block.lines if it.startswith("{")] if piped is None else re.findall(r"'(\{.*?\})'", piped)
    with going(room.started(f"./run serve --socket {SOCKET_PATH} --connections 1")) as server:
        with Client(room.socket) as client:
            got = [client.line()]
            for line in lines or ['{"execute":"qmp_capabilities"}', '{"execute":"quit"}']:
                client.socket.sendall(line.encode() + b"\n")
                got.append(client.line())
                while "return" not in got[-1]:
                    got.append(client.line())
        assert server.wait(SECONDS) == 0
    shown = [json.loads(it) for it in block.lines if it.startswith("{") and piped is not None]
    assert not shown or without_moments(got) == without_moments(shown), got
    if piped and shutil.which("socat"):
        with going(room.started(f"./run serve --socket {SOCKET_PATH} --connections 2")):
            Client(room.socket).socket.close()
            out = room.printed(piped.replace(SOCKET_PATH, str(room.socket)))
            assert without_moments(map(json.loads, out.splitlines())) == without_moments(shown), out


def without_moments(messages):
    """Messages without the moments of events."""
    return [{name: value for name, value in it.items() if name != "timestamp"} for it in messages]


def test_python(room, block):
    """The client in Python prints the greeting and the replies."""
    with going(room.started(f"./run serve --socket {SOCKET_PATH} --connections 2")):
        Client(room.socket).socket.close()
        words = [sys.executable, "-c", block.text().replace(SOCKET_PATH, str(room.socket))]
        done = subprocess.run(words, capture_output=True, timeout=SECONDS, check=True)
    assert done.stdout.decode().splitlines() == [str(it) for it in (GREETING, EMPTY, STATUS)], done.stdout


def test_fixture(room, block):
    """The fixture gives a client that is connected, and leaves no server."""
    path = "crates/compose_program/out/compose_program"
    assert block.text().count(path) == 1
    names, stub = {}, types.ModuleType("pytest")
    stub.fixture = lambda it: it
    sys.modules.setdefault("pytest", stub)
    exec(compile(block.text().replace(path, str(PROGRAM)).replace("@pytest.fixture", ""), "fixture", "exec"), names)
    given = names["monitor"](room.socket.parent)
    client = next(given)
    client.settimeout(SECONDS)
    assert json.loads(client.makefile("r").readline()) == GREETING
    assert next(given, None) is None and client.fileno() == -1


def test_guest(room, block):
    """A client that asks a device to go gets DEVICE_DELETED."""
    serve, guest = block.lines
    with going(room.started(serve)):
        Client(room.socket).socket.close()
        with going(room.started(guest)), Client(room.socket.with_name("guest.sock")) as client:
            client.negotiates()
            for name, arguments in (("device_add", {"driver": "slot-timer", "id": "t"}), ("device_del", {"id": "t"})):
                client.asks(name, **arguments)
                client.reads(EMPTY)
            assert client.line()["event"] == "DEVICE_DELETED"


def test_unit(room, block):
    """The words of the unit serve."""
    words = shlex.split(re.search(r"ExecStart=(.*)", block.text())[1])
    assert words[0].endswith("/compose_program")
    served(room, shlex.join(["./compose_program", *words[1:]]).replace("/run/compose.sock", SOCKET_PATH))


def test_tap(room, block):
    """Clients are recorded through the tap; what the page does with the record then is so too."""
    with going(room.started(f"./run serve --socket {SOCKET_PATH} --connections 2")):
        Client(room.socket).socket.close()
        with going(room.started(block.lines[0])) as tap:
            with Client(room.socket.with_name("tapped.sock")) as client:
                client.negotiates()
                client.asks("object-add", **{"qom-type": "tag", "id": "t"})
                client.reads(EMPTY)
                client.socket.shutdown(socket.SHUT_WR)
                assert client.is_shut()
            tap.send_signal(signal.SIGTERM)
            assert tap.wait(SECONDS) == 0
    for lines in [it.lines for it in BLOCKS[block.page] if any("mine.session" in line for line in it.lines)]:
        for line in lines:
            assert room.printed(line) == ""
    assert '{"return":{}}' in (room.folder / "mine.session").read_text() and (room.folder / "mine.html").stat().st_size > 10_000


def test_definition(_, block):
    """The definitions are lines of a file of specs/."""
    assert any("\n" + block.text() in re.sub(r"\n--.*", "", it.read_text(encoding="utf-8")) for it in TOP.glob("crates/*/specs/*.antt"))


# What a block is tested by, by how it begins, or why it is not. A block of commands is one of these.
COMMANDS = (
    ("./run replay < examples/cycle.qrec", test_cycle),
    ('0 {"QMP":', "it is compared with what the command before it prints"),
    ("tools/qrec write < examples/", test_replay),
    ("tools/draw --inputs 11 < examples/", test_picture),
    ("./build ", test_serving),
    ("./run serve --socket /tmp/compose.sock --connections 5 &\ntools/guest", test_guest),
    ("./run serve", test_serving),
    ("compose/run serve", test_serving),
    ("use compose::", test_library),
    (".ci/run", "it runs this"),
    ("socat - ", test_socat),
    ('{"execute":', test_socat),
    ("printf ", test_socat),
    ("import json, socket", test_python),
    ("import pathlib, socket", test_fixture),
    ("[Unit]", test_unit),
    ("tools/qrec tap ", test_tap),
    ("tools/setup < board.json", "tests/test_setup.py sets a served board up so"),
    ("tools/qrec read < session.qrec", "it is run where the record is made"),
    ("tools/draw --steps < mine.session", "it is run where the record is made"),
    ("slot 0     u0 ", "it is a picture of the board of the session before it"),
    ('record = ("qrec 1" | "qrec 2") LF', "it is how a record is spelled, which tests/test_qrec.py tries"),
    ("bus: root.0", test_tree),
    ("abbrev pub ", test_definition),
)
NEED_NO_PROGRAM = (test_library, test_definition)
BLOCKS = {page: blocks_of(page) for page in PAGES}


# --- links and crates


def anchors(path):
    """The anchors of a page: its headings, as links name them."""
    heads = re.findall(r"^#+ (.*)", path.read_text(encoding="utf-8"), re.M)
    return {re.sub(r"[^\w\- ]", "", it.lower()).replace(" ", "-") for it in heads}


def check_links(page):
    """The links of a page that lead nowhere."""
    path, wrong = TOP / page, []
    for link in re.findall(r"\]\(([^)\s]+)\)", path.read_text(encoding="utf-8")):
        name, _, anchor = link.partition("#")
        target = path.parent / name if name else path
        if not target.exists() or anchor and anchor not in anchors(target):
            wrong.append(f"{page}: the link {link} leads nowhere")
    return wrong


def check_crates():
    """The crates that README has no line for, and the lines that are too long."""
    table = (TOP / "README.md").read_text(encoding="utf-8").partition("## What is proved, crate by crate")[2]
    rows = dict(re.findall(r"^\| `(\w+)` \| (.*?) \|", table, re.M))
    crates = re.findall(r"^(\w+):", (TOP / "crates.txt").read_text(encoding="utf-8"), re.M)
    wrong = [f"README.md: no line for {it}" for it in crates if it not in rows and not it.startswith("tests_")]
    wrong += [f"README.md: a line for {it}, which is no crate" for it in rows if it not in crates]
    return wrong + [f"README.md: the line of {it} is too long" for it, text in rows.items() if len(text.split()) > MOST_WORDS]


def check_block(room, block):
    """What is wrong with a block."""
    if block.is_session():
        return check_session(block)
    found = next((test for begin, test in COMMANDS if block.text().startswith(begin)), None)
    if found is None:
        return ["is run by nothing"]
    if callable(found) and (room is not None or found in NEED_NO_PROGRAM):
        found(room, block)
    return []


def main():
    """Looks at all pages, and returns the exit status."""
    signal.signal(signal.SIGINT, signal.default_int_handler)
    wrong = [it for page in sorted(TOP.glob("docs/*.md")) for it in check_links(f"docs/{page.name}")]
    wrong += check_links("README.md") + check_crates()
    with tempfile.TemporaryDirectory() as folder:
        room = Room(pathlib.Path(folder)) if PROGRAM.exists() else None
        for block in [it for blocks in BLOCKS.values() for it in blocks]:
            try:
                found = check_block(room, block)
            except (AssertionError, subprocess.SubprocessError, OSError) as why:
                found = [f"is not so: {why!r}"]
            wrong += [f"{block.page}: {block.lines[0][:LONG]}: {it}" for it in found]
        if room is not None:
            test_interrupted(room)
    print("\n".join(wrong), end="\n" if wrong else "", file=sys.stderr)
    if room is None:
        print("test_pages: the program is not built, so no command was run: ./build makes it", file=sys.stderr)
        return 2
    return 1 if wrong else 0


if __name__ == "__main__":
    sys.exit(main())
