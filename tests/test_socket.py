#!/usr/bin/env python3
"""Serves clients by the proved program on a Unix socket in a temporary folder, and holds what they are sent, the exit
status and the socket file to what they must be. It prints nothing where all is well, and takes less than a minute then.
The program is built by `rt ci`, or by ./build."""

import contextlib
import json
import pathlib
import socket
import subprocess
import sys
import tempfile
import time

TOP = pathlib.Path(__file__).resolve().parent.parent
PROGRAM = TOP / "crates" / "compose_program" / "out" / "compose_program"
VERSION = {"package": "compose", "qemu": {"major": 1, "micro": 0, "minor": 0}}
GREETING = {"QMP": {"capabilities": [], "version": VERSION}}
STATUS = {"return": {"running": True, "status": "running"}}
EMPTY = {"return": {}}
SECONDS = 60


class Server:
    """The program, which serves so many connections at a path."""

    def __init__(self, path, connections):
        words = [PROGRAM, "serve", "--socket", str(path), f"--connections={connections}"]
        self.path = path
        self.program = subprocess.Popen(words, stdin=subprocess.DEVNULL, stdout=subprocess.PIPE, stderr=subprocess.PIPE)

    def __enter__(self):
        return self

    def __exit__(self, *_):
        if self.program.poll() is None:
            self.program.kill()
        self.program.communicate()

    def ends(self, status=0, complaint=b""):
        """Waits for the end, and compares its status and what it said."""
        printed, complained = self.program.communicate(timeout=SECONDS)
        assert (self.program.returncode, printed, complained) == (status, b"", complaint), complained

    def ends_well(self):
        """Waits for a good end; the socket file is gone then."""
        self.ends()
        assert not self.path.exists()


class Client:
    """A client that has connected, once there is a server that listens."""

    def __init__(self, path):
        self.lines, self.socket = b"", socket.socket(socket.AF_UNIX)
        self.socket.settimeout(SECONDS)
        for _ in range(SECONDS * 100):
            with contextlib.suppress(FileNotFoundError, ConnectionRefusedError):
                self.socket.connect(str(path))
                return
            time.sleep(0.01)
        raise AssertionError("no server listens")

    def __enter__(self):
        return self

    def __exit__(self, *_):
        self.socket.close()

    def text(self):
        """Reads the next line, as the text that it is."""
        while b"\r\n" not in self.lines:
            piece = self.socket.recv(65_536)
            assert piece, "the connection was shut"
            self.lines += piece
        line, self.lines = self.lines.split(b"\r\n", 1)
        return line.decode()

    def line(self):
        """Reads the next line."""
        return json.loads(self.text())

    def reads(self, wanted):
        """Reads the next line, and compares it."""
        line = self.line()
        assert line == wanted, line

    def asks(self, command, **arguments):
        """Sends a command."""
        self.socket.sendall(json.dumps({"execute": command, "arguments": arguments}).encode() + b"\n")

    def sends_on(self):
        """Sends commands, and reads nothing, until its connection is gone."""
        with contextlib.suppress(BrokenPipeError, ConnectionResetError):
            while True:
                self.socket.sendall(b'{"execute":"query-commands"}\n' * 100)

    def negotiates(self):
        """Reads the greeting, and negotiates."""
        self.reads(GREETING)
        self.asks("qmp_capabilities")
        self.reads(EMPTY)

    def is_shut(self):
        """Whether nothing more comes."""
        return self.lines == b"" and self.socket.recv(1) == b""


def test_one_client(path):
    """Negotiation, and a client that shuts its writing side and still reads its replies."""
    with Server(path, 1) as server, Client(path) as client:
        client.negotiates()
        client.asks("query-status")
        client.socket.shutdown(socket.SHUT_WR)
        client.reads(STATUS)
        assert client.is_shut()
        server.ends_well()


def test_pieces(path):
    """A command in single bytes is answered once, and two in one piece in order."""
    with Server(path, 1) as server:
        with Client(path) as client:
            client.negotiates()
            for byte in b'{"execute":"query-status"}':
                client.socket.sendall(bytes([byte]))
            client.reads(STATUS)
            client.socket.sendall(b'{"execute":"query-version","id":1}{"execute":"query-status","id":2}')
            client.reads({"id": 1, "return": VERSION})
            client.reads({"id": 2, **STATUS})
        server.ends_well()


def test_one_after_the_other(path):
    """The second client waits for the first, and finds the board as that one left it."""
    with Server(path, 2) as server, Client(path) as first, Client(path) as second:
        first.negotiates()
        first.asks("object-add", **{"qom-type": "tag", "id": "left"})
        first.reads(EMPTY)
        second.socket.settimeout(0.3)
        with contextlib.suppress(TimeoutError):
            raise AssertionError(second.socket.recv(1))
        second.socket.settimeout(SECONDS)
        first.socket.close()
        second.negotiates()
        second.asks("qom-get", path="/objects/left", property="type")
        second.reads({"return": "tag"})
        second.socket.close()
        server.ends_well()


def test_clients_that_go_away(path):
    """A client that is gone at once, in the middle of a message, or with a reply unread harms neither the board nor the next."""
    with Server(path, 4) as server:
        Client(path).socket.close()
        with Client(path) as client:
            client.reads(GREETING)
            client.socket.sendall(b'{"execute":"qmp_capab')
        with Client(path) as client:
            client.negotiates()
            for _ in range(100):
                client.asks("query-commands")
        with Client(path) as client:
            client.negotiates()
            client.asks("query-status")
            client.reads(STATUS)
        server.ends_well()


def test_a_client_that_never_reads(path):
    """A client that sends and never reads is let go in the end, and the next one is served."""
    with Server(path, 2) as server, Client(path) as deaf, Client(path) as next_client:
        deaf.negotiates()
        deaf.sends_on()
        next_client.negotiates()
        next_client.socket.close()
        server.ends_well()


def test_a_socket_file_left_after(path):
    """A server that was killed leaves its socket file, which the next one replaces."""
    with Server(path, 1) as server, Client(path) as client:
        client.reads(GREETING)
        server.program.kill()
    assert path.is_socket()
    test_one_client(path)


def test_a_path_in_use(path):
    """A second server at the path is refused. What it asked of the first was one connection, which counts."""
    with Server(path, 3) as server, Client(path) as client:
        client.negotiates()
        with Server(path, 1) as other:
            other.ends(7, b"compose: hub fault\n")
        client.asks("query-status")
        client.reads(STATUS)
        with Client(path) as next_client:
            client.socket.close()
            next_client.negotiates()
        server.ends_well()


def test_other_things_at_the_path(path):
    """A file, a folder, a path without its folder and a long path are refused, and left as they were."""
    path.write_text("mine")
    folder = path.with_name("folder")
    folder.mkdir()
    for place in [path, folder, folder / "none" / "s", folder / ("p" * 108)]:
        with Server(place, 1) as server:
            server.ends(7, b"compose: hub fault\n")
    assert path.read_text() == "mine" and list(folder.iterdir()) == []


def test_quit(path):
    """`quit` is answered, and ends the program, also before the last connection."""
    with Server(path, 1000) as server, Client(path) as client:
        client.negotiates()
        client.asks("quit")
        event = client.line()
        assert event["event"] == "SHUTDOWN" and abs(event["timestamp"]["seconds"] - time.time()) < 60, event
        client.reads(EMPTY)
        assert client.is_shut()
        server.ends_well()


def test_a_hundred(path):
    """A hundred connections, one after the other."""
    with Server(path, 100) as server:
        for count in range(100):
            with Client(path) as client:
                client.negotiates()
                client.asks("object-add", **{"qom-type": "tag", "id": f"t{count}"})
                client.reads(EMPTY)
        server.ends_well()


def test_tap(path):
    """What `qrec tap` records of clients is replayed to what they were sent, with the cuts that they made; its log has each line."""
    tapped, record, log = path.with_name("tapped"), path.with_name("record"), path.with_name("log")
    words = [TOP / "tools" / "qrec", "tap", "-v", tapped, path]
    with Server(path, 2) as server, record.open("wb") as out, log.open("wb") as told, contextlib.ExitStack() as ends:
        tap = ends.enter_context(subprocess.Popen(words, stdout=out, stderr=told))
        ends.callback(tap.kill)
        got = []
        for name in ["one", "two"]:
            with Client(tapped) as client:
                got.append(client.line())
                for command in ["qmp_capabilities", "query-version", "query-status"]:
                    client.asks(command)
                    got.append(client.line())
                client.asks("object-add", **{"qom-type": "tag", "id": name})
                got.append(client.line())
                client.socket.shutdown(socket.SHUT_WR)
                assert client.is_shut()
        server.ends_well()
        tap.terminate()
        assert tap.wait(SECONDS) == 0 and not tapped.exists()
    replayed = subprocess.run([PROGRAM, "replay"], input=record.read_bytes(), capture_output=True, timeout=SECONDS, check=True)
    assert [json.loads(line[2:]) for line in replayed.stdout.splitlines()] == got
    session = subprocess.run([TOP / "tools" / "qrec", "read"], input=record.read_bytes(), capture_output=True, check=True)
    words = [line.split()[1] for line in session.stdout.decode().splitlines()]
    assert words == ["open", *["raw"] * 4, "shut"] * 2, words
    arrows = [line.split()[0] for line in log.read_text().splitlines()]
    assert arrows == ["<-", *["->", "<-"] * 4] * 2, arrows


def main():
    """Runs the tests whose names have one of the words, or all, and returns the exit status."""
    if not PROGRAM.exists():
        print("test_socket: the program is not built: ./build makes it", file=sys.stderr)
        return 2
    tests = [it for name, it in globals().items() if name.startswith("test_")]
    for test in tests:
        if len(sys.argv) > 1 and not any(word in test.__name__ for word in sys.argv[1:]):
            continue
        with tempfile.TemporaryDirectory() as folder:
            test(pathlib.Path(folder) / "s")
    return 0


if __name__ == "__main__":
    sys.exit(main())
