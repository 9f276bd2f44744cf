#!/usr/bin/env python3
"""Serves a client through tools/guest by the proved program, and holds what it is sent to what a client of QEMU is sent
where the guest answers. The client's messages are those of the official asynchronous library (qemu.qmp): compact, with an
id, CR LF behind them. It prints nothing where all is well."""

import json
import pathlib
import signal
import subprocess
import sys
import tempfile

from test_socket import GREETING, PROGRAM, SECONDS, TOP, Client, Server


class Guest:
    """tools/guest, between a path and a server's."""

    def __init__(self, listen, upstream, *words):
        self.program = subprocess.Popen([TOP / "tools" / "guest", listen, upstream, *words])

    def __enter__(self):
        return self

    def __exit__(self, *_):
        self.program.terminate()
        assert self.program.wait(SECONDS) in (0, 1, -signal.SIGKILL)


class Library(Client):
    """A client that speaks as the official library does."""

    def __init__(self, path):
        super().__init__(path)
        self.count = 0

    def executes(self, command, **arguments):
        """Sends a command, and gives its reply; events before it are kept."""
        ident, self.count = f"__qmp#{self.count:05d}", self.count + 1
        message = {"execute": command, **({"arguments": arguments} if arguments else {}), "id": ident}
        self.socket.sendall(json.dumps(message, separators=(",", ":")).encode() + b"\r\n")
        line = self.line()
        assert line.get("id") == ident, line
        return line.get("return", line.get("error"))

    def begins(self):
        """Reads the greeting, and negotiates as the library does."""
        self.reads(GREETING)
        assert self.executes("qmp_capabilities", enable=[]) == {}

    def deleted(self, device):
        """Reads the event of a device that is gone."""
        line = self.line()
        assert (line["event"], line["data"]["device"]) == ("DEVICE_DELETED", device), line


def test_devices_go(path):
    """A bridge and what is on it go, in order, and the machine is as it was."""
    listen = path.with_name("guest")
    with Server(path, 1) as server, Guest(listen, path), Library(listen) as client:
        client.begins()
        assert client.executes("device_add", driver="slot-bridge", id="br") == {}
        assert client.executes("device_add", driver="slot-uart", id="u", bus="br/bus.0") == {}
        assert client.executes("device_del", id="br") == {}
        client.deleted("u")
        client.deleted("br")
        assert client.executes("query-status") == {"running": True, "status": "running"}
        assert client.executes("device_add", driver="slot-bridge", id="br") == {}
        client.socket.close()
        server.ends_well()


def test_refusals(path):
    """A guest that refuses has the client told so, and the device stays."""
    listen = path.with_name("guest")
    with Server(path, 1) as server, Guest(listen, path, "--refuse"), Library(listen) as client:
        client.begins()
        assert client.executes("device_add", driver="slot-timer", id="t") == {}
        assert client.executes("device_del", id="t") == {}
        line = client.line()
        assert (line["event"], line["data"]["device"]) == ("DEVICE_UNPLUG_GUEST_ERROR", "t"), line
        assert client.executes("qom-get", path="/machine/peripheral/t", property="realized") is True
        client.socket.close()
        server.ends_well()


def test_pieces(path):
    """Messages that come byte by byte, and junk, are handed on as they are; nothing of the guest comes between."""
    listen = path.with_name("guest")
    with Server(path, 1) as server, Guest(listen, path), Library(listen) as client:
        client.begins()
        for byte in b'{"execute":"query-status","id":"]}\\"{"}':
            client.socket.sendall(bytes([byte]))
        client.reads({"id": ']}"{', "return": {"running": True, "status": "running"}})
        client.socket.sendall(b"junk {\n")
        assert client.line()["error"]["desc"].startswith("E2")
        client.socket.sendall(b'{"execute":"query-status"}{"execute":"query-version"}')
        client.reads({"return": {"running": True, "status": "running"}})
        assert "return" in client.line()
        client.socket.close()
        server.ends_well()


def test_clients_in_turn(path):
    """Two clients come one after the other, each with the greeting."""
    listen = path.with_name("guest")
    with Server(path, 2) as server, Guest(listen, path):
        for name in ("one", "two"):
            with Library(listen) as client:
                client.begins()
                assert client.executes("object-add", **{"qom-type": "tag", "id": name}) == {}
        server.ends_well()


def test_a_path_left_after(path):
    """A guest that was killed leaves its socket file, which the next one replaces; one at which somebody listens stays."""
    listen = path.with_name("guest")
    with Server(path, 2) as server:
        with Guest(listen, path) as first, Library(listen) as client:
            client.begins()
            with subprocess.Popen([TOP / "tools" / "guest", listen, path], stderr=subprocess.PIPE) as other:
                assert other.wait(SECONDS) == 1 and b"cannot listen" in other.stderr.read()
            first.program.kill()
            first.program.wait(SECONDS)
        assert listen.is_socket()
        with Guest(listen, path), Library(listen) as client:
            client.begins()
        server.ends_well()


def main():
    """Runs the tests, and returns the exit status."""
    if not PROGRAM.exists():
        print("test_guest: the program is not built: ./build makes it", file=sys.stderr)
        return 2
    for name, test in list(globals().items()):
        if name.startswith("test_"):
            with tempfile.TemporaryDirectory() as folder:
                test(pathlib.Path(folder) / "s")
    return 0


if __name__ == "__main__":
    sys.exit(main())
