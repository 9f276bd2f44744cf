#!/usr/bin/env python3
"""Refuses each growth of memory in turn, and holds what the proved program sends then to what it may send.

    tests/test_refused.py [SESSION..]        the sessions of examples/refused/, if none is named

A session, of messages that the plain machine takes, is run once for each growth, from the first on, until a run meets no
refusal. The growth is refused by the allocator of refuse.c, which is built in a temporary folder and preloaded. Such a run
ends well in one of three ways:

- Its status is 4, and it was sent a front of the usual transcript, which is the one of a run without refusals.
- One command is answered E99, or one line of the guest `no memory`, and all that follows is as the plain machine of
  plain_machine.py sends it after the same cut. Where the command adds a device, some of its objects may have been made and
  ended, the last of them joined to the device or not; where it adds a user's object, that one. Nothing else is done.
- It is sent the usual transcript: some growths are done without.

It prints nothing where all is well, and takes less than a minute then; else each growth after which a run is wrong, and
exit status 1. Where there is no C compiler it says so and tests nothing. Exit status 2 where the program is not built
(./build makes it).
"""

import dataclasses
import enum
import itertools
import os
import pathlib
import shutil
import subprocess
import sys
import tempfile

sys.dont_write_bytecode = True
import plain_machine  # after the line above, so that nothing is left beside it

TOP = pathlib.Path(__file__).resolve().parent.parent
PROGRAM = TOP / "crates" / "compose_program" / "out" / "compose_program"
REFUSER = TOP / "tests" / "refuse.c"
REFUSED = b"growth refused\n"
COMPLAINT = b"compose: out of memory\n"
OUT_OF_MEMORY = 4
MOST_MADE = 3
SECONDS = 60


class NoMemory(enum.Enum):
    """The code of a command for which there is no memory, as the plain machine has its codes."""

    CODE = 99, "out of memory"


@dataclasses.dataclass(frozen=True)
class Cut:
    """Where memory runs out: in which message or line, after how many objects, and whether the last one was joined."""

    number: int | None = None
    made: int = 0
    is_joined: bool = False


class CutMachine(plain_machine.Machine):
    """The plain machine, which has no memory for one command or line, or for none."""

    def __init__(self, cut):
        super().__init__()
        self.cut = cut
        self.starts = []

    def is_cut(self):
        """Whether the next message or line is the one without memory; it keeps where its answer begins."""
        self.starts.append(len(self.transcript))
        return len(self.starts) - 1 == self.cut.number

    def obeyed(self, session, message):
        """Does what a message says, or a part of it; what is no command that may be done is refused as ever."""
        is_command = self.negotiated[session] and message.get("execute") in plain_machine.COMMANDS
        if not self.is_cut() or not is_command:
            return super().obeyed(session, message)
        command, arguments = message["execute"], message.get("arguments", {})
        plain_machine.judge_arguments(command, arguments)
        self.attempt(made_types(self.board, command, arguments)[: self.cut.made])
        raise plain_machine.Refused(NoMemory.CODE)

    def attempt(self, types):
        """Makes objects, and ends them: first the last one, if it was not joined to the device, which ends last itself."""
        made = [(self.board.initialize(it), it) for it in types]
        device, further = made[:1], made[1:]
        loose = [] if self.cut.is_joined else further[-1:]
        joined = further[: len(further) - len(loose)]
        for birth, type_name in loose + joined + device:
            self.board.note_end(birth, type_name)

    def hear(self, line):
        """Answers a line of the guest, or says that there is no memory for it."""
        if self.is_cut():
            self.send("g", "no memory")
        else:
            super().hear(line)


def made_types(board, command, arguments):
    """The types of the objects that a command makes, in order; none where it is refused before it makes any."""
    try:
        if command == "device_add":
            return device_types(board, arguments["driver"], arguments.get("id"), arguments.get("bus"))
        if command == "object-add":
            return object_types(board, arguments["qom-type"], arguments["id"])
    except plain_machine.Refused:
        pass
    return []


def device_types(board, driver, device_id, bus_path):
    """The types of the objects of a device, its own first; refused where something bars it before they are made."""
    board.judge_type(driver, "device")
    if device_id is not None:
        board.judge_device_id(device_id)
    board.bus_for(driver, bus_path)
    further = [it.type for it in plain_machine.properties_of(driver) if it.kind is plain_machine.Kind.CHILD]
    board.judge_count(1 + len(further))
    return [driver, *further]


def object_types(board, type_name, name):
    """The type of a user's object; none, or refused, where something bars it before it is made."""
    board.judge_type(type_name, "user-creatable")
    board.judge_count(1)
    is_free = plain_machine.is_id(name) and not board.objects[plain_machine.USERS_OBJECTS].slot(name)
    return [type_name] if is_free else []


def qrec(word, given):
    """What tools/qrec makes of a session or a record."""
    return subprocess.run([TOP / "tools" / "qrec", word], input=given, capture_output=True, check=True).stdout


def as_sent(lines):
    """The bytes of the lines of a transcript."""
    return "".join(f"{it}\n" if it.startswith("g ") else f"{it}\r\n" for it in lines).encode()


class Session:
    """A session, with what a run of it may send."""

    def __init__(self, path):
        self.name = path.stem
        self.record = qrec("write", path.read_bytes())
        self.inputs = qrec("read", self.record).decode().splitlines()
        plain = self.played(Cut())
        self.usual, self.starts = as_sent(plain.transcript), plain.starts
        self.known = {}

    def played(self, cut):
        """The plain machine after the session, with a cut."""
        machine = CutMachine(cut)
        for line in self.inputs:
            machine.input(line)
        return machine

    def after_cuts(self, number):
        """What may be sent where there is no memory for the message or line of a number."""
        if number not in self.known:
            cuts = [Cut(number, *it) for it in itertools.product(range(MOST_MADE + 1), (False, True))]
            self.known[number] = {as_sent(self.played(it).transcript) for it in cuts}
        return self.known[number]

    def is_cut_once(self, sent):
        """Whether one command or line had no memory, and all is as it may be after that."""
        lines = sent.decode().splitlines()
        start = next((at for at, it in enumerate(lines) if '"desc":"E99 ' in it or it == "g no memory"), None)
        return start in self.starts and sent in self.after_cuts(self.starts.index(start))

    def run(self, allocator, number):
        """Runs the program with the growth of a number refused: its status, what it sent and what it said."""
        environment = os.environ | {"LD_PRELOAD": str(allocator), "REFUSED_GROWTH": str(number)}
        done = subprocess.run([PROGRAM, "replay"], input=self.record, capture_output=True, env=environment, timeout=SECONDS, check=False)
        return done.returncode, done.stdout, done.stderr

    def is_right(self, status, sent, said):
        """Whether a run in which a growth was refused ended as it may."""
        if status == OUT_OF_MEMORY:
            return said == REFUSED + COMPLAINT and self.usual.startswith(sent)
        return status == 0 and said == REFUSED and (sent == self.usual or self.is_cut_once(sent))

    def faults(self, allocator):
        """What is wrong: without a refusal, or else growth by growth, until a run meets none."""
        if self.run(allocator, 0) != (0, self.usual, b""):
            yield "it is not sent what the plain machine sends, though no growth is refused"
            return
        for number in itertools.count(1):
            status, sent, said = self.run(allocator, number)
            if not said.startswith(REFUSED):
                break
            if not self.is_right(status, sent, said):
                yield f"growth {number} refused: status {status}, said {said!r}, sent {sent!r}"
        if number == 1:
            yield "no growth is met, so none was refused"


def main(words):
    """Runs the sessions at these paths, or all, and returns the exit status."""
    if not PROGRAM.exists():
        print("test_refused: the program is not built: ./build makes it", file=sys.stderr)
        return 2
    if not shutil.which("cc"):
        print("test_refused: there is no C compiler (cc), so nothing is tested")
        return 0
    paths = [pathlib.Path(it) for it in words] or sorted((TOP / "examples" / "refused").glob("*.session"))
    with tempfile.TemporaryDirectory() as folder:
        allocator = pathlib.Path(folder) / "refuse.so"
        subprocess.run(["cc", "-O1", "-shared", "-fPIC", "-o", allocator, REFUSER], check=True)
        found = [f"{it.name}: {fault}" for it in map(Session, paths) for fault in it.faults(allocator)]
    for it in found:
        print(f"test_refused: {it}", file=sys.stderr)
    return 1 if found else 0


if __name__ == "__main__":
    sys.exit(main(sys.argv[1:]))
