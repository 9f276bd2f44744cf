#!/usr/bin/env python3
"""Has the proved program refuse devices, at each stage and for each property, and holds the whole tree, what is detached,
the notes, the notices and the claims to those before. It prints nothing where all is well.

Each row of ATTEMPTS, TIMERS, UARTS and DIMMS is refused with its code on a board of its own. Any two rows of ATTEMPTS of different
stages, with the arguments of both, are refused with the code of the earlier one. After a refusal an add under the same id and in the same slot is
done, which the claims of the refused one would bar. The program is built by `rt ci`, or by `rt run` in
crates/compose_program.
"""

import itertools
import json
import pathlib
import subprocess
import sys

TOP = pathlib.Path(__file__).resolve().parent.parent
PROGRAM = TOP / "crates" / "compose_program" / "out" / "compose_program"
BRIDGE = "slot-bridge"
TIMER = "slot-timer"
UART = "slot-uart"
DIMM = "mem-dimm"


def command(name, **arguments):
    """A command as its text."""
    return json.dumps({"execute": name, "arguments": arguments} if arguments else {"execute": name})


def add(**arguments):
    """The command that adds a device, a bridge if no driver is named."""
    return command("device_add", **{"driver": BRIDGE} | arguments)


# what stands before: bridges one below the other, one whose removal is pending, and one that is detached and still held
# by a link, which has lost its bus
SETUP = [
    command("object-add", **{"qom-type": "tag", "id": "t"}),
    *(add(id=f"b{depth}", **({"bus": f"b{depth - 1}/bus.0"} if depth > 1 else {"slot": 0})) for depth in range(1, 9)),
    add(id="going", slot=1),
    add(id="gone", slot=2),
    add(id="t", slot=3, peer="gone"),
    command("device_del", id="gone"),
    command("x-guest", line="ack 2"),
    command("device_del", id="going"),
]
GONE = "/machine/peripheral/t/peer"
FULL = [add() for _ in range(5)]
# bridges of the setup have a notice each, but for the one that is gone; the one that goes has another
NOTICES = [add(bus="t/bus.0") for _ in range(8)] + [add(bus=f"b{n}/bus.0") for n in range(1, 8) for _ in range(7)]
NOTICES = NOTICES[: 64 - 11]
# the opening objects, the tag, ten bridges, and the one that is gone without its bus: a bridge is one too many at 65,534
LIVE = 8 + 1 + 10 * 3 + 2
CROWD = [command("object-add", **{"qom-type": "tag", "id": f"c{n}"}) for n in range(65_534 - LIVE)]

# the stage, the code, the arguments, and what is done before them
ATTEMPTS = [
    (1, "E20", {"driver": "nope"}, []),
    (1, "E21", {"driver": "device"}, []),
    (1, "E22", {"driver": "tag"}, []),
    (1, "E22", {"driver": "clock"}, []),
    (2, "E23", {"id": "9x"}, []),
    (2, "E24", {"id": "b1"}, []),
    (2, "E24", {"id": "gone"}, []),
    (2, "E24", {"id": "type"}, []),
    (3, "E25", {"bus": "/nowhere"}, []),
    (3, "E25", {"bus": "/machine"}, []),
    (3, "E25", {"bus": "bus.0"}, []),
    (3, "E26", {"bus": "/machine/mem.0"}, []),
    (3, "E27", {"bus": "going/bus.0"}, []),
    (3, "E25", {"bus": f"{GONE}/bus.0"}, []),
    (4, "E43", {}, CROWD),
    (4, "E17", {"hue": 1}, []),
    (4, "E18", {"type": BRIDGE}, []),
    (4, "E18", {"realized": True}, []),
    (4, "E18", {"parent_bus": "/machine/root.0"}, []),
    (4, "E18", {"clk": "/machine/sysclk"}, []),
    (4, "E18", {"bus.0": "/machine/root.0"}, []),
    (4, "E19", {"slot": 256}, []),
    (4, "E19", {"slot": "x"}, []),
    (4, "E19", {"peer": 1}, []),
    (4, "E15", {"peer": "/nowhere"}, []),
    (4, "E31", {"peer": "/objects/t"}, []),
    (4, "E18", {"clock-period": 1}, []),
    (4, "E19", {"watch": True}, []),
    (4, "E15", {"watch": "/nowhere"}, []),
    (4, "E31", {"watch": "/machine"}, []),
    (5, "E28", {"slot": 8}, []),
    (5, "E28", {"slot": 255}, []),
    (5, "E29", {"slot": 0}, []),
    (5, "E30", {}, FULL),
    (5, "E42", {"bus": "b8/bus.0"}, []),
    (8, "E44", {}, NOTICES),
]
# the same of timers, which have no bus, and are two objects: so there is room for one at 65,534
TIMERS = [
    (3, "E26", {"driver": TIMER, "bus": "/machine/mem.0"}, []),
    (4, "E43", {"driver": TIMER}, [*CROWD, command("object-add", **{"qom-type": "tag", "id": "last"})]),
    (4, "E17", {"driver": TIMER, "bus.0": "/machine/root.0"}, []),
    (4, "E18", {"driver": TIMER, "clk": "/machine/sysclk"}, []),
    (4, "E31", {"driver": TIMER, "peer": "/objects/t"}, []),
    (5, "E28", {"driver": TIMER, "slot": 8}, []),
    (5, "E29", {"driver": TIMER, "slot": 0}, []),
    (5, "E30", {"driver": TIMER}, FULL),
    (8, "E44", {"driver": TIMER}, NOTICES),
]

# of UARTs, with a ring that another one may have
RING = command("chardev-add", id="r", backend={"type": "ringbuf", "data": {"size": 16}})
UARTS = [
    (4, "E19", {"driver": UART, "chardev": 1}, []),
    (4, "E18", {"driver": UART, "clock-period": 1}, []),
    (5, "E29", {"driver": UART, "slot": 0, "chardev": "no"}, []),
    (6, "E36", {"driver": UART, "chardev": "no"}, []),
    (6, "E37", {"driver": UART, "chardev": "r"}, [RING, add(driver=UART, id="u", chardev="r")]),
    (8, "E44", {"driver": UART}, NOTICES),
    (6, "E36", {"driver": UART, "chardev": "no"}, NOTICES),
]


def memory(name, size=4096):
    """The command that adds a memory backend of a size."""
    return command("object-add", **{"qom-type": "memory-backend-ram", "id": name, "size": size})


# and of DIMMs, which go on the memory bus and are one object each
WINDOW = 2**32
DIMMS = [
    (3, "E26", {"driver": DIMM, "bus": "/machine/root.0"}, []),
    (4, "E17", {"driver": DIMM, "chardev": "r"}, []),
    (4, "E19", {"driver": DIMM, "addr": 1}, []),
    (4, "E31", {"driver": DIMM, "memdev": "/objects/t"}, []),
    (5, "E28", {"driver": DIMM, "slot": 8}, []),
    (5, "E38", {"driver": DIMM}, []),
    (5, "E39", {"driver": DIMM, "memdev": "m"}, [memory("m"), add(driver=DIMM, memdev="m")]),
    (5, "E40", {"driver": DIMM, "memdev": "n", "addr": WINDOW}, [memory("m"), add(driver=DIMM, memdev="m"), memory("n")]),
    (5, "E40", {"driver": DIMM, "memdev": "n", "addr": WINDOW - 4096}, [memory("n")]),
    (5, "E40", {"driver": DIMM, "memdev": "n", "addr": WINDOW + 2**36}, [memory("n")]),
    (5, "E41", {"driver": DIMM, "memdev": "n"}, [memory("m", 2**36), add(driver=DIMM, memdev="m"), memory("n")]),
    (8, "E44", {"driver": DIMM, "memdev": "n"}, [memory("n"), *NOTICES]),
]


def texts(commands):
    """What each command is answered, as its text, after the negotiation; events are left out."""
    text = "".join(commands).encode()
    chunks = [text[at : at + 65536] for at in range(0, len(text), 65536)]
    entries = b"".join(b"bytes 0.000000 0 %d\n%s\n" % (len(chunk), chunk) for chunk in chunks)
    negotiation = command("qmp_capabilities").encode()
    record = b"qrec 1\nopen 0.000000 0\nbytes 0.000000 0 %d\n%s\n" % (len(negotiation), negotiation) + entries
    ran = subprocess.run([PROGRAM, "replay"], input=record, capture_output=True, timeout=120, check=True)
    messages = [line[2:] for line in ran.stdout.splitlines()]
    return [it for it in messages[2:] if not it.startswith((b'{"data":', b'{"event":'))]


def replies(commands):
    """What each command is answered: an object with `return` or `error`."""
    return [json.loads(it) for it in texts(commands)]


def code_of(reply):
    """The code of an error reply, or None."""
    return reply["error"]["desc"].split()[0] if "error" in reply else None


def tree(commands):
    """The paths of all objects in the tree after some commands, and the properties of each."""
    found = {}
    ahead = ["/"]
    while ahead:
        lists = replies([*commands, *(command("qom-list", path=path) for path in ahead)])[len(commands) :]
        found |= {path: [it["name"] for it in listed["return"]] for path, listed in zip(ahead, lists)}
        ahead = [
            f"{path.rstrip('/')}/{it['name']}"
            for path, listed in zip(ahead, lists)
            for it in listed["return"]
            if it["type"].startswith("child<")
        ]
    return found


def looks(paths):
    """The commands that look at all that is in the tree, and at what is detached."""
    lists = [command("qom-list", path=path) for path in paths]
    gets = [command("qom-get", path=path, property=name) for path, names in paths.items() for name in names]
    return [*lists, *gets, command("x-query-detached")]


def births_of(commands):
    """How many objects were made, and how many notes there are, after some commands."""
    total = replies([*commands, command("x-query-notes", **{"from": 0})])[-1]["return"]["total"]
    questions = [command("x-query-notes", **{"from": at}) for at in range(0, total, 256)]
    notes = [note for reply in replies([*commands, *questions])[len(commands) :] for note in reply["return"]["notes"]]
    return max(int(note.split()[1]) for note in notes if note.startswith("init ")) + 1, total


def notes_of(stage, code, birth, driver):
    """The notes of an attempt whose first object has this birth: none where nothing is made."""
    if stage < 4 or code == "E43":
        return []
    clocks, buses = [] if driver == DIMM else [birth + 1], [birth + 2] if driver == BRIDGE else []
    types = ["device", driver] if driver == DIMM else ["device", "slot-device", driver]
    made = [*(f"init {birth} {it}" for it in types), *(f"init {clock} clock" for clock in clocks)]
    made += [f"init {bus} {it}" for bus in buses for it in ("bus", "slot-bus")]
    started = [f"realize {it}" for it in (birth, *buses)]
    started += [f"{act} {it}" for act in ("enter", "hold", "exit", "unrealize") for it in (*buses, birth)]
    ended = [f"final {clock} clock" for clock in clocks] + [f"final {bus} {it}" for bus in buses for it in ("slot-bus", "bus")]
    ended += [f"final {birth} {it}" for it in reversed(types)]
    return made + (started if stage == 8 else []) + ended


def told(row, what):
    """Says what is not as it must be."""
    print(f"a device with {row[2]}, to be refused with {row[1]}: {what}", file=sys.stderr)
    return True


def leaves_a_trace(row):
    """Whether an attempt is not refused with its code, or leaves something behind but its births and notes; says so."""
    stage, code, arguments, before = row
    start = [*SETUP, *before]
    if bad := [it for it in replies(start) if "error" in it]:
        return told(row, f"the board before it is not made: {bad[0]}")
    birth, total = births_of(start)
    look = looks(tree(start))
    polls = [command("x-guest", line="poll")] * 65
    seen = texts([*start, *look, add(**arguments), *look, command("x-query-notes", **{"from": total}), *polls])
    old, refused, new = seen[len(start) : len(start) + len(look)], seen[len(start) + len(look)], seen[len(start) + len(look) + 1 :]
    notes, notices = json.loads(new[len(look)])["return"]["notes"], new[len(look) + 1 :]
    if code_of(json.loads(refused)) != code:
        return told(row, f"it is answered {refused}")
    if new[: len(look)] != old:
        return told(row, "the tree is not as before")
    if notes != notes_of(stage, code, birth, arguments.get("driver", BRIDGE)):
        return told(row, f"the notes are {notes}")
    if notices != texts([*start, *polls])[len(start) :]:
        return told(row, "the notices are not as before")
    return False


def keeps_a_claim(row):
    """Whether an attempt keeps its id or its slot, so that another device is refused; says so."""
    stage, code, arguments, before = row
    if before:
        return False
    tried = {"id": "x", "slot": 7} | arguments
    again = replies([*SETUP, add(**tried), add(id="x", slot=7)])[-2:]
    if code_of(again[0]) != code:
        return told(row, f"with an id and a slot it is answered {again[0]}")
    return "error" in again[1] and told(row, f"its id and its slot are then refused: {again[1]}")


def comes_first(early, late):
    """Whether two attempts in one are not refused with the code of the earlier; says so."""
    both = late[2] | early[2]
    if early[0] == late[0] or len(both) < len(early[2]) + len(late[2]) or early[3] or late[3]:
        return False
    refused = replies([*SETUP, add(**both)])[-1]
    return code_of(refused) != early[1] and told((0, early[1], both), f"it is answered {refused}")


def main():
    """Tries all rows, and returns the exit status."""
    alone = [leaves_a_trace(row) or keeps_a_claim(row) for row in [*ATTEMPTS, *TIMERS, *UARTS, *DIMMS]]
    pairs = [comes_first(*pair) for pair in itertools.combinations(ATTEMPTS, 2)]
    return 1 if any(alone) or any(pairs) else 0


if __name__ == "__main__":
    sys.exit(main())
