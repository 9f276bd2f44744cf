"""Makes random sessions, by a plain machine that goes along; for tests/test_plain_machine.py and bench/soak.

They are on a small board with few names: devices of all drivers, users' objects, links, rings, clocks, holds, removals,
lines of the guest, interrupt lines, time and sessions, and much that is refused. Inputs are spelled as tools/qrec has them.
"""

import importlib.machinery
import importlib.util
import json
import pathlib
import random

import plain_machine

TOP = pathlib.Path(__file__).resolve().parent.parent

DRIVERS = ["slot-bridge", "slot-uart", "slot-timer", "mem-dimm"]
NO_DRIVERS = ["device", "slot-device", "tag", "nope", "bus", "slot-bus", "memory-backend", "machine", "clock", ""]
DEVICE_IDS = [
    ["a", "b", "c", "d", "e"],
    ["a", "b", "c", "br", "nb", "u0", "u1", "t", "d0", "d1"],
    ["a", "peer", "clk", "bus.0", "watch", "memdev", "b", "next"],
    ["A", "a", "a.b", "a-b", "x_1", "root.0", "machine", "objects", "peripheral"],
]
OBJECT_IDS = [["m0", "m1", "t0", "t1"], ["a", "b", "m", "t"], ["peer", "next", "clk", "bus.0", "m0"]]
RING_IDS = ["r0", "r1", "type", "a"]
BAD_IDS = ["9x", "type", "a/b", "", "-a", "a b", "x" * 128, "x" * 129, "device[0]", "clk"]
NOWHERE = ["", "/", "nothing", "/machine", "type", "bus.0", "clk", "peer", "/objects", "child[0]", "mem.0", "/machine/"]
PARTIAL = ["peer", "watch", "parent_bus", "clk/source", "source", "next", "seen", "memdev", "child[0]", "child[1]/clk"]
ODD_VALUES = [0, 1, 2, 8, 255, 256, -1, 4096, True, False, "", "a", "zz", "/machine", 2**32, 2**64 - 1, "/"]
ODD_TEXTS = ["\u00e9", "\u0000", "a\u007f\"\\", "x" * 300, "\U0001f600", "/machine/../machine", "detached:9"]
ODD_NAMES = ["hue", "type", "realized", "clk", "clock-period", "bus.0", "parent_bus", "child[0]", "size", "addr", ""]
SIZES = [4096, 4096, 8192, 65_536, 2**20, 2**35, 2**36, 2**36 - 4096, 2**40, 0, 4097]
RING_SIZES = [{"size": 16}, {"size": 2}, {"size": 1}, {}, {"size": 12}, {"size": 0}, {"size": 2**20}, {"size": 2**21}]
CLOCK_NUMBERS = [0, 1, 2, 3, 5, 7, 1000, 2**32 - 1, 2**32, 2**35, 42_949_672_960, 2**63, 2**64 - 1]
SPANS = [1, 3, 10, 25, 1000, 2**31, 2**62]
WRITTEN = ["0x0", "0x1", "0x1", "0x2", "0x41", "0x7f", "0xff", "0x63", "0xFFFFFFFF"]
SHORT_RELOADS = [0, 1, 1, 2, 99]
MOST_AWAITED = 2**40  # ns
RESET_TYPES = ["wakeup", "wakeup", "wakeup", "cold", "warm"]
PRINTED = [0x41, 0x62, 0x7F, 0x80, 0xFF, 0x1F, 0, 0x22, 0x5C, 10, 8]
NO_LINES = [
    "ack", "poll ", " poll", "ack  0", "read 0", "read 0 00", "write 0 0 1", "write 0 0 0x", "write 0 0 0x123456789",
    "POLL", "IRQ", "irq ", "irq 0", "irqs", "peek", "peek 0", "peek 0x", "peek 0x0 0x0", "poke 0x0", "poke 0x0 1", "peek 0x00000000000000000", "ack 0 0", "x" * 300, "ack m00", "ack 256", "nack 0..0", "ack 0.0.0.0.0.0.0.0.0.0", "read m0.0 0",
]
HARDWARE_ADDRESSES = [0, 65532, 65536, 65540, 2**31 - 4, 2**31, 2**32, 2**32 + 4096, 2**44 - 4, 2**44, 2**47 + 2**44, 2**48, 2**64 - 4]
ADDRESSES = ["0", "1", "7", "m0", "m1", "0.0", "0.1", "1.0", "8", "m8", "255", "0.0.0", "0.0.0.0.0.0.0.0.0"]
ODD_MESSAGES = [{}, {"execute": 1}, {"execute": "stop", "x": 1}, {"execute": "stop", "arguments": 1}]
ODD_COMMANDS = [
    ("frob", {}),
    ("qmp_capabilities", {}),
    ("device_add", {"id": "a"}),
    ("device_add", {"driver": 1}),
    ("device_del", {"id": "a", "x": 1}),
    ("x-reset-hold", {"path": "/machine", "type": 1}),
    ("x-wakeup", {"path": "/machine"}),
    ("x-sever", {"birth": -1}),
    ("x-query-notes", {"from": True}),
    ("chardev-add", {"id": "r0", "backend": {"type": "ringbuf"}}),
    ("chardev-add", {"id": "r0", "backend": {"type": "file", "data": {}}}),
    ("chardev-add", {"id": "r0", "backend": {"type": 1, "data": {"size": 1, "x": 1}}}),
    ("chardev-add", {"id": "r0", "backend": {"type": "ringbuf", "data": {}, "x": 1}}),
    ("chardev-add", {"id": "r0", "backend": 1}),
    ("ringbuf-read", {"device": "r0", "size": 2**20 + 1}),
    ("ringbuf-read", {"device": "r0", "size": 1, "format": "utf16"}),
]

# how often each act is done, beside the others
USUAL_ACTS = {
    "add_device": 34,
    "remove_device": 11,
    "say": 26,
    "ask_by_line": 3,
    "add_object": 6,
    "remove_object": 4,
    "add_ring": 3,
    "remove_ring": 3,
    "read_ring": 2,
    "write_ring": 2,
    "print_bytes": 2,
    "tend_timer": 2,
    "tend_line": 3,
    "set_property": 8,
    "get_property": 4,
    "list_object": 2,
    "sever": 2,
    "hold": 3,
    "release": 2,
    "reset": 1,
    "wake": 1,
    "ask_again": 1,
    "pause": 1,
    "pass_time": 2,
    "write_clock": 2,
    "change_sessions": 2,
    "do_odd": 1,
}

# what begins a session, and which acts are more often done in it
FLAVOURS = [
    (None, {}),
    (None, {"add_object": 14, "add_device": 40}),
    ("open_ports", {"add_ring": 7, "remove_ring": 5, "read_ring": 8, "write_ring": 6, "print_bytes": 10}),
    ("start_timers", {"write_clock": 24, "pass_time": 16, "tend_timer": 24, "remove_device": 4}),
    (None, {"change_sessions": 20, "do_odd": 10}),
    ("hang_links", {"set_property": 25, "sever": 6, "remove_device": 14}),
    ("hang_links", {"hold": 8, "sever": 5, "say": 34}),
    (None, {"ask_again": 8, "remove_device": 20}),
    ("stack_bridges", {"remove_device": 6}),
    ("fill_notices", {"remove_device": 14, "reset": 0.2}),
    ("fill_memory", {"add_object": 14, "add_device": 40, "remove_device": 16}),
    ("pile_holds", {"hold": 18, "release": 8}),
    ("raise_lines", {"tend_line": 40, "pass_time": 8, "remove_device": 6, "hold": 5, "release": 5}),
]


def loaded(name):
    """A program of tools/ as a module."""
    loader = importlib.machinery.SourceFileLoader(name, str(TOP / "tools" / name))
    module = importlib.util.module_from_spec(importlib.util.spec_from_loader(name, loader))
    loader.exec_module(module)
    return module


QREC = loaded("qrec")


class Maker:
    """Makes a session; a plain machine goes along, which tells what there is by now."""

    def __init__(self, seed):
        self.draw = random.Random(seed)
        self.machine = plain_machine.Machine()
        self.lines = []
        self.device_ids = self.draw.choice(DEVICE_IDS)
        self.object_ids = self.draw.choice(OBJECT_IDS)

    @property
    def board(self):
        """The board by now."""
        return self.machine.board

    def chance(self, share):
        """Whether something is done that is done in this share of cases."""
        return self.draw.random() < share

    def input(self, line):
        """Puts an input after the others, unless the run has ended."""
        if not self.machine.has_ended:
            self.lines.append(line)
            self.machine.input(line)

    def sessions(self, has_negotiated=True):
        """The open sessions that have negotiated, or have not."""
        return sorted(it for it, is_done in self.machine.negotiated.items() if is_done == has_negotiated)

    def command(self, name, arguments=None, session=None):
        """Sends a command, on any session that has negotiated if none is named."""
        if session is None:
            session = self.any_session()
        message = {"execute": name}
        if arguments is not None:
            message["arguments"] = arguments
        if self.chance(0.1):
            message["id"] = self.draw.choice([1, "x", {"b": [1], "a": None}])
        self.input(f"{session}-> {json.dumps(message)}")

    def any_session(self):
        """A session that has negotiated; one is opened if there is none."""
        if self.sessions():
            return self.draw.choice(self.sessions())
        return self.negotiate(next(it for it in range(16) if it not in self.machine.negotiated))

    def negotiate(self, session):
        """Opens a session, and negotiates."""
        self.input(f"open {session}")
        self.command("qmp_capabilities", session=session)
        return session

    # names for what there is

    def reached(self):
        """The births of all that can be reached, each with a path: of children if some such path leads there."""
        paths = {plain_machine.ROOT: ""}
        for kinds in [(plain_machine.Kind.CHILD,), plain_machine.LEADING]:
            waiting = list(paths)
            while waiting:
                birth = waiting.pop(0)
                for slot in self.board.objects[birth].slots:
                    if slot.kind in kinds and slot.target is not None and slot.target not in paths:
                        paths[slot.target] = f"{paths[birth]}/{slot.name}"
                        waiting.append(slot.target)
        return {birth: path or "/" for birth, path in paths.items()}

    def path(self, type_name="object"):
        """A path, mostly to an object of a type."""
        if self.chance(0.05):
            return self.draw.choice(NOWHERE)
        if self.chance(0.05):
            return self.draw.choice(PARTIAL)
        wanted = "object" if self.chance(0.1) else type_name
        paths = [path for birth, path in self.reached().items() if self.board.objects[birth].is_a(wanted)]
        path = self.draw.choice(paths or NOWHERE)
        parts = [it for it in path.split("/") if it]
        if parts and self.chance(0.15):
            parts.append(self.draw.choice(["peer", "clk", "parent_bus", "next", "source", "bus.0", "memdev", "watch"]))
            path = "/" + "/".join(parts)
        if parts and self.chance(0.25):
            return "/".join(parts[-self.draw.randint(1, len(parts)) :])
        return "//" + "//".join(parts) + "/" if self.chance(0.04) else path

    def devices(self):
        """The devices that stand, by their births."""
        return [it for it in self.board.objects.values() if it.is_a("device") and it.value("realized")]

    def address(self):
        """An address, mostly of a device."""
        devices = self.devices()
        if devices and self.chance(0.85):
            return self.board.address(self.draw.choice(devices))
        return self.draw.choice(ADDRESSES)

    def value(self, type_name):
        """The target of a link, mostly, or something else."""
        if self.chance(0.07):
            return self.draw.choice(ODD_VALUES + ODD_TEXTS)
        return "" if self.chance(0.15) else self.path(type_name)

    # acts

    def add_device(self):
        """Adds a device."""
        driver = self.draw.choice(NO_DRIVERS if self.chance(0.03) else DRIVERS)
        arguments = {"driver": driver}
        if self.chance(0.8):
            used = {it.device_id for it in self.board.objects.values()}
            free = [it for it in self.device_ids if it not in used]
            arguments["id"] = self.draw.choice(free if free and self.chance(0.6) else self.device_ids)
        elif self.chance(0.1):
            arguments["id"] = self.draw.choice(BAD_IDS)
        if self.chance(0.45):
            wanted = "mem-bus" if driver == "mem-dimm" else "slot-bus"
            arguments["bus"] = self.path("bus" if self.chance(0.1) else wanted)
        arguments |= self.properties(driver)
        names = list(arguments)
        self.draw.shuffle(names)
        self.command("device_add", {it: arguments[it] for it in names})

    def properties(self, driver):
        """Properties for a device that is added."""
        given = {}
        if self.chance(0.35):
            given["slot"] = self.draw.choice([0, 0, 1, 1, 2, 2, 3, 4, 5, 6, 7, 8, 255, 256, -1, "0", True])
        if self.chance(0.3):
            given["peer"] = self.value("device")
        if self.chance(0.2):
            given["watch"] = self.value("device")
        if self.chance(0.6 if driver == "slot-uart" else 0.02):
            given["chardev"] = self.draw.choice([it.name for it in self.board.rings] + ["", "zz"])
        if self.chance(0.93 if driver == "mem-dimm" else 0.02):
            given["memdev"] = self.value("memory-backend") if self.chance(0.3) else self.path("memory-backend")
        if self.chance(0.35 if driver == "mem-dimm" else 0.02):
            start, end = plain_machine.WINDOW_START, plain_machine.WINDOW_END
            near = start + plain_machine.PAGE * self.draw.randint(0, 300)
            others = [start, start + 2**20, end - 4096, end, start - 4096, 0, 1, "x"]
            given["addr"] = self.draw.choice([near, near] + others)
        if self.chance(0.05):
            given[self.draw.choice(ODD_NAMES + ODD_TEXTS)] = self.draw.choice(ODD_VALUES)
        return given

    def remove_device(self):
        """Asks for the removal of a device."""
        ids = [it.device_id for it in self.devices() if it.device_id]
        name = self.draw.choice(ids) if ids and self.chance(0.5) else self.path("device")
        self.command("device_del", {"id": self.draw.choice(self.device_ids) if self.chance(0.1) else name})

    def ask_by_line(self):
        """Asks by a line of the text monitor."""
        word = self.draw.choice(["device_add", "device_add", "device_del", "info qom-tree", "info qtree", "system_reset", ""])
        if word == "device_add":
            options = [f"{name}={value}" for name, value in self.properties("slot-bridge").items()]
            options.append(f"id={self.draw.choice(self.device_ids)}")
            word = ",".join([f"device_add {self.draw.choice(DRIVERS)}", *options])
        elif word == "device_del":
            word += f" {self.draw.choice(self.device_ids)}"
        self.command("human-monitor-command", {"command-line": word + (" " if self.chance(0.02) else "")})

    def say(self):
        """Has the guest say a line, by itself or by a command."""
        line = self.guest_line()
        if self.chance(0.8):
            self.input(f"g-> {line}")
        else:
            self.command("x-guest", {"line": line})

    def guest_line(self):
        """A line of the guest."""
        if self.board.pending and self.chance(0.3):
            waiting = self.board.objects[self.draw.choice(list(self.board.pending))]
            return f"{self.draw.choice(['ack', 'ack', 'nack'])} {self.board.address(waiting)}"
        word = self.draw.choices(
            ["poll", "irq", "ack", "nack", "read", "write", "peek", "poke", "reset", ""], [22, 8, 8, 4, 15, 22, 8, 8, 3, 4]
        )[0]
        if word in ("poll", "irq", "reset"):
            return word
        if word in ("ack", "nack"):
            return f"{word} {self.address()}"
        if word == "read":
            return f"read {self.address()} {self.draw.choice([0, 0, 1, 2, 3, 4, 5, 6, 255])}"
        if word == "write":
            return f"write {self.address()} {self.draw.choice([0, 0, 0, 1, 2, 3, 4, 6])} {self.draw.choice(WRITTEN)}"
        if word == "peek":
            return f"peek 0x{self.hardware_address():x}"
        if word == "poke":
            return f"poke 0x{self.hardware_address():X} {self.draw.choice(WRITTEN)}"
        return self.draw.choice(NO_LINES)

    def hardware_address(self):
        """A hardware address, mostly of a register of a device."""
        devices = self.devices()
        if devices and self.chance(0.8):
            begin = self.board.hardware_address(self.draw.choice(devices))
            return begin + self.draw.choice([0, 0, 4, 8, 12, 16, 20, 2, 1020, 1024, 4092, 4096])
        return self.draw.choice(HARDWARE_ADDRESSES)

    def add_object(self):
        """Adds a user's object."""
        types = ["memory-backend-ram", "tag"] * 6 + ["memory-backend", "object", "slot-uart", "nope"]
        arguments = {"qom-type": self.draw.choice(types)}
        arguments["id"] = self.draw.choice(BAD_IDS if self.chance(0.05) else self.object_ids)
        if arguments["qom-type"] == "memory-backend-ram" and self.chance(0.7):
            arguments["size"] = self.draw.choice(SIZES)
        if arguments["qom-type"] == "tag" and self.chance(0.6):
            arguments["next"] = self.value("object")
        if arguments["qom-type"] == "tag" and self.chance(0.3):
            arguments[self.draw.choice(["seen", "text", "number", "flag", "hue", "type"])] = self.value("object")
        self.command("object-add", arguments)

    def remove_object(self):
        """Removes a user's object."""
        self.command("object-del", {"id": self.draw.choice(self.object_ids + ["type"])})

    def add_ring(self):
        """Makes a ring."""
        backend = {"type": "file" if self.chance(0.03) else "ringbuf", "data": self.draw.choice(RING_SIZES)}
        self.command("chardev-add", {"id": self.draw.choice(RING_IDS * 4 + BAD_IDS), "backend": backend})

    def remove_ring(self):
        """Removes a ring."""
        self.command("chardev-remove", {"id": self.draw.choice(RING_IDS + ["zz"])})

    def ring_format(self):
        """The format of bytes of a ring, which may be left out."""
        return {"format": self.draw.choice(["base64", "utf8"])} if self.chance(0.6) else {}

    def read_ring(self):
        """Takes bytes out of a ring."""
        size = self.draw.choice([0, 1, 2, 16, 1000])
        self.command("ringbuf-read", {"device": self.draw.choice(RING_IDS), "size": size} | self.ring_format())

    def write_ring(self):
        """Puts bytes into a ring."""
        data = self.draw.choice(["A", "QUI=", "abc", "zz/", "/w==", "/x==", "QQ==\n", "\u00e9"])
        self.command("ringbuf-write", {"device": self.draw.choice(RING_IDS), "data": data} | self.ring_format())

    def print_bytes(self):
        """Has a UART print bytes into its ring, and mostly reads them."""
        ports = [it for it in self.devices() if it.type == "slot-uart" and it.value("chardev")]
        if ports:
            port = self.draw.choice(ports)
            for _ in range(self.draw.randint(1, 4)):
                self.input(f"g-> write {self.board.address(port)} 0 0x{self.draw.choice(PRINTED):x}")
            if self.chance(0.8):
                size = self.draw.randint(0, 4)
                self.command("ringbuf-read", {"device": port.value("chardev"), "size": size} | self.ring_format())

    def tend_timer(self):
        """Has the guest write a register of a timer, and read the count, with time between."""
        timers = [it for it in self.devices() if it.type == "slot-timer"]
        if timers:
            address = self.board.address(self.draw.choice(timers))
            self.input(f"g-> write {address} {self.draw.choice([0, 1, 1])} {self.draw.choice(WRITTEN)}")
            self.input(f"step {self.draw.choice(SPANS)}")
            self.input(f"g-> read {address} 2")

    def tend_line(self):
        """Has the guest write what an interrupt line hangs on, and read the lines."""
        acts = {"slot-uart": self.ask_by_uart, "slot-timer": self.run_out, "slot-bridge": self.mask_bridge}
        devices = [it for it in self.devices() if it.type in acts]
        if devices:
            device = self.draw.choice(devices)
            acts[device.type](device)
            self.read_lines()

    def ask_by_uart(self, uart):
        """Has the guest write SCRATCH of a UART, mostly so that its line is high where it is ready."""
        self.input(f"g-> write {self.board.address(uart)} 3 {self.draw.choice(WRITTEN)}")

    def run_out(self, timer):
        """Has the guest start a timer, and time pass until it has counted down."""
        address, reload = self.board.address(timer), self.draw.choice(SHORT_RELOADS)
        self.input(f"g-> write {address} 1 0x{reload:x}")
        self.input(f"g-> write {address} 0 0x1")
        span = -(-reload * self.board.device_period(timer) // plain_machine.PERIOD_UNIT)
        if 0 < span < MOST_AWAITED:
            self.input(f"step {span}")

    def mask_bridge(self, bridge):
        """Has the guest write CTRL of a bridge, mostly so that it hides no line."""
        self.input(f"g-> write {self.board.address(bridge)} 0 {self.draw.choice(['0x0', '0x0', '0x1'])}")

    def read_lines(self):
        """Has the guest read the interrupt lines, by itself or by a command."""
        if self.chance(0.8):
            self.input("g-> irq")
        else:
            self.command("x-guest", {"line": "irq"})

    def set_property(self):
        """Writes a property of a device or a tag."""
        is_device = self.chance(0.6)
        links = ["peer", "peer", "watch"] if is_device else ["next", "next", "seen", "text", "number", "flag"]
        others = ["slot", "memdev", "realized", "parent_bus", "chardev", "type", "child[0]", "nothing"]
        value = self.value("device" if is_device else "object")
        path = self.path("device" if is_device else "tag")
        self.command("qom-set", {"path": path, "property": self.draw.choice(links * 4 + others), "value": value})

    def get_property(self):
        """Reads a property."""
        path, name = self.path(), "nothing"
        birth = next((birth for birth, it in self.reached().items() if it == path), None)
        if birth is not None and self.chance(0.9):
            name = self.draw.choice(self.board.objects[birth].slots).name
        self.command("qom-get", {"path": path, "property": name})

    def list_object(self):
        """Lists the properties of an object."""
        self.command("qom-list", {"path": self.path()})

    def sever(self):
        """Empties the strong links of an object, mostly of a detached one."""
        detached = [it for it in self.board.objects if not self.board.is_attached(it)]
        birth = self.draw.choice(detached) if detached and self.chance(0.7) else self.draw.randint(0, self.board.births)
        self.command("x-sever", {"birth": birth})
        self.command("x-query-detached")

    def hold(self):
        """Holds an object in reset."""
        arguments = {"path": self.path(self.draw.choice(["device", "bus", "resettable"]))}
        if self.chance(0.5):
            arguments["type"] = self.draw.choice(RESET_TYPES)
        self.command("x-reset-hold", arguments)

    def release(self):
        """Takes a hold away."""
        path = self.path("resettable")
        if self.board.holds and self.chance(0.8):
            path = self.board.canonical_path(self.draw.choice(self.board.holds))
        self.command("x-reset-release", {"path": path})

    def reset(self):
        """Resets the machine."""
        self.command("system_reset")

    def wake(self):
        """Wakes the machine up."""
        self.command("x-wakeup")

    def ask_again(self):
        """Asks again for a removal that is pending, mostly after the time that has to pass."""
        if self.board.pending:
            birth, asked = self.draw.choice(list(self.board.pending.items()))
            left = asked + plain_machine.ASK_AGAIN - self.board.now
            if left > 0 and self.chance(0.8):
                self.input(f"step {max(1, left - self.draw.choice([0, 0, 0, 1]))}")
            self.command("device_del", {"id": self.board.canonical_path(birth)})

    def pause(self):
        """Stops the machine, and has it go on, mostly after something else."""
        self.command("stop")
        if self.chance(0.7):
            self.say()
        if self.chance(0.2):
            self.read_lines()
        if self.chance(0.5):
            self.pass_time()
        self.command("query-status")
        self.command("cont")

    def pass_time(self):
        """Lets time pass, or the moment of the inputs change."""
        span = self.draw.choice(SPANS)
        if self.chance(0.4):
            self.input(f"step {span}")
        elif self.chance(0.8):
            self.command("x-step", {"ns": span})
        else:
            self.input(f"@{self.draw.randint(0, 5)}.{self.draw.choice([0, 1, 999_999]):06} g-> poll")

    def write_clock(self):
        """Writes a number of a clock."""
        path = "/machine/sysclk" if self.chance(0.5) else self.path("clock")
        name = self.draw.choice(["period", "mul", "div"])
        if self.chance(0.2):
            path, name = self.path("device"), "clock-period"
        self.command("qom-set", {"path": path, "property": name, "value": self.draw.choice(CLOCK_NUMBERS)})

    def change_sessions(self):
        """Opens a session, has one negotiate, or shuts one."""
        session = self.draw.randint(0, 4)
        if session not in self.machine.negotiated:
            self.input(f"open {session}")
        elif session in self.sessions(has_negotiated=False):
            offers = [None, {}, {"enable": []}, {"enable": ["oob"]}, {"x": 1}]
            name = "stop" if self.chance(0.2) else "qmp_capabilities"
            self.command(name, self.draw.choice(offers), session=session)
        elif self.chance(0.5):
            self.input(f"shut {session}")

    def do_odd(self):
        """Sends a command that is refused by its form."""
        if self.chance(0.2):
            self.input(f"{self.any_session()}-> {json.dumps(self.draw.choice(ODD_MESSAGES))}")
        else:
            self.command(*self.draw.choice(ODD_COMMANDS))

    # beginnings

    def hang_links(self):
        """Adds devices that links go on to hold when they are removed."""
        for name, type_name in [("t0", "tag"), ("t1", "tag"), ("m0", "memory-backend-ram")]:
            self.command("object-add", {"qom-type": type_name, "id": name})
        self.command("chardev-add", {"id": "r0", "backend": {"type": "ringbuf", "data": {"size": 2}}})
        names = self.device_ids[:5]
        for name, driver in zip(names, ["slot-bridge", "slot-uart", "slot-timer", "slot-bridge", "mem-dimm"]):
            special = {"slot-uart": {"chardev": "r0"}, "mem-dimm": {"memdev": "/objects/m0"}}.get(driver, {})
            if driver != "mem-dimm" and name != names[0] and self.chance(0.6):
                special["bus"] = f"/machine/peripheral/{names[0]}/bus.0"
            self.command("device_add", {"driver": driver, "id": name} | special)
        for _ in range(self.draw.randint(2, 8)):
            device = f"/machine/peripheral/{self.draw.choice(names)}"
            holders = [("/objects/t0", "next"), ("/objects/t1", "seen"), (device, "peer"), (device, "watch")]
            path, link = self.draw.choice(holders)
            target = f"/machine/peripheral/{self.draw.choice(names)}{self.draw.choice(['', '', '/clk', '/bus.0'])}"
            self.command("qom-set", {"path": path, "property": link, "value": target})
        for name in self.draw.sample(names, 3):
            self.command("device_del", {"id": name})
        self.input("g-> reset")

    def open_ports(self):
        """Adds rings, and UARTs that have them."""
        for name in RING_IDS[:3]:
            data = {"size": self.draw.choice([1, 4, 16])}
            self.command("chardev-add", {"id": name, "backend": {"type": "ringbuf", "data": data}})
            self.command("device_add", {"driver": "slot-uart", "chardev": name})

    def start_timers(self):
        """Adds timers behind bridges, which run."""
        bus = "/machine/root.0"
        for count in range(3):
            self.command("device_add", {"driver": "slot-bridge", "id": f"near{count}", "bus": bus, "slot": 0})
            bus = f"/machine/peripheral/near{count}/bus.0"
            self.command("device_add", {"driver": "slot-timer", "bus": bus, "slot": 1})
            address = "0." * (count + 1) + "1"
            self.input(f"g-> write {address} 1 {self.draw.choice(['0x63', '0xFFFF', '0x0'])}")
            self.input(f"g-> write {address} 0 0x1")
        self.command("x-step", {"ns": self.draw.choice(SPANS)})

    def raise_lines(self):
        """Adds UARTs and timers on the root bus and behind bridges, with lines that are high."""
        self.command("device_add", {"driver": "slot-uart", "id": "out"})
        bus = "/machine/root.0"
        for count in range(self.draw.randint(1, 4)):
            self.command("device_add", {"driver": "slot-bridge", "id": f"mask{count}", "bus": bus})
            bus = f"/machine/peripheral/mask{count}/bus.0"
            for driver in ["slot-uart", "slot-timer"]:
                self.command("device_add", {"driver": driver, "bus": bus})
        for _ in range(self.draw.randint(3, 8)):
            self.tend_line()

    def stack_bridges(self):
        """Adds bridges one below the other, as deep as they may be."""
        bus = "/machine/root.0"
        for depth in range(self.draw.choice([7, 8, 8, 9])):
            self.command("device_add", {"driver": "slot-bridge", "id": f"deep{depth}", "bus": bus})
            bus = f"/machine/peripheral/deep{depth}/bus.0"
        for driver in DRIVERS[:3]:
            bus = f"/machine/peripheral/deep{self.draw.randint(5, 7)}/bus.0"
            self.command("device_add", {"driver": driver, "bus": bus})

    def fill_notices(self):
        """Adds so many devices, and asks for removals, that about as many notices wait as may."""
        bridges = self.draw.randint(6, 8)
        for count in range(bridges):
            self.command("device_add", {"driver": "slot-bridge", "id": f"wide{count}"})
        if self.chance(0.4):
            self.command("x-reset-hold", {"path": self.draw.choice(["/machine", "wide1/bus.0", "wide2"])})
        for count in range(40):
            bus = f"/machine/peripheral/wide{count % bridges}/bus.0"
            self.command("device_add", {"driver": self.draw.choice(DRIVERS[:3]), "bus": bus})
        more = self.draw.randint(62, 64) - len(self.board.notices)
        for device in self.draw.sample(self.devices(), min(more, len(self.devices()))):
            self.command("device_del", {"id": self.board.canonical_path(device.birth)})
        for _ in range(6):
            self.add_device()
            self.remove_device()

    def fill_memory(self):
        """Adds memory backends, and DIMMs of them."""
        self.object_ids = [f"m{count}" for count in range(8)]
        for name in self.object_ids:
            size = self.draw.choice(SIZES + [2**33, 2**34, 2**36 - 8192])
            self.command("object-add", {"qom-type": "memory-backend-ram", "id": name, "size": size})
        for name in self.object_ids[:5]:
            self.command("device_add", {"driver": "mem-dimm", "memdev": f"/objects/{name}"})

    def pile_holds(self):
        """Holds a bridge about as often as may be."""
        self.command("device_add", {"driver": "slot-bridge", "id": self.device_ids[0]})
        path = self.draw.choice(["/machine", "/machine/root.0", f"/machine/peripheral/{self.device_ids[0]}"])
        for _ in range(self.draw.randint(47, 51)):
            self.command("x-reset-hold", {"path": path})

    # ends

    def read_all(self):
        """Reads all that can be read."""
        session = self.any_session()
        for birth, path in self.reached().items():
            self.command("qom-list", {"path": path}, session)
            for slot in self.board.objects[birth].slots:
                self.command("qom-get", {"path": path, "property": slot.name}, session)
        self.command("x-query-detached", session=session)
        self.command("x-memmap", session=session)
        self.command("x-describe", session=session)
        for ring in self.board.rings:
            self.command("ringbuf-read", {"device": ring.name, "size": 4096, "format": "base64"}, session)
        for device in self.devices():
            for register in range(7):
                self.input(f"g-> read {self.board.address(device)} {register}")
        self.input("g-> irq")
        kept = max(0, len(self.board.notes) - plain_machine.MOST_NOTES_KEPT)
        for first in range(kept, len(self.board.notes) + 1, plain_machine.MOST_NOTES_TOLD):
            self.command("x-query-notes", {"from": first}, session)

    def take_away(self):
        """Takes away all that was added."""
        while self.board.notices:
            self.input("g-> poll")
        for device in self.draw.sample(self.devices(), len(self.devices())):
            is_there = device.birth in self.board.objects and self.board.is_attached(device.birth)
            if is_there:
                self.command("device_del", {"id": self.board.canonical_path(device.birth)})
                self.input("g-> poll")
            if device.birth in self.board.pending and self.chance(0.5):
                self.input(f"g-> ack {self.board.address(device)}")
        self.input("g-> reset")
        names = [it.name for it in self.board.objects[plain_machine.USERS_OBJECTS].slots]
        for name in names:
            self.command("object-del", {"id": name})
        for birth in [it for it in self.board.objects if not self.board.is_attached(it)]:
            self.command("x-sever", {"birth": birth})
        for ring in list(self.board.rings):
            self.command("chardev-remove", {"id": ring.name})

    def end(self):
        """Ends the run, or not."""
        last = self.draw.choice(["g-> shutdown", "", "quit", "x-guest"])
        if last == "quit":
            self.command("quit")
        elif last == "x-guest":
            self.command("x-guest", {"line": "shutdown"})
        elif last:
            self.input(last)

    def make(self):
        """Makes the whole session."""
        self.negotiate(0)
        beginning, more_often = self.draw.choice(FLAVOURS)
        if beginning:
            getattr(self, beginning)()
        acts = USUAL_ACTS | more_often
        for act in self.draw.choices(list(acts), list(acts.values()), k=80):
            getattr(self, act)()
        self.read_all()
        if self.chance(0.5):
            self.take_away()
            self.read_all()
        self.end()
