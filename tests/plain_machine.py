"""The object-tree machine as plainly as it can be written, for tests alone.

References, owners, reset counts, periods of clocks and claims are counted afresh each time they are asked for, over all
objects; nothing is kept beside the tree that can be read off it. What is meant by each command, code, note and register
stands in docs/PROFILE.md, and the words are those of the glossary in docs/ARCHITECTURE.md.

`Machine.input` takes an input of a session, spelled as tools/qrec has it, and puts what is sent for it at the end of
the transcript. Messages come whole here, as one JSON object each, and lines of the guest too: there is no framing,
and memory never runs out.
"""

import base64
import binascii
import dataclasses
import enum
import functools
import json
import re

LAST_U64 = 2**64 - 1
LAST_U32 = 2**32 - 1
LAST_TIME = 2**63 - 1
PAGE = 4096
WINDOW_START = 2**32
WINDOW_END = 2**32 + 2**36
BOOT_SIZE = 2**16  # of the region at the hardware address 0
LOW_SIZE = 2**31  # of the low addresses, at which the window shows too
SLOTS_AT = 2**44  # where the slots of the root bus begin, and the size of one
DEVICE_SIZE = 2**12  # of what shows of a device in a slot
SYSTEM_PERIOD = 42_949_672_960
PERIOD_UNIT = 2**32
MOST_OBJECTS = 65_536
MOST_NOTICES = 64
MOST_NOTES_KEPT = 1_048_576
MOST_NOTES_TOLD = 256
ASK_AGAIN = 5_000_000_000  # nanoseconds after which a removal may be asked again
MOST_HOLDS_ABOVE = 49
MOST_BRIDGES_DEEP = 8
MOST_SLOTS = 8
MOST_RING = 1_048_576
USUAL_RING = 65_536
MOST_ID = 128
MOST_GUEST_LINE = 256
MOST_ADDRESS = 9

# the births of the objects of the opening tree
ROOT, MACHINE, PERIPHERAL, ANONYMOUS, SYSTEM_CLOCK, ROOT_BUS, MEMORY_BUS, USERS_OBJECTS = range(1, 9)


class Code(enum.Enum):
    """What refuses a command: its number and what is said of it."""

    NOT_A_COMMAND = 6, "not a command"
    NEGOTIATION_EXPECTED = 8, "negotiation expected"
    NEGOTIATION_DONE = 9, "negotiation already done"
    UNKNOWN_COMMAND = 10, "unknown command"
    NOT_OFFERED = 11, "capability not offered"
    ARGUMENT_MISSING = 12, "argument missing"
    ARGUMENT_UNEXPECTED = 13, "argument unexpected"
    ARGUMENT_TYPE = 14, "argument of wrong type"
    PATH_NOT_FOUND = 15, "path not found"
    PATH_AMBIGUOUS = 16, "path ambiguous"
    PROPERTY_NOT_FOUND = 17, "property not found"
    NOT_WRITABLE = 18, "property not writable"
    VALUE_DOES_NOT_FIT = 19, "value does not fit"
    TYPE_UNKNOWN = 20, "type unknown"
    TYPE_ABSTRACT = 21, "type abstract"
    NOT_CREATABLE = 22, "type not creatable here"
    ID_MALFORMED = 23, "id malformed"
    ID_TAKEN = 24, "id taken"
    BUS_NOT_FOUND = 25, "bus not found"
    BUS_KIND = 26, "bus of another kind"
    BUS_NOT_PLUGGABLE = 27, "bus not pluggable"
    SLOT_RANGE = 28, "slot out of range"
    SLOT_TAKEN = 29, "slot taken"
    BUS_FULL = 30, "bus full"
    LINK_TYPE = 31, "link target of wrong type"
    IN_USE = 32, "object in use"
    DEVICE_NOT_FOUND = 33, "device not found"
    REMOVAL_PENDING = 34, "removal pending"
    NOT_REMOVABLE = 35, "device not removable"
    RING_NOT_FOUND = 36, "ring not found"
    RING_CLAIMED = 37, "ring claimed"
    BACKEND_MISSING = 38, "memory backend missing"
    BACKEND_CLAIMED = 39, "memory backend claimed"
    RANGE_TAKEN = 40, "memory range taken or outside"
    NO_GAP = 41, "no memory gap"
    TOO_DEEP = 42, "bridge too deep"
    TOO_MANY_OBJECTS = 43, "too many objects"
    NOTICES_FULL = 44, "notices full"
    HAS_SOURCE = 45, "clock has a source"
    DIVIDER_ZERO = 46, "divider is 0"
    PERIOD_OVERFLOW = 47, "period overflow"
    RESET_DEPTH = 48, "reset depth"
    NO_SUCH_HOLD = 49, "no such hold"
    NOT_DETACHED = 50, "object not detached"
    RING_SIZE = 51, "ring size not a power of two"
    NOT_ASCII = 52, "bytes not ASCII"
    TIME_TOO_LARGE = 53, "virtual time too large"
    LINE_UNREADABLE = 54, "guest line unreadable"


COMMAND_NOT_FOUND = {Code.NEGOTIATION_EXPECTED, Code.NEGOTIATION_DONE, Code.UNKNOWN_COMMAND}
NOT_FOUND = {Code.PATH_NOT_FOUND, Code.DEVICE_NOT_FOUND}


class Refused(Exception):
    """A command is refused with a code."""

    def __init__(self, code):
        super().__init__(code)
        self.code = code


# --- types and their properties


class Kind(enum.Enum):
    """What a slot has."""

    PLAIN = enum.auto()
    CHILD = enum.auto()
    STRONG = enum.auto()
    WEAK = enum.auto()
    ALIAS = enum.auto()


class Access(enum.Enum):
    """When users give a property its value."""

    NEVER = enum.auto()
    ADDING = enum.auto()
    SETTING = enum.auto()
    ALWAYS = enum.auto()


HOLDING = (Kind.CHILD, Kind.STRONG)
LEADING = (Kind.CHILD, Kind.STRONG, Kind.WEAK)
GIVEN_BY_ADDING = (Access.ADDING, Access.ALWAYS)
GIVEN_BY_SETTING = (Access.SETTING, Access.ALWAYS)


def is_whole(value):
    """Whether a value is a number, which a truth value is not."""
    return isinstance(value, int) and not isinstance(value, bool)


@dataclasses.dataclass(frozen=True)
class Whole:
    """The type of numbers from `least` to `most` that `step` divides."""

    name: str
    least: int
    most: int
    step: int = 1

    def fits(self, value):
        """Whether a value is of this type."""
        return is_whole(value) and self.least <= value <= self.most and value % self.step == 0


@dataclasses.dataclass(frozen=True)
class Simple:
    """The type of texts, or of truth values."""

    name: str
    python_type: type

    def fits(self, value):
        """Whether a value is of this type."""
        return isinstance(value, self.python_type)


TEXT = Simple("string", str)
TRUTH = Simple("bool", bool)
BYTE = Whole("uint64", 0, 255)
NUMBER = Whole("uint64", 0, LAST_U64)
FACTOR = Whole("uint64", 0, LAST_U32)
SIGNED = Whole("int64", -(2**63), 2**63 - 1)
PAGES = Whole("uint64", 0, LAST_U64, PAGE)
MEMORY = Whole("uint64", PAGE, 2**40, PAGE)


@dataclasses.dataclass(frozen=True)
class Property:
    """A property of a type: of a plain one `type` is that of its value, of a child or link that of its target."""

    name: str
    kind: Kind
    access: Access
    type: object
    default: object = None


@dataclasses.dataclass(frozen=True)
class ObjectType:
    """A type of objects."""

    parent: str | None
    is_abstract: bool = False
    interfaces: tuple = ()
    properties: tuple = ()


TYPES = {
    "object": ObjectType(None, True, (), (Property("type", Kind.PLAIN, Access.NEVER, TEXT),)),
    "container": ObjectType("object"),
    "machine": ObjectType("object", False, ("hotplug-handler", "resettable")),
    "device": ObjectType("object", True, ("resettable",), (
        Property("realized", Kind.PLAIN, Access.NEVER, TRUTH, False),
        Property("parent_bus", Kind.STRONG, Access.NEVER, "bus"),
        Property("slot", Kind.PLAIN, Access.ADDING, BYTE),
        Property("peer", Kind.STRONG, Access.ALWAYS, "device"),
        Property("watch", Kind.WEAK, Access.ALWAYS, "device"),
    )),
    "slot-device": ObjectType("device", True, (), (
        Property("clk", Kind.CHILD, Access.NEVER, "clock"),
        Property("clock-period", Kind.ALIAS, Access.SETTING, ("clk", "period")),
    )),
    "slot-uart": ObjectType("slot-device", False, (), (Property("chardev", Kind.PLAIN, Access.ADDING, TEXT, ""),)),
    "slot-timer": ObjectType("slot-device"),
    "slot-bridge": ObjectType("slot-device", False, ("hotplug-handler",), (
        Property("bus.0", Kind.CHILD, Access.NEVER, "slot-bus"),
    )),
    "mem-dimm": ObjectType("device", False, (), (
        Property("memdev", Kind.STRONG, Access.ADDING, "memory-backend"),
        Property("addr", Kind.PLAIN, Access.ADDING, PAGES),
    )),
    "bus": ObjectType("object", True, ("resettable",)),
    "slot-bus": ObjectType("bus"),
    "mem-bus": ObjectType("bus"),
    "clock": ObjectType("object", False, (), (
        Property("period", Kind.PLAIN, Access.SETTING, NUMBER, 0),
        Property("mul", Kind.PLAIN, Access.SETTING, FACTOR, 1),
        Property("div", Kind.PLAIN, Access.SETTING, FACTOR, 1),
        Property("source", Kind.WEAK, Access.NEVER, "clock"),
    )),
    "memory-backend": ObjectType("object", True, ("user-creatable",), (
        Property("size", Kind.PLAIN, Access.ADDING, MEMORY, 1_048_576),
    )),
    "memory-backend-ram": ObjectType("memory-backend"),
    "tag": ObjectType("object", False, ("user-creatable",), (
        Property("text", Kind.PLAIN, Access.ALWAYS, TEXT, ""),
        Property("number", Kind.PLAIN, Access.ALWAYS, SIGNED, 0),
        Property("flag", Kind.PLAIN, Access.ALWAYS, TRUTH, False),
        Property("next", Kind.STRONG, Access.ALWAYS, "object"),
        Property("seen", Kind.WEAK, Access.ALWAYS, "object"),
    )),
}


@functools.cache
def lineage(type_name):
    """A type and its ancestors, itself first."""
    names = []
    while type_name is not None:
        names.append(type_name)
        type_name = TYPES[type_name].parent
    return names


@functools.cache
def is_a(type_name, wanted):
    """Whether a type is another, descends from it, or has it as an interface."""
    return any(name == wanted or wanted in TYPES[name].interfaces for name in lineage(type_name))


@functools.cache
def noted_types(type_name):
    """The types that have a note when an object ends, in this order; when it is made, in the reverse one."""
    return [name for name in lineage(type_name) if name not in ("object", "container")]


@functools.cache
def properties_of(type_name):
    """The properties of a type, those of its ancestors first."""
    return [it for name in reversed(lineage(type_name)) for it in TYPES[name].properties]


def is_id(text):
    """Whether a text may be an id."""
    return len(text) <= MOST_ID and re.fullmatch(r"[A-Za-z][A-Za-z0-9._-]*", text) is not None


# --- bodies of objects: their registers


class Body:
    """The body of an object, here of one without registers."""

    def __init__(self):
        self.holds = 0

    def act(self, name, now, period):
        """What an act does to the body; `period` is that of the device's clock."""
        if name == "enter":
            self.enter()
        elif name == "wake":
            self.wake()
        elif name == "hold":
            self.holds += 1

    def enter(self):
        """What the first phase of a cold reset does."""

    def wake(self):
        """What the first phase of a wakeup does."""
        self.enter()

    def registers(self, board, device):
        """The values of the registers as the guest reads them."""
        return []

    def write(self, board, device, register, value):
        """What the guest's write to a register does."""

    def is_high(self, board, device):
        """Whether the interrupt line of the device is high."""
        return False


class UartBody(Body):
    """The registers of a UART."""

    def __init__(self):
        super().__init__()
        self.is_ready = False
        self.enter()

    def enter(self):
        self.is_ready = False
        self.divisor = 1
        self.scratch = 0
        self.sent = 0

    def wake(self):
        kept = self.divisor
        self.enter()
        self.divisor = kept

    def act(self, name, now, period):
        super().act(name, now, period)
        if name == "exit":
            self.is_ready = True

    def registers(self, board, device):
        has_ring = device.value("chardev") != ""
        status = int(has_ring) + 2 * (board.device_period(device) != 0) + 4 * self.is_ready
        return [0, self.divisor, status, self.scratch, self.sent, self.holds]

    def write(self, board, device, register, value):
        if register == 0 and self.is_ready and device.value("chardev") != "":
            board.ring(device.value("chardev")).push(bytes([value & 255]))
            self.sent += 1
        elif register == 1:
            self.divisor = value
        elif register == 3:
            self.scratch = value

    def is_high(self, board, device):
        _, _, status, scratch, _, _ = self.registers(board, device)
        return status & 4 != 0 and scratch != 0


class TimerBody(Body):
    """The registers of a timer, with the segments of time that it ran: how long, and by which period."""

    def __init__(self):
        super().__init__()
        self.enter()

    def enter(self):
        self.is_enabled = False
        self.reload = LAST_U32
        self.segments = []
        self.started = None

    def wake(self):
        kept = self.reload
        self.enter()
        self.reload = kept

    def end_segment(self, now, period):
        """Ends the segment that runs, if one does."""
        if self.started is not None:
            self.segments.append((now - self.started, period))
        self.started = None

    def act(self, name, now, period):
        super().act(name, now, period)
        if not self.is_enabled:
            return
        if name == "pre":
            self.end_segment(now, period)
        elif name == "update":
            self.started = now
        elif name == "unrealize":
            self.end_segment(now, period)
            self.is_enabled = False

    def ticks(self, now, period):
        """How many ticks passed, each segment by itself."""
        segments = list(self.segments)
        if self.is_enabled and self.started is not None:
            segments.append((now - self.started, period))
        return sum(length * PERIOD_UNIT // it if it else 0 for length, it in segments)

    def registers(self, board, device):
        count = self.ticks(board.now, board.device_period(device))
        return [int(self.is_enabled), self.reload, self.reload - count % (self.reload + 1), self.holds]

    def write(self, board, device, register, value):
        if register == 0 and value & 1 and not self.is_enabled:
            self.is_enabled = True
            self.segments = []
            self.started = board.now
        elif register == 0 and not value & 1 and self.is_enabled:
            self.end_segment(board.now, board.device_period(device))
            self.is_enabled = False
        elif register == 1:
            self.reload = value
            self.segments = []
            if self.is_enabled:
                self.started = board.now

    def is_high(self, board, device):
        control, _, count, _ = self.registers(board, device)
        return control == 1 and count == 0


class BridgeBody(Body):
    """The registers of a bridge."""

    def __init__(self):
        super().__init__()
        self.enter()

    def enter(self):
        self.control = 0

    def registers(self, board, device):
        return [self.control, self.holds]

    def write(self, board, device, register, value):
        if register != 0:
            return
        before, self.control = self.control, value & 1
        if self.control and not before:
            board.reset(device.slot("bus.0").target)

    def is_high(self, board, device):
        control, _ = self.registers(board, device)
        return control == 0 and any(map(board.is_line_high, board.kids(device.slot("bus.0").target)))


class DimmBody(Body):
    """The registers of a DIMM, which tell its range of addresses."""

    def registers(self, board, device):
        address, size = board.range_of(device)
        return [address & LAST_U32, address >> 32, size & LAST_U32, size >> 32]


BODIES = {"slot-uart": UartBody, "slot-timer": TimerBody, "slot-bridge": BridgeBody, "mem-dimm": DimmBody}


# --- objects


@dataclasses.dataclass(eq=False)
class Slot:
    """A slot of an object: a plain one has a value, and a child or a link the birth of its target."""

    name: str
    kind: Kind
    type: object
    access: Access = Access.NEVER
    value: object = None
    target: int | None = None


class Object:
    """An object, with the slots of its type's properties."""

    def __init__(self, birth, type_name):
        self.birth = birth
        self.type = type_name
        self.device_id = None
        self.kept_path = None
        self.body = BODIES.get(type_name, Body)()
        self.slots = [Slot(it.name, it.kind, it.type, it.access, it.default) for it in properties_of(type_name)]
        self.slot("type").value = type_name

    def is_a(self, wanted):
        """Whether it is of a type."""
        return is_a(self.type, wanted)

    def slot(self, name):
        """The slot of a name, or None."""
        for slot in self.slots:
            if slot.name == name:
                return slot
        return None

    def value(self, name):
        """The value of a plain slot."""
        return self.slot(name).value

    def add_child(self, name, child):
        """Makes another object its child."""
        self.slots.append(Slot(name, Kind.CHILD, child.type, target=child.birth))

    def accept(self, values):
        """Takes values of properties, and targets of links, by their names."""
        for slot in self.slots:
            if slot.name in values:
                if slot.kind is Kind.PLAIN:
                    slot.value = values[slot.name]
                else:
                    slot.target = values[slot.name]


@dataclasses.dataclass
class Ring:
    """A ring of bytes, which forgets the oldest where it is full."""

    name: str
    size: int
    content: bytes = b""

    def push(self, data):
        """Takes bytes."""
        self.content = (self.content + data)[-self.size :]


class Tree:
    """The objects, with what holds them, their paths and their notes."""

    def __init__(self):
        self.objects = {}
        self.births = 0
        self.pins = [ROOT]
        self.notes = []
        self.events = []

    def note(self, act, birth, type_name=""):
        """Notes an act on an object."""
        self.notes.append(f"{act} {birth} {type_name}".rstrip())

    def tell(self, event, **data):
        """Has an event wait to be sent."""
        self.events.append((event, data))

    def place(self, birth, type_name):
        """An object with a birth that was given to it before."""
        self.objects[birth] = Object(birth, type_name)
        return self.objects[birth]

    def initialize(self, type_name):
        """Gives the next birth, and notes the initializers of a type."""
        self.births += 1
        for name in reversed(noted_types(type_name)):
            self.note("init", self.births, name)
        return self.births

    def note_end(self, birth, type_name):
        """Notes the end of an object."""
        for name in noted_types(type_name):
            self.note("final", birth, name)

    # what holds an object

    def references(self, birth):
        """How often an object is held."""
        slots = [slot for it in self.objects.values() for slot in it.slots]
        return self.pins.count(birth) + sum(slot.target == birth and slot.kind in HOLDING for slot in slots)

    def owner(self, birth):
        """The parent of an object and the slot there, or None."""
        for candidate in self.objects.values():
            for slot in candidate.slots:
                if slot.kind is Kind.CHILD and slot.target == birth:
                    return candidate, slot
        return None

    def parent(self, birth):
        """The parent of an object, or None."""
        found = self.owner(birth)
        return found[0] if found else None

    def is_attached(self, birth):
        """Whether the way up along the parents leads to the root."""
        return self.canonical_path(birth) is not None

    def let_go(self, holder, slot):
        """Empties a slot, of a child takes it away, and ends what it held if nothing else holds that."""
        if slot.kind not in LEADING:
            return
        target = slot.target
        if slot.kind is Kind.CHILD:
            holder.slots.remove(slot)
        slot.target = None
        if target is not None and slot.kind in HOLDING:
            self.end_if_free(target)

    def end_if_free(self, birth):
        """Ends an object that nothing holds."""
        if self.references(birth) == 0:
            self.finalize(birth)

    def finalize(self, birth):
        """Ends an object."""
        ending = self.objects[birth]
        for slot in list(ending.slots):
            self.let_go(ending, slot)
        self.note_end(birth, ending.type)
        for other in self.objects.values():
            for slot in other.slots:
                if slot.kind is Kind.WEAK and slot.target == birth:
                    slot.target = None
        if ending.kept_path is not None:
            self.tell_of_device("DEVICE_DELETED", ending)
        del self.objects[birth]

    def tell_of_device(self, event, device):
        """Has an event on a device wait, with its kept path, and its id if it has one."""
        named = {} if device.device_id is None else {"device": device.device_id}
        self.tell(event, path=device.kept_path, **named)

    def unpin(self, birth):
        """Takes a pin away."""
        self.pins.remove(birth)
        self.end_if_free(birth)

    # paths

    def canonical_path(self, birth):
        """The path of an attached object, or None."""
        parts = []
        while birth != ROOT:
            found = self.owner(birth)
            if found is None:
                return None
            parts.append(found[1].name)
            birth = found[0].birth
        return "/" + "/".join(reversed(parts))

    def walk(self, start, parts):
        """Where children and links of these names lead, or None."""
        birth = start
        for name in parts:
            slot = self.objects[birth].slot(name)
            if slot is None or slot.kind not in LEADING or slot.target is None:
                return None
            birth = slot.target
        return birth

    def subtree(self, birth):
        """An object and all below it along children, parents first."""
        children = [it.target for it in self.objects[birth].slots if it.kind is Kind.CHILD]
        return [birth] + [it for child in children for it in self.subtree(child)]

    def found(self, path, type_name):
        """All ends of a path of this type: of an absolute one from the root, of a partial one from everywhere."""
        parts = [it for it in path.split("/") if it]
        starts = [ROOT] if path.startswith("/") else self.subtree(ROOT)
        ends = [self.walk(it, parts) for it in starts]
        return [it for it in ends if it is not None and self.objects[it].is_a(type_name)]

    def resolved(self, path, type_name="object"):
        """The birth of the only object of this type at a path."""
        ends = self.found(path, type_name)
        if not ends:
            raise Refused(Code.PATH_NOT_FOUND)
        if len(ends) > 1:
            raise Refused(Code.PATH_AMBIGUOUS)
        return ends[0]

    def link_target(self, value, type_name):
        """The target of a link that is given as a path, or None for an empty one."""
        if not isinstance(value, str):
            raise Refused(Code.VALUE_DOES_NOT_FIT)
        if value == "":
            return None
        if not self.found(value, type_name) and self.found(value, "object"):
            raise Refused(Code.LINK_TYPE)
        return self.resolved(value, type_name)


class ClockTree(Tree):
    """The objects with the virtual time, and the clocks that go by others."""

    def __init__(self):
        super().__init__()
        self.now = 0

    def act(self, birth, name, period=0):
        """Does an act on an object, and notes it."""
        self.note(name, birth)
        self.objects[birth].body.act(name, self.now, period)

    def period(self, clock):
        """The period of a clock."""
        source = clock.slot("source").target
        return clock.value("period") if source is None else self.period_below(self.objects[source])

    def period_below(self, clock):
        """The period of the clocks that go by a clock."""
        return self.period(clock) * clock.value("mul") // clock.value("div")

    def clock_of(self, device):
        """The clock of a device, or None."""
        slot = device.slot("clk")
        return self.objects[slot.target] if slot else None

    def device_period(self, device):
        """The period that a device goes by; 0 without a clock."""
        clock = self.clock_of(device)
        return self.period(clock) if clock else 0

    def clocks_below(self, clock):
        """All clocks that go by a clock, each before those that go by it."""
        below = []
        for _, other in sorted(self.objects.items()):
            if other.type == "clock" and other.slot("source").target == clock.birth:
                below += [other] + self.clocks_below(other)
        return below

    def write_clock(self, clock, slot, value):
        """Writes a number of a clock, and calls the devices whose period changes."""
        if slot.name == "period" and clock.slot("source").target is not None:
            raise Refused(Code.HAS_SOURCE)
        if slot.name == "div" and value == 0:
            raise Refused(Code.DIVIDER_ZERO)
        below = self.clocks_below(clock)
        periods = [self.period(it) for it in below]
        before, slot.value = slot.value, value
        if any(self.period_below(it) > LAST_U64 for it in [clock] + below):
            slot.value = before
            raise Refused(Code.PERIOD_OVERFLOW)
        for other, old in zip(below, periods):
            if self.period(other) != old:
                device = self.parent(other.birth)
                self.act(device.birth, "pre", old)
                self.act(device.birth, "update", self.period(other))


class ResetTree(ClockTree):
    """The objects with the holds of resets, in the three phases of QEMU's resettable interface."""

    def __init__(self):
        super().__init__()
        self.holds = []

    def buses(self, device):
        """The buses of a device."""
        children = [it.target for it in device.slots if it.kind is Kind.CHILD]
        return [it for it in children if self.objects[it].is_a("bus")]

    def kids(self, bus):
        """The devices on a bus, in the order in which they came."""
        return [it.target for it in self.objects[bus].slots if it.name.startswith("child[")]

    def tree_text(self, birth=1, name="", depth=0):
        """What the text monitor tells of an object of a name and of all below it."""
        it = self.objects[birth]
        below = [self.tree_text(slot.target, slot.name, depth + 1) for slot in it.slots if slot.kind is Kind.CHILD]
        return f"{'  ' * depth}/{name} ({it.type})\n" + "".join(below)

    def bus_text(self, birth, name, indent=""):
        """What the text monitor tells of a bus of a name and of the devices on it."""
        lines = [f"{indent}bus: {name}\n{indent}  type {self.objects[birth].type}\n"]
        for kid in map(self.objects.get, self.kids(birth)):
            lines.append(f'{indent}  dev: {kid.type}, id "{kid.device_id or ""}"\n')
            buses = self.buses(kid)
            lines += [self.bus_text(it.target, it.name, indent + "    ") for it in kid.slots if it.target in buses]
        return "".join(lines)

    def reset_below(self, birth):
        """What is reset with an object, just below it."""
        it = self.objects[birth]
        if birth == MACHINE:
            return [ROOT_BUS, MEMORY_BUS]
        if it.is_a("bus"):
            return self.kids(birth)
        return self.buses(it) if it.is_a("device") else []

    def reset_order(self, birth):
        """All that is reset with an object, itself last."""
        return [it for below in self.reset_below(birth) for it in self.reset_order(below)] + [birth]

    def reset_count(self, birth):
        """How many holds are on an object or above it."""
        return sum(birth in self.reset_order(it) for it in self.holds)

    def phase(self, name, births):
        """Has objects go through a phase."""
        for birth in births:
            self.act(birth, name, self.device_period(self.objects[birth]))

    def hold(self, birth, kind="cold"):
        """Holds an object, and all below it, in a reset of a type."""
        coming = [it for it in self.reset_order(birth) if self.reset_count(it) == 0]
        self.phase("wake" if kind == "wakeup" else "enter", coming)
        self.phase("hold", coming)
        self.holds.append(birth)

    def release(self, birth):
        """Takes a hold away."""
        self.holds.remove(birth)
        self.phase("exit", [it for it in self.reset_order(birth) if self.reset_count(it) == 0])

    def reset(self, birth, kind="cold"):
        """Resets an object and all below it."""
        self.hold(birth, kind)
        self.release(birth)


class DeviceTree(ResetTree):
    """The objects with devices that come and go, their claims, and the guest's notices."""

    def __init__(self):
        super().__init__()
        self.pending = {}  # the time of the last asking of each removal, in the order of the first asking
        self.notices = []
        self.rings = []
        self.unnamed = 0

    # claims

    def realized(self, type_name):
        """The realized devices of a type."""
        return [it for it in self.objects.values() if it.is_a(type_name) and it.value("realized")]

    def ring(self, name):
        """The ring of an id, or None."""
        return next((it for it in self.rings if it.name == name), None)

    def is_ring_claimed(self, name):
        """Whether a UART has a ring."""
        return any(it.value("chardev") == name for it in self.realized("slot-uart"))

    def is_backend_claimed(self, birth):
        """Whether a DIMM has a memory backend."""
        return any(it.slot("memdev").target == birth for it in self.realized("mem-dimm"))

    def range_of(self, dimm):
        """The range of a DIMM: its address and its size."""
        return dimm.value("addr"), self.objects[dimm.slot("memdev").target].value("size")

    def is_range_free(self, address, size):
        """Whether a range is inside the window and meets that of no DIMM."""
        ranges = [self.range_of(it) for it in self.realized("mem-dimm")]
        is_inside = WINDOW_START <= address and address + size <= WINDOW_END
        return is_inside and all(address + size <= start or start + length <= address for start, length in ranges)

    def lowest_address(self, size):
        """The lowest address at which a size is free."""
        ends = [sum(self.range_of(it)) for it in self.realized("mem-dimm")]
        free = [it for it in [WINDOW_START] + ends if self.is_range_free(it, size)]
        if not free:
            raise Refused(Code.NO_GAP)
        return min(free)

    # adding

    def settings(self, type_name, arguments):
        """The values and targets that arguments give the properties of an object that is added."""
        properties = {it.name: it for it in properties_of(type_name)}
        values = {}
        for name in sorted(arguments):
            if name not in properties:
                raise Refused(Code.PROPERTY_NOT_FOUND)
            wanted = properties[name]
            if wanted.access not in GIVEN_BY_ADDING:
                raise Refused(Code.NOT_WRITABLE)
            if wanted.kind is not Kind.PLAIN:
                values[name] = self.link_target(arguments[name], wanted.type)
            elif wanted.type.fits(arguments[name]):
                values[name] = arguments[name]
            else:
                raise Refused(Code.VALUE_DOES_NOT_FIT)
        return values

    @staticmethod
    def judge_type(type_name, wanted):
        """Refuses a type of which no object can be added here."""
        if type_name not in TYPES:
            raise Refused(Code.TYPE_UNKNOWN)
        if TYPES[type_name].is_abstract:
            raise Refused(Code.TYPE_ABSTRACT)
        if not is_a(type_name, wanted):
            raise Refused(Code.NOT_CREATABLE)

    def judge_count(self, more):
        """Refuses more objects than there may be."""
        if len(self.objects) + more > MOST_OBJECTS:
            raise Refused(Code.TOO_MANY_OBJECTS)

    def judge_device_id(self, device_id):
        """Refuses an id that is none, or that a device has which has not ended."""
        if not is_id(device_id):
            raise Refused(Code.ID_MALFORMED)
        if device_id == "type" or any(it.device_id == device_id for it in self.objects.values()):
            raise Refused(Code.ID_TAKEN)

    def bus_for(self, driver, path):
        """The bus that a device is to come on."""
        wanted = "slot-bus" if is_a(driver, "slot-device") else "mem-bus"
        if path is None:
            return ROOT_BUS if wanted == "slot-bus" else MEMORY_BUS
        ends = self.found(path, "bus")
        if len(ends) != 1:
            raise Refused(Code.BUS_NOT_FOUND)
        bus = ends[0]
        if self.objects[bus].type != wanted:
            raise Refused(Code.BUS_KIND)
        if not self.is_attached(bus) or any(it.birth in self.pending for it in self.bridges_above(bus)):
            raise Refused(Code.BUS_NOT_PLUGGABLE)
        return bus

    def bridges_above(self, bus):
        """The bridges above an attached bus, the lowest first."""
        bridges = []
        device = self.parent(bus)
        while device.is_a("device"):
            bridges.append(device)
            device = self.parent(device.slot("parent_bus").target)
        return bridges

    def judge_place(self, driver, bus, values):
        """Refuses a place that a device cannot have, and chooses the slot and the address if none are given."""
        values["slot"] = self.slot_for(bus, values.get("slot"))
        if driver == "mem-dimm":
            values["addr"] = self.address_for(values.get("memdev"), values.get("addr"))
        if driver == "slot-bridge" and len(self.bridges_above(bus)) >= MOST_BRIDGES_DEEP:
            raise Refused(Code.TOO_DEEP)
        ring = values.get("chardev", "")
        if ring != "" and self.ring(ring) is None:
            raise Refused(Code.RING_NOT_FOUND)
        if ring != "" and self.is_ring_claimed(ring):
            raise Refused(Code.RING_CLAIMED)

    def slot_for(self, bus, wanted):
        """The slot on a bus that is wanted, or the first that is free."""
        used = [self.objects[it].value("slot") for it in self.kids(bus)]
        if wanted is None:
            free = [it for it in range(MOST_SLOTS) if it not in used]
            if not free:
                raise Refused(Code.BUS_FULL)
            return free[0]
        if wanted >= MOST_SLOTS:
            raise Refused(Code.SLOT_RANGE)
        if wanted in used:
            raise Refused(Code.SLOT_TAKEN)
        return wanted

    def address_for(self, backend, wanted):
        """The address that is wanted for a memory backend, or the lowest that is free."""
        if backend is None:
            raise Refused(Code.BACKEND_MISSING)
        if self.is_backend_claimed(backend):
            raise Refused(Code.BACKEND_CLAIMED)
        size = self.objects[backend].value("size")
        if wanted is None:
            return self.lowest_address(size)
        if not self.is_range_free(wanted, size):
            raise Refused(Code.RANGE_TAKEN)
        return wanted

    def add_device(self, driver, device_id, bus_path, arguments):
        """Adds a device."""
        self.judge_type(driver, "device")
        if device_id is not None:
            self.judge_device_id(device_id)
        bus = self.bus_for(driver, bus_path)
        types = [driver] + [it.type for it in properties_of(driver) if it.kind is Kind.CHILD]
        self.judge_count(len(types))
        parts = [(self.initialize(it), it) for it in types]
        try:
            values = self.settings(driver, arguments)
            self.judge_place(driver, bus, values)
            if len(self.notices) >= MOST_NOTICES:
                self.note_start_undone(bus, parts)
                raise Refused(Code.NOTICES_FULL)
        except Refused:
            for birth, type_name in parts[1:] + parts[:1]:
                self.note_end(birth, type_name)
            raise
        device = self.plug(parts, device_id, bus, values)
        self.start(device)

    def note_start_undone(self, bus, parts):
        """Notes what a device does that starts and is then refused by the notices."""
        device = parts[0][0]
        buses = [birth for birth, type_name in parts if type_name == "slot-bus"]
        order = buses + [device]
        steps = [("realize", [device] + buses), ("enter", order), ("hold", order)]
        if self.reset_count(bus) == 0:
            steps.append(("exit", order))
        for act, births in steps + [("unrealize", order)]:
            for birth in births:
                self.note(act, birth)

    def plug(self, parts, device_id, bus, values):
        """Makes the objects of a device, and puts it in its container and on its bus."""
        device, *children = [self.place(birth, type_name) for birth, type_name in parts]
        for slot, child in zip([it for it in device.slots if it.kind is Kind.CHILD], children):
            slot.target = child.birth
        device.accept(values | {"parent_bus": bus, "realized": True})
        device.device_id = device_id
        container = PERIPHERAL
        name = device_id
        if device_id is None:
            container = ANONYMOUS
            name = f"device[{self.unnamed}]"
            self.unnamed += 1
        self.objects[container].add_child(name, device)
        device.kept_path = self.canonical_path(device.birth)
        name_on_bus = f"child[{device.value('slot')}]"
        self.objects[bus].slots.append(Slot(name_on_bus, Kind.STRONG, "device", target=device.birth))
        return device

    def start(self, device):
        """Starts a device that stands: it goes through the phases, and the guest has a notice of it."""
        for birth in [device.birth] + self.buses(device):
            self.note("realize", birth)
        clock = self.clock_of(device)
        if clock:
            above = self.parent(device.slot("parent_bus").target)
            source = above.slot("clk").target if above.is_a("device") else SYSTEM_CLOCK
            clock.slot("source").target = source
        order = self.reset_order(device.birth)
        self.phase("enter", order)
        self.phase("hold", order)
        self.phase("exit", [it for it in order if self.reset_count(it) == 0])
        self.notices.append(("plug", device.birth))

    # removing

    def unrealize(self, birth):
        """Unrealizes a device, after all that is below it."""
        device = self.objects[birth]
        for bus in self.buses(device):
            for kid in self.kids(bus):
                self.unrealize(kid)
            self.act(bus, "unrealize")
        self.act(birth, "unrealize", self.device_period(device))
        clock = self.clock_of(device)
        if clock:
            clock.slot("source").target = None
            clock.slot("period").value = 0
        device.slot("realized").value = False
        gone = [birth] + self.buses(device)
        self.holds = [it for it in self.holds if it not in gone]
        self.notices = [it for it in self.notices if it[1] != birth]
        self.pending.pop(birth, None)

    def take_out(self, birth):
        """Takes an unrealized device out of its container and off its bus, after all that is below it."""
        device = self.objects[birth]
        self.pins.append(birth)
        for bus in self.buses(device):
            for kid in self.kids(bus):
                self.take_out(kid)
            self.let_go(device, next(it for it in device.slots if it.kind is Kind.CHILD and it.target == bus))
        bus = self.objects[device.slot("parent_bus").target]
        on_bus = next(it for it in bus.slots if it.name.startswith("child[") and it.target == birth)
        self.let_go(bus, on_bus)
        bus.slots.remove(on_bus)
        self.let_go(device, device.slot("parent_bus"))
        self.let_go(*self.owner(birth))
        self.unpin(birth)

    def detach(self, birth):
        """Detaches a device, with all that is below it."""
        self.pins.append(birth)
        self.unrealize(birth)
        self.take_out(birth)
        self.unpin(birth)

    def ask_removal(self, name):
        """Asks the guest for the removal of a device, which is named by its id or by a path."""
        birth = self.device_named(name)
        if not self.is_attached(birth):
            raise Refused(Code.NOT_REMOVABLE)
        if birth in self.pending and self.now < self.pending[birth] + ASK_AGAIN:
            raise Refused(Code.REMOVAL_PENDING)
        if len(self.notices) >= MOST_NOTICES:
            raise Refused(Code.NOTICES_FULL)
        self.pending[birth] = self.now
        self.notices.append(("unplug", birth))

    def device_named(self, name):
        """The device of an id, or at an absolute path."""
        if name.startswith("/"):
            found = self.found(name, "device")
        else:
            slot = self.objects[PERIPHERAL].slot(name)
            found = [slot.target] if slot and slot.kind is Kind.CHILD else []
        if not found:
            raise Refused(Code.DEVICE_NOT_FOUND)
        return found[0]

    def refuse_removal(self, birth):
        """What the guest's refusal of a removal does."""
        del self.pending[birth]
        self.notices = [it for it in self.notices if it != ("unplug", birth)]
        self.tell_of_device("DEVICE_UNPLUG_GUEST_ERROR", self.objects[birth])

    def reset_machine(self, by_guest):
        """Resets the machine, after all removals that are pending."""
        while self.pending:
            self.detach(next(iter(self.pending)))
        self.reset(MACHINE)
        self.tell("RESET", guest=by_guest, reason="guest-reset" if by_guest else "host-qmp-system-reset")

    # addresses

    def device_at(self, address):
        """The device at an address of the guest, or None."""
        is_memory = address.startswith("m")
        bus = MEMORY_BUS if is_memory else ROOT_BUS
        device = None
        for number in address.removeprefix("m").split("."):
            if device is not None:
                below = device.slot("bus.0")
                if below is None:
                    return None
                bus = below.target
            kids = [self.objects[it] for it in self.kids(bus)]
            device = next((it for it in kids if it.value("slot") == int(number)), None)
            if device is None:
                return None
        return device

    def kid_in(self, bus, slot):
        """The device in a slot of a bus, or None."""
        return next((it for it in map(self.objects.get, self.kids(bus)) if it.value("slot") == slot), None)

    def shown_at(self, address):
        """What shows at a hardware address: a device, or None for the boot region, and the offset. None where nothing does."""
        if address < BOOT_SIZE:
            return None, address
        if SLOTS_AT <= address < SLOTS_AT + 8 * SLOTS_AT:
            return self.shown_in_slots(address - SLOTS_AT)
        return self.shown_in_memory(address + WINDOW_START if address < LOW_SIZE else address)

    def shown_in_memory(self, address):
        """The DIMM that shows at an address, and the offset in it."""
        for dimm in map(self.objects.get, self.kids(MEMORY_BUS)):
            start, size = self.range_of(dimm)
            if start <= address < start + size:
                return dimm, address - start
        return None

    def shown_in_slots(self, offset):
        """The device that shows at an offset of the slots of the root bus, and the offset in it."""
        bus, size = ROOT_BUS, SLOTS_AT
        while True:
            slot, offset = divmod(offset, size)
            device = self.kid_in(bus, slot)
            if device is None or offset < DEVICE_SIZE:
                return device and (device, offset)
            below = device.slot("bus.0")
            if below is None or offset < size // 2:
                return None
            bus, offset, size = below.target, offset - size // 2, size // 16

    def shown(self):
        """What shows, by address: each stretch with its device, or None for the boot region, an offset in it, and a size."""
        spans = [(0, None, 0, BOOT_SIZE)]
        for dimm in map(self.objects.get, self.kids(MEMORY_BUS)):
            start, size = self.range_of(dimm)
            spans.append((start, dimm, 0, size))
            low, end = max(start - WINDOW_START, BOOT_SIZE), min(start - WINDOW_START + size, LOW_SIZE)
            if low < end:
                spans.append((low, dimm, low - (start - WINDOW_START), end - low))
        spans += [(self.hardware_address(it), it, 0, DEVICE_SIZE) for it in self.devices_below(ROOT_BUS)]
        return sorted(spans, key=lambda it: it[0])

    def devices_below(self, bus):
        """The devices on a bus, and on the buses below."""
        for device in map(self.objects.get, self.kids(bus)):
            yield device
            for below in self.buses(device):
                yield from self.devices_below(below)

    def hardware_address(self, device):
        """The hardware address at which a device that stands begins."""
        if device.type == "mem-dimm":
            return self.range_of(device)[0]
        begin, size = SLOTS_AT, SLOTS_AT
        for above in reversed(self.bridges_above(device.slot("parent_bus").target)):
            begin, size = begin + above.value("slot") * size + size // 2, size // 16
        return begin + device.value("slot") * size

    def is_line_high(self, birth):
        """Whether the interrupt line of a device is high."""
        device = self.objects[birth]
        return device.body.is_high(self, device)

    def interrupt_lines(self):
        """The number in which the bit of each slot of the root bus is the line of the device there."""
        return sum(1 << self.objects[it].value("slot") for it in self.kids(ROOT_BUS) if self.is_line_high(it))

    def address(self, device):
        """The address of a device that stands."""
        bus = device.slot("parent_bus").target
        if bus == MEMORY_BUS:
            return f"m{device.value('slot')}"
        way = [device] + self.bridges_above(bus)
        return ".".join(str(it.value("slot")) for it in reversed(way))


class Board(DeviceTree):
    """The board, which begins with the opening tree, and what commands do with its objects."""

    def __init__(self):
        super().__init__()
        self.is_running = True
        types = ["container", "machine", "container", "container", "clock", "slot-bus", "mem-bus", "container"]
        for type_name in types:
            self.births += 1
            self.place(self.births, type_name)
        for parent, name, child in [
            (ROOT, "machine", MACHINE),
            (MACHINE, "peripheral", PERIPHERAL),
            (MACHINE, "peripheral-anon", ANONYMOUS),
            (MACHINE, "sysclk", SYSTEM_CLOCK),
            (MACHINE, "root.0", ROOT_BUS),
            (MACHINE, "mem.0", MEMORY_BUS),
            (ROOT, "objects", USERS_OBJECTS),
        ]:
            self.objects[parent].add_child(name, self.objects[child])
        self.objects[SYSTEM_CLOCK].slot("period").value = SYSTEM_PERIOD

    def pass_time(self, nanoseconds):
        """Lets time pass, of which there may be too much."""
        if self.is_running:
            if self.now + nanoseconds > LAST_TIME:
                raise Refused(Code.TIME_TOO_LARGE)
            self.now += nanoseconds

    def add_object(self, type_name, name, arguments):
        """Adds a user's object."""
        self.judge_type(type_name, "user-creatable")
        if not is_id(name):
            raise Refused(Code.ID_MALFORMED)
        if self.objects[USERS_OBJECTS].slot(name):
            raise Refused(Code.ID_TAKEN)
        self.judge_count(1)
        birth = self.initialize(type_name)
        try:
            values = self.settings(type_name, arguments)
        except Refused:
            self.note_end(birth, type_name)
            raise
        made = self.place(birth, type_name)
        made.accept(values)
        self.objects[USERS_OBJECTS].add_child(name, made)

    def add_ring(self, name, size):
        """Makes a ring."""
        if not is_id(name):
            raise Refused(Code.ID_MALFORMED)
        if self.ring(name):
            raise Refused(Code.ID_TAKEN)
        if not 1 <= size <= MOST_RING or size.bit_count() != 1:
            raise Refused(Code.RING_SIZE)
        self.rings.append(Ring(name, size))

    def remove_object(self, name):
        """Removes a user's object."""
        container = self.objects[USERS_OBJECTS]
        slot = container.slot(name)
        if slot is None or slot.kind is not Kind.CHILD:
            raise Refused(Code.PATH_NOT_FOUND)
        if self.is_backend_claimed(slot.target):
            raise Refused(Code.IN_USE)
        self.let_go(container, slot)

    def sever(self, birth):
        """Empties the strong links of a detached object."""
        if birth not in self.objects:
            raise Refused(Code.DEVICE_NOT_FOUND)
        if self.is_attached(birth):
            raise Refused(Code.NOT_DETACHED)
        severed = self.objects[birth]
        self.pins.append(birth)
        for slot in [it for it in severed.slots if it.kind is Kind.STRONG]:
            self.let_go(severed, slot)
        self.unpin(birth)

    # properties

    def slot_at(self, path, name):
        """An object and its slot of a name."""
        holder = self.objects[self.resolved(path)]
        slot = holder.slot(name)
        if slot is None:
            raise Refused(Code.PROPERTY_NOT_FOUND)
        return holder, slot

    def after(self, holder, slot):
        """The slot that an alias stands for, with its object; any other slot itself."""
        if slot.kind is not Kind.ALIAS:
            return holder, slot
        child, name = slot.type
        target = self.objects[holder.slot(child).target]
        return target, target.slot(name)

    def listed(self, path):
        """The properties of an object with their types."""
        holder = self.objects[self.resolved(path)]
        return [{"name": it.name, "type": self.type_shown(holder, it)} for it in holder.slots]

    def type_shown(self, holder, slot):
        """How the type of a property is shown."""
        _, real = self.after(holder, slot)
        if real.kind is Kind.PLAIN:
            return real.type.name
        return f"child<{real.type}>" if real.kind is Kind.CHILD else f"link<{real.type}>"

    def read(self, path, name):
        """What a property reads as."""
        holder, slot = self.after(*self.slot_at(path, name))
        if holder.type == "clock" and slot.name == "period":
            return self.period(holder)
        if slot.kind is Kind.PLAIN:
            return slot.value
        if slot.target is None:
            return ""
        return self.canonical_path(slot.target) or f"detached:{slot.target}"

    def write(self, path, name, value):
        """Writes a property."""
        holder, slot = self.slot_at(path, name)
        if slot.access not in GIVEN_BY_SETTING:
            raise Refused(Code.NOT_WRITABLE)
        holder, slot = self.after(holder, slot)
        if slot.kind is not Kind.PLAIN:
            before, slot.target = slot.target, self.link_target(value, slot.type)
            if slot.kind is Kind.STRONG and before is not None:
                self.end_if_free(before)
        elif not slot.type.fits(value):
            raise Refused(Code.VALUE_DOES_NOT_FIT)
        elif holder.type == "clock":
            self.write_clock(holder, slot, value)
        else:
            slot.value = value


# --- descriptions

TOLD_OF_DEVICES = ("addr", "chardev", "memdev")
TOLD_OF_OBJECTS = ("flag", "number", "size", "text")


def children(board, birth):
    """The children of an object, each with its name, in the order of its slots."""
    return [(it.name, board.objects[it.target]) for it in board.objects[birth].slots if it.kind is Kind.CHILD]


def given(board, thing, names):
    """What was given for the properties of these names; a value that is none, and a device's empty text, say nothing."""
    slots = {name: thing.slot(name) for name in names if thing.slot(name)}
    values = {name: it.value if it.kind is Kind.PLAIN else board.canonical_path(it.target) for name, it in slots.items()}
    return {name: it for name, it in values.items() if it is not None and not (it == "" and thing.is_a("device"))}


def is_describable(board):
    """Whether a board has a description."""
    detached = any(it != ROOT and board.owner(it) is None for it in board.objects)
    return not detached and not board.pending and not children(board, ANONYMOUS)


def scaled_clocks(board, devices):
    """How the clocks of devices divide and multiply, where they do."""
    clocks = [clock for _, it in devices if (clock := board.clock_of(it))]
    scaled = [it for it in clocks if (it.value("mul"), it.value("div")) != (1, 1)]
    return [{"div": it.value("div"), "mul": it.value("mul"), "path": board.canonical_path(it.birth)} for it in scaled]


def told_links(board, holder):
    """The links of an object that `qom-set` writes, where they are not empty."""
    links = [it for it in holder.slots if it.kind in (Kind.STRONG, Kind.WEAK) and it.access is Access.ALWAYS and it.target]
    path = board.canonical_path(holder.birth)
    return [{"path": path, "property": it.name, "value": board.canonical_path(it.target)} for it in links]


def told_device(board, name, device):
    """What is told of a device."""
    bus = board.canonical_path(device.slot("parent_bus").target)
    told = {"bus": bus, "driver": device.type, "id": name, "slot": device.value("slot")}
    return told | {"props": given(board, device, TOLD_OF_DEVICES)}


def described(board):
    """The description of a board; None where it has none."""
    if not is_describable(board):
        return None
    devices, things = children(board, PERIPHERAL), children(board, USERS_OBJECTS)
    clock = board.objects[SYSTEM_CLOCK]
    return {
        "clock": {name: clock.value(name) for name in ("div", "mul", "period")},
        "clocks": scaled_clocks(board, devices),
        "devices": [told_device(board, name, it) for name, it in devices],
        "links": [link for _, it in things + devices for link in told_links(board, it)],
        "objects": [{"id": name, "props": given(board, it, TOLD_OF_OBJECTS), "type": it.type} for name, it in things],
        "rings": [{"id": it.name, "size": it.size} for it in board.rings],
        "version": 1,
    }


def rebuilt(description):
    """The board that is rebuilt of a description, call by call; the first that is refused refuses it."""
    board = Board()
    for name in ("div", "period", "mul"):
        board.write("/machine/sysclk", name, description["clock"][name])
    for it in description["rings"]:
        board.add_ring(it["id"], it["size"])
    for it in description["objects"]:
        board.add_object(it["type"], it["id"], it["props"])
    for it in description["devices"]:
        board.add_device(it["driver"], it["id"], it["bus"], it["props"] | {"slot": it["slot"]})
        del board.notices[0]
    for it in description["clocks"]:
        board.write(it["path"], "div", it["div"])
        board.write(it["path"], "mul", it["mul"])
    for it in description["links"]:
        board.write(it["path"], it["property"], it["value"])
    return board


# --- the guest

SMALL = r"(?:0|[1-9][0-9]{0,2})"
ADDRESS = rf"(?:m{SMALL}|{SMALL}(?:\.{SMALL}){{0,{MOST_ADDRESS - 1}}})"
GUEST_LINE = re.compile(
    rf"(?P<alone>poll|irq|reset|shutdown)|(?P<reply>ack|nack) (?P<device>{ADDRESS})"
    rf"|read (?P<read>{ADDRESS}) (?P<register>{SMALL})"
    rf"|write (?P<write>{ADDRESS}) (?P<target>{SMALL}) 0x(?P<value>[0-9a-fA-F]{{1,8}})"
    r"|peek 0x(?P<peek>[0-9a-fA-F]{1,16})|poke 0x(?P<poke>[0-9a-fA-F]{1,16}) 0x(?P<poked>[0-9a-fA-F]{1,8})"
)


def guest_line(line):
    """The parts of a line of the guest, or None where it is unreadable."""
    found = GUEST_LINE.fullmatch(line) if len(line.encode()) <= MOST_GUEST_LINE else None
    if not found:
        return None
    parts = {name: it for name, it in found.groupdict().items() if it is not None}
    numbers = [parts.get(name, "0") for name in ("device", "read", "register", "write", "target")]
    if any(int(number) > 255 for it in numbers for number in it.removeprefix("m").split(".")):
        return None
    return parts


# --- the commands


def is_backend(value):
    """Whether a value has the form of a character device's backend."""
    if not isinstance(value, dict) or not isinstance(value["type"], str) or not isinstance(value["data"], dict):
        return False
    return NUMBER.fits(value["data"].get("size", 0))


KINDS = {
    "text": TEXT.fits,
    "number": NUMBER.fits,
    "size": lambda it: NUMBER.fits(it) and it <= MOST_RING,
    "value": lambda it: isinstance(it, (bool, str)) or is_whole(it),
    "format": lambda it: it in ("utf8", "base64"),
    "reset-type": lambda it: it in ("cold", "wakeup"),
    "truth": TRUTH.fits,
    "texts": lambda it: isinstance(it, list) and all(isinstance(one, str) for one in it),
    "backend": is_backend,
}

# the arguments of each command with their kinds; those with a question mark may be missing
COMMANDS = {
    "qmp_capabilities": {"enable": "texts?"},
    "query-version": {},
    "query-commands": {},
    "query-status": {},
    "stop": {},
    "cont": {},
    "system_reset": {},
    "quit": {},
    "qom-list": {"path": "text"},
    "qom-get": {"path": "text", "property": "text"},
    "qom-set": {"path": "text", "property": "text", "value": "value"},
    "qom-list-types": {"implements": "text?", "abstract": "truth?"},
    "device-list-properties": {"typename": "text"},
    "object-add": {"qom-type": "text", "id": "text"},
    "object-del": {"id": "text"},
    "device_add": {"driver": "text", "id": "text?", "bus": "text?"},
    "device_del": {"id": "text"},
    "human-monitor-command": {"command-line": "text"},
    "chardev-add": {"id": "text", "backend": "backend"},
    "chardev-remove": {"id": "text"},
    "ringbuf-read": {"device": "text", "size": "size", "format": "format?"},
    "ringbuf-write": {"device": "text", "data": "text", "format": "format?"},
    "x-reset-hold": {"path": "text", "type": "reset-type?"},
    "x-reset-release": {"path": "text"},
    "x-wakeup": {},
    "x-sever": {"birth": "number"},
    "x-query-notes": {"from": "number"},
    "x-query-detached": {},
    "x-describe": {},
    "x-memmap": {},
    "x-guest": {"line": "text"},
    "x-step": {"ns": "number"},
}
WITH_PROPERTIES = ("device_add", "object-add")


def monitor_value(text):
    """The value of an option on a line of the text monitor."""
    if text in ("on", "off"):
        return text == "on"
    if re.fullmatch("0|-?[1-9][0-9]*", text, re.ASCII) and -(2**63) <= int(text) <= LAST_U64:
        return int(text)
    return text


def monitor_addition(text):
    """The arguments of the `device_add` that a line of the text monitor asks for, or None."""
    driver, *options = [it.replace("\0", ",") for it in text.replace(",,", "\0").split(",")]
    given = {"driver": driver}
    for key, equals, value in (it.partition("=") for it in options):
        if not equals or not key or key in given:
            return None
        given[key] = value if key in ("id", "bus") else monitor_value(value)
    return given if driver and "=" not in driver else None


def monitor_command(line):
    """The command that a line of the text monitor asks for, and its arguments; None where there is none."""
    word, space, rest = line.partition(" ")
    if line == "system_reset":
        return "system_reset", {}
    if not space or " " in rest:
        return None
    if word == "device_add" and (given := monitor_addition(rest)):
        return "device_add", given
    return ("device_del", {"id": rest}) if word == "device_del" and rest else None


def judge_arguments(command, arguments):
    """Refuses arguments that a command cannot have."""
    wanted = COMMANDS[command]
    optional = [name for name, kind in wanted.items() if kind.endswith("?")]
    parts = arguments.get("backend") if command == "chardev-add" else None
    has_parts = isinstance(parts, dict)
    if any(name not in arguments and name not in optional for name in wanted):
        raise Refused(Code.ARGUMENT_MISSING)
    if has_parts and not {"type", "data"} <= parts.keys():
        raise Refused(Code.ARGUMENT_MISSING)
    if command not in WITH_PROPERTIES and not arguments.keys() <= wanted.keys():
        raise Refused(Code.ARGUMENT_UNEXPECTED)
    if has_parts and not parts.keys() <= {"type", "data"}:
        raise Refused(Code.ARGUMENT_UNEXPECTED)
    if has_parts and isinstance(parts["data"], dict) and not parts["data"].keys() <= {"size"}:
        raise Refused(Code.ARGUMENT_UNEXPECTED)
    if not all(KINDS[wanted.get(name, "value").rstrip("?")](it) for name, it in arguments.items()):
        raise Refused(Code.ARGUMENT_TYPE)


def json_text(value):
    """A value as JSON in ASCII, with its names in order and without spaces; DEL, which is ASCII, stands as it is."""
    text = json.dumps(value, sort_keys=True, separators=(",", ":"), ensure_ascii=False)
    return re.sub(r"[^\x00-\x7f]", lambda found: json.dumps(found[0])[1:-1], text)


VERSION = {"package": "compose", "qemu": {"major": 1, "micro": 0, "minor": 0}}
GREETING = {"QMP": {"capabilities": [], "version": VERSION}}


class Machine:
    """The machine: its board, its sessions, and the transcript of what these and the guest are sent."""

    def __init__(self):
        self.board = Board()
        self.transcript = []
        self.negotiated = {}
        self.has_ended = False
        self.moment = (0, 0)

    def send(self, lane, text):
        """Sends a text to a session or the guest."""
        self.transcript.append(f"{lane} {text}")

    def send_events(self):
        """Sends the events that wait to each session that has negotiated."""
        events, self.board.events = self.board.events, []
        timestamp = {"seconds": self.moment[0], "microseconds": self.moment[1]}
        for event, data in events:
            message = {"event": event, "timestamp": timestamp} | ({"data": data} if data else {})
            for session in sorted(it for it, is_done in self.negotiated.items() if is_done):
                self.send(session, json_text(message))

    def end_step(self, lane, text):
        """Ends a step: events are sent, then the reply; the sessions are gone where the run has ended."""
        self.send_events()
        self.send(lane, text)
        if self.has_ended:
            self.negotiated = {}

    def shut_down(self, by_guest):
        """Ends the run."""
        self.board.tell("SHUTDOWN", guest=by_guest, reason="guest-shutdown" if by_guest else "host-qmp-quit")
        self.has_ended = True

    def input(self, line):
        """Takes an input, as tools/qrec spells it."""
        if self.has_ended:
            return
        found = re.match(r"@([0-9]+)\.([0-9]{6}) ", line)
        if found:
            self.moment = (int(found[1]), int(found[2]))
            line = line[found.end() :]
        word, _, rest = line.partition(" ")
        if word == "g->":
            self.hear(rest)
        elif word.endswith("->"):
            self.serve(int(word.removesuffix("->") or 0), json.loads(rest))
        elif word == "open":
            self.negotiated[int(rest)] = False
            self.send(rest, json_text(GREETING))
        elif word == "shut":
            del self.negotiated[int(rest)]
        else:
            self.step(int(rest))

    def step(self, nanoseconds):
        """Lets time pass; too much of it is passed over."""
        try:
            self.board.pass_time(nanoseconds)
        except Refused:
            pass

    # the guest

    def hear(self, line):
        """Answers a line of the guest."""
        answer = self.answer(line)
        self.end_step("g", "no line" if answer is None else answer)

    def answer(self, line):
        """Does what a line of the guest says, and returns its answer, or None where it is unreadable."""
        parts = guest_line(line)
        if parts is None:
            return None
        if not self.board.is_running:
            return "no stopped"
        if "alone" in parts:
            return self.answer_alone(parts["alone"])
        if "peek" in parts or "poke" in parts:
            return self.answer_memory(parts)
        device = self.board.device_at(parts.get("device") or parts.get("read") or parts.get("write"))
        if device is None:
            return "no device"
        if "reply" in parts:
            return self.answer_reply(parts["reply"], device)
        return self.answer_register(device, int(parts.get("register") or parts.get("target")), parts.get("value"))

    def answer_memory(self, parts):
        """Answers a read or a write at a hardware address."""
        address = int(parts.get("peek") or parts.get("poke"), 16)
        shown = self.board.shown_at(address) if address % 4 == 0 else None
        if shown is None:
            return "no address"
        device, offset = shown
        if device is None or device.type == "mem-dimm":
            return "no register"
        return self.answer_register(device, offset // 4, parts.get("poked"))

    def answer_register(self, device, register, value):
        """Answers a read of a register, or a write of a value."""
        registers = device.body.registers(self.board, device)
        if register >= len(registers):
            return "no register"
        if value is None:
            return f"ok 0x{registers[register]:08x}"
        device.body.write(self.board, device, register, int(value, 16))
        return "ok"

    def answer_alone(self, word):
        """Answers a line of one word."""
        if word == "reset":
            self.board.reset_machine(by_guest=True)
        elif word == "shutdown":
            self.shut_down(by_guest=True)
        elif word == "irq":
            return f"ok 0x{self.board.interrupt_lines():08x}"
        elif not self.board.notices:
            return "ok none"
        else:
            kind, birth = self.board.notices.pop(0)
            return f"ok {kind} {self.board.address(self.board.objects[birth])}"
        return "ok"

    def answer_reply(self, word, device):
        """Answers what the guest says to a removal."""
        if device.birth not in self.board.pending:
            return "no pending"
        if word == "ack":
            self.board.detach(device.birth)
        else:
            self.board.refuse_removal(device.birth)
        return "ok"

    # commands

    def serve(self, session, message):
        """Serves a message of a session."""
        try:
            reply = {"return": self.obeyed(session, message)}
        except Refused as why:
            number, text = why.code.value
            name = "GenericError"
            if why.code in COMMAND_NOT_FOUND:
                name = "CommandNotFound"
            elif why.code in NOT_FOUND:
                name = "DeviceNotFound"
            reply = {"error": {"class": name, "desc": f"E{number} {text}"}}
        if "id" in message:
            reply["id"] = message["id"]
        self.end_step(session, json_text(reply))

    def obeyed(self, session, message):
        """Does what a message says, and returns what its command returns."""
        command = message.get("execute")
        arguments = message.get("arguments", {})
        is_command = isinstance(command, str) and isinstance(arguments, dict)
        if not is_command or not message.keys() <= {"execute", "arguments", "id"}:
            raise Refused(Code.NOT_A_COMMAND)
        if not self.negotiated[session] and command != "qmp_capabilities":
            raise Refused(Code.NEGOTIATION_EXPECTED)
        if self.negotiated[session] and command == "qmp_capabilities":
            raise Refused(Code.NEGOTIATION_DONE)
        if command not in COMMANDS:
            raise Refused(Code.UNKNOWN_COMMAND)
        judge_arguments(command, arguments)
        if command == "qmp_capabilities":
            if arguments.get("enable"):
                raise Refused(Code.NOT_OFFERED)
            self.negotiated[session] = True
            return {}
        returned = getattr(self, "do_" + command.replace("-", "_"))(arguments)
        return {} if returned is None else returned

    def do_query_version(self, _):
        """Tells the version of the greeting."""
        return VERSION

    def do_query_commands(self, _):
        """Lists the commands."""
        return [{"name": it} for it in sorted(COMMANDS)]

    def do_qom_list_types(self, arguments):
        """Lists the types that are of a name, abstract ones only where they are asked for."""
        wanted, with_abstract = arguments.get("implements", "object"), arguments.get("abstract", False)
        return [
            {"name": name} | ({"abstract": True} if it.is_abstract else {}) | ({"parent": it.parent} if it.parent else {})
            for name, it in TYPES.items()
            if is_a(name, wanted) and (with_abstract or not it.is_abstract)
        ]

    def do_device_list_properties(self, arguments):
        """Lists the properties that a device of a type is given when it is added."""
        name = arguments["typename"]
        if name not in TYPES:
            raise Refused(Code.TYPE_UNKNOWN)
        if not is_a(name, "device"):
            raise Refused(Code.NOT_CREATABLE)
        given = [it for it in properties_of(name) if it.access in GIVEN_BY_ADDING]
        return [{"name": it.name, "type": it.type.name if it.kind is Kind.PLAIN else f"link<{it.type}>"} for it in given]

    def do_query_status(self, _):
        """Tells whether the machine runs."""
        running = self.board.is_running
        return {"running": running, "status": "running" if running else "paused"}

    def do_stop(self, _):
        """Stops the machine."""
        if self.board.is_running:
            self.board.is_running = False
            self.board.tell("STOP")

    def do_cont(self, _):
        """Has the machine go on."""
        if not self.board.is_running:
            self.board.is_running = True
            self.board.tell("RESUME")

    def do_system_reset(self, _):
        """Resets the machine."""
        self.board.reset_machine(by_guest=False)

    def do_quit(self, _):
        """Ends the run."""
        self.shut_down(by_guest=False)

    def do_qom_list(self, arguments):
        """Lists the properties of an object."""
        return self.board.listed(arguments["path"])

    def do_qom_get(self, arguments):
        """Reads a property."""
        return self.board.read(arguments["path"], arguments["property"])

    def do_qom_set(self, arguments):
        """Writes a property."""
        self.board.write(arguments["path"], arguments["property"], arguments["value"])

    def do_object_add(self, arguments):
        """Adds a user's object."""
        given = {name: it for name, it in arguments.items() if name not in COMMANDS["object-add"]}
        self.board.add_object(arguments["qom-type"], arguments["id"], given)

    def do_object_del(self, arguments):
        """Removes a user's object."""
        self.board.remove_object(arguments["id"])

    def do_device_add(self, arguments):
        """Adds a device."""
        given = {name: it for name, it in arguments.items() if name not in COMMANDS["device_add"]}
        self.board.add_device(arguments["driver"], arguments.get("id"), arguments.get("bus"), given)

    def do_device_del(self, arguments):
        """Asks for the removal of a device."""
        self.board.ask_removal(arguments["id"])

    def do_human_monitor_command(self, arguments):
        """Does what a line of the text monitor asks for, and returns what it is told."""
        line = arguments["command-line"]
        if line == "info qom-tree":
            return self.board.tree_text()
        if line == "info qtree":
            return self.board.bus_text(ROOT_BUS, "root.0") + self.board.bus_text(MEMORY_BUS, "mem.0")
        asked = monitor_command(line)
        if asked is None:
            return "Error: line unreadable\n"
        command, given = asked
        try:
            getattr(self, "do_" + command)(given)
        except Refused as why:
            number, text = why.code.value
            return f"Error: E{number} {text}\n"
        return ""

    def do_chardev_add(self, arguments):
        """Makes a ring."""
        backend = arguments["backend"]
        if backend["type"] != "ringbuf":
            raise Refused(Code.TYPE_UNKNOWN)
        self.board.add_ring(arguments["id"], backend["data"].get("size", USUAL_RING))

    def ring(self, name):
        """The ring of an id."""
        ring = self.board.ring(name)
        if ring is None:
            raise Refused(Code.RING_NOT_FOUND)
        return ring

    def do_chardev_remove(self, arguments):
        """Removes a ring."""
        ring = self.ring(arguments["id"])
        if self.board.is_ring_claimed(ring.name):
            raise Refused(Code.RING_CLAIMED)
        self.board.rings.remove(ring)

    def do_ringbuf_read(self, arguments):
        """Takes bytes out of a ring."""
        ring = self.ring(arguments["device"])
        taken = ring.content[: arguments["size"]]
        is_text = arguments.get("format", "utf8") == "utf8"
        if is_text and not taken.isascii():
            raise Refused(Code.NOT_ASCII)
        ring.content = ring.content[arguments["size"] :]
        return taken.decode() if is_text else base64.b64encode(taken).decode()

    def do_ringbuf_write(self, arguments):
        """Puts bytes into a ring."""
        ring = self.ring(arguments["device"])
        data = arguments["data"].encode()
        if arguments.get("format", "utf8") == "base64":
            try:
                data = base64.b64decode(arguments["data"], validate=True)
            except (binascii.Error, ValueError) as why:
                raise Refused(Code.VALUE_DOES_NOT_FIT) from why
            if base64.b64encode(data).decode() != arguments["data"]:
                raise Refused(Code.VALUE_DOES_NOT_FIT)
        ring.push(data)

    def do_x_reset_hold(self, arguments):
        """Holds an object in reset."""
        birth = self.board.resolved(arguments["path"], "resettable")
        if not self.board.is_attached(birth):
            raise Refused(Code.PATH_NOT_FOUND)
        if any(self.board.reset_count(it) >= MOST_HOLDS_ABOVE for it in self.board.reset_order(birth)):
            raise Refused(Code.RESET_DEPTH)
        self.board.hold(birth, arguments.get("type", "cold"))

    def do_x_wakeup(self, _):
        """Wakes the machine up: a reset that keeps some registers, and completes no removal."""
        self.board.reset(MACHINE, "wakeup")

    def do_x_reset_release(self, arguments):
        """Takes a hold away."""
        birth = self.board.resolved(arguments["path"], "resettable")
        if birth not in self.board.holds:
            raise Refused(Code.NO_SUCH_HOLD)
        self.board.release(birth)

    def do_x_sever(self, arguments):
        """Empties the strong links of a detached object."""
        self.board.sever(arguments["birth"])

    def reports(self):
        """What `watch` puts of the run so far: all notes, and the births of those who were made and did not end."""
        notes = self.board.notes
        made, ended = ({int(it.split()[1]) for it in notes if it.startswith(act)} for act in ("init ", "final "))
        return "".join(f"{it}\n" for it in [*notes, " ".join(["live", *map(str, sorted(made - ended))])])

    def do_x_query_notes(self, arguments):
        """Tells notes from a number on."""
        notes = self.board.notes
        first = min(max(arguments["from"], len(notes) - MOST_NOTES_KEPT), len(notes))
        return {"first": first, "notes": notes[first : first + MOST_NOTES_TOLD], "total": len(notes)}

    def do_x_query_detached(self, _):
        """Tells the objects without a parent."""
        board = self.board
        births = [it for it in sorted(board.objects) if it != ROOT and board.owner(it) is None]
        return [{"birth": it, "refs": board.references(it), "type": board.objects[it].type} for it in births]

    def do_x_describe(self, _):
        """Tells the description of the board; an object without members where it has none."""
        return described(self.board) or {}

    def do_x_memmap(self, _):
        """Tells what shows at all addresses."""
        spans = self.board.shown()
        names = {None: "boot"} | {it: self.board.canonical_path(it.birth) for _, it, _, _ in spans if it}
        return [{"at": at, "name": names[it], "offset": offset, "size": size} for at, it, offset, size in spans]

    def do_x_guest(self, arguments):
        """Has the guest say a line."""
        answer = self.answer(arguments["line"])
        if answer is None:
            raise Refused(Code.LINE_UNREADABLE)
        return {"answer": answer}

    def do_x_step(self, arguments):
        """Lets time pass."""
        self.board.pass_time(arguments["ns"])
        return {"now": self.board.now}
