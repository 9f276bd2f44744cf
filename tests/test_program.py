#!/usr/bin/env python3
"""Runs the proved program with words and input of several kinds, and holds its exit status, what it prints and what it
complains to what they must be. It prints nothing where all is well. The program is built by `rt ci`, or by `rt run` in
crates/compose_program, whose stored run lists the root."""
import json
import pathlib
import subprocess
import sys
import threading

TOP = pathlib.Path(__file__).resolve().parent.parent
PROGRAM = TOP / "crates" / "compose_program" / "out" / "compose_program"
PATIENCE = 300
TYPES = b"""\
object - abstract -
container object plain -
machine object plain hotplug-handler,resettable
device object abstract resettable
slot-device device abstract -
slot-uart slot-device plain -
slot-timer slot-device plain -
slot-bridge slot-device plain hotplug-handler
mem-dimm device plain -
bus object abstract resettable
slot-bus bus plain -
mem-bus bus plain -
clock object plain -
memory-backend object abstract user-creatable
memory-backend-ram memory-backend plain -
tag object plain user-creatable
"""
OPENING = (
    b'{"clock":{"div":1,"mul":1,"period":42949672960},"clocks":[],"devices":[],"links":[],"objects":[],"rings":[],"version":1}'
)
NEGOTIATED = b"replies 1\nerrors 0\nevents 0\nanswers 0\nbytes 119\n"
USAGE = b"usage: compose replay | serve --socket PATH --connections N | demo --seed N --steps K | types | rebuild | watch\n"


def differs(name, words, given, status, printed, complained):
    """Whether a run is not as it must be; says how."""
    ran = subprocess.run([PROGRAM, *words], input=given, capture_output=True, timeout=PATIENCE)
    wanted = (status, printed, complained)
    got = (ran.returncode, ran.stdout, ran.stderr)
    if got == wanted:
        return False
    print(f"{name}: wanted {wanted}, got {got}", file=sys.stderr)
    return True


def demo_record(seed, steps):
    """The demo record of a seed, made from its table in docs/PROFILE.md by itself."""

    def drawn():
        nonlocal seed
        seed = (seed * 6364136223846793005 + 1442695040888963407) % 2**64
        return (seed >> 33) % 8

    def plugging(driver, n):
        return f'{{"execute":"device_add","arguments":{{"driver":"{driver}","id":"d{n}","slot":{n}}}}}\n'

    record = ["qrec 1\nopen 0.000000 0\n"]
    for second in range(steps + 1):
        k, n = (drawn(), drawn()) if second else (None, None)
        sent = {
            None: '{"execute":"qmp_capabilities"}\n',
            0: plugging("slot-uart", n),
            1: plugging("slot-timer", n),
            2: f'{{"execute":"device_del","arguments":{{"id":"d{n}"}}}}\n',
            7: '{"execute":"system_reset"}\n' if n == 0 else None,
        }.get(k)
        guest = {3: f"ack {n}\n", 4: f"nack {n}\n", 5: f"write {n} 1 0x10\n", 7: "poll\n"}.get(k)
        if k == 6:
            record.append(f"step {second}.000000 {1000 * (n + 1)}\n")
        elif sent:
            record.append(f"bytes {second}.000000 0 {len(sent)}\n{sent}\n")
        else:
            record.append(f"guest {second}.000000 {len(guest)}\n{guest}\n")
    return "".join(record).encode()


def summary(transcript):
    """The five lines that count a transcript."""
    counts = dict.fromkeys(["return", "error", "event"], 0)
    answers = 0
    for line in transcript.splitlines():
        lane, message = line.split(b" ", 1)
        if lane == b"g":
            answers += 1
            continue
        for name in counts.keys() & json.loads(message).keys():
            counts[name] += 1
    lines = zip(["replies", "errors", "events", "answers", "bytes"], [*counts.values(), answers, len(transcript)])
    return "".join(f"{name} {count}\n" for name, count in lines).encode()


def demo_differs(name, words, seed, steps):
    """Whether a demo, twice, does not count what is sent for its record, made and counted here; says so."""
    replayed = subprocess.run([PROGRAM, "replay"], input=demo_record(seed, steps), capture_output=True, timeout=PATIENCE)
    if replayed.returncode != 0:
        print(f"the record of {name}: status {replayed.returncode}", file=sys.stderr)
        return True
    return any(differs(name, words, b"", 0, summary(replayed.stdout), b"") for _ in range(2))


def answers_late():
    """Whether a reply does not come while the pipe of its record is still open; says which."""
    greeting = b'0 {"QMP":{"capabilities":[],"version":{"package":"compose","qemu":{"major":1,"micro":0,"minor":0}}}}\r\n'
    steps = [
        (b"qrec 1\nopen 1.000000 0\n", greeting),
        (b'bytes 1.000000 0 30\n{"execute":"qmp_capabilities"}\n', b'0 {"return":{}}\r\n'),
        (b'bytes 1.000000 0 26\n{"execute":"query-status"}\n', b'0 {"return":{"running":true,"status":"running"}}\r\n'),
    ]
    with subprocess.Popen([PROGRAM, "replay"], stdin=subprocess.PIPE, stdout=subprocess.PIPE) as ran:
        patience = threading.Timer(PATIENCE, ran.kill)
        patience.start()
        got = []
        for sent, _ in steps:
            ran.stdin.write(sent)
            ran.stdin.flush()
            got.append(ran.stdout.readline())
        ran.stdin.close()
        status = ran.wait()
        patience.cancel()
    if got == [wanted for _, wanted in steps] and status == 0:
        return False
    print(f"an open pipe: got {got}, and status {status}", file=sys.stderr)
    return True


def main():
    cycle = (TOP / "examples" / "cycle.qrec").read_bytes()
    transcript = (TOP / "examples" / "cycle.transcript").read_bytes()
    bad = f"compose: bad record at byte {len(cycle)}\n".encode()
    runs = [
        ("no words", [], b"", 2, b"", USAGE),
        ("another word", ["frobnicate"], cycle, 2, b"", USAGE),
        ("a word too many", ["replay", "replay"], cycle, 2, b"", USAGE),
        ("a word that is no text", [b"\xff"], cycle, 2, b"", USAGE),
        ("a whole stream", ["replay"], cycle, 0, transcript, b""),
        ("a bad place after it", ["replay"], cycle + b"shut 0.000000\n", 3, transcript, bad),
        ("no stream", ["replay"], b"", 3, b"", b"compose: bad record at byte 0\n"),
        ("the types", ["types"], cycle, 0, TYPES, b""),
        ("nothing to watch", ["watch"], b"qrec 1\n", 0, b"live\n", b""),
        ("a bad place at which nothing is watched", ["watch"], cycle + b"shut 0.000000\n", 3, b"", bad),
        ("watch and a word too many", ["watch", "--help"], b"", 2, b"", USAGE),
        ("types and a word too many", ["types", "--help"], b"", 2, b"", USAGE),
        ("no connections", ["serve", "--connections", "0", "--socket", "s"], b"", 2, b"", USAGE),
        ("no path", ["serve", "--socket=", "--connections", "1"], b"", 2, b"", USAGE),
        ("a board", ["rebuild"], OPENING, 0, OPENING + b"\n", b""),
        ("no board", ["rebuild"], b"{}", 9, b"", b"compose: bad board: not a description\n"),
        ("a board that is refused", ["rebuild"], OPENING.replace(b'"div":1', b'"div":0'), 9, b"", b"compose: bad board: E46 divider is 0\n"),
        ("a board and a word too many", ["rebuild", "x"], OPENING, 2, b"", USAGE),
        ("a demo without steps", ["demo", "--seed", "1", "--steps", "0"], b"", 0, NEGOTIATED, b""),
        ("a demo of one step that is time", ["demo", "--steps=1", "--seed=1"], cycle, 0, NEGOTIATED, b""),
        ("a demo with a step too many", ["demo", "--seed", "1", "--steps", "1000001"], b"", 2, b"", USAGE),
        ("a socket in no folder", ["serve", "--socket", "no/such/folder", "--connections", "1"], b"", 7, b"", b"compose: hub fault\n"),
    ]
    demos = [
        ("a long demo", ["demo", "--seed", "7", "--steps", "20000"], 7, 20_000),
        ("the longest demo", ["demo", "--steps", "1000000", "--seed=18446744073709551615"], 2**64 - 1, 1_000_000),
    ]
    return any([*[differs(*run) for run in runs], *[demo_differs(*demo) for demo in demos], answers_late()])


sys.exit(main())
