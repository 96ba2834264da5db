#!/usr/bin/env python3
"""Holds `run` against a plain model of how a rig is run, written from docs/FORMATS.md: whole lists, nothing streamed.

    tests/rigs.py [--program ./midibridge] [--cases 200] [--seed 1] [--only NAME]

Runs the rigs that are named below, and then so many small ones made at random; --only takes the named ones that contain
this word, or `random`. Compares the status, the report, standard error and all outs with the model, and what `trace`
says of each out of BLE-MIDI and FireWire with the lines of the report. Where a run is stopped by a fault, what an
out's writer holds back may be missing. Prints each rig that differs, in a folder that stays, and ends with status 1
where one does."""
import argparse
import collections
import os
import random
import shutil
import subprocess
import sys
import tempfile

import inputs
import long_run
import plain

MOST_HELD = 1_024
KINDS = {"short": "M", "rt": "R", "end": "S", "abort": "B"}
# in microseconds: small ones, so that links meet
STEPS = (0, 0, 1, 3, 400, 999, 1000, 1001, 5000)


class Rig:
    """Tapes; links, each a spec, the number of a tape and a track; the specs of outs; and routes."""

    def __init__(self, tapes, links, outs, routes):
        self.tapes, self.links, self.outs, self.routes = tapes, links, outs, routes

    def text(self):
        lines = [f"in l{at} {word} t{tape}.mbt {track}" for at, (word, tape, track) in enumerate(self.links)]
        lines += [f"out o{at} {word} o{at}.bin" for at, word in enumerate(self.outs)]
        lines += [f"route l{link} o{out}" for link, out in self.routes]
        return "\n".join(lines) + "\n"


def everywhere(links, outs):
    return [(link, out) for link in range(links) for out in range(outs)]


# The model.


class Router:
    """Which mark passes next."""

    def __init__(self, links, routes):
        self.outs = [{out for of, out in routes if of == link} for link in range(links)]
        self.held = [collections.deque() for _ in range(links)]
        self.owners = set()

    def may_pass(self, link, mark):
        if mark[0] == "rt":
            return True
        if mark[0] in ("data", "end", "abort"):
            return link in self.owners
        return not any(self.outs[link] & self.outs[owner] for owner in self.owners if owner != link)

    def note_owner(self, link, mark):
        if mark[0] == "open":
            self.owners.add(link)
        elif mark[0] in ("end", "abort"):
            self.owners.discard(link)

    def offer(self, link, arrival, mark):
        """What passes, each with its arrival and its link, or None where the mark is refused."""
        if mark[0] == "rt":
            return [(arrival, link, mark)]
        passed = []
        if not self.held[link] and self.may_pass(link, mark):
            passed.append((arrival, link, mark))
            self.note_owner(link, mark)
        elif len(self.held[link]) == MOST_HELD:
            return None
        else:
            self.held[link].append((arrival, mark))
        while True:
            heads = [(held[0][0], other) for other, held in enumerate(self.held) if held]
            heads = [(moment, other) for moment, other in heads if self.may_pass(other, self.held[other][0][1])]
            if not heads:
                return passed
            other = min(heads)[1]
            moment, head = self.held[other].popleft()
            self.note_owner(other, head)
            passed.append((moment, other, head))


class Link:
    """The records of a link, of whatever track, each with its moment and the marks that it makes known."""

    def __init__(self, number, tape, word, track):
        known, ending, self.whole = plain.track_marks(tape, word, track)
        self.number, self.fault, self.is_stalled = number, tape.fault, False
        self.records = [(moment, collections.deque()) for moment, _, _, _ in tape.records]
        for at, mark in known:
            self.records[at][1].append(mark)
        if self.records and not self.fault:
            self.records[-1][1].extend(ending)
        self.records = collections.deque(self.records)


class Run:
    """A run: its report as (arrival, passing, link, mark), both moments in microseconds, and what each out was given:
    (step, passing in milliseconds, mark)."""

    def __init__(self, rig):
        tapes = [plain.Tape(tape) for tape in rig.tapes]
        self.rig, self.router, self.greatest = rig, Router(len(rig.links), rig.routes), 0
        self.links = [Link(at, tapes[tape], word, track) for at, (word, tape, track) in enumerate(rig.links)]
        self.report, self.puts, self.steps, self.stalls = [], [[] for _ in rig.outs], 0, 0
        self.stopped = next((link for link in self.links if link.fault and not link.records), None)
        while self.stopped is None and self.step():
            pass

    def step(self):
        """Does a step, and returns whether there was one."""
        for link in self.links:
            link.is_stalled = link.is_stalled and len(self.router.held[link.number]) == MOST_HELD
        ready = [(link.records[0][0], link.number) for link in self.links if link.records and not link.is_stalled]
        if not ready:
            assert not any(link.records for link in self.links), "the model is stuck"
            return False
        moment, number = min(ready)
        link, self.greatest = self.links[number], max(self.greatest, moment)
        self.steps += 1
        marks = link.records[0][1]
        while marks:
            passed = self.router.offer(number, moment, marks[0])
            if passed is None:
                link.is_stalled = True
                self.stalls += 1
                return True
            marks.popleft()
            self.pass_on(passed)
        link.records.popleft()
        if link.fault and not link.records:
            self.stopped = link
        return True

    def pass_on(self, passed):
        for arrival, link, mark in passed:
            if mark[0] in KINDS:
                self.report.append((arrival, self.greatest, link, mark))
            for out in self.router.outs[link]:
                self.puts[out].append((self.steps, self.greatest // 1000, mark))

    def text(self):
        lines = [f"{arrival // 1000} {passing // 1000} {link} {KINDS[mark[0]]}\n"
                 for arrival, passing, link, mark in self.report]
        return "".join(lines).encode()

    def out(self, number, is_finished):
        """The bytes of an out, finished or as far as its writer holds nothing back. A packet of BLE-MIDI ends with its
        step at the latest."""
        writer, puts = plain.spec(self.rig.outs[number])[1], self.puts[number]
        end = self.greatest // 1000
        if not self.rig.outs[number].startswith("ble"):
            return bytes(byte for byte, _ in writer([(mark, at) for _, at, mark in puts], end if is_finished else None))
        of_step, written = collections.defaultdict(list), []
        for step, at, mark in puts:
            of_step[step].append((mark, at))
        for step, some in of_step.items():
            written += writer(some, some[-1][1] if is_finished or step < self.steps else None)
        return bytes(byte for byte, _ in written)

    def answer(self):
        if self.stopped:
            name = f"t{self.rig.links[self.stopped.number][1]}.mbt"
            return 7, f"tape {name}: {self.stopped.fault}\n"
        return (0, "") if all(link.whole for link in self.links) else (5, "input is cut\n")


# The program beside it.


def differences(program, rig, room):
    """What differs, a line each."""
    run = Run(rig)
    for at, tape in enumerate(rig.tapes):
        with open(f"{room}/t{at}.mbt", "wb") as file:
            file.write(tape)
    with open(f"{room}/rig.txt", "w", encoding="ascii") as file:
        file.write(rig.text())
    done = subprocess.run([program, "run", "rig.txt"], cwd=room, capture_output=True, timeout=600, check=False)
    found, answer = [], (done.returncode, done.stderr.decode(errors="replace"))
    if answer != run.answer():
        found.append(f"answers {answer}, plainly {run.answer()}")
    if done.stdout != run.text():
        found.append(f"report: {first_difference(done.stdout.splitlines(), run.text().splitlines())}")
    for at, word in enumerate(rig.outs):
        with open(f"{room}/o{at}.bin", "rb") as file:
            out = file.read()
        whole = run.out(at, True)
        if out != whole and not (run.stopped and whole.startswith(out) and out.startswith(run.out(at, False))):
            found.append(f"out {at}, {word}: {first_difference(out, whole)}")
        if word.startswith(("ble", "fw")) and not run.stopped:
            found += traced_differences(program, rig, at, out, done.stdout.decode())
    return run, found


def first_difference(ours, plainly):
    at = next((at for at, (one, other) in enumerate(zip(ours, plainly)) if one != other), min(len(ours), len(plainly)))
    return f"at {at} {ours[at : at + 8]!r}, plainly {plainly[at : at + 8]!r}, of {len(ours)} and {len(plainly)}"


def counted(lines):
    """Of (kind, moment): all but real-time ones in order, and each real-time one with how many messages and whole
    SysEx stand before it. A broken SysEx shows late in a recording, and its moment says nothing."""
    items, realtimes, before = [], [], 0
    for kind, moment in lines:
        if kind == "R":
            realtimes.append((moment, before))
        else:
            items.append((kind, None if kind == "B" else moment))
            before += kind in "MS"
    return items, realtimes


def traced_differences(program, rig, at, out, report):
    """What `trace` says of an out beside the lines of the report that go there: kinds and their order, and the moments
    of BLE-MIDI, of which a recording has 13 bits; FireWire has none."""
    word = rig.outs[at].split("/")[0]
    turn = 8192 if word == "ble" else 1
    done = subprocess.run([program, "trace", word], input=out, capture_output=True, timeout=600, check=False)
    lines = [line.split() for line in done.stdout.decode().splitlines()]
    notes = [line for line in lines if line[0] == "note"]
    traced = [(KINDS[line[1]], int(line[0]) % turn) for line in lines if line[0] != "note" and line[1] in KINDS]
    wanted = [line.split() for line in report.splitlines()]
    wanted = [(kind, int(moment) % turn) for _, moment, link, kind in wanted if (int(link), at) in rig.routes]
    found = [f"trace of out {at}: {note}" for note in notes]
    for name, ours, reported in zip(("items", "real-time"), counted(traced), counted(wanted)):
        if ours != reported:
            found.append(f"trace of out {at}, {name}: {first_difference(ours, reported)}")
    return found


# Rigs.


def record(moment, content, track=0):
    return plain.header_of(moment, track, len(content)) + content


def notes(rng, count):
    """So many notes under running status."""
    return bytes([0x90]) + bytes(rng.randrange(128) for _ in range(2 * count))


def played(rng, word, count):
    """A recording of a few hundred bytes for a reader of this spec, right ones alone."""
    found = b""
    while len(found) < count:
        found += inputs.MAKERS[word[:3].rstrip(":")](rng)
    return found


def cut_up(rng, content, moment=0, steps=STEPS, sizes=(1, 2, 3, 10, 50), track=0):
    """Records of a track that cut these bytes anywhere."""
    found, at = [], 0
    while at < len(content):
        size = rng.choice(sizes)
        found.append((moment, track, content[at : at + size]))
        at, moment = at + size, moment + rng.choice(steps)
    return found


def tape_of(records):
    in_order = sorted(records, key=lambda it: it[0])
    return b"MBT2" + b"".join(record(moment, content, track) for moment, track, content in in_order)


def sixteen(rng):
    """Sixteen links and sixteen outs of all carriers with all routes."""
    words = [("din", "usb:0", "ble", "fw:0")[at % 4] for at in range(16)]
    tapes = [tape_of(cut_up(rng, played(rng, word, 2000), rng.randrange(5000))) for word in words]
    outs = ["din", "usb:3", "ble", "fw:0", "ble/5", "fw:9", "usb:15", "ble/512"] * 2
    return Rig(tapes, [(word, at, 0) for at, word in enumerate(words)], outs, everywhere(16, 16))


def dump(rng):
    """A dump of 1 MiB in one source, while fifteen others play; one of them shares no out with it."""
    data = bytes([0xF0]) + bytes(rng.randrange(128) for _ in range(1 << 20)) + b"\xf7"
    tapes = [tape_of(cut_up(rng, data, 2000, (1000,), (4096, 10_000)))]
    for at in range(15):
        # the first ones have more than is held, and stall
        content = notes(rng, 1500 if at < 3 else 300) + b"\xf0\x01\xf8\x02\xf7" + notes(rng, 5)
        tapes.append(tape_of(cut_up(rng, content, rng.randrange(5000), (200, 800, 1500), (2, 3, 10))))
    routes = [(at, 0) for at in range(15)] + [(15, 1), (1, 1)]
    return Rig(tapes, [("din", at, 0) for at in range(16)], ["din", "ble"], routes)


def stalled(rng):
    """1,100 marks behind a dump, and a clock among them."""
    del rng
    keys = b"MBT1" + bytes(9) + b"\x02\xf0\x01" + (2).to_bytes(8, "big") + b"\x00\x01\xf7"
    content = b"\x90" + b"\x3c\x64" * 1100
    pad = b"MBT1" + (1).to_bytes(8, "big") + len(content).to_bytes(2, "big") + content
    return Rig([keys, pad], [("din", 0, 0), ("din", 1, 0)], ["din"], everywhere(2, 1))


def stalled_twice(rng):
    """Dumps in two sources, and more marks than are held behind both, with clocks and a SysEx of their own."""
    first = tape_of(cut_up(rng, b"\xf0" + bytes(300) + b"\xf7", 1000, (700,), (10,)))
    second = tape_of(cut_up(rng, b"\xf0" + bytes(3000) + b"\xf7\xf0\x05", 1500, (5, 900), (100,)))
    content = notes(rng, 1300) + b"\xf8" + b"\xf0" + bytes(1500) + b"\xf8\xf7" + notes(rng, 900)
    third = tape_of(cut_up(rng, content, 0, (0, 10, 40), (7, 30, 4000)))
    return Rig([first, second, third], [("din", at, 0) for at in range(3)], ["din", "usb:1", "ble/7"], everywhere(3, 3))


def two_tracks(rng):
    """Two links on two tracks of one tape, behind whose last records those of a third track stand."""
    records = cut_up(rng, played(rng, "din", 600), 0) + cut_up(rng, played(rng, "usb:0", 600), 300, track=7)
    records += cut_up(rng, b"\xf0\x01", 10**6) + cut_up(rng, b"\xf8" * 20, 10**6, track=255)
    return Rig([tape_of(records)], [("din", 0, 0), ("usb:0", 0, 7)], ["din", "ble"], [(0, 0), (1, 0), (1, 1)])


def carriers(rng):
    """An out of BLE-MIDI and one of FireWire, of messages, dumps and real-time ones over some minutes."""
    steps = (0, 1, 500, 1000, 3000, 127_000, 128_000, 129_000, 4_000_000, 9_000_000)
    tapes = [tape_of(cut_up(rng, played(rng, "din", 3000), 0, steps, (3, 20, 60))) for _ in range(3)]
    return Rig(tapes, [("din", at, 0) for at in range(3)], ["ble", "fw:0", "ble/5"], everywhere(3, 3))


NAMED = {rig.__name__: rig for rig in (sixteen, dump, stalled, stalled_twice, two_tracks, carriers)}


def busy(rng):
    """A tape of dumps, and of so many notes that some links stall behind another's dump."""
    content = b""
    for _ in range(rng.choice((1, 2, 4))):
        dump_of = b"\xf0" + bytes(rng.randrange(2000)) + rng.choice((b"\xf7", b"\xf7", b"\xf8", b""))
        content += rng.choice((notes(rng, rng.choice((3, 50, 1030, 1400))), dump_of, b"\xf8"))
    steps = rng.choice(((0, 1, 100), (0, 0, 1000)))
    return tape_of(cut_up(rng, content, rng.randrange(3000), steps, (1, 10, 500, 900)))


def small(rng):
    """A small rig made at random: tapes right and spoilt, links on a second track of a tape; in three of ten, dumps and
    more marks than are held behind one."""
    tapes, links, is_busy = [], [], rng.random() < 0.3
    for _ in range(rng.choice((1, 2, 2, 3, 3, 4, 7))):
        word = long_run.spec(rng)
        if is_busy:
            word, made = "din", busy(rng)
        else:
            made = inputs.tape(rng, word, STEPS)
        links.append((word, len(tapes), 0))
        if rng.random() < 0.3 and len(links) < 16:
            links.append((rng.choice(("din", word)), len(tapes), rng.choice((1, 1, 255))))
        tapes.append(made)
    rng.shuffle(links)
    outs = [long_run.spec(rng) for _ in range(rng.choice((1, 1, 2, 3, 5)))]
    most = rng.choice((0.5, 0.8, 1))
    routes = [route for route in everywhere(len(links), len(outs)) if rng.random() < most]
    rng.shuffle(routes)
    return Rig(tapes, links, outs, routes)


def main():
    parser = argparse.ArgumentParser(description=__doc__, formatter_class=argparse.RawDescriptionHelpFormatter)
    parser.add_argument("--program", default=os.path.join(os.path.dirname(__file__), "../midibridge"))
    parser.add_argument("--cases", type=int, default=200)
    parser.add_argument("--seed", type=int, default=1)
    parser.add_argument("--only", default="")
    options = parser.parse_args()
    program = os.path.abspath(options.program)
    rigs = [(name, make) for name, make in NAMED.items() if options.only in name]
    if options.only in "random":
        rigs += [(f"random {number}", small) for number in range(options.cases)]
    counts, wrong = collections.Counter(), 0
    for name, make in rigs:
        rig = make(random.Random(f"{options.seed}/{name}"))
        room = tempfile.mkdtemp(prefix="rig-")
        run, found = differences(program, rig, room)
        counts.update({"lines": len(run.report), "steps": run.steps, "stalls": run.stalls,
                       f"status {run.answer()[0]}": 1,
                       "late lines": sum(passing > arrival for arrival, passing, _, _ in run.report)})
        if found:
            wrong += 1
            print(f"{name} differs, in {room}:", *found, sep="\n  ", flush=True)
        else:
            shutil.rmtree(room)
        if make is not small:
            print(f"{name}: {run.steps} steps, {len(run.report)} lines", flush=True)
    print(", ".join(f"{name} {count}" for name, count in sorted(counts.items())))
    print(f"{len(rigs)} rigs, {wrong} differ")
    return 1 if wrong else 0


if __name__ == "__main__":
    sys.exit(main())
