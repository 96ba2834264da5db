#!/usr/bin/env python3
"""What a run of a rig takes: time beside a conversion, time with sixteen links beside one, and memory.

    bench/rig.py [--program ./midibridge] [--mib 8] [--rounds 5] [--dump 256] [--no-memory]

Makes tapes in a temporary directory, checks outs and reports, and prints a table. Times are the processor's, of a user
and of the system, the least of the rounds; the report goes to /dev/null, outs go to files. The tapes of the memory are
of 1 MiB and of --dump MiB, of one SysEx each, in records of 65,535 bytes. Ends with status 1 where an out or a report
isn't right, or where memory grows."""
import argparse
import os
import random
import subprocess
import sys
import tempfile

import bridge

HERE = os.path.dirname(os.path.abspath(__file__))
MIB = 1 << 20
RECORD = 200
STEP = 1000  # microseconds from a record to the next of its link


def record(moment, content):
    return moment.to_bytes(8, "big") + b"\0" + len(content).to_bytes(2, "big") + content


def make_tape(path, recording, first):
    """A tape of records of 200 bytes, from this moment on."""
    with open(path, "wb") as tape:
        tape.write(b"MBT2")
        for place, at in enumerate(range(0, len(recording), RECORD)):
            tape.write(record(first + place * STEP, recording[at : at + RECORD]))


def make_dump(path, size):
    """A tape of about this size, of one SysEx."""
    most = 65_535
    with open(path, "wb") as tape:
        tape.write(b"MBT2" + record(0, b"\xf0"))
        for place in range(size // (most + 11)):
            tape.write(record(place * STEP, b"\x55" * most))
        tape.write(record(size * STEP, b"\xf7"))


def make_rig(room, links, outs, routes):
    """Writes the text of a rig, of byte lines; an out is the name of its file."""
    lines = [f"in l{link} din l{link}.mbt" for link in range(links)]
    lines += [f"out o{at} din {name}" for at, name in enumerate(outs)]
    lines += [f"route l{link} o{out}" for link, out in routes]
    with open(f"{room}/rig.txt", "w", encoding="ascii") as text:
        text.write("\n".join(lines) + "\n")


def timed(words, room, source=os.devnull, sink=os.devnull):
    """The processor's seconds of a program, of which the status must be 0."""
    with open(source, "rb") as given, open(sink, "wb") as taken:
        process = subprocess.Popen(words, cwd=room, stdin=given, stdout=taken)
        _, status, used = os.wait4(process.pid, 0)
        process.returncode = os.waitstatus_to_exitcode(status)
    if process.returncode:
        sys.exit(f"{words} ended with status {process.returncode}")
    return used.ru_utime + used.ru_stime


def least(rounds, *commands):
    """The least seconds of each command, each once a round, in turn."""
    took = [[timed(*command) for command in commands] for _ in range(rounds)]
    return [min(column) for column in zip(*took)]


def content_of(path):
    with open(path, "rb") as file:
        return file.read()


def peak_memory(program, room, sink):
    """The peak resident memory of a run in KiB. `time` starts it, since a program of Python's own would count with
    what Python holds."""
    with open(sink, "wb") as report:
        words = ["/usr/bin/time", "-f", "%M %U %S", program, "run", "rig.txt"]
        done = subprocess.run(words, cwd=room, stdout=report, stderr=subprocess.PIPE, check=True)
    peak, user, system = done.stderr.split()
    return int(peak), float(user) + float(system)


class Bench:
    """The runs, and whether all was right."""

    def __init__(self, program, room, rounds, fine=True):
        self.program, self.room, self.rounds, self.fine = program, room, rounds, fine

    def check(self, right, what):
        if not right:
            print(f"wrong: {what}", flush=True)
            self.fine = False

    def report(self):
        """The lines of a run's report."""
        timed([self.program, "run", "rig.txt"], self.room, sink=f"{self.room}/report")
        return content_of(f"{self.room}/report").splitlines()

    def links(self, recordings, outs, routes):
        """Makes a rig, and returns its report's lines."""
        for link, recording in enumerate(recordings):
            # links begin one behind the other within a step, so that their records take turns
            make_tape(f"{self.room}/l{link}.mbt", recording, link * STEP // len(recordings))
        make_rig(self.room, len(recordings), outs, routes)
        lines = self.report()
        of_link = [sum(line.split()[2] == str(link).encode() for line in lines) for link in range(len(recordings))]
        traced = [self.traced(recording) for recording in recordings]
        self.check(of_link == traced, f"lines of the links: {of_link}, by trace {traced}")
        self.check(all(line.split()[0] == line.split()[1] for line in lines), "a line is late where nothing holds it")
        return lines

    def traced(self, recording):
        """How many messages a recording has."""
        done = subprocess.run([self.program, "trace", "din"], input=recording, stdout=subprocess.PIPE, check=True)
        return sum(line.split()[1] in (b"short", b"rt") for line in done.stdout.splitlines())

    def beside_conversion(self, recording):
        with open(f"{self.room}/recording", "wb") as file:
            file.write(recording)
        lines = self.links([recording], ["out"], [(0, 0)])
        convert = [self.program, "convert", "din", "din"], self.room, f"{self.room}/recording", f"{self.room}/converted"
        run = [self.program, "run", "rig.txt"], self.room
        ran, converted = least(self.rounds, run, convert)
        same = content_of(f"{self.room}/out") == content_of(f"{self.room}/converted")
        self.check(same, "the out isn't the conversion")
        size, written, records = len(recording), sum(len(line) + 1 for line in lines), -(-len(recording) // RECORD)
        a_mark = ran * 1e9 / len(lines)
        print(f"{size / MIB:.1f} MiB, {len(lines)} messages in {records} records; the report has {written} bytes")
        print(f"convert din din     {converted:6.3f} s  {converted * 1e9 / size:6.1f} ns a byte")
        print(f"run, one link       {ran:6.3f} s  {ran * 1e9 / size:6.1f} ns a byte  {a_mark:6.1f} ns a mark")
        print(f"run at {converted / ran:.2f} of the conversion's speed", flush=True)
        return ran / len(lines)

    def sixteen(self, recording, mark):
        size = len(recording) // 16
        parts = [recording[at * size : (at + 1) * size] for at in range(16)]
        for name, count in (("to an out each", 16), ("to one out", 1)):
            files = [f"out{at}" for at in range(count)]
            lines = self.links(parts, files, [(at, at % count) for at in range(16)])
            ran = least(self.rounds, ([self.program, "run", "rig.txt"], self.room))[0]
            self.check(self.passed_on(parts, files), f"outs of sixteen links {name}")
            took, times = ran * 1e9 / len(lines), ran / len(lines) / mark
            print(f"sixteen links {name:15} {ran:6.3f} s  {took:6.1f} ns a mark, {times:.2f} of one link's", flush=True)

    def passed_on(self, parts, files):
        """Each link's out is its conversion; of one out of all, the count of messages is all of theirs."""
        contents = [content_of(f"{self.room}/{name}") for name in files]
        if len(files) == 1:
            return self.traced(contents[0]) == sum(self.traced(part) for part in parts)
        words = [self.program, "convert", "din", "din"]
        converted = [subprocess.run(words, input=part, stdout=subprocess.PIPE, check=True).stdout for part in parts]
        return contents == converted

    def memory(self, size):
        """Two tapes of one SysEx each: to an out each, and to one out, where the second link is stalled till the first
        one's is over."""
        kinds = {"to an out each": ["/dev/null", "/dev/./null"], "to one out": ["/dev/null"]}
        for name, outs in kinds.items():
            peaks = []
            for mib in (1, size):
                for link in range(2):
                    make_dump(f"{self.room}/l{link}.mbt", mib * MIB)
                make_rig(self.room, 2, outs, [(0, 0), (1, len(outs) - 1)])
                peak, took = peak_memory(self.program, self.room, f"{self.room}/report")
                kinds_of = [line.split()[2:] for line in content_of(f"{self.room}/report").splitlines()]
                self.check(kinds_of == [[b"0", b"S"], [b"1", b"S"]], f"the report of two dumps: {kinds_of}")
                peaks.append(peak)
                a_byte = took * 1e9 / (2 * os.path.getsize(f"{self.room}/l0.mbt"))
                print(f"two SysEx of {mib:3} MiB {name:15} {peak:6} KiB  {took:7.2f} s", end="")
                print(f"  {a_byte:6.1f} ns a byte", flush=True)
            # how much of the C library the system has loaded differs from run to run
            self.check(max(peaks) - min(peaks) <= 512, "memory grows")


def main():
    options = argparse.ArgumentParser(description=__doc__, formatter_class=argparse.RawDescriptionHelpFormatter)
    options.add_argument("--program", default=f"{HERE}/../midibridge")
    options.add_argument("--mib", type=int, default=8)
    options.add_argument("--rounds", type=int, default=5)
    options.add_argument("--dump", type=int, default=256)
    options.add_argument("--no-memory", action="store_true")
    given = options.parse_args()
    print("load of the machine", *(f"{load:.1f}" for load in os.getloadavg()), f"on {os.cpu_count()} processors")
    with tempfile.TemporaryDirectory() as room:
        bench = Bench(os.path.abspath(given.program), room, given.rounds)
        recording = bridge.channel_messages(random.Random(7), given.mib * MIB)
        bench.sixteen(recording, bench.beside_conversion(recording))
        if not given.no_memory:
            bench.memory(given.dump)
    sys.exit(0 if bench.fine else 1)


if __name__ == "__main__":
    main()
