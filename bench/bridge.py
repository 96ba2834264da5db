#!/usr/bin/env python3
"""Times the built program on recordings made here, beside `dd bs=512` and, for conversions, a plain C loop (plain.c),
each once a round, in turn.

    bench/bridge.py [--program ./midibridge] [--mib 64] [--rounds 15] [--quick] [--only WORDS] [--no-memory]

--quick is 16 MiB and 5 rounds; --only takes the commands that contain these words. Prints the median throughput as a
ratio to dd and to C, for each command, each kind of input and each sink (a listing, and the kinds that no port sees
for long, to /dev/null alone), and the same ratio to C by the processor's time, which other work on the machine
changes less (a sixteenth of the input where FireWire is written); then one table of all commands: the throughput as a
ratio to dd, the peak resident memory and the time a byte at 1 MiB and at 256 MiB, and the memory of one System
Exclusive message of 96 MiB. Ends with status 1 where an output isn't C's, or where memory grows with the input."""
import argparse
import os
import random
import shutil
import statistics
import subprocess
import sys
import tempfile
import time

HERE = os.path.dirname(os.path.abspath(__file__))
MIB = 1 << 20
# the program's words, the carrier that they read, and plain.c's words for the same
COMMANDS = {
    "convert din usb:0": ("din", ["din", "usb"]),
    "convert din din": ("din", ["din", "din"]),
    "convert usb:0 din": ("usb", ["usb", "din"]),
    "convert usb:0 usb:1": ("usb", ["usb", "usb"]),
    "convert din fw:0": ("din", ["din", "fw"]),
    "convert fw:0 din": ("fw", ["fw", "din"]),
    "convert din ble": ("din", ["din", "ble"]),
    "convert ble din": ("ble", ["ble", "din"]),
    "convert ble ble": ("ble", ["ble", "ble"]),
    "check din": ("din", None),
    "trace din": ("din", None),
    "check usb:0": ("usb", None),
    "trace usb:0": ("usb", None),
    "check fw:0": ("fw", None),
    "trace fw:0": ("fw", None),
    "check ble": ("ble", None),
    "trace ble": ("ble", None),
}
KINDS = ["channel messages", "a third SysEx"]
# what no port sees for long, by the carrier that is read
FURTHER = {
    "din": ["real-time alone", "stray data alone"],
    "usb": ["two cables in turn"],
    "fw": ["blocks of three bytes"],
    "ble": [],
}
SINKS = ["/dev/null", "pipe", "file"]
# to FireWire a byte becomes a packet of 42
GROWN = 16


def channel_messages(rng, count):
    """Some channel messages with a clock now and then, also inside a message; half of them under running status."""
    line, running = bytearray(), None
    while len(line) < count:
        status = running if running and rng.random() < 0.5 else rng.randrange(0x80, 0xF0)
        message = [status] if status != running else []
        message += [rng.randrange(128) for _ in range(1 if 0xC0 <= status < 0xE0 else 2)]
        for byte in message:
            if rng.random() < 0.04:
                line.append(0xF8)
            line.append(byte)
        running = status
    return bytes(line)


def dense_packet(rng, at):
    """A FireWire packet of eight blocks, in each of which a port has a note on whole."""
    notes = (bytes([0x83, 0x90, rng.randrange(128), rng.randrange(128)]) for _ in range(8))
    return bytes([0, 40, 0, 1, 0, at // 42 * 8 % 256, 0x90, 2, 0xFF, 0xFF]) + b"".join(notes)


def timed_packets(rng, kind, count):
    """BLE-MIDI packets of at most 20 bytes whose moments rise by some milliseconds a message: whole frames of no more
    bytes in all."""
    out, packet, moment = bytearray(), bytearray(), 0

    def put(data, stamped):
        nonlocal packet
        data = bytes([0x80 | moment & 127]) * stamped + data
        header = 0x80 | moment >> 7 & 63
        if packet and (len(packet) + len(data) > 20 or (stamped and packet[0] != header)):
            out.extend(bytes([0, len(packet)]) + packet)
            packet = bytearray()
        packet = packet or bytearray([header])
        packet += data

    while len(out) < count:
        moment += rng.randrange(8)
        for _ in range(rng.randrange(1, 40)):
            status = rng.randrange(0x80, 0xF0)
            put(bytes([status] + [rng.randrange(128) for _ in range(1 if 0xC0 <= status < 0xE0 else 2)]), True)
            if rng.random() < 0.1:
                put(b"\xf8", True)
            moment += rng.randrange(8)
        if kind == "a third SysEx":
            put(b"\xf0", True)
            for _ in range(rng.randrange(4, 200)):
                put(bytes([rng.randrange(128)]), False)
            put(b"\xf7", True)
    end = 0
    while end + 2 <= count and end + 2 + 256 * out[end] + out[end + 1] <= count:
        end += 2 + 256 * out[end] + out[end + 1]
    return bytes(out[:end])


def recording(program, kind, carrier, size):
    """Bytes of a kind: one MiB made by chance with a fixed seed, again and again up to the size; as a byte line, or as
    packets of cable 0, of port 0 or of BLE-MIDI."""
    rng = random.Random(7)
    if carrier == "ble":
        return timed_packets(rng, kind, MIB) * (size // MIB)
    block = bytearray()
    while len(block) < MIB:
        if kind == "real-time alone":
            block.append(rng.choice(b"\xf8\xfa\xfb\xfc\xfe\xff"))
        elif kind == "stray data alone":
            block.append(rng.randrange(128))
        elif kind == "blocks of three bytes":
            block += dense_packet(rng, len(block))
        elif kind == "two cables in turn":
            for cable in (0x00, 0x10):
                block += bytes([cable + 9, 0x90, rng.randrange(128), rng.randrange(128)])
        else:
            block += channel_messages(rng, 200)
        if kind == "a third SysEx":
            block += b"\xf0" + bytes(rng.randrange(128) for _ in range(rng.randrange(4, 200))) + b"\xf7"
    if carrier != "din" and kind in KINDS:
        words = [program, "convert", "din", f"{carrier}:0"]
        block = subprocess.run(words, input=block, stdout=subprocess.PIPE, check=True).stdout
    whole = MIB // 42 * 42 if carrier == "fw" else MIB  # packets of 42 bytes
    return bytes(block[:whole]) * (size // MIB)


def run(words, source, sink, room):
    """Runs a program once, and returns the seconds that passed, and those of the processor."""
    with open(source, "rb") as given:
        reader = None
        if sink == "pipe":
            reader = subprocess.Popen(["cat"], stdin=subprocess.PIPE, stdout=subprocess.DEVNULL)
            taken = reader.stdin
        else:
            taken = open("/dev/null" if sink == "/dev/null" else f"{room}/out", "wb")
        start = time.perf_counter()
        process = subprocess.Popen(words, stdin=given, stdout=taken, stderr=subprocess.DEVNULL)
        taken.close()
        _, status, used = os.wait4(process.pid, 0)
        seconds = time.perf_counter() - start
        process.returncode = os.waitstatus_to_exitcode(status)
        if reader:
            reader.wait()
    if process.returncode > 1:  # a recording is cut at the end of its MiB, so check may find a note
        sys.exit(f"{words} ended with status {process.returncode}")
    return seconds, used.ru_utime + used.ru_stime


def peak_memory(words, blocks):
    """The peak resident memory in KiB once the program has read the blocks: it is asked before its input ends."""
    with subprocess.Popen(words, stdin=subprocess.PIPE, stdout=subprocess.DEVNULL) as process:
        for block in blocks:
            process.stdin.write(block)
        process.stdin.flush()
        with open(f"/proc/{process.pid}/status", encoding="ascii") as status:
            return next(int(line.split()[1]) for line in status if line.startswith("VmHWM"))


def written(words, source):
    with open(source, "rb") as given:
        return subprocess.run(words, stdin=given, stdout=subprocess.PIPE, check=True).stdout


def ratios(program, plain, command, kind, source, rounds, room):
    """Rows of medians over the rounds: the program's throughput to dd's and to C's, for each sink."""
    programs = {"dd": ["dd", "bs=512"], "ours": [program] + command.split()}
    loop = COMMANDS[command][1]
    if plain and loop:
        programs["C"] = [plain] + loop
    for sink in SINKS if loop and kind in KINDS else SINKS[:1]:
        took = {name: [] for name in programs}
        for _ in range(rounds):
            for name, words in programs.items():
                took[name].append(run(words, source, sink, room))
        median = lambda name, which: statistics.median(other[which] / ours[which] for other, ours in zip(took[name], took["ours"]))
        speed = os.path.getsize(source) / statistics.median(seconds for seconds, _ in took["ours"]) / 1e6
        to_c = [f"{median('C', which):.2f}" if "C" in programs else "-" for which in (0, 1)]
        yield [sink, f"{median('dd', 0):.3f}", *to_c, f"{speed:.0f}"]


def compile_plain(room):
    """The C loop, or None where there is no C compiler."""
    compiler = shutil.which("cc")
    if not compiler:
        return None
    subprocess.run([compiler, "-O3", "-o", f"{room}/plain", f"{HERE}/plain.c"], check=True)
    return f"{room}/plain"


def make(path, data, times=1):
    with open(path, "wb") as file:
        for _ in range(times):
            file.write(data)
    return path


def memory(program, commands, room):
    """Prints speed, memory and time a byte at 1 and 256 MiB, and the memory of one long SysEx; returns whether the memory is equal."""
    print(f"{'command':20} {'size':>16} {'to dd':>6} {'peak KiB':>9} {'ns of the processor a byte':>27}")
    peaks = []
    for command in commands:
        carrier, words = COMMANDS[command][0], [program] + command.split()
        block = recording(program, "a third SysEx", carrier, MIB)

        def medians(words, size, rounds):
            """The seconds that pass, and those of the processor."""
            source = make(f"{room}/in", block, size)
            times = [run(words, source, "/dev/null", room) for _ in range(rounds)]
            return [statistics.median(column) for column in zip(*times)]

        _, start = medians(words, 0, 31)
        for size, rounds in ((1, 31), (256, 3)):
            passed, used = medians(words, size, rounds)
            to_dd = medians(["dd", "bs=512"], size, rounds)[0] / passed
            nanoseconds = (used - start) * 1e9 / (size * MIB)
            peaks.append(peak_memory(words, (block for _ in range(size))))
            print(f"{command:20} {size:12} MiB {to_dd:6.3f} {peaks[-1]:9} {nanoseconds:27.2f}", flush=True)
        if carrier == "din":
            dump = [b"\xf0"] + [b"\x55" * MIB] * 96 + [b"\xf7"]
        elif carrier == "fw":
            data = bytes([0, 12, 0, 1, 0, 0, 0x90, 2, 0xFF, 0xFF, 0x83, 0x55, 0x55, 0x55])
            dump = [data[:10] + b"\x81\xf0\x00\x00"] + [data * (MIB // 14)] * 96 + [data[:10] + b"\x81\xf7\x00\x00"]
        elif carrier == "ble":
            packet = b"\x00\x14\x80" + b"\x55" * 19
            dump = [b"\x00\x03\x80\x80\xf0"] + [packet * (MIB // 22)] * 96 + [b"\x00\x03\x80\x80\xf7"]
        else:
            dump = [b"\x04\xf0\x55\x55"] + [b"\x04\x55\x55\x55" * (MIB // 4)] * 96 + [b"\x05\xf7\x00\x00"]
        peaks.append(peak_memory(words, dump))
        print(f"{command:20} {'one SysEx, 96':>12} MiB {peaks[-1]:15}", flush=True)
    return max(peaks) - min(peaks) <= 512  # how much of the C library the system has loaded differs from run to run


def main():
    options = argparse.ArgumentParser(description=__doc__, formatter_class=argparse.RawDescriptionHelpFormatter)
    options.add_argument("--program", default=f"{HERE}/../midibridge")
    options.add_argument("--mib", type=int, default=64)
    options.add_argument("--rounds", type=int, default=15)
    options.add_argument("--quick", action="store_true")
    options.add_argument("--only", default="")
    options.add_argument("--no-memory", action="store_true")
    given = options.parse_args()
    size, rounds = (16, 5) if given.quick else (given.mib, given.rounds)
    commands = [command for command in COMMANDS if given.only in command]
    program = os.path.abspath(given.program)
    if not os.path.exists(program):
        sys.exit(f"no {program}: run make first")
    fine = True
    with tempfile.TemporaryDirectory() as room:
        plain = compile_plain(room)
        print(f"{size} MiB, medians of {rounds} rounds; 1.00 is as fast" + ("" if plain else "; no C compiler, so no column for C"))
        print(f"{'command':20} {'input':18} {'sink':10} {'to dd':>6} {'to C':>6} {'by CPU':>6} {'MB/s':>6}")
        for command in commands:
            carrier, loop = COMMANDS[command]
            for kind in KINDS + (FURTHER[carrier] if loop else []):
                part = max(size // GROWN, 1) if command.endswith("fw:0") and loop else size
                source = make(f"{room}/in", recording(program, kind, carrier, part * MIB))
                if plain and loop and written([program] + command.split(), source) != written([plain] + loop, source):
                    print(f"{command}: the output isn't that of the C loop")
                    fine = False
                for sink, *numbers in ratios(program, plain, command, kind, source, rounds, room):
                    print(f"{command:20} {kind:18} {sink:10}", *(f"{number:>6}" for number in numbers), flush=True)
        if not given.no_memory and not memory(program, commands, room):
            print("memory grows with the input")
            fine = False
    sys.exit(0 if fine else 1)


if __name__ == "__main__":
    main()
