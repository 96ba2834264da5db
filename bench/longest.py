#!/usr/bin/env python3
"""What `record` does at the last delta and the last track that a Standard MIDI File may have, and at one more of each:
tapes of up to 268 million bytes are made as they are read, and what is written is compared to the byte. Ends with
status 1 where an answer is wrong. It takes half a minute, 512 MiB of memory and as much of /tmp.

    bench/longest.py [PROGRAM]"""
import os
import resource
import subprocess
import sys
import tempfile
import time

HERE = os.path.dirname(os.path.abspath(__file__))
LONGEST = 268_435_455  # ticks of a delta, and bytes of a track
TEMPO = bytes.fromhex("00ff51030f4240")
END = bytes.fromhex("00ff2f00")
CLOCK = bytes.fromhex("00f701f8")  # an event without a delta
PIECE = 1 << 20


def record(moment, data):
    """A record of track 0 at a moment in microseconds."""
    return moment.to_bytes(8, "big") + b"\0" + len(data).to_bytes(2, "big") + data


def repeated(byte, count, most):
    """So many of one byte, in pieces of at most so many."""
    while count > 0:
        now = min(count, most)
        yield byte * now
        count -= now


def clocks(count, *behind):
    """The pieces of a tape: so many clocks at moment 0, and a clock at each further moment."""
    yield b"MBT2"
    for data in repeated(b"\xf8", count, 65535):
        yield record(0, data)
    for moment in behind:
        yield record(moment, b"\xf8")


def sysex(count, last):
    """The pieces of a tape: a System Exclusive message of so many data bytes, and what ends it."""
    yield b"MBT2" + record(0, b"\xf0")
    for data in repeated(b"\x55", count, 65535):
        yield record(0, data)
    if last:
        yield record(0, last)


def number(value):
    """A variable-length number."""
    out = [value & 127]
    while value > 127:
        value >>= 7
        out.append(0x80 | value & 127)
    return bytes(reversed(out))


def of_file(length, *events):
    """The pieces of a file whose track has this length; each event is pieces of its own."""
    yield bytes.fromhex("4d546864000000060000000103e84d54726b") + length.to_bytes(4, "big") + TEMPO
    for event in events:
        yield from event
    yield END


def whole(count):
    """The pieces of the event of a whole System Exclusive message."""
    yield b"\0\xf0" + number(count + 1)
    yield from repeated(b"\x55", count, PIECE)
    yield b"\xf7"


def broken(count):
    """The same of one that is broken off."""
    yield b"\0\xf7" + number(count + 1) + b"\xf0"
    yield from repeated(b"\x55", count, PIECE)


def same(path, pieces):
    """Whether a file has just these bytes."""
    with open(path, "rb") as file:
        return all(file.read(len(piece)) == piece for piece in pieces) and not file.read(1)


def answers(program, what, tape, status, told, file):
    """Whether the program records a tape so."""
    with tempfile.TemporaryDirectory() as room:
        start = time.perf_counter()
        with open(f"{room}/out", "wb") as out, subprocess.Popen(
            [program, "record", "din"], stdin=subprocess.PIPE, stdout=out, stderr=subprocess.PIPE
        ) as process:
            try:
                for piece in tape:
                    process.stdin.write(piece)
                process.stdin.close()
            except BrokenPipeError:  # it is stopped before the tape's end
                pass
            found_told = process.stderr.read().decode().strip()
            found = process.wait()
        fine = (found, found_told) == (status, told) and same(f"{room}/out", file)
        verdict = "as it should be" if fine else "WRONG"
        print(f"{what:30} status {found:2}, {verdict}, {time.perf_counter() - start:.1f} s", flush=True)
        return fine


def main():
    program = os.path.abspath(sys.argv[1] if len(sys.argv) > 1 else f"{HERE}/../midibridge")
    if not os.path.exists(program):
        sys.exit(f"no {program}: run make first")
    far = LONGEST * 1000 + 999  # the last microsecond of the last tick
    many = (LONGEST - 11) // 4 - 1  # clocks before one of four or five bytes that ends the track
    data = LONGEST - 18  # of a SysEx
    late = b"\xff\xff\xff\x7f" + CLOCK[1:]
    all_clocks = [repeated(CLOCK, many, PIECE), [b"\x7f" + CLOCK[1:]]]
    cases = [
        ("the last gap", clocks(1, far), 0, "", of_file(22, [CLOCK], [late])),
        ("a gap of one more", clocks(1, far + 1), 12, f"gap 0 {far + 1}", []),
        ("the longest track", clocks(many, 127_000), 0, "", of_file(LONGEST, *all_clocks)),
        ("a track of one byte more", clocks(many, 128_000), 11, "track is too long", []),
        ("the longest SysEx", sysex(data, b"\xf7"), 0, "", of_file(LONGEST, whole(data))),
        ("a SysEx of one byte more", sysex(data + 1, b"\xf7"), 11, "track is too long", []),
        ("the longest that nothing ends", sysex(data, b""), 0, "", of_file(LONGEST, broken(data))),
        ("one byte more of these", sysex(data + 1, b""), 11, "track is too long", []),
    ]
    fine = all([answers(program, *case) for case in cases])
    peak = resource.getrusage(resource.RUSAGE_CHILDREN).ru_maxrss
    print(f"at most {peak // 1024} MiB of memory")
    sys.exit(0 if fine else 1)


if __name__ == "__main__":
    main()
