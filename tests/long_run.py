#!/usr/bin/env python3
"""Holds the program against tests/plain.py over inputs made at random, each cut at random into what its reads give.

    tests/long_run.py [--program ./midibridge] [--cases 100000] [--seed 1] [--jobs 4] [--only COMMAND] [--small]

A case is made from the seed and its number; with --small the cases are all short inputs of a few kinds of bytes.
Standard input is a socket of packets, of which a read gives just one. Prints each case in which status, standard output
or standard error differ, with its bytes, and counts at the end. Ends with status 1 where a case differs."""
import argparse
import collections
import functools
import multiprocessing
import os
import random
import socket
import subprocess
import sys
import tempfile

import inputs
import plain

COMMANDS = ["convert"] * 8 + ["check"] * 2 + ["trace"] * 4 + ["migrate", "record", "play", "guard"] * 2 + ["selftest"]


def spec(rng):
    return rng.choice(("din", "din", f"usb:{rng.choice((0, 0, 1, 15))}", f"fw:{rng.choice((0, 0, 1, 8, 63))}",
                       "ble", f"ble/{rng.choice((5, 6, 7, 20, 100, 512))}"))


def case(rng, only=None):
    """The words of a command, its input, and where that is cut."""
    command = only or rng.choice(COMMANDS)
    words, first = [command], spec(rng)
    if command == "convert":
        count = rng.choice((1, 1, 1, 2, 3, 9 if rng.random() < 0.1 else 1))
        words += (["tally"] if rng.random() < 0.3 else []) + [first] + [spec(rng) for _ in range(count)]
        found = inputs.recording(rng, first)
    elif command in ("check", "trace"):
        words.append(first)
        found = inputs.recording(rng, first)
    elif command == "play":
        found = inputs.file(rng)
    elif command == "selftest":
        words += [str(rng.choice((0, 1, 2_147_483_647, rng.randrange(1 << 31)))), str(rng.choice((0, 1, 5, 40)))]
        found = b""
    else:
        words += [first] if command != "migrate" else []
        found = inputs.tape(rng, first)
    size = rng.choice((1, 3, 20, 512, 512)) if len(found) < 300 else rng.choice((200, 512))
    cuts, at = [], 0
    while at < len(found):
        at += rng.randrange(1, size + 1)
        cuts.append(min(at, len(found)))
    return words, found, cuts


@functools.cache
def small_cases():
    return [(words, found, [len(found)] if found else []) for words, found in inputs.small()]


def run(program, words, found, cuts, room):
    """What the program answers to these reads."""
    ours, theirs = socket.socketpair(socket.AF_UNIX, socket.SOCK_SEQPACKET)
    with ours, tempfile.TemporaryFile(dir=room) as out, tempfile.TemporaryFile(dir=room) as err:
        with theirs:
            child = subprocess.Popen([program, *words], stdin=theirs, stdout=out, stderr=err)
        try:
            for start, end in zip([0, *cuts], cuts):
                ours.send(found[start:end])
        except OSError:
            # the program may have ended before it read all
            pass
        ours.close()
        status = child.wait(timeout=60)
        out.seek(0)
        err.seek(0)
        return status, out.read(), err.read().decode(errors="replace")


def part(job):
    """Runs the cases of one process, and returns how many there were by command, and those that differ."""
    options, numbers = job
    counts, differ = collections.Counter(), []
    room = "/dev/shm" if os.path.isdir("/dev/shm") else None
    for number in numbers:
        made = small_cases()[number] if options.small else case(random.Random(f"{options.seed}/{number}"), options.only)
        words, found, cuts = made
        wanted = plain.answer(words, found)
        answer = run(options.program, words, found, cuts, room)
        counts[words[0]] += 1
        counts["bytes"] += len(found)
        counts["reads"] += len(cuts)
        counts[f"status {answer[0]}"] += 1
        if answer != wanted:
            differ.append((number, words, found, cuts, answer, wanted))
    return counts, differ


def shown(answer, words):
    status, out, err = answer
    text = out.decode(errors="replace") if words[0] in ("check", "trace") else out.hex(" ")
    return f"status {status}, {err!r}, {text}"


def main():
    parser = argparse.ArgumentParser(description=__doc__, formatter_class=argparse.RawDescriptionHelpFormatter)
    parser.add_argument("--program", default=os.path.join(os.path.dirname(__file__), "../midibridge"))
    parser.add_argument("--cases", type=int, default=100_000)
    parser.add_argument("--seed", type=int, default=1)
    parser.add_argument("--jobs", type=int, default=os.cpu_count())
    parser.add_argument("--only")
    parser.add_argument("--small", action="store_true")
    options = parser.parse_args()
    options.cases = len(small_cases()) if options.small else options.cases
    options.program = os.path.abspath(options.program)
    step = 500
    jobs = [(options, range(at, min(at + step, options.cases))) for at in range(0, options.cases, step)]
    counts, wrong = collections.Counter(), 0
    with multiprocessing.Pool(options.jobs) as pool:
        for some, differ in pool.imap(part, jobs):
            counts += some
            wrong += len(differ)
            for number, words, found, cuts, answer, wanted in differ:
                print(f"case {number}: {' '.join(words)} < {found.hex(' ')}, cut at {cuts}")
                print(f"  the program: {shown(answer, words)}\n  plainly:     {shown(wanted, words)}", flush=True)
    print(", ".join(f"{name} {count}" for name, count in sorted(counts.items())))
    print(f"{options.cases} cases, {wrong} differ")
    return 1 if wrong else 0


if __name__ == "__main__":
    sys.exit(main())
