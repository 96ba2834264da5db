#!/usr/bin/env python3
"""Has each read, write and allocation of each command fail in turn, and each read and write move a single byte, and
looks whether the answer is the one that README.md has for it.

    tests/sweep.py [--program ./midibridge] [--verbose]

Calls fail by a library that is preloaded (fail.c, compiled by cc). What is wanted is worked out by tests/plain.py.
Ends with status 1 where an answer is wrong."""
import argparse
import os
import random
import shutil
import subprocess
import sys
import tempfile

import inputs
import plain

HERE = os.path.dirname(os.path.abspath(__file__))
READ = 512
SPECS = ("din", "usb:0", "ble", "fw:0")


def long_input(make, *words):
    """An input of a few reads, the same each time."""
    for seed in range(10_000):
        found = make(random.Random(seed), *words)
        if 2 * READ < len(found) < 4 * READ:
            return found
    raise ValueError(f"no input of a few reads: {make.__name__} {words}")


def right_tape(rng, word):
    """A tape without a fault."""
    while True:
        found = inputs.tape(rng, word)
        if plain.Tape(found).fault is None:
            return found


def right_file(rng):
    while True:
        found = inputs.file(rng)
        if plain.play(found)[0] == 0:
            return found


def cases():
    """Words and input of a command of each kind."""
    recordings = {word: long_input(inputs.recording, word) for word in SPECS}
    for one in SPECS:
        for other in SPECS:
            yield ["convert", one, other], recordings[one]
        yield ["check", one], recordings[one]
        yield ["trace", one], recordings[one]
    yield ["convert", "tally", *SPECS, "din"], recordings["din"]
    yield ["convert", "tally", "usb:0", "din"], recordings["usb:0"][: 4 * (len(recordings["usb:0"]) // 4) - 1]
    for word in SPECS:
        tape = long_input(right_tape, word)
        for words in (["migrate"], ["record", word], ["guard", word]):
            yield words, tape
            yield words, tape[:-1]
            # the same record once more, at an earlier moment
            yield words, tape + b"\0" * 11
    file = long_input(right_file)
    for found in (file, file[:1100], file[:1200] + b"\xf4" * 200):
        yield ["play"], found
    yield ["selftest", "1", "100"], b""
    yield ["convert", "din"], b"\x90\x3c\x64"


def stopped(words, found):
    """What stands on standard output where reading stops behind these bytes."""
    command, rest = words[0], words[1:]
    if command == "convert":
        return plain.through(rest[1:] if rest[0] == "tally" else rest, found, goes_on=True)[0][-1]
    if command in ("check", "trace"):
        return plain.listing(rest, found, command == "trace", goes_on=True)[1]
    return b"" if command in ("record", "selftest") else plain.answer(words, found)[1]


def least(words, found):
    """What stands on standard output at least, once these bytes were read and what they give was written."""
    if words[0] == "guard":
        return plain.guard(words[1:], found, goes_on=True)[1]
    return plain.play(found, goes_on=True)[1] if words[0] == "play" else stopped(words, found)


class Sweep:
    """One command over one input."""

    def __init__(self, options, words, found):
        self.options, self.words, self.found = options, words, found
        self.wrong = self.runs = 0
        self.counts = None
        self.whole = self.run()
        self.calls = self.counts

    def run(self, **failing):
        """The answer where a call fails; sets the counts of reads, writes and allocations."""
        with tempfile.TemporaryFile() as stdin, tempfile.TemporaryFile() as counts, tempfile.TemporaryFile() as out:
            stdin.write(self.found)
            stdin.seek(0)
            env = {"LD_PRELOAD": self.options.library, "COUNTS": str(counts.fileno())}
            env.update((name, str(number)) for name, number in failing.items())
            ran = subprocess.run([self.options.program, *self.words], stdin=stdin, stdout=out, stderr=subprocess.PIPE,
                                 env=env, pass_fds=[counts.fileno()], timeout=60)
            counts.seek(0)
            self.counts = tuple(map(int, counts.read().split()))
            out.seek(0)
            self.runs += 1
            return ran.returncode, out.read(), ran.stderr.decode(errors="replace")

    def expect(self, what, holds, answer):
        if self.options.verbose or not holds:
            print(f"{'' if holds else 'WRONG: '}{' '.join(self.words)}, {len(self.found)} bytes, {what}: "
                  f"status {answer[0]}, {len(answer[1])} bytes written, {answer[2]!r}")
        self.wrong += not holds

    def sweep(self):
        self.check_whole()
        reads, writes, allocations = self.calls
        for number in range(1, reads + 1):
            answer = self.run(FAIL_READ=number)
            read = self.found[: READ * (number - 1)]
            self.expect(f"read {number} fails", answer == (3, stopped(self.words, read), "read fault\n"), answer)
            answer = self.run(SHORT_READ=number)
            self.expect(f"read {number} gives one byte", answer == self.whole, answer)
        for number in range(1, writes + 1):
            answer = self.run(FAIL_WRITE=number)
            self.expect(f"write {number} fails", self.is_write_fault(number, answer), answer)
            answer = self.run(SHORT_WRITE=number)
            self.expect(f"write {number} takes one byte", answer == self.whole, answer)
        for number in range(1, allocations + 1):
            answer = self.run(FAIL_ALLOC=number)
            at_start = answer == (9, b"", "") and self.counts[0] == 0
            later = self.words[0] == "record" and answer == (9, b"", "no memory\n")
            self.expect(f"allocation {number} fails", at_start or later, answer)
        return self

    def check_whole(self):
        """The answer where no call fails."""
        if plain_knows(self.words):
            wanted = self.whole == plain.answer(self.words, self.found)
        else:
            wanted = self.whole[0] == 2 and self.whole[1] == b"" and self.whole[2].startswith("usage: ")
        self.expect("no call fails", wanted, self.whole)

    def is_write_fault(self, number, answer):
        status, out, said = answer
        whole_status, whole_out, whole_said = self.whole
        is_text = number == self.calls[1] and whole_said and said != whole_said and whole_said.startswith(said)
        if is_text and status == whole_status:
            # the text alone couldn't be written
            return out == whole_out
        tally, read = said.removesuffix("write fault\n"), self.found[: READ * self.counts[0]]
        if status != 4 or not said.endswith("write fault\n") or not whole_said.startswith(tally):
            return False
        if out == whole_out:
            return bool(whole_said) and self.words[1:2] == ["tally"] and tally != whole_said
        return not tally and whole_out.startswith(out) and out.startswith(least(self.words, read[:-READ]))


def plain_knows(words):
    return words[0] != "convert" or len(words) > 2


def main():
    parser = argparse.ArgumentParser(description=__doc__, formatter_class=argparse.RawDescriptionHelpFormatter)
    parser.add_argument("--program", default=f"{HERE}/../midibridge")
    parser.add_argument("--verbose", action="store_true")
    options = parser.parse_args()
    options.program = os.path.abspath(options.program)
    if not shutil.which("cc"):
        print("there is no cc here, so no call is made to fail")
        return 0
    with tempfile.TemporaryDirectory() as room:
        options.library = f"{room}/fail.so"
        subprocess.run(["cc", "-O2", "-shared", "-fPIC", "-o", options.library, f"{HERE}/fail.c", "-ldl"], check=True)
        swept = [Sweep(options, words, found).sweep() for words, found in cases()]
    wrong = sum(it.wrong for it in swept)
    print(f"{len(swept)} commands, {sum(it.runs for it in swept)} runs, {wrong} wrong")
    return 1 if wrong else 0


if __name__ == "__main__":
    sys.exit(main())
