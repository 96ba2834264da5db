#!/usr/bin/env python3
"""The bridge once more, in plain Python, written from docs/FORMATS.md alone: whole lists, nothing streamed or proved.

    tests/plain.py WORDS < RECORDING > RECORDING

It knows convert, check, trace, migrate, record, play, guard and selftest. tests/long_run.py holds the program against
it."""
import sys

DATA_LENGTHS = {0x8: 2, 0x9: 2, 0xA: 2, 0xB: 2, 0xC: 1, 0xD: 1, 0xE: 2}
COMMON_LENGTHS = {0xF1: 1, 0xF2: 2, 0xF3: 1, 0xF6: 0}
REAL_TIME = (0xF8, 0xFA, 0xFB, 0xFC, 0xFE, 0xFF)
USED = (0, 0, 2, 3, 3, 1, 2, 3, 3, 3, 3, 3, 2, 2, 3, 1)
LONGEST_DELTA = 268_435_455

# Where something becomes known: an offset, and its turn there. The end of a recording comes behind all offsets.
TRUNCATED, BROKEN, OWN, OF_PACKET, PACKET_END = range(5)
END = (1 << 62, 0)


def data_length(status):
    """How many data bytes a short message of this status has, or None where it begins none."""
    return DATA_LENGTHS.get(status >> 4, COMMON_LENGTHS.get(status))


class Note:
    """A remark on the byte at an offset."""

    def __init__(self, at, kind):
        self.at, self.kind = at, kind


class Group:
    """A status, at None where it runs on without a byte of its own, its data, and what ended it."""

    def __init__(self, status=None, at=None, moment=0):
        self.status, self.at, self.moment, self.data = status, at, moment, []
        self.ended, self.ended_by, self.ended_at = END, None, 0


def tell_group(group, told):
    """Tells of one group: (where it becomes known, its moment, a mark or a note)."""
    status, data = group.status, group.data
    stray = data
    if status is not None and status < 0xF8 and data_length(status) is not None:
        stray = tell_messages(group, told)
    elif status == 0xF0:
        told.append(((group.at, OWN), group.moment, ("open",)))
        told += [((at, OWN), moment, ("data", byte)) for at, byte, moment in data]
        if group.ended_by == 0xF7:
            told.append(((group.ended[0], OWN), group.ended_at, ("end",)))
        else:
            told.append(((group.ended[0], BROKEN), group.ended_at, ("abort",)))
        stray = []
    elif status == 0xF7:
        told.append(((group.at, OWN), group.moment, Note(group.at, "stray-end")))
    elif status is not None:
        told.append(((group.at, OWN), group.moment, Note(group.at, "undefined")))
    told += [((at, OWN), moment, Note(at, "stray-data")) for at, _, moment in stray]


def tell_messages(group, told):
    """Tells of a group of short messages, and returns its data that belongs to none."""
    status, data = group.status, group.data
    length = data_length(status)
    if status >= 0xF0:
        pieces, stray = ([data[:length]], data[length:]) if len(data) >= length else ([data], [])
    else:
        pieces, stray = [data[i : i + length] for i in range(0, len(data), length)] or [[]], []
    for number, piece in enumerate(pieces):
        if len(piece) == length:
            at, _, moment = piece[-1] if piece else (group.at, status, group.moment)
            told.append(((at, OWN), moment, ("short", bytes([status] + [byte for _, byte, _ in piece]))))
        elif piece or group.at is not None:
            about = group.at if number == 0 and group.at is not None else piece[0][0]
            told.append(((group.ended[0], group.ended[1] + TRUNCATED), group.ended_at, Note(about, "truncated")))
    return stray


class Reading:
    """A byte stream on its way into groups."""

    def __init__(self):
        self.told, self.group, self.moment = [], Group(), 0

    def end_group(self, where, moment, by=None):
        self.group.ended, self.group.ended_at, self.group.ended_by = where, moment, by
        tell_group(self.group, self.told)

    def take(self, at, byte, moment):
        self.moment = moment
        if byte >= 0xF8:
            thing = ("rt", byte) if byte in REAL_TIME else Note(at, "undefined")
            self.told.append(((at, OWN), moment, thing))
        elif byte < 0x80:
            self.group.data.append((at, byte, moment))
        else:
            ends_sysex = byte == 0xF7 and self.group.status == 0xF0
            self.end_group((at, TRUNCATED), moment, byte)
            self.group = Group(byte, at, moment)
            if ends_sysex:
                # the F7 is told as the SysEx's end, and data behind it belongs to nothing
                self.group = Group()

    def finish(self):
        self.end_group(END, self.moment)
        self.told.sort(key=lambda it: it[0])
        return self.told


# Each reader gives what it tells, whether the recording is whole, and the moment of its end.


def read_line(recording, moments):
    reading = Reading()
    for at, byte in enumerate(recording):
        reading.take(at, byte, moments[at])
    return reading.finish(), True, reading.moment


def suits(number, used):
    """Whether the used bytes of a USB packet suit its code index number."""
    data = [byte < 0x80 for byte in used]
    if number == 2:
        return used[0] in (0xF1, 0xF3) and data[1]
    if number == 3:
        return used[0] == 0xF2 and data[1] and data[2]
    if number == 4:
        return (used[0] == 0xF0 or data[0]) and data[1] and data[2]
    if number == 5:
        return used[0] in (0xF6, 0xF7)
    if number in (6, 7):
        return (used[0] == 0xF0 or data[0]) and used[-1] == 0xF7 and all(data[1:-1])
    return number == 15 or used[0] >> 4 == number and all(data[1:])


def read_cable(recording, moments, cable):
    reading = Reading()
    for start in range(0, len(recording), 4):
        packet = recording[start : start + 4]
        number, used = packet[0] & 15, packet[1 : 1 + USED[packet[0] & 15]]
        if packet[0] >> 4 == cable:
            for place, byte in enumerate(used):
                reading.take(start + 1 + place, byte, moments[start + 1 + place])
        if number < 2:
            reading.told.append(((start, OF_PACKET), 0, Note(start, "reserved-cin")))
        elif len(packet) == 4 and not suits(number, used):
            reading.told.append(((start + 3, OF_PACKET), 0, Note(start, "cin-mismatch")))
    return reading.finish(), len(recording) % 4 == 0, reading.moment


def frames(recording):
    """Each frame's first offset, length and the bytes of its content that stand there, and whether all are whole."""
    at, found = 0, []
    while at + 2 <= len(recording):
        length = 256 * recording[at] + recording[at + 1]
        found.append((at, length, recording[at + 2 : at + 2 + length]))
        at += 2 + length
    return found, at == len(recording)


class Packets(Reading):
    """BLE-MIDI packets: a byte stream with stamps, in which a packet's end ends what isn't an open SysEx."""

    def __init__(self):
        super().__init__()
        self.channel, self.lone, self.last_stamp = None, None, None

    def stamp(self, upper, lower):
        bits = 128 * (upper % 64) + lower
        if self.last_stamp is None:
            self.last_stamp = bits
        else:
            self.last_stamp += (bits - self.last_stamp) % 8192
        return self.last_stamp

    def take(self, at, byte, moment):
        status = self.group.status
        length = data_length(status) if status is not None and status < 0xF8 else None
        if byte < 0x80 and length is not None and status >= 0xF0 and len(self.group.data) == length and self.channel:
            # behind a whole System Common message the packet's channel status runs on
            self.end_group((at, TRUNCATED), moment)
            self.group = Group(self.channel)
            status, length = self.channel, data_length(self.channel)
        if byte < 0x80 and self.lone is not None:
            begins = status is not None and 0x80 <= status < 0xF0 and len(self.group.data) % length == 0
            if not begins or self.group.at is not None and not self.group.data:
                self.told.append(((at, TRUNCATED - 1), moment, Note(self.lone, "lone-stamp")))
            self.lone = None
        super().take(at, byte, moment)
        if 0x80 <= byte < 0xF8:
            self.channel = byte if byte < 0xF0 else self.channel if byte in COMMON_LENGTHS else None

    def end_packet(self, at):
        if self.lone is not None:
            self.told.append(((at, PACKET_END), self.moment, Note(self.lone, "lone-stamp")))
        if self.group.status != 0xF0:
            self.end_group((at, PACKET_END + 1), self.moment)
            self.group = Group()
        self.channel, self.lone = None, None


def read_ble(recording, _moments):
    reading = Packets()
    found, whole = frames(recording)
    for start, length, content in found:
        if length == 0:
            reading.told.append(((start + 1, OWN), 0, Note(start, "empty-packet")))
        if not content:
            continue
        if content[0] < 0x80:
            reading.told.append(((start + 2, OWN), 0, Note(start + 2, "bad-header")))
            continue
        upper, last, is_stamp = content[0] & 63, None, True
        for at, byte in enumerate(content[1:], start + 3):
            if byte < 0x80:
                is_stamp = True
                reading.take(at, byte, reading.moment)
            elif is_stamp:
                upper += last is not None and byte & 127 < last
                last = byte & 127
                reading.moment, reading.lone, is_stamp = reading.stamp(upper, last), at, False
            else:
                reading.lone, is_stamp = None, True
                reading.take(at, byte, reading.moment)
        if len(content) == length:
            reading.end_packet(start + 1 + length)
    return reading.finish(), whole, reading.moment


def read_fire(recording, moments, port):
    reading, expected = Reading(), None
    found, whole = frames(recording)
    for start, length, content in found:
        def note(at, kind, about=start):
            reading.told.append(((at, OF_PACKET), 0, Note(about, kind)))
        if length < 8:
            note(start + 1, "bad-cip")
            continue
        if len(content) < 8:
            continue
        size = 4 * content[1]
        if content[0] >= 0x40 or content[4] != 0x90:
            note(start + 9, "bad-cip")
            continue
        if content[5] == 0xFF:
            continue
        if size == 0:
            note(start + 9, "zero-dbs")
            continue
        blocks = (length - 8) // size
        if (length - 8) % size:
            note(start + 9, "ragged")
        if expected is not None and content[3] != expected:
            note(start + 9, "dbc-gap")
        expected = (content[3] + blocks) % 256
        for number in range(blocks):
            first = 8 + number * size
            block, stream = content[first : first + size], (content[3] + number) % 8
            read_block(reading, block, start + 2 + first, size, moments, stream, port)
    return reading.finish(), whole, reading.moment


def read_block(reading, block, start, size, moments, stream, port):
    """Takes the port's bytes of a block, which begins at start and has size bytes, of which these stand there."""
    count = 0
    for at in range(0, len(block), 4):
        label = block[at]
        if 0x80 <= label <= 0x83:
            if 8 * count + stream == port and count < 8:
                for place in range(at + 1, min(at + 1 + label - 0x80, len(block))):
                    reading.take(start + place, block[place], moments[start + place])
            count += 1
    if count == 0 and len(block) == size:
        reading.told.append(((start + size - 1, OF_PACKET), 0, Note(start, "no-midi-quadlet")))


# Writing. A put is a mark and its moment; what is written is bytes, each with its moment. The end is the moment of the
# recording's end, or None where it goes on: then what waits for its packet isn't written.


def spelled(mark):
    kind = mark[0]
    if kind == "short":
        return mark[1]
    return {"rt": mark[1:], "data": mark[1:], "open": (0xF0,), "end": (0xF7,), "abort": ()}[kind]


def write_line(puts, _end, leaves_out=True):
    written, running = [], None
    for mark, moment in puts:
        is_channel = mark[0] == "short" and mark[1][0] < 0xF0
        left_out = leaves_out and is_channel and running == mark[1][0]
        written += [(byte, moment) for byte in list(spelled(mark))[left_out:]]
        if mark[0] != "rt":
            running = mark[1][0] if is_channel else None
    return written


def write_cable(puts, end, cable):
    written, waiting = [], []

    def packet(number, content, moment):
        padded = [16 * cable + number, *content, 0, 0, 0][:4]
        written.extend((byte, moment) for byte in padded)

    for mark, moment in puts if end is None else [*puts, (("abort",), end)]:
        if mark[0] == "short":
            status = mark[1][0]
            number = status >> 4 if status < 0xF0 else {0xF1: 2, 0xF3: 2, 0xF2: 3, 0xF6: 5}[status]
            packet(number, mark[1], moment)
        elif mark[0] == "rt":
            packet(15, spelled(mark), moment)
        elif mark[0] == "abort":
            for byte in waiting:
                packet(15, [byte], moment)
            waiting = []
        else:
            waiting += spelled(mark)
            if mark[0] == "end":
                packet(4 + len(waiting), waiting, moment)
            elif len(waiting) == 3:
                packet(4, waiting, moment)
            if mark[0] == "end" or len(waiting) == 3:
                waiting = []
    return written


def write_fire(puts, end, port):
    written, count, place, stream = [], 0, port // 8, port % 8
    for byte, moment in write_line(puts, end, leaves_out=False):
        content = [0, place + 1, 0, count, 0x90, 0x02, 0xFF, 0xFF]
        for block in range(8):
            content += [0x80, 0, 0, 0] * place + ([0x81, byte, 0, 0] if block == stream else [0x80, 0, 0, 0])
        written += [(it, moment) for it in [len(content) >> 8, len(content) & 255, *content]]
        count = (count + 8) % 256
    return written


class BlePacket:
    """A packet under way: its bytes behind the header, and what is known of its stamps."""

    def __init__(self):
        self.content, self.stamps, self.falls, self.running, self.moment = [], [], 0, None, 0

    def spell(self, mark, moment):
        if mark[0] == "data":
            return list(spelled(mark))
        left_out = mark[0] == "short" and mark[1][0] < 0xF0 and self.running == mark[1][0]
        return [0x80 | moment % 128, *spelled(mark)[left_out:]]

    def must_end(self, mark, moment, size):
        if not self.content:
            return False
        if 1 + len(self.content) + len(self.spell(mark, moment)) > size:
            return True
        if mark[0] == "data" or not self.stamps:
            return False
        falls = moment % 128 < self.stamps[-1] % 128
        return moment - self.stamps[-1] >= 128 or falls and self.falls == 1

    def add(self, mark, moment):
        self.content += self.spell(mark, moment)
        self.moment = moment
        if mark[0] != "data":
            self.falls += bool(self.stamps) and moment % 128 < self.stamps[-1] % 128
            self.stamps.append(moment)
        if mark[0] != "rt":
            self.running = mark[1][0] if mark[0] == "short" and mark[1][0] < 0xF0 else None

    def frame(self, moment):
        head = self.stamps[0] if self.stamps else self.moment
        length = 1 + len(self.content)
        whole = [length >> 8, length & 255, 0x80 | head // 128 % 64, *self.content]
        return [(byte, moment) for byte in whole]


def write_ble(puts, end, size):
    written, packet = [], BlePacket()
    for mark, moment in puts:
        if mark[0] == "abort":
            packet.running = None
            continue
        if packet.must_end(mark, moment, size):
            written += packet.frame(moment)
            packet = BlePacket()
        packet.add(mark, moment)
    return written + (packet.frame(end) if packet.content and end is not None else [])


# Specs and commands.


def spec(word):
    """The reader and the writer that a word names."""
    if word == "din":
        return read_line, write_line
    if word.startswith("usb:"):
        cable = int(word[4:])
        return lambda r, m: read_cable(r, m, cable), lambda p, e: write_cable(p, e, cable)
    if word.startswith("fw:"):
        port = int(word[3:])
        return lambda r, m: read_fire(r, m, port), lambda p, e: write_fire(p, e, port)
    size = int(word[4:]) if "/" in word else 20
    return read_ble, lambda p, e: write_ble(p, e, size)


def puts_of(told):
    return [(thing, moment) for _, moment, thing in told if not isinstance(thing, Note)]


def through(specs, recording, goes_on=False):
    """What crosses each spec, and whether the recording is whole; where it goes on, what is known and written."""
    moments, crossed, is_whole = [0] * len(recording), [recording], True
    for number, (one, other) in enumerate(zip(specs, specs[1:])):
        reader, writer = spec(one)[0], spec(other)[1]
        told, whole, end = reader(recording, moments)
        is_whole = is_whole and (number > 0 or whole)
        if goes_on:
            told, end = [it for it in told if it[0] < END], None
        written = writer(puts_of(told), end)
        recording, moments = bytes(byte for byte, _ in written), [moment for _, moment in written]
        crossed.append(recording)
    return crossed, is_whole


def convert(words, recording):
    tally = words[0] == "tally"
    specs = words[1:] if tally else words
    crossed, whole = through(specs, recording)
    names = ["ble/20" if word == "ble" else word for word in specs]
    lines = [f"{place} {name} {len(it)}\n" for place, (name, it) in enumerate(zip(names, crossed))] if tally else []
    return 0 if whole else 5, crossed[-1], "".join(lines) + ("" if whole else "input is cut\n")


def line_of(thing, moment):
    if isinstance(thing, Note):
        return f"note {thing.at} {thing.kind}\n"
    if thing[0] in ("short", "rt", "data"):
        return f"{moment} {thing[0]} {' '.join(f'{byte:02X}' for byte in spelled(thing))}\n"
    return f"{moment} {thing[0]}\n"


def listing(words, recording, traced, goes_on=False):
    told, whole, _ = spec(words[0])[0](recording, [0] * len(recording))
    told = [it for it in told if not goes_on or it[0] < END]
    notes = [thing for _, _, thing in told if isinstance(thing, Note)]
    if traced:
        lines = [line_of(thing, moment) for _, moment, thing in told]
    else:
        lines = [f"{note.at} {note.kind}\n" for note in notes]
    status = 5 if not whole else 1 if notes and not traced else 0
    return status, "".join(lines).encode(), "" if whole else "input is cut\n"


# Tapes.


class Tape:
    """A tape up to its first fault: records of a moment in microseconds, a track, a length, and the bytes that stand
    there."""

    def __init__(self, data):
        self.records, self.fault, self.whole, self.has_magic = [], None, False, False
        for at in range(min(4, len(data))):
            if data[: at + 1] not in (b"MBT1"[: at + 1], b"MBT2"[: at + 1]):
                self.fault = "magic"
                return
        if len(data) < 4:
            return
        self.has_magic = True
        self.read_records(data, data[3:4] == b"1")

    def read_records(self, data, is_first):
        at, before, scale = 4, 0, 1000 if is_first else 1
        header = 10 if is_first else 11
        while at + header <= len(data):
            moment = int.from_bytes(data[at : at + 8], "big")
            track = 0 if is_first else data[at + 8]
            length = int.from_bytes(data[at + header - 2 : at + header], "big")
            if moment < before:
                self.fault = f"back {before} {moment}"
            elif is_first and moment > 18_446_744_073_709_551:
                self.fault = f"far {moment}"
            elif length == 0:
                self.fault = "zero"
            if self.fault:
                return
            content = data[at + header : at + header + length]
            self.records.append((moment * scale, track, length, content))
            at, before = at + header + length, moment
        self.whole = at == len(data)

    def answer(self, is_cut):
        if self.fault:
            return 7, f"tape -: {self.fault}\n"
        return (5, "input is cut\n") if is_cut else (0, "")

    def last_moment(self):
        return self.records[-1][0] if self.records else 0


def header_of(moment, track, length):
    return moment.to_bytes(8, "big") + bytes([track]) + length.to_bytes(2, "big")


def migrate(data):
    tape = Tape(data)
    written = b"MBT2" if tape.has_magic else b""
    for moment, track, length, content in tape.records:
        written += header_of(moment, track, length) + content
    status, text = tape.answer(not tape.whole)
    return status, written, text


def track_marks(tape, word, track):
    """The marks of a track, each with the number of the record with which it becomes known, those that only the tape's
    end makes known, and whether all is whole."""
    numbers = [number for number, (_, of, _, content) in enumerate(tape.records) if of == track for _ in content]
    recording = b"".join(content for _, of, _, content in tape.records if of == track)
    told, whole, _ = spec(word)[0](recording, numbers)
    marks = [(where, thing) for where, _, thing in told if not isinstance(thing, Note)]
    known = [(numbers[where[0]], mark) for where, mark in marks if where < END]
    return known, [mark for where, mark in marks if where >= END], whole and tape.whole


def track_puts(tape, word):
    """The marks of track 0, each at the moment of the record with which it becomes known, apart from these what only
    the tape's end makes known; and whether all is whole."""
    known, ending, whole = track_marks(tape, word, 0)
    puts = [(mark, tape.records[number][0]) for number, mark in known]
    return puts, [(mark, tape.last_moment()) for mark in ending], whole


def gathered(written, goes_on=False):
    """A tape of the second form of bytes with moments; without its last record where more bytes may follow."""
    tape, at = b"MBT2", 0
    while at < len(written):
        moment, until = written[at][1], at
        while until < len(written) and written[until][1] == moment and until - at < 255:
            until += 1
        if until < len(written) or not goes_on:
            tape += header_of(moment, 0, until - at) + bytes(byte for byte, _ in written[at:until])
        at = until
    return tape


def guard(words, data, goes_on=False):
    tape = Tape(data)
    puts, ending, whole = track_puts(tape, words[0])
    if goes_on:
        return None, gathered(write_line(puts, None), goes_on) if tape.has_magic else b"", None
    puts += ending
    sounding = set()
    for mark, _ in puts:
        if mark[0] == "short" and mark[1][0] >> 4 in (8, 9):
            voice = (mark[1][0] & 15, mark[1][1])
            sounding.discard(voice)
            if mark[1][0] >> 4 == 9 and mark[1][2] > 0:
                sounding.add(voice)
    end = tape.last_moment()
    offs = [(("short", bytes([0x80 + channel, key, 0x40])), end) for channel, key in sorted(sounding)]
    status, text = tape.answer(not whole)
    return status, gathered(write_line(puts + offs, end)), text


def quantity(number):
    """A number of seven bits a byte, the most significant first."""
    found = [number & 127]
    while number > 127:
        number >>= 7
        found.insert(0, 0x80 | number & 127)
    return bytes(found)


def event_of(mark, sysex):
    """The event of a mark, behind the data of a SysEx, or None where it has none."""
    if mark[0] == "short" and mark[1][0] < 0xF0:
        return mark[1]
    if mark[0] in ("short", "rt"):
        return b"\xf7" + quantity(len(spelled(mark))) + bytes(spelled(mark))
    if mark[0] == "end":
        return b"\xf0" + quantity(len(sysex) + 1) + sysex + b"\xf7"
    return b"\xf7" + quantity(len(sysex) + 1) + b"\xf0" + sysex if mark[0] == "abort" else None


def record(words, data):
    tape = Tape(data)
    puts, ending, whole = track_puts(tape, words[0])
    track, last, sysex = b"\x00\xff\x51\x03\x0f\x42\x40", None, b""
    for mark, moment in puts if tape.fault else puts + ending:
        delta = 0 if last is None else moment // 1000 - last // 1000
        if delta > LONGEST_DELTA:
            return 12, b"", f"gap {last} {moment}\n"
        sysex = b"" if mark[0] == "open" else sysex + bytes(mark[1:]) if mark[0] == "data" else sysex
        event = event_of(mark, sysex)
        if event is not None:
            track += quantity(delta) + event
            last = moment
    status, text = tape.answer(not whole)
    track += b"\x00\xff\x2f\x00"
    head = b"MThd\0\0\0\6\0\0\0\1\x03\xe8MTrk" + len(track).to_bytes(4, "big")
    return status, b"" if tape.fault else head + track, text


class Fault(Exception):
    """A fault of a file, at an offset."""

    def __init__(self, at, why):
        super().__init__()
        self.at, self.why = at, why


class Cut(Exception):
    """The file stops here."""


class File:
    """A Standard MIDI File of format 0, as it gives bytes with their moments in microseconds."""

    def __init__(self, data):
        self.data, self.at, self.given, self.end = data, 0, [], len(data)
        self.division, self.tempo, self.sum, self.moment, self.running = 1, 500_000, 0, 0, None

    def byte(self):
        if self.at >= len(self.data):
            raise Cut
        self.at += 1
        return self.data[self.at - 1]

    def number(self, count):
        value = 0
        for _ in range(count):
            value = 256 * value + self.byte()
        return value

    def fault(self, why):
        raise Fault(self.at - 1, why)

    def read(self):
        for wanted in b"MThd":
            if self.byte() != wanted:
                self.fault("header")
        length = self.number(4)
        if length < 6:
            self.fault("header")
        if (self.number(2), self.number(2)) != (0, 1):
            self.fault("format")
        self.division = self.number(2)
        if self.division == 0 or self.division >= 0x8000:
            self.fault("division")
        self.skip(length - 6)
        while True:
            kind = bytes(self.byte() for _ in range(4))
            length = self.number(4)
            if kind == b"MTrk":
                break
            self.skip(length)
        self.end = self.at + length
        if length == 0:
            self.fault("track")
        while self.read_event():
            pass

    def skip(self, count):
        if self.at + count > len(self.data):
            self.at = len(self.data)
            raise Cut
        self.at += count

    def check_last(self):
        """At the track's last byte its end event must be finished."""
        if self.at == self.end:
            self.fault("track")

    def quantity(self):
        value = 0
        for place in range(4):
            byte = self.byte()
            value = 128 * value + byte % 128
            if byte < 0x80:
                return value
            if place == 3:
                self.fault("number")
            self.check_last()
        return value

    def give(self, byte):
        self.given.append((byte, self.moment))

    def read_event(self):
        """Reads a delta and an event, and returns whether the track goes on."""
        delta = self.quantity()
        self.sum += delta * self.tempo
        if self.sum // self.division >= 1 << 64:
            self.fault("far")
        self.moment = self.sum // self.division
        self.check_last()
        first = self.byte()
        if first in (0xF0, 0xF7, 0xFF):
            return self.read_long(first)
        if first > 0xF0 or first < 0x80 and self.running is None:
            self.fault("event")
        if first >= 0x80:
            self.running, left = first, data_length(first)
            self.check_last()
            self.give(first)
        else:
            left = data_length(self.running) - 1
            if left or self.at != self.end:
                self.check_last()
            else:
                self.fault("track")
            self.give(self.running)
            self.give(first)
        for _ in range(left):
            byte = self.byte()
            if byte >= 0x80:
                self.fault("event")
            self.check_last()
            self.give(byte)
        return True

    def read_long(self, first):
        self.running = None
        self.check_last()
        kind = None
        if first == 0xFF:
            kind = self.byte()
            self.check_last()
        length = self.quantity()
        if kind == 0x51 and length != 3:
            self.fault("tempo")
        if kind == 0x2F and length == 0:
            return False
        self.check_last()
        if first == 0xF0:
            self.give(0xF0)
        value = 0
        for place in range(length):
            byte = self.byte()
            value = 256 * value + byte
            if kind == 0x2F and place == length - 1:
                return False
            self.check_last()
            if kind is None:
                self.give(byte)
        if kind == 0x51:
            self.tempo = value
        return True


def play(data, goes_on=False):
    file = File(data)
    try:
        file.read()
        status, text = 0, ""
    except Cut:
        status, text = 5, "input is cut\n"
    except Fault as fault:
        status, text = 13, f"smf {fault.at}: {fault.why}\n"
    return status, gathered(file.given, goes_on) if file.given or not goes_on else b"", text


class Draws:
    """The generator of the self-test."""

    def __init__(self, start):
        self.x, self.running = start, None

    def below(self, bound):
        self.x = (self.x * 1_103_515_245 + 12_345) % (1 << 31)
        return self.x // 65_536 % bound

    def data(self, count):
        return [self.below(128) for _ in range(count)]

    def unit(self):
        kind = self.below(16)
        if kind in (8, 9) and self.running is not None:
            return self.data(data_length(self.running))
        if kind < 10:
            status = 0x80 + 16 * self.below(7)
            self.running = status + self.below(16)
            return [self.running] + self.data(data_length(self.running))
        if kind < 12:
            return [REAL_TIME[self.below(6)]]
        self.running = None
        if kind == 12:
            status = [*COMMON_LENGTHS][self.below(4)]
            return [status] + self.data(COMMON_LENGTHS[status])
        count = self.below(64)
        if kind == 15:
            return [0xF0] + self.data(count)
        return [0xF0] + [0xF8] * (count % 2) + self.data(count) + [0xF7]


def selftest(words):
    draws = Draws(int(words[0]))
    made = bytes(byte for _ in range(int(words[1])) for byte in draws.unit())
    crossed = through(["din", "usb:0", "ble", "fw:0", "din"], made)[0]
    marks = [mark for mark, _ in puts_of(read_line(crossed[-1], [0] * len(crossed[-1]))[0])]
    items = [sum(mark[0] == kind for mark in marks) for kind in ("short", "end", "abort", "rt")]
    mix = 0
    for byte in crossed[-1]:
        mix = (mix * 31 + byte) % (1 << 32)
    written = " ".join(str(len(it)) for it in crossed[1:])
    lines = f"made {len(made)}\nwritten {written}\nitems {' '.join(map(str, items))}\nmix {mix:08x}\n"
    return 0, lines.encode(), ""


def answer(words, data):
    """The status, standard output and standard error of a command."""
    command, rest = words[0], words[1:]
    if command == "convert":
        return convert(rest, data)
    if command in ("check", "trace"):
        return listing(rest, data, command == "trace")
    return {"migrate": lambda: migrate(data), "guard": lambda: guard(rest, data), "selftest": lambda: selftest(rest),
            "record": lambda: record(rest, data), "play": lambda: play(data)}[command]()


if __name__ == "__main__":
    status, out, err = answer(sys.argv[1:], sys.stdin.buffer.read())
    sys.stdout.buffer.write(out)
    sys.stdout.flush()
    sys.stderr.write(err)
    sys.exit(status)
