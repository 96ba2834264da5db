"""Inputs for tests/long_run.py: recordings, tapes and files made at random, right ones and spoilt ones; and all short
byte lines and BLE-MIDI packets of a few kinds of bytes."""
import itertools

CHANNEL = (0x80, 0x90, 0x90, 0x90, 0xA0, 0xB0, 0xC0, 0xD0, 0xE0)
REAL_TIME = (0xF8, 0xFA, 0xFB, 0xFC, 0xFE, 0xFF)
COMMON = {0xF1: 1, 0xF2: 2, 0xF3: 1, 0xF6: 0}
USED = (0, 0, 2, 3, 3, 1, 2, 3, 3, 3, 3, 3, 2, 2, 3, 1)


def data(rng, count):
    return [rng.randrange(128) for _ in range(count)]


def message(rng):
    """The bytes of a short message."""
    if rng.random() < 0.15:
        status = rng.choice([*COMMON])
        return [status] + data(rng, COMMON[status])
    status = rng.choice(CHANNEL) + rng.choice((0, 0, 0, 1, 9))
    length = 1 if status >> 4 in (0xC, 0xD) else 2
    # few keys, so that notes end
    return [status] + [rng.choice((0, 1, 60, 64, 127)) for _ in range(length)]


def unit(rng):
    """Bytes that belong together: a message, a real-time byte, a SysEx whole or broken off, or bytes of no meaning."""
    dice = rng.random()
    if dice < 0.5:
        return message(rng)
    if dice < 0.65:
        return [rng.choice(REAL_TIME)]
    if dice < 0.9:
        long = rng.randrange(1500) if rng.random() < 0.1 else 6
        length = rng.choice((0, 1, 2, 3, 4, 5, 7, 20, rng.randrange(300), long))
        content = data(rng, length)
        for _ in range(rng.choice((0, 0, 1, 3))):
            content.insert(rng.randrange(len(content) + 1), rng.choice(REAL_TIME))
        return [0xF0] + content + ([0xF7] if rng.random() < 0.8 else [])
    return [rng.choice((rng.randrange(256), 0xF4, 0xF5, 0xF7, 0xF9, 0xFD, rng.randrange(128)))]


def units(rng):
    count = rng.choice((0, 1, 2, 3, 5, 8, 13, 21))
    return [unit(rng) for _ in range(count)]


def line(rng):
    """A byte line: statuses are left out where they run, now and then where they don't."""
    found, running = [], None
    for it in units(rng):
        leave = it[0] == running and rng.random() < 0.7 or rng.random() < 0.03
        found += it[1:] if leave else it
        if it[0] < 0xF8:
            running = it[0] if 0x80 <= it[0] < 0xF0 else None
    return bytes(found)


def number_of(piece):
    """The code index number that suits these bytes at best."""
    if 0x80 <= piece[0] < 0xF0:
        return piece[0] >> 4
    if piece[0] in COMMON:
        return {0: 5, 1: 2, 2: 3}[COMMON[piece[0]]]
    return 4 + len(piece) if 0xF7 in piece else 4 if len(piece) == 3 else 15


def packets(rng):
    """USB-MIDI event packets of a few cables, in turn."""
    cables = [0, rng.randrange(16)] if rng.random() < 0.5 else [rng.randrange(3)]
    found = []
    for it in units(rng):
        cable = rng.choice(cables)
        whole = it[0] != 0xF0 and len(it) <= 3 or rng.random() < 0.05
        for at in range(0, len(it), 3):
            piece = it[at : at + 3]
            if not whole and len(piece) < 3 and 0xF7 not in piece:
                pieces = [[byte] for byte in piece]
            else:
                pieces = [piece]
            for one in pieces:
                number = number_of(one) if rng.random() < 0.95 else rng.randrange(16)
                fill = [rng.randrange(256) if rng.random() < 0.1 else 0 for _ in range(3 - len(one))]
                found += [16 * cable + number, *one, *fill]
    return bytes(found)


def framed(content):
    return [len(content) >> 8, len(content) & 255, *content]


def radio(rng):
    """BLE-MIDI packets, cut anywhere between units and inside SysEx."""
    moment, found, content, running = rng.randrange(8192), [], [], None
    for it in units(rng):
        moment += rng.choice((0, 0, 1, 5, 60, 100, 130, 900, 5000, 8191))
        if rng.random() < 0.02:
            moment = rng.randrange(1 << 14)
        stamp = 0x80 | moment % 128
        if not content:
            content, running = [0x80 | moment // 128 % 64], None
        runs = it[0] == running and rng.random() < 0.8
        first = it[1:] if runs else it
        if not (runs and rng.random() < 0.5):
            content.append(stamp)
        for byte in first:
            if byte >= 0x80 and byte is not first[0]:
                content.append(0x80 | moment % 128)
            content.append(byte)
            if first[0] == 0xF0 and rng.random() < 0.1:
                found += framed(content)
                content = [0x80 | moment // 128 % 64]
        if it[0] < 0xF8:
            running = it[0] if it[0] < 0xF0 else running if it[0] in COMMON else None
        if rng.random() < 0.25:
            found += framed(content)
            content = []
        if rng.random() < 0.02:
            found += framed([] if rng.random() < 0.5 else [rng.randrange(128), *data(rng, 3)])
    return bytes(found + (framed(content) if content else []))


def wire(rng):
    """Packets of FireWire: blocks of a few quadlets, in which MIDI conformant ones carry a byte line."""
    left, found, count = list(line(rng)), [], rng.choice((0, 0, rng.randrange(256)))
    while left or rng.random() < 0.3:
        size, blocks = rng.choice((1, 1, 1, 2, 2, 3, 9)), rng.choice((0, 1, 1, 2, 8, 8, 11))
        content = [0, size, 0, count, 0x90, rng.choice((2, 2, 2, 0)), 0xFF, 0xFF]
        for _ in range(size * blocks):
            take = rng.choice((0, 1, 1, 2, 3)) if rng.random() < 0.7 else 0
            label = 0x80 + take if rng.random() < 0.9 else rng.choice((0x40, 0x84, 0x7F, 0xCF))
            carried, left = left[:take], left[take:]
            content += [label, *carried, 0, 0, 0][:4]
        if rng.random() < 0.08:
            content[rng.choice((0, 1, 3, 4, 5))] = rng.choice((0, 0x3F, 0x40, 0x90, 0xFF, 1, 4))
        if rng.random() < 0.05:
            content = content[: rng.randrange(len(content) + 1)]
        found += framed(content)
        count = (count + blocks) % 256 if rng.random() < 0.95 else rng.randrange(256)
    return bytes(found)


def spoilt(rng, found):
    """The same bytes, or a few of them lost, added or changed, or the rest cut off."""
    found = bytearray(found)
    if rng.random() < 0.3:
        for _ in range(rng.choice((1, 1, 2, 5))):
            at = rng.randrange(len(found) + 1)
            dice = rng.random()
            if dice < 0.4:
                found[at : at + 1] = bytes([rng.randrange(256)])
            elif dice < 0.7:
                found[at:at] = bytes([rng.randrange(256)])
            else:
                del found[at : at + 1]
    if rng.random() < 0.2:
        del found[rng.randrange(len(found) + 1) :]
    return bytes(found)


MAKERS = {"din": line, "usb": packets, "ble": radio, "fw": wire}


def recording(rng, word):
    """A recording for a reader of this spec."""
    if rng.random() < 0.03:
        return bytes(rng.randrange(256) for _ in range(rng.randrange(200)))
    return spoilt(rng, MAKERS[word[:3].rstrip(":")](rng))


STEPS = (0, 0, 1, 3, 999, 1000, 1001, 50_000, 10**8)


def tape(rng, word, steps=STEPS):
    """A tape whose track 0 is a recording for a reader of this spec, and whose moments rise by these steps."""
    is_first, moment, found = rng.random() < 0.3, rng.randrange(10_000), bytearray()
    tracks = [0] if is_first or rng.random() < 0.6 else [0, 0, 1, 255]
    left = {0: recording(rng, word), 1: line(rng), 255: b""}
    while left[0] or rng.random() < 0.2:
        track = rng.choice(tracks)
        size = rng.choice((1, 1, 2, 3, 10, 300, 600))
        content, left[track] = left[track][:size], left[track][size:]
        if not content:
            if rng.random() < 0.97:
                content = bytes([0xFE])
            else:
                break
        moment += rng.choice(steps)
        if rng.random() < 0.01:
            moment = rng.choice((0, 1 << 40, 18_446_744_073_709_551, 18_446_744_073_709_552, (1 << 64) - 1))
        found += min(moment, (1 << 64) - 1).to_bytes(8, "big") + (b"" if is_first else bytes([track]))
        found += len(content).to_bytes(2, "big") + content
    magic = b"MBT1" if is_first else b"MBT2"
    return spoilt(rng, magic + found) if rng.random() < 0.3 else magic + bytes(found)


def quantity(number):
    found = [number & 127]
    while number > 127:
        number >>= 7
        found.insert(0, 0x80 | number & 127)
    return found


def event(rng, running):
    """An event of a track, and the status that runs behind it."""
    dice = rng.random()
    if dice < 0.6:
        status = rng.choice(CHANNEL) + rng.choice((0, 1, 15))
        found = [status] + data(rng, 1 if status >> 4 in (0xC, 0xD) else 2)
        return (found[1:] if status == running and rng.random() < 0.8 else found), status
    if dice < 0.8:
        content = [rng.randrange(256) for _ in range(rng.choice((0, 1, 2, 3, 10, 130)))]
        return [rng.choice((0xF0, 0xF7)), *quantity(len(content)), *content], None
    if dice < 0.9:
        return [0xFF, 0x51, 3, *(rng.randrange(256) for _ in range(3))], None
    content = data(rng, rng.choice((0, 1, 5)))
    return [0xFF, rng.choice((0, 1, 3, 0x2E, 0x7F)), len(content), *content], None


def file(rng):
    """A Standard MIDI File of format 0."""
    track, running = [], None
    for _ in range(rng.choice((0, 1, 2, 5, 10, 30, 100))):
        found, running = event(rng, running)
        longest = (1 << 28) - 1 if rng.random() < 0.05 else 3
        track += quantity(rng.choice((0, 0, 1, 96, 127, 128, 20_000, longest))) + found
    end = [0, 0xFF, 0x2F, *([0] if rng.random() < 0.95 else [2, 0, 0])]
    track += end if rng.random() < 0.95 else []
    more = data(rng, rng.choice((0, 0, 0, 3)))
    division = rng.choice((1, 3, 96, 480, 1000, 32767))
    head = b"MThd" + (6 + len(more)).to_bytes(4, "big") + bytes([0, 0, 0, 1]) + division.to_bytes(2, "big")
    other = b"XFIH\0\0\0\2ab" if rng.random() < 0.1 else b""
    length = len(track) + (rng.choice((-1, 1, 5)) if rng.random() < 0.05 else 0)
    found = head + bytes(more) + other + b"MTrk" + max(length, 0).to_bytes(4, "big") + bytes(track)
    found += bytes(data(rng, 4)) if rng.random() < 0.1 else b""
    return spoilt(rng, found) if rng.random() < 0.3 else found


def small():
    """Words and input: each byte line and each packet of up to four bytes of a few kinds, and five bytes in two
    packets."""
    for count in range(5):
        for found in itertools.product(bytes.fromhex("003C90C0F0F1F2F4F6F7F8F9"), repeat=count):
            yield ["trace", "din"], bytes(found)
        for found in itertools.product(bytes.fromhex("3C80A590C0F0F2F6F7F8"), repeat=count):
            yield ["trace", "ble"], bytes(framed([0x83, *found]))
    for found in itertools.product(bytes.fromhex("3C8190F0F6F7"), repeat=5):
        for cut in range(1, 5):
            yield ["trace", "ble"], bytes(framed([0x80, *found[:cut]]) + framed([0x80, *found[cut:]]))
