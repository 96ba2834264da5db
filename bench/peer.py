#!/usr/bin/env python3
"""Holds the packets that the program writes against a plain reader of BLE-MIDI, written from the standard alone.

    bench/peer.py PROGRAM RECORDING ..

Each RECORDING, a byte line, is converted by `din ble/N` for several sizes N, and the packets are read here: the
messages, and the real-time messages, must be those of the byte line. Ends with status 1 where they aren't."""
import subprocess
import sys

SIZES = [5, 6, 20, 23, 244, 512]


def data_len(status):
    if status < 0xF0:
        return 1 if status >> 4 in (0xC, 0xD) else 2
    return {0xF1: 1, 0xF2: 2, 0xF3: 1}.get(status, 0)


def of_line(line):
    """The messages of a byte line, and its real-time messages."""
    messages, realtime, status, sysex, data = [], [], None, None, []
    for byte in line:
        if byte >= 0xF8:
            realtime.append(byte)
        elif byte >= 0x80:
            if sysex is not None:
                messages.append(("whole" if byte == 0xF7 else "broken", bytes(sysex)))
            sysex, data = ([] if byte == 0xF0 else None), []
            status = byte if byte < 0xF7 and byte != 0xF0 else None
            if status is not None and data_len(status) == 0:
                messages.append(("message", bytes([status])))
                status = None
        elif sysex is not None:
            sysex.append(byte)
        elif status is not None:
            data.append(byte)
            if len(data) == data_len(status):
                messages.append(("message", bytes([status] + data)))
                data, status = [], (status if status < 0xF0 else None)
    return messages + ([("broken", bytes(sysex))] if sysex is not None else []), realtime


def of_packets(recording):
    """The same of packets in frames: a header, then stamps, statuses and data."""
    messages, realtime, sysex, at = [], [], None, 0
    while at + 2 <= len(recording):
        length = 256 * recording[at] + recording[at + 1]
        packet, at = recording[at + 2 : at + 2 + length], at + 2 + length
        assert packet[0] & 0x80, "a header without its top bit"
        place, status = 1, None
        while place < len(packet):
            if not packet[place] & 0x80 and sysex is not None:
                sysex.append(packet[place])
                place += 1
                continue
            if packet[place] & 0x80:  # a stamp
                place += 1
            if packet[place] >= 0xF8:  # a status runs on behind it
                realtime.append(packet[place])
                place += 1
                continue
            if packet[place] & 0x80:
                status, place = packet[place], place + 1
                if sysex is not None:
                    messages.append(("whole" if status == 0xF7 else "broken", bytes(sysex)))
                sysex = [] if status == 0xF0 else None
                if status in (0xF0, 0xF7):
                    status = None
                    continue
            count = data_len(status)
            messages.append(("message", bytes([status]) + packet[place : place + count]))
            place += count
            status = status if status < 0xF0 else None
    return messages + ([("broken", bytes(sysex))] if sysex is not None else []), realtime


wrong = 0
for name in sys.argv[2:]:
    line = open(name, "rb").read()
    wanted = of_line(line)
    for size in SIZES:
        words = [sys.argv[1], "convert", "din", "ble/%d" % size]
        found = of_packets(subprocess.run(words, input=line, stdout=subprocess.PIPE, check=True).stdout)
        same = found == wanted
        wrong |= not same
        counts = "%d messages, %d real-time:" % (len(wanted[0]), len(wanted[1]))
        print(name, words[-1], counts, "the same" if same else "other ones")
sys.exit(wrong)
