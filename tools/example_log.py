#!/usr/bin/env python3
"""Writes the example log of `loglist`: an evening of one controller, with every kind of damage that a log can show.

Block 0 is full and sound, but one record has a code that no event has. Block 1 was hit in one byte, so that its check does not hold.
Block 2 is full and sound. Block 3 is the last one and short, and one of its records has a minute past midnight's 1439.
"""
import sys

OFF, ON, DIM, ACCEPTED, REFUSED, JOIN, LEAVE, SELF_CHECK = range(8)


def record(minute, code, level):
    return minute.to_bytes(2, "big") + bytes([code, level])


def block(number, records):
    body = number.to_bytes(2, "big") + bytes([len(records), 0]) + b"".join(records)
    body = body.ljust(508, b"\0")
    words = [int.from_bytes(body[i : i + 4], "big") for i in range(0, 508, 4)]
    check = (1 + sum(word * (2 * w + 1) for w, word in enumerate(words))) % 2**32
    return body + check.to_bytes(4, "big")


def evening(first):
    """126 events, two minutes apart, round after round: on, three dimming steps, keys, a self check."""
    round_ = [(ON, 255), (DIM, 191), (DIM, 127), (DIM, 63), (ACCEPTED, 0), (REFUSED, 64), (JOIN, 128), (LEAVE, 192), (SELF_CHECK, 0), (OFF, 0)]
    return [record((first + 2 * i) % 1440, *round_[i % len(round_)]) for i in range(126)]


first = evening(1080)
first[7] = record(1094, 8, 0)
second = bytearray(block(1, evening(1332)))
second[200] ^= 1
third = evening(144)
last = [record(60, DIM, 200), record(61, OFF, 0), record(1440, ON, 255), record(62, SELF_CHECK, 255), record(1439, REFUSED, 3)]
log = block(0, first) + bytes(second) + block(2, third) + block(3, last)
with open(sys.argv[1] if len(sys.argv) > 1 else "log.bin", "wb") as out:
    out.write(log)
