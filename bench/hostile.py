#!/usr/bin/env python3
"""Writes pages that are small and were slow to read:  hostile.py FOLDER

`refinements` has one shape of 256 by 45,000 with a black pixel at its top right, and 65,534 empty shapes that refine it.
`copies` has 16,384 copies of a shape of 1 by 65,535 on a page of one pixel. `requires` has 400,000 records that require no
shapes. Their masks are written with the table `flat`, with which each decision is a bit inverted:

    PROGRAM FOLDER draw --table flat refinements
"""
import os
import struct
import sys

MOST = 262142
LEAST = -262143


class Chunk:
    """The records of a mask, bit by bit."""

    def __init__(self):
        self.bits = []

    def number(self, low, high, value):
        """A number from low to high: a decision is coded only where the bounds leave it open."""
        def decide(cutoff):
            if low < cutoff <= high:
                self.bits.append(value < cutoff)
            return cutoff <= value

        if not decide(0):
            low, high, value = -high - 1, -low - 1, -value - 1
        cutoff = 1
        while decide(cutoff):
            cutoff = 2 * cutoff + 1
        span = (cutoff + 1) // 2
        cutoff -= span // 2
        while span > 1:
            at_least = decide(cutoff)
            span //= 2
            cutoff += span // 2 if at_least else -(span // 2)

    def kind(self, number):
        self.number(0, 11, number)

    def flag(self, value):
        self.bits.append(not value)

    def start(self, width, height):
        self.kind(0)
        self.number(0, MOST, width)
        self.number(0, MOST, height)
        self.flag(False)

    def shape(self, width, height, black):
        """A shape for the library, with this black pixel, counted from its top left in reading order."""
        self.kind(2)
        self.number(0, MOST, width)
        self.number(0, MOST, height)
        self.bits += [place != black for place in range(width * height)]

    def row(self):
        """A new row, one pixel right of the last one."""
        self.flag(True)
        self.number(LEAST, MOST, 1)
        self.number(LEAST, MOST, 0)

    def data(self):
        self.kind(11)
        bits = self.bits + [True] * (-len(self.bits) % 8)
        return bytes(sum(bit << 7 - place for place, bit in enumerate(bits[at:at + 8])) for at in range(0, len(bits), 8))


def refinements():
    chunk = Chunk()
    chunk.start(1, 1)
    chunk.shape(256, 45000, 255)
    for _ in range(65534):
        chunk.kind(6)
        chunk.number(LEAST, MOST, -1)
        chunk.number(LEAST, MOST, -1)
        chunk.row()
    return chunk.data()


def copies():
    chunk = Chunk()
    chunk.start(1, 1)
    chunk.shape(1, 65535, 0)
    for _ in range(16384):
        chunk.kind(7)
        chunk.row()
    return chunk.data()


def requires():
    chunk = Chunk()
    for _ in range(400000):
        chunk.kind(9)
        chunk.number(0, MOST, 0)
    chunk.start(1, 1)
    return chunk.data()


def page(data):
    """A page of one pixel with this mask."""
    info = struct.pack(">HHBBHBB", 1, 1, 24, 0, 0x2C01, 22, 1)
    body = b"DJVUINFO" + struct.pack(">I", len(info)) + info + b"Sjbz" + struct.pack(">I", len(data)) + data + bytes(len(data) % 2)
    return b"AT&TFORM" + struct.pack(">I", len(body)) + body


os.makedirs(sys.argv[1], exist_ok=True)
for make in (refinements, copies, requires):
    with open(os.path.join(sys.argv[1], make.__name__), "wb") as file:
        file.write(page(make()))
