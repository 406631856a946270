#!/usr/bin/env python3
"""Writes a picture of 3,000 by 2,000 pixels in colours, in the format PPM:  make_photo.py FILE [WIDTH HEIGHT]

It has what a photograph has: light that changes slowly, discs with sharp edges and a finer pattern inside, and grain. All is
drawn from a fixed seed. `c44 -slice 72,83,93,103 FILE photo` of DjVuLibre makes a page of it, with four chunks.
"""
import math
import random
import sys

WIDTH, HEIGHT = (int(sys.argv[2]), int(sys.argv[3])) if len(sys.argv) > 3 else (3000, 2000)
random.seed(20261202)


def waves(length, height, count):
    """Whole numbers along a line, of slow waves that are so high in all."""
    terms = [(random.uniform(0.5, 12), random.uniform(0, 7), height * random.random() / count) for _ in range(count)]
    return [
        round(sum(size * math.cos(rate * at / length * math.pi + start) for rate, start, size in terms))
        for at in range(length)
    ]


def disc():
    """Column, row, radius, what it adds to each colour, and the period of its pattern."""
    radius = random.randint(20, 260) * WIDTH // 3000 + 2
    shade = [random.randint(-90, 90) for _ in range(3)]
    return random.randrange(WIDTH), random.randrange(HEIGHT), radius, shade, random.randint(3, 40)


across = [waves(WIDTH, 130, 6) for _ in range(3)]
down = [waves(HEIGHT, 130, 6) for _ in range(3)]
slant = [waves(WIDTH + HEIGHT, 80, 9) for _ in range(3)]
discs = [disc() for _ in range(90)]
CLIPPED = [min(255, max(0, value - 1000)) for value in range(2300)]


def row_of(y):
    """A row of the picture: for each colour its light and the discs, then grain for all three."""
    colours = []
    for light, shade, lean in zip(across, down, slant):
        level = 1128 + shade[y]
        colours.append([level + value + lean[x + y] for x, value in enumerate(light)])
    for column, row, radius, shade, period in discs:
        reach = radius * radius - (y - row) ** 2
        if reach < 0:
            continue
        reach = math.isqrt(reach)
        for x in range(max(0, column - reach), min(WIDTH, column + reach + 1)):
            part = 2 if (x + 2 * y) // period % 2 else 3
            for colour, more in zip(colours, shade):
                colour[x] += more * part // 4
    grain = [byte // 24 - 5 for byte in random.randbytes(WIDTH)]
    samples = bytearray(3 * WIDTH)
    for at, colour in enumerate(colours):
        samples[at::3] = bytes(CLIPPED[min(2299, max(0, value + more))] for value, more in zip(colour, grain))
    return samples


with open(sys.argv[1], "wb") as out:
    out.write(b"P6\n%d %d\n255\n" % (WIDTH, HEIGHT))
    for y in range(HEIGHT):
        out.write(row_of(y))
