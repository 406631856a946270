#!/usr/bin/env python3
"""Writes the bitmap of a page of 2,550 by 3,300 pixels, in the format PBM:  make_page.py FILE [SPECKS [PAGE]]

The page has 55 lines of marks that look like letters: strokes drawn from a fixed seed, each mark now and then with a pixel
more or less, as a scanner would see it. `cjb2 FILE lines` of DjVuLibre makes the page `lines` of it. With SPECKS so many
black pixels lie anywhere on it, as in a bad scan. With PAGE it is another page of a book in the same letters.
"""
import random
import sys

WIDTH, HEIGHT = 2550, 3300
random.seed(20261201)


def stroke(glyph, x0, y0, x1, y1):
    steps = max(abs(x1 - x0), abs(y1 - y0), 1)
    for step in range(steps + 1):
        x = x0 + (x1 - x0) * step // steps
        y = y0 + (y1 - y0) * step // steps
        for dy in range(-2, 3):
            for dx in range(-2, 3):
                if dx * dx + dy * dy <= 5:
                    glyph.add((x + dx, y + dy))


def letter():
    glyph = set()
    width = random.randint(12, 24)
    height = random.choice([22, 22, 34])
    for _ in range(random.randint(2, 4)):
        stroke(glyph, random.randint(2, width), random.randint(2, height), random.randint(2, width), random.randint(2, height))
    return glyph, width + 4


letters = [letter() for _ in range(60)]
if len(sys.argv) > 3:
    random.seed(int(sys.argv[3]))
rows = [bytearray(WIDTH) for _ in range(HEIGHT)]
for line in range(55):
    x = 200
    base = 200 + line * 54
    while x < WIDTH - 240:
        if random.random() < 0.17:
            x += 18
            continue
        glyph, width = random.choice(letters)
        for gx, gy in glyph:
            if random.random() > 0.004:
                rows[base + gy][x + gx] = 1
        x += width + 4

for _ in range(int(sys.argv[2]) if len(sys.argv) > 2 else 0):
    rows[random.randrange(HEIGHT)][random.randrange(WIDTH)] = 1

with open(sys.argv[1], "wb") as out:
    out.write(b"P4\n%d %d\n" % (WIDTH, HEIGHT))
    for row in rows:
        padded = row + bytes(-WIDTH % 8)
        out.write(bytes(
            sum(padded[at + bit] << (7 - bit) for bit in range(8)) for at in range(0, len(padded), 8)
        ))
