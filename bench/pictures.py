#!/usr/bin/env python3
"""Draws a page after each of its chunks that brings a drawing, and writes the drawings as PNG files.

    python3 bench/pictures.py PROGRAM FOLDER PAGE TO [SMALLER]

The program draws files that have the page's first chunks alone. Each raster becomes a file TO/PAGE-K.png, where K is the
number of chunks. Every SMALLER by SMALLER pixels become one, their mean (4 unless given).
"""
import pathlib
import struct
import subprocess
import sys
import tempfile
import zlib


def chunks_of(data):
    """Where the FORM's length stands, and the end of each chunk with its pad byte."""
    start = 4 if data[:4] == b"AT&T" else 0
    end = min(len(data), start + 8 + int.from_bytes(data[start + 4 : start + 8], "big"))
    at, ends = start + 12, []
    while at + 8 <= end:
        size = int.from_bytes(data[at + 4 : at + 8], "big")
        at += 8 + size + size % 2
        ends.append(min(at, end))
    return start + 4, ends


def first_chunks(data, length_at, end):
    """The file that ends after these bytes of the FORM."""
    return data[:length_at] + struct.pack(">I", end - length_at - 4) + data[length_at + 4 : end]


def drawn(program, data, page):
    """The raster that the program draws, and the number of chunks of its last drawing."""
    with tempfile.TemporaryDirectory() as folder:
        pathlib.Path(folder, page).write_bytes(data)
        ran = subprocess.run([program, folder, "draw", page], capture_output=True, check=False)
    if ran.returncode != 0:
        sys.exit(f"{page}: the program ended with {ran.returncode}: {ran.stderr.decode()}")
    return ran.stdout, int(ran.stderr.decode().split("\n")[-2].split()[2])


def samples_of(raster):
    """Width, height and samples of a PPM."""
    head, rest = raster.split(b"\n255\n", 1)
    width, height = (int(number) for number in head.split()[1:3])
    return width, height, rest


def smaller_rows(raster, step):
    """Rows of three bytes a pixel, each the mean of step by step samples."""
    width, height, samples = samples_of(raster)
    for top in range(0, height - step + 1, step):
        out = bytearray(3 * (width // step))
        for colour in range(3):
            rows = [samples[3 * width * y + colour : 3 * width * (y + 1) : 3] for y in range(top, top + step)]
            out[colour::3] = bytes(
                sum(sum(row[left : left + step]) for row in rows) // (step * step)
                for left in range(0, width - step + 1, step)
            )
        yield bytes(out)


def png(rows):
    """A picture in colours."""
    def block(kind, data):
        body = kind + data
        return struct.pack(">I", len(data)) + body + struct.pack(">I", zlib.crc32(body))

    head = struct.pack(">IIBBBBB", len(rows[0]) // 3, len(rows), 8, 2, 0, 0, 0)
    body = zlib.compress(b"".join(b"\0" + row for row in rows), 9)
    return b"\x89PNG\r\n\x1a\n" + block(b"IHDR", head) + block(b"IDAT", body) + block(b"IEND", b"")


def main():
    program, folder, page, to = sys.argv[1:5]
    step = int(sys.argv[5]) if len(sys.argv) > 5 else 4
    data = pathlib.Path(folder, page).read_bytes()
    length_at, ends = chunks_of(data)
    last = 0
    for end in ends:
        raster, chunks = drawn(program, first_chunks(data, length_at, end), page)
        if chunks > last:
            last = chunks
            pathlib.Path(to).mkdir(parents=True, exist_ok=True)
            pathlib.Path(to, f"{page}-{chunks}.png").write_bytes(png(list(smaller_rows(raster, step))))


if __name__ == "__main__":
    main()
