#!/usr/bin/env python3
"""Makes documents with other programs' encoders, and compares how they are drawn:  documents.py PROGRAM [--runs N] [--only NAME] [--keep DIR]

PROGRAM is the built program. `cjb2`, `c44`, `csepdjvu`, `djvumake`, `djvmcvt` of DjVuLibre and `minidjvu` make the documents
out of pictures drawn from fixed seeds. Where all layers of a page have its own size, the raster has to be that of `ddjvu` to
the last byte; a difference ends the run with the status 1. Each document is drawn N times by both programs, turn by turn, in a
process of its own. A line for each has CPU time (user and system, the median) in milliseconds, the most memory in megabytes,
and the ratios of ours to theirs.
"""
import argparse
import os
import pathlib
import shutil
import statistics
import subprocess
import sys
import tempfile

from draw import most_memory

HERE = pathlib.Path(__file__).resolve().parent
WIDTH, HEIGHT = 2550, 3300


def run(*words):
    subprocess.run([str(word) for word in words], check=True, stdout=subprocess.DEVNULL, stderr=subprocess.DEVNULL)


def write_page(path, specks=0, page=None):
    """The bitmap of a scanned page."""
    words = [sys.executable, HERE / "make_page.py", path]
    run(*(words + [specks] + ([page] if page is not None else [])))


def write_photo(path, width, height):
    run(sys.executable, HERE / "make_photo.py", path, width, height)


class Document:
    """Files in a folder: the words of `draw`, and what `ddjvu` is given."""

    def __init__(self, name, folder, pages, whole, exact):
        self.name, self.folder, self.pages, self.whole, self.exact = name, folder, pages, whole, exact


def folder_of(root, name):
    folder = root / name
    folder.mkdir()
    return folder


def scanned(root, name, specks):
    """A bilevel page by `cjb2`."""
    folder = folder_of(root, name)
    write_page(root / "page.pbm", specks)
    run("cjb2", "-dpi", 300, root / "page.pbm", folder / name)
    return Document(name, folder, [name], folder / name, True)


def separated(root):
    """A bilevel page by `csepdjvu`, of black runs alone."""
    folder = folder_of(root, "separated")
    write_page(root / "page.pbm")
    rows = (root / "page.pbm").read_bytes().split(b"\n", 2)[2]
    stride = (WIDTH + 7) // 8
    runs = bytearray(b"R4\n%d %d\n" % (WIDTH, HEIGHT))
    for y in range(HEIGHT):
        bits = "".join(f"{byte:08b}" for byte in rows[stride * y : stride * (y + 1)])[:WIDTH]
        at, colour = 0, "0"
        while at < WIDTH:
            end = bits.find("1" if colour == "0" else "0", at)
            end = WIDTH if end < 0 else end
            length = end - at
            while length > 0x3FFF:
                runs += b"\xFF\xFF\x00"
                length -= 0x3FFF
            runs += bytes([length]) if length < 0xC0 else bytes([0xC0 + (length >> 8), length & 0xFF])
            at, colour = end, "1" if colour == "0" else "0"
    (root / "page.sep").write_bytes(bytes(runs))
    run("csepdjvu", "-d", 300, root / "page.sep", folder / "separated")
    return Document("separated", folder, ["separated"], folder / "separated", True)


def photo(root, name, width, height, *options):
    """A picture in colours by `c44`."""
    folder = folder_of(root, name)
    write_photo(root / "photo.ppm", width, height)
    run("c44", *options, root / "photo.ppm", folder / name)
    return Document(name, folder, [name], folder / name, True)


def crop(path, width, height):
    """The upper left corner of a bitmap. Its width is a multiple of 8."""
    rows = path.read_bytes().split(b"\n", 2)[2]
    stride = (WIDTH + 7) // 8
    kept = b"".join(rows[stride * y : stride * y + width // 8] for y in range(height))
    path.write_bytes(b"P4\n%d %d\n" % (width, height) + kept)


def compound(root, name, size, foreground, background, exact):
    """A mask over a background, with a foreground, each so many times smaller than the page."""
    width, height = size
    folder = folder_of(root, name)
    write_page(root / "page.pbm")
    if size != (WIDTH, HEIGHT):
        crop(root / "page.pbm", width, height)
    run("cjb2", "-dpi", 300, root / "page.pbm", root / "mask.djvu")
    layers = []
    for what, times, slices in (("fg", foreground, "100"), ("bg", background, "72,83,93,103")):
        write_photo(root / (what + ".ppm"), -(-width // times), -(-height // times))
        run("c44", "-slice", slices, root / (what + ".ppm"), root / (what + ".djvu"))
        run("djvuextract", root / (what + ".djvu"), f"BG44={root / (what + '.iw4')}")
        layers.append(root / (what + ".iw4"))
    run("djvuextract", root / "mask.djvu", f"Sjbz={root / 'mask.jb2'}")
    run("djvumake", folder / name, f"INFO={width},{height},300", f"Sjbz={root / 'mask.jb2'}", f"FG44={layers[0]}", f"BG44={layers[1]}")
    return Document(name, folder, [name], folder / name, exact)


def book(root, name, pages):
    """Pages with one dictionary by `minidjvu`, each a file of its own."""
    folder = folder_of(root, name)
    bitmaps = [folder / f"p{number:02}.pbm" for number in range(1, pages + 1)]
    for number, bitmap in enumerate(bitmaps):
        write_page(bitmap, 0, number)
    subprocess.run(["minidjvu", "-i", "-p", str(pages)] + [bitmap.name for bitmap in bitmaps] + ["index.djvu"], cwd=folder, check=True)
    for bitmap in bitmaps:
        bitmap.unlink()
    names = [bitmap.stem + ".djvu" for bitmap in bitmaps]
    return Document(name, folder, names, folder / "index.djvu", True)


def converted(root, bundle):
    """The same book, bundled by `djvmcvt` and taken apart again."""
    folder = folder_of(root, "converted")
    run("djvmcvt", "-b", bundle.whole, root / "bundle.djvu")
    run("djvmcvt", "-i", root / "bundle.djvu", folder, "index.djvu")
    return Document("converted", folder, bundle.pages, folder / "index.djvu", True)


def spent(command, out):
    """Runs a command: its status, and CPU time in milliseconds."""
    with open(out, "wb") as stdout:
        process = subprocess.Popen(command, stdout=stdout, stderr=subprocess.DEVNULL)
        _, status, usage = os.wait4(process.pid, 0)
        process.returncode = os.waitstatus_to_exitcode(status)
    return process.returncode, 1000 * (usage.ru_utime + usage.ru_stime)


def compared(program, document, runs, root):
    """A line on a document, and whether its rasters are as they have to be."""
    ours, theirs = root / "ours.ppm", root / "theirs.ppm"
    draw = [program, str(document.folder), "draw"] + document.pages
    draw_theirs = ["ddjvu", "-format=ppm", str(document.whole), str(theirs)]
    own, other = [], []
    for _ in range(runs):
        own.append(spent(draw, ours))
        other.append(spent(draw_theirs, os.devnull))
    same = ours.read_bytes() == theirs.read_bytes()
    fits = all(status == 0 for status, _ in own + other) and (same or not document.exact)
    times = [statistics.median(time for _, time in each) for each in (own, other)]
    memory = [most_memory(command) for command in (draw, draw_theirs)]
    line = "%s: %.0f ms, ddjvu %.0f ms, ratio %.2f; %.1f MB, %.1f MB, ratio %.2f; %s" % (
        document.name, *times, times[0] / times[1], *memory, memory[0] / max(memory[1], 0.1),
        "the same raster" if same else "another raster" if document.exact else "another raster, as layers are smaller")
    return line, fits


def documents(root):
    """Each document by its name, and what makes it."""
    slices = "-slice", "72,83,93,103"
    yield "lines", lambda: scanned(root, "lines", 0)
    yield "specks", lambda: scanned(root, "specks", 20000)
    yield "separated", lambda: separated(root)
    yield "photo", lambda: photo(root, "photo", 3000, 2000, *slices)
    yield "half", lambda: photo(root, "half", 1200, 900, "-crcbhalf", *slices)
    yield "grey", lambda: photo(root, "grey", 1200, 900, "-crcbnone", *slices)
    yield "compound", lambda: compound(root, "compound", (WIDTH, HEIGHT), 12, 3, False)
    yield "full", lambda: compound(root, "full", (960, 1040), 1, 1, True)
    yield "book", lambda: book(root, "book", 20)
    yield "converted", lambda: converted(root, book(root, "bound", 20))


def main():
    parser = argparse.ArgumentParser(description="Makes documents, and compares how they are drawn.")
    parser.add_argument("program")
    parser.add_argument("--runs", type=int, default=5)
    parser.add_argument("--only", action="append")
    parser.add_argument("--keep")
    options = parser.parse_args()
    program = os.path.abspath(options.program)
    root = pathlib.Path(tempfile.mkdtemp(prefix="documents-"))
    try:
        fitting = []
        for name, made in documents(root):
            if options.only and name not in options.only:
                continue
            document = made()
            line, fits = compared(program, document, options.runs, root)
            print(line, flush=True)
            fitting.append(fits)
            if options.keep:
                shutil.copytree(document.folder, pathlib.Path(options.keep, document.name), dirs_exist_ok=True)
    finally:
        shutil.rmtree(root, ignore_errors=True)
    return 0 if all(fitting) else 1


if __name__ == "__main__":
    sys.exit(main())
