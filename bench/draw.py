#!/usr/bin/env python3
"""Times `draw` of the pages in bench/pages:  draw.py PROGRAM [--runs N]

PROGRAM is the built program; each page is drawn N times, in a process of its own. A line for each page tells the median and
the least time in milliseconds, the most memory in megabytes (of one run more, looked at while it goes on), and decisions a
second. Where `ddjvu` of DjVuLibre is installed,
it draws the same file to the same format in the same run, turn by turn, and the line ends with the ratio of the medians.
Each raster and each report is compared with what pages.json says; a difference ends the run with the status 1.
"""
import argparse
import hashlib
import json
import os
import shutil
import statistics
import subprocess
import sys
import tempfile
import time

HERE = os.path.dirname(os.path.abspath(__file__))
PAGES = os.path.join(HERE, "pages")


def timed(command, out, report):
    """Runs a command: its status, and milliseconds."""
    with open(out, "wb") as stdout, open(report, "wb") as stderr:
        begun = time.perf_counter()
        status = subprocess.call(command, stdout=stdout, stderr=stderr)
        spent = 1000 * (time.perf_counter() - begun)
    return status, spent


def most_memory(command):
    """The most memory that a command was seen to hold, in megabytes."""
    most = 0
    process = subprocess.Popen(command, stdout=subprocess.DEVNULL, stderr=subprocess.DEVNULL)
    while process.poll() is None:
        try:
            with open("/proc/%d/status" % process.pid, encoding="ascii") as file:
                marks = [line.split()[1] for line in file if line.startswith("VmHWM:")]
        except OSError:
            break
        most = max([most] + [int(mark) / 1024 for mark in marks])
    process.wait()
    return most


def is_wanted(name, page, status, out, report):
    with open(out, "rb") as file:
        digest = hashlib.sha256(file.read()).hexdigest()
    with open(report, encoding="utf-8") as file:
        last = file.read().splitlines()[-1:]
    return status == 0 and digest == page["sha256"] and last == ["%s: chunk 2 sum %d" % (name, page["sum"])]


def main():
    parser = argparse.ArgumentParser(description="Times draw of the pages in bench/pages.")
    parser.add_argument("program")
    parser.add_argument("--runs", type=int, default=15)
    options = parser.parse_args()
    with open(os.path.join(HERE, "pages.json"), encoding="utf-8") as file:
        pages = json.load(file)
    other = shutil.which("ddjvu")
    folder = tempfile.mkdtemp(prefix="bench-")
    out, report = os.path.join(folder, "out"), os.path.join(folder, "report")
    differ = False
    try:
        for name, page in sorted(pages.items()):
            command = [os.path.abspath(options.program), PAGES, "draw", name]
            own, theirs = [], []
            for _ in range(options.runs):
                status, spent = timed(command, out, report)
                if not is_wanted(name, page, status, out, report):
                    print("%s: differs, status %d" % (name, status))
                    differ = True
                    break
                own.append(spent)
                if other:
                    theirs.append(timed([other, "-format=ppm", os.path.join(PAGES, name), out], os.devnull, report)[1])
            if not own:
                continue
            median = statistics.median(own)
            line = "%s: %.1f ms (least %.1f), %.1f MB, %.1f million decisions a second" % (
                name, median, min(own), most_memory(command), page["decisions"] / median / 1000)
            if theirs:
                line += ", ddjvu %.1f ms, ratio %.2f" % (statistics.median(theirs), median / statistics.median(theirs))
            print(line)
    finally:
        shutil.rmtree(folder, ignore_errors=True)
    return 1 if differ else 0


if __name__ == "__main__":
    sys.exit(main())
