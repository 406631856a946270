#!/usr/bin/env python3
"""Lists the names of definitions that stand in the specs of several crates, each with its places.

Names that mean one thing belong into the lowest crate; a name that means two things is worth another look.
"""
import collections
import pathlib
import re
import sys

DEFINES = re.compile(
    r"^\s*(?:(?:abbrev|unfoldable|record|data)\s+pub|pub\s+(?:record|data|abbrev|unfoldable))\s+([^\s:({]+)"
)


def definitions(root):
    """Each definition of a crate's specs: its name, its crate, its file and its line."""
    for path in sorted(root.glob("crates/*/specs/**/*.antt")):
        crate = path.relative_to(root).parts[1]
        for number, line in enumerate(path.read_text().splitlines(), 1):
            found = DEFINES.match(line)
            if found:
                yield found.group(1), crate, path.relative_to(root), number


def main():
    root = pathlib.Path(__file__).resolve().parent.parent
    places = collections.defaultdict(list)
    for name, crate, path, number in definitions(root):
        places[name].append((crate, path, number))
    several = {name: at for name, at in places.items() if len({crate for crate, _, _ in at}) > 1}
    for name, at in sorted(several.items()):
        print(name)
        for _, path, number in at:
            print(f"    {path}:{number}")
    print(f"{len(several)} of {len(places)} names stand in several crates", file=sys.stderr)


if __name__ == "__main__":
    main()
