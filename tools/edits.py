#!/usr/bin/env python3
"""Says of every must-fail edit whether it can be applied, without a check: each text behind `old:` stands exactly once
in its file, once the pairs before it are applied.

usage: python3 tools/edits.py     at the top of the repository

Prints a line for each edit that cannot be applied, and last 'N edits, M that do not apply'.
"""

import glob
import os
import sys


def pairs(path):
    """The file that an edit names, and its pairs (old, new), as rt reads them; raises ValueError where they are none."""
    target, found, old = None, [], None
    with open(path, encoding="utf-8") as f:
        for line in f.read().split("\n"):
            if line.startswith("file: "):
                target = line[len("file: "):]
            elif line.startswith("old: "):
                if old is not None:
                    raise ValueError("two old: in a row")
                old = line[len("old: "):]
            elif line == "new:" or line.startswith("new: "):
                if old is None:
                    raise ValueError("a new: with no old:")
                found.append((old, line[len("new: "):]))
                old = None
    if target is None or old is not None or not found:
        raise ValueError("no file:, no pair, or a pair cut short")
    return target, found


def wrong(path):
    """What is wrong with an edit; None where it can be applied."""
    try:
        target, found = pairs(path)
    except ValueError as error:
        return str(error)
    source = os.path.join(os.path.dirname(os.path.dirname(path)), target)
    if not os.path.isfile(source):
        return "no file " + source
    with open(source, encoding="utf-8") as f:
        text = f.read()
    for old, new in found:
        if text.count(old) != 1:
            return "stands %d times: %s" % (text.count(old), old)
        if old == new:
            return "changes nothing: " + old
        text = text.replace(old, new)
    return None


if __name__ == "__main__":
    edits = sorted(glob.glob("crates/*/must-fail/*.edit"))
    bad = 0
    for edit in edits:
        said = wrong(edit)
        if said is not None:
            bad += 1
            print(edit + ": " + said)
    print("%d edits, %d that do not apply" % (len(edits), bad))
    sys.exit(bad > 0)
