"""Study files for the runs of iculist, and the text expected of each.

    python3 tests/second/studies.py tests/studies

writes NAME.icus (of the kind before lane factors were measured) or NAME.icut (of today's) and NAME.txt there for each run.
"""

import os
import sys

sys.dont_write_bytecode = True  # leave no cache beside the sources

import icu2003
import junctions
from icu2003 import CYCLE, study_file


# ---------------------------------------------------------------- files of before, which no program writes any more

def narrowed(entries):
    """The 81 entries of a site of before: all but the measured lane factors."""
    return [value for entry, value in enumerate(entries) if not icu2003.is_lane_factor(entry)]


def old_file(blocks):
    """The file of before of these blocks of 81 numbers, as many as there are."""
    k = len(blocks)
    words = [k] + [icu2003.block_start(k, j, icu2003.OLD_ENTRIES) for j in range(k)] + [x for block in blocks for x in block]
    return icu2003.OLD_OPENING + b"".join(word.to_bytes(4, "little") for word in words)


def old_study(sites):
    """The file of before of sites whose lane factors are the table's."""
    assert all(junctions.by_table(entries) for entries in sites)
    return old_file([narrowed(entries) for entries in sites])


# ---------------------------------------------------------------- the runs

def put(data, at, word):
    """The bytes with another number in place of the one there."""
    return data[:at] + word.to_bytes(4, "little") + data[at + 4:]


def many(named):
    """The named junctions, then each with a short and a long cycle."""
    return [junctions.changed(entries, change) for change in ({}, {CYCLE: 45}, {CYCLE: 240}) for entries in named]


def full():
    """As many sites as a file of before holds."""
    named = [entries for _, entries in junctions.all_junctions() if junctions.by_table(entries)]
    return old_study(many(named)[:icu2003.OLD_MOST_SITES])


def new_full():
    """As many as one of today holds, those with measured lane factors first."""
    named = [entries for _, entries in junctions.all_junctions()]
    named.sort(key=junctions.by_table)
    return study_file(many(named)[:icu2003.MOST_SITES])


TWO = [junctions.K1, junctions.changed(junctions.K1, {CYCLE: 29})]


def old_studies():
    """What the runs read of files of before."""
    two = old_study(TWO)
    return {
        "example": two,
        "empty": old_study([]),
        "full": full(),
        "opening": b"ICUX" + two[4:],
        "count": put(two, 4, 181),
        "offset": put(two, 12, 344),
        "short": two[:-1],
        "long": full() + bytes(12_000),
        "blocks": icu2003.OLD_OPENING + study_file(TWO)[4:],
    }


def new_studies():
    """What they read of files of today."""
    two, measured = study_file(TWO), [entries for _, entries in junctions.measured_street() + junctions.refused_factors()]
    return {
        "new-example": two,
        "new-empty": study_file([]),
        "new-measured": study_file(measured),
        "new-full": new_full(),
        "new-opening": b"ICUU" + two[4:],
        "new-cut": two[:3],
        "new-count": put(two, 4, 166),
        "new-offset": put(two, 12, 392),
        "new-short": two[:-1],
        "new-long": new_full() + bytes(12_000),
        "new-blocks": icu2003.OPENING + old_study(TWO)[4:],
    }


def main(folder):
    os.makedirs(folder, exist_ok=True)
    runs = [(name, ".icus", data) for name, data in old_studies().items()] + [(name, ".icut", data) for name, data in new_studies().items()]
    for name, kind, data in runs:
        with open(os.path.join(folder, name + kind), "wb") as f:
            f.write(data)
        with open(os.path.join(folder, name + ".txt"), "w", newline="\n") as f:
            f.write(icu2003.listing(data))


if __name__ == "__main__":
    main(sys.argv[1])
