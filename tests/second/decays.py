"""Compares the decay number of every m, as the proved code gives it, with this calculation's.

Reads lines of "m D" from standard input: every m below 115,200 in order, then some from there on.
"""

import sys

from icu2003 import decay

END = 115200


def compare(lines):
    """How many were compared, and what is wrong."""
    wrong = []
    asked = 0
    for line in lines:
        m, got = map(int, line.split())
        if asked < END and m != asked:
            return asked, wrong + ["%d stands where %d should" % (m, asked)]
        if got != decay(m):
            wrong.append("m = %d: %d, not %d" % (m, got, decay(m)))
        asked += 1
    if asked <= END:
        wrong.append("it ends after %d of them" % asked)
    return asked, wrong


def main():
    compared, wrong = compare(sys.stdin)
    for line in wrong[:10]:
        print(line)
    print("%d compared, %s" % (compared, "%d wrong" % len(wrong) if wrong else "the same"))
    return 1 if wrong else 0


if __name__ == "__main__":
    sys.exit(main())
