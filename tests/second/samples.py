"""The sample study, as a file of before and as one of today, and the listing expected of both.

    python3 tests/second/samples.py OUTDIR

writes OUTDIR/study.icus, OUTDIR/study.icut, which is the first converted, and OUTDIR/study.txt.
"""

import os
import sys

sys.dont_write_bytecode = True  # leave no cache beside the sources

import icu2003
import junctions
import studies


def sites():
    """The rules' own junctions, the book's two examples, and one whose cycle is refused."""
    named = junctions.k_junctions() + junctions.book_examples()
    return [entries for _, entries in named] + [junctions.changed(junctions.K1, {icu2003.CYCLE: 29})]


def main(outdir):
    old = studies.old_study(sites())
    new = icu2003.study_file(icu2003.study_sites(old))
    assert icu2003.listing(old) == icu2003.listing(new)
    os.makedirs(outdir, exist_ok=True)
    for name, data in (("study.icus", old), ("study.icut", new)):
        with open(os.path.join(outdir, name), "wb") as f:
            f.write(data)
    with open(os.path.join(outdir, "study.txt"), "w", newline="\n") as f:
        f.write(icu2003.listing(old))


if __name__ == "__main__":
    if len(sys.argv) != 2:
        sys.exit("usage: samples.py OUTDIR")
    main(sys.argv[1])
