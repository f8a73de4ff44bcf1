"""Named single point interchanges, the page that icusheet prints of one worked out a second time, and its samples.

    python3 tests/second/points.py OUTDIR

writes the samples into OUTDIR: NAME.txt as a person types it and NAME.sheet; of the book's example also NAME.amend (a change) and
NAME.changes (what it changes); and start.txt, the text to begin with.
"""

import os
import sys

sys.dont_write_bytecode = True  # leave no cache beside the sources

import icu2003
import table
from icu2003 import CYCLE, EB, NB, SB, WB, approach_entry, movement_entry
from junctions import EBL, EBR, EBT, FACTOR, FREE_RIGHT, K1, LANES, LOST, NBR, NBT, SBL, SBR, SBT, SHARED, SHARED_LANE, VOLUME, WBL, WBR
from junctions import approach, changed, everywhere, junction


# ---------------------------------------------------------------- parts

def leg(left=(0, 0), through=(0, 0), right=(0, 0), **rest):
    """An approach of a single point: where nothing else is said, as the starting entries have it."""
    usual = {"ideal": 2000, "lost": (8000, 6000, 6000), "minimum": 0, "button": 0, "ped_time": 0}
    return approach(left, through, right, **{**usual, **rest})


NOBODY = leg()  # a leg that is not there


def start():
    """The starting entries."""
    entries = [None] * icu2003.ENTRIES
    assert icu2003.point_start(entries) == (0, 0)
    return entries


def greens(*times, cycle=100, free=0):
    """Twelve times, three for each approach, taken as minimum greens of one vehicle on a lane; 0 leaves the movement out."""
    def three(own):
        return leg(*[(1, 1) if green else (0, 0) for green in own], lost=0, minimum=own, free=free)

    return junction(*[three(times[3 * a:3 * a + 3]) for a in range(4)], cycle=cycle)


# ---------------------------------------------------------------- the book's, and those to begin with

def book():
    """The book's fourth example; of its free rights line 27 is believed, which adds nothing for EB and SB alone."""
    return junction(
        leg((2, 500), (3, 2200), (1, 300), minimum=8000, peds=12, button=1, ped_time=24000, free=1),
        leg((2, 700), (3, 1500), (1, 800), minimum=8000, button=1, ped_time=24000),
        leg((2, 800), (0, 0), (1, 200), minimum=8000, ped_time=20000),
        leg((2, 900), (0, 0), (2, 800), minimum=8000, ped_time=20000, free=1))


def first_ones():
    """The book's, the starting ones, and these with a lane more."""
    left = {movement_entry(EBL, LANES): 1, movement_entry(EBL, VOLUME): 1}
    return [("book example 4", book()), ("the starting entries", start()), ("the starting entries and one left", changed(start(), left))]


# ---------------------------------------------------------------- frontage roads

def frontage():
    """That of the engineers' page: frontage roads go straight on, people walk on all sides, one right is free."""
    return junction(
        leg((2, 420), (3, 1500), (1, 260), minimum=4000, peds=30, button=1, ped_time=28000),
        leg((2, 380), (3, 1350), (1, 640), minimum=4000, peds=30, button=1, ped_time=28000),
        leg((1, 210), (1, 180), (1, 150), minimum=4000, peds=10, button=1, ped_time=36000),
        leg((1, 190), (1, 240), (1, 330), minimum=4000, peds=10, button=1, ped_time=36000, free=1))


def frontages():
    """Throughs across the arterial: in lanes of their own and with rights, on both sides and on one."""
    arterial = leg((2, 400), (3, 1700), (1, 300))
    both = leg((1, 200), (2, 350), (0, 120), peds=40, button=1, ped_time=30000)
    ramp, other = leg((2, 500), (0, 0), (1, 250)), leg((2, 450), (0, 0), (1, 200))
    return [
        ("frontage roads", frontage()),
        ("frontage roads, their rights in the through lanes", junction(arterial, arterial, both, both)),
        ("frontage roads without lefts", junction(arterial, arterial, leg((0, 0), (1, 220), (1, 180)), leg((0, 0), (1, 90), (0, 40)))),
        ("a frontage road on one side alone", junction(arterial, arterial, ramp, leg((2, 450), (1, 300), (1, 700)))),
        ("frontage roads busier than their lefts", junction(arterial, arterial, leg((1, 60), (1, 800)), leg((1, 90), (1, 700), (1, 60)))),
        ("an arterial from north to south", junction(ramp, other, arterial, arterial)),
    ]


# ---------------------------------------------------------------- pedestrians

def pedestrians():
    """People who cross: beside right lanes, beside rights in through lanes, where nobody drives, and where no lane goes through."""
    def walked(through, right, **rest):
        return leg((1, 150), through, right, **{"peds": 90, "ped_time": 32000, **rest})

    lane, folded = walked((2, 600), (1, 200)), walked((2, 600), (0, 200), button=1)
    idle = leg((1, 150), (1, 0), (1, 120), peds=60, button=1, ped_time=20000)
    return [
        ("people cross without a button", everywhere(lane)),
        ("people cross, rights in the through lanes", everywhere(folded, cycle=90)),
        ("people cross where nobody goes through", junction(lane, folded, idle, idle)),
        ("people cross where no lane goes through", junction(lane, lane, walked((0, 0), (1, 200)), walked((0, 0), (1, 90), button=1))),
        ("people alone", junction(leg(through=(1, 0), peds=300, ped_time=25000), NOBODY, leg(through=(2, 0), peds=1, button=1), NOBODY)),
        ("so many people that all is held up", everywhere(walked((3, 900), (2, 500), peds=2000, button=1, ped_time=60000), cycle=240)),
    ]


# ---------------------------------------------------------------- right totals

TIMES = (1001, 2003, 4007, 8009, 16033, 32063, 1511, 3023, 6047, 9067, 18121, 5003)  # of which no two sums are alike
LONG = 59000  # so long that a right turn decides, whatever it waits for


def lengthened(m, free=0):
    """The times with a long one for a movement."""
    return greens(*[LONG if k == m else time for k, time in enumerate(TIMES)], free=free)


def right_totals():
    """Rights that decide, that are free, that wait for nobody, and that tie."""
    deciding = [(way + " right decides", m) for way, m in (("EB", EBR), ("WB", WBR), ("NB", NBR), ("SB", SBR))]
    return [(name, lengthened(m)) for name, m in deciding] + [(name + ", free", lengthened(m, free=1)) for name, m in deciding] + [
        ("every time its own", greens(*TIMES)),
        ("a right turn alone", greens(0, 0, LONG, *[0] * 9)),
        ("free rights without a lane of theirs", everywhere(leg((1, 90), (1, 300), (0, 120), free=1))),
        ("a right total as long as combined", greens(0, 0, 30000, 10000, 0, 0, 0, 30000, 0, 0, 0, 0)),
        ("a right total 1 ms longer than combined", greens(0, 0, 30001, 10000, 0, 0, 0, 30000, 0, 0, 0, 0)),
        ("two right totals alike", greens(0, 0, 0, 0, 0, 50000, 0, 0, 50000, 0, 0, 0)),
        ("both sums of each pair alike", greens(10000, 15000, 0, 15000, 20000, 0, 7000, 3000, 0, 6000, 2000, 0)),
    ]


def letters():
    """Both sides of the first letter's end."""
    return [
        ("ICU 550 exactly", greens(0, 54500, 0, 0, 0, 0, 0, 500, 0, 0, 0, 0)),
        ("one millisecond over 550", greens(0, 54500, 0, 0, 0, 0, 0, 501, 0, 0, 0, 0)),
    ]


# ---------------------------------------------------------------- lane factors and the ends of the ranges

def measured():
    """Lane factors that were counted: of each movement of the book's, of single lanes, of a right that decides, of no lane."""
    counted = {movement_entry(m, FACTOR): 900 + 7 * m for m in range(12)}
    rights = leg((1, 80), (1, 300), (1, 600), factor=(0, 0, 600))
    plain, one = leg((1, 80), (1, 300)), leg((1, 59), (1, 400), (1, 120), factor=500)
    return [
        ("measured: the book's example 4", changed(book(), counted)),
        ("measured: one lane for each movement, at 0.5", everywhere(one)),
        ("measured: a right total decides", junction(rights, plain, plain, plain)),
        ("measured: movements without lanes", junction(leg((0, 0), (1, 400), (0, 70), factor=(500, 0, 500)), leg((1, 90), factor=(0, 500, 500)),
                                                       leg(factor=500), leg((1, 60), (1, 200), (0, 90), factor=(0, 0, 500)))),
    ]


def ends():
    """Everything at its most, the slowest lanes, everything at its least, and unlike legs with a short and a long cycle."""
    most = leg((6, 9999), (6, 9999), (6, 9999), peds=2000, ped_time=60000, ideal=2400, lost=20000, minimum=60000, factor=1000)
    slow = leg((1, 9999), (1, 9999), (1, 9999), peds=2000, ped_time=60000, ideal=1000, lost=20000, minimum=60000, factor=500)
    folded = leg((1, 9999), (1, 9999), (0, 9999), peds=2000, ped_time=60000, ideal=1000, lost=20000, minimum=60000, factor=500)
    legs = leg((1, 120), (2, 500), (1, 90), peds=40), leg((2, 300), (3, 800), (2, 250)), leg((3, 640), (0, 0), (1, 77)), leg((1, 59), (4, 900), (0, 300))
    return [
        ("everything at its most", everywhere(most, cycle=240)),
        ("the slowest lanes", everywhere(slow, cycle=240)),
        ("the slowest lanes, rights in the through lanes", everywhere(folded, cycle=240)),
        ("everything at its least", everywhere(leg(ideal=1000, lost=0), cycle=30)),
        ("unlike legs, cycle 30", junction(*legs, cycle=30)),
        ("unlike legs, cycle 240", junction(*legs, cycle=240)),
    ]


# ---------------------------------------------------------------- junctions as single points

def as_junctions():
    """Entries of junctions: where these would be protected, too, and where permitted phasing would take less."""
    return [
        ("K1", K1),
        ("permitted would take less", junction(leg((1, 300), (1, 100)), leg((1, 280), (1, 120)), leg((1, 59), (1, 100)), leg((1, 40), (1, 90)))),
    ]


# ---------------------------------------------------------------- refused

def refused():
    """Entries out of range, shared lanes of all sorts, volume without a lane, and each before those that come after it."""
    def shared(*approaches):
        return {approach_entry(a, SHARED_LANE): 1 for a in approaches}

    no_lane = {movement_entry(NBT, LANES): 0, movement_entry(NBT, VOLUME): 1}
    free_lane = {movement_entry(SBT, LANES): 1, movement_entry(SBL, LANES): 0, movement_entry(SBL, VOLUME): 0}
    return [
        ("K2, shared lanes that a junction may have", everywhere(SHARED)),
        ("a shared lane that a junction may have, SB", changed(book(), {**free_lane, **shared(SB)})),
        ("a shared lane beside a left lane", changed(book(), {**shared(WB, SB), **no_lane})),
        ("a shared lane without a through lane", changed(book(), shared(NB))),
        ("a shared lane among the starting entries", changed(start(), shared(EB, WB, NB, SB))),
        ("a shared lane of 2", changed(book(), {approach_entry(NB, SHARED_LANE): 2, **shared(EB)})),
        ("cycle 29, shared lanes besides", changed(book(), {CYCLE: 29, **shared(EB)})),
        ("lost time out of range", changed(book(), {movement_entry(WBL, LOST): 20001, CYCLE: 241})),
        ("a lane factor of 499", changed(book(), {movement_entry(SBR, FACTOR): 499, **no_lane})),
        ("lefts without a lane", changed(book(), {movement_entry(WBL, LANES): 0, **no_lane})),
        ("throughs without a lane", changed(book(), no_lane)),
        ("rights without a lane", changed(book(), {movement_entry(SBR, LANES): 0})),
        ("rights in through lanes, which there are not", changed(book(), {movement_entry(EBR, LANES): 0, movement_entry(NBR, LANES): 0})),
        ("throughs without a lane, EB", changed(book(), {movement_entry(EBT, LANES): 0, movement_entry(WBR, LANES): 0})),
        ("a free right of 2", changed(book(), {approach_entry(SB, FREE_RIGHT): 2})),
    ]


def all_points():
    """All (name, entries), in the order they are run."""
    parts = (first_ones, frontages, pedestrians, right_totals, letters, measured, ends, as_junctions, refused)
    return [named for part in parts for named in part()]


# ---------------------------------------------------------------- the page

def rebooked(rows, books):
    """The junction's rows with the lines that chapter 7 has them in."""
    return [(number, name, book, unit) for (number, name, _, unit), book in zip(rows, books.split())]


ENTRY_ROWS = rebooked(table.ENTRY_ROWS, " ".join(3 * ["2 3 8 9 10 13"]))
APPROACH_ROWS = rebooked(table.APPROACH_ROWS, "- 4 5 6 7")
LINE_ROWS = rebooked(table.LINE_ROWS, "12 12 12 14 15 15 15 - - 16 16 17 18 18 18 19 19 19")
LAST_ROWS = rebooked(table.LAST_ROWS, "21 28 28 29")
BESIDE_ROWS = [("R", "cross through", "24", "s"), ("R", "oncoming left", "26", "s")]
HEADINGS = {0: "entry", 24: "line", 42: "pair", 43: "junction", 48: "beside the lines"}


def cell_rows():
    """(row, the names of its columns, the cells in them), in the order of the worksheet."""
    four, totals = table.FOUR, [icu2003.POINT_TOTALS, icu2003.POINT_TOTALS + 1]
    rows = table.entry_cell_rows(ENTRY_ROWS, APPROACH_ROWS, ("J", "cycle, in seconds", "11", "n"))
    rows += [(r, four, [icu2003.point_cell(a, k) for a in range(4)]) for k, r in enumerate(LINE_ROWS, 1)]
    rows += [(("P", "protected", "20", "s"), table.TWO, totals)]
    rows += table.last_cell_rows(("R", "right turns", "22-27", "s"), LAST_ROWS, icu2003.POINT_LAST)
    return rows + [(r, four, [icu2003.POINT_CELLS + i + 2 * a for a in range(4)]) for i, r in enumerate(BESIDE_ROWS)]


def stars(cells):
    """The cells that decide: the larger sum of a pair, both totals, the largest of the last."""
    sums = [table.sum_stars(cells, icu2003.point_cell, one, other) for one, other in ((EB, WB), (NB, SB))]
    return sums[0] | sums[1] | {icu2003.POINT_TOTALS, icu2003.POINT_TOTALS + 1, table.last_star(cells, icu2003.POINT_LAST)}


POINT = table.Kind(b"single point: ", icu2003.judge_point, icu2003.fill_point, icu2003.amend_point, icu2003.point_beside, cell_rows(),
                   HEADINGS, stars, icu2003.POINT_LAST)


# ---------------------------------------------------------------- the samples

SAMPLES = (
    ("book4", "book example 4", "The book's fourth example"),
    ("frontage", "frontage roads", "Frontage roads that go straight on"),
)
AMENDMENTS = {"book4": "EBT lanes 4"}


def changes(entries, words):
    """What a change of a single point's entries prints."""
    group, kind, value = words.split()
    before = icu2003.fill_point(entries)
    after = list(before)
    assert icu2003.amend_point(after, table.NAMED[group, kind], table.value_of(kind, value.encode())) == (0, 0)
    return table.change_text(before, after, POINT)


def main(outdir):
    os.makedirs(outdir, exist_ok=True)
    named = dict(all_points())
    for name, which, title in SAMPLES:
        typed = table.brief_text(title, named[which])
        assert table.read_text(typed.encode(), icu2003.judge_point) == named[which]
        table.put(outdir, name + ".txt", typed)
        table.put(outdir, name + ".sheet", table.text_page(("samples/point/" + name + ".txt").encode(), typed.encode(), POINT).decode())
        if name in AMENDMENTS:
            table.put(outdir, name + ".amend", AMENDMENTS[name] + "\n")
            table.put(outdir, name + ".changes", changes(named[which], AMENDMENTS[name]))
    table.put(outdir, "start.txt", table.write_text(start()))


if __name__ == "__main__":
    if len(sys.argv) != 2:
        sys.exit("usage: points.py OUTDIR")
    main(sys.argv[1])
