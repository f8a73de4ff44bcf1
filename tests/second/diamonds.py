"""Named diamond interchanges, the page of icudiamond worked out a second time, and its samples.

    python3 tests/second/diamonds.py OUTDIR

writes the sample interchanges into OUTDIR: NAME-west.txt and NAME-east.txt as a person types them, NAME.words (the four storages and
the travel time) and NAME.page.
"""

import os
import sys

sys.dont_write_bytecode = True  # leave no cache beside the sources

import icu2003
import table
from icu2003 import CYCLE, EAST, EB, L, NB, R, SB, STORAGES, T, TRAVEL, WB, approach_entry, movement_entry
from junctions import EBL, EBT, FACTOR, FREE_RIGHT, IDEAL, LANES, NBR, SBT, SHARED_LANE, VOLUME, approach, changed, junction

NOBODY = approach(button=0, ped_time=0)  # a leg that is not there


# ---------------------------------------------------------------- interchanges

def side(number, entering, crossing, ramp, cycle=120):
    """The entries of the west junction (0) or the east one (1): what enters, what comes from the other junction, the ramp."""
    legs = [NOBODY] * 4
    for a, leg in zip(icu2003.SIDES[number], (entering, crossing, ramp)):
        legs[a] = leg
    return junction(*legs, cycle=cycle)


def record(west, east, storages, travel):
    """The 191 numbers of a diamond."""
    return list(west) + list(east) + list(storages) + [travel]


def leg(left=(0, 0), through=(0, 0), right=(0, 0), **rest):
    """An approach of an interchange: an ideal flow of 2,000 where there is a lane or a vehicle, no button, nobody who walks."""
    ideal = tuple(2000 if lanes + volume > 0 else 1900 for lanes, volume in (left, through, right))
    return approach(left, through, right, **{"ideal": ideal, "button": 0, "ped_time": 0, **rest})


def book():
    """The book's third example: rights share through lanes on EB and SB, so that these have no right lane; storages cut to whole vehicles."""
    west = side(0, leg(through=(2, 500), right=(0, 200)), leg(left=(2, 300), through=(2, 1100)),
                leg(left=(2, 500), through=(1, 10), right=(0, 500), ped_time=16000))
    east = side(1, leg(through=(2, 600), right=(1, 200), free=1), leg(left=(1, 200), through=(2, 800)),
                leg(left=(2, 800), right=(1, 100), ideal=2000))
    return record(west, east, (19, 19, 26, 26), 7100)


def wide(storages, travel=12000, lefts=(140, 120)):
    """Two junctions far apart, with little traffic on the ramps."""
    ramp = leg(left=(1, 180), right=(1, 150))
    west = side(0, leg(through=(2, 800), right=(1, 160)), leg(left=(1, lefts[0]), through=(2, 700)), ramp)
    east = side(1, leg(through=(2, 750), right=(1, 130)), leg(left=(1, lefts[1]), through=(2, 780)), ramp)
    return record(west, east, storages, travel)


def greens(west, east, storages=(999,) * 4, travel=0, cycle=100):
    """Seven interchange times of each junction, taken as minimum greens of one vehicle on a lane; 0 leaves the movement out."""
    def three(times):
        lanes = [(1, 1) if time else (0, 0) for time in times]
        return approach(*lanes, lost=0, minimum=tuple(times), button=0, ped_time=0)

    junctions = [side(number, three([0] + times[:2]), three(times[2:4] + [0]), three(times[4:]), cycle)
                 for number, times in enumerate((west, east))]
    return record(junctions[0], junctions[1], storages, travel)


NONE = [0] * 7


def picks():
    """Each plan picked, and picked although another takes as long."""
    west, east = [9000, 8000, 3000, 7000, 6000, 5000, 4000], [9500, 100, 2000, 6000, 5500, 6500, 7500]
    entering = [20000, 0, 0, 0, 0, 30000, 0]
    return [
        ("book example 3", book()),
        ("lagging picked", wide((20, 20, 40, 40))),
        ("lead-lag picked, WB left does not fit", wide((7, 20, 40, 40))),
        ("lead-lag picked, EB left does not fit", wide((20, 6, 40, 40))),
        ("leading alternate alone, the road eastbound too short", wide((20, 20, 9, 40))),
        ("leading alternate alone, the road westbound too short", wide((20, 20, 40, 9))),
        ("leading alternate picked, all allowed", greens(west, [0, 0, 9000, 0, 0, 0, 0], travel=500)),
        ("leading alternate ties with both", greens(entering, NONE)),
        ("leading alternate ties with lead-lag", changed(
            greens(entering, [0, 0, 1, 0, 0, 0, 0], (999, 1, 999, 999), 0), {EAST + movement_entry(EBL, VOLUME): 400})),
        ("every time its own", greens(west, east, travel=1234)),
        ("nobody drives", greens(NONE, NONE, (1,) * 4, 60000)),
    ]


def corners():
    """Free rights, shared lanes, measured lane factors, crossings with nobody driving, and the ends of the ranges."""
    free = leg(left=(1, 90), through=(1, 300), right=(1, 700), free=1)
    held = leg(left=(1, 90), through=(1, 300), right=(1, 700))
    shared = leg(left=(0, 90), through=(2, 300), right=(0, 60), shared=1)
    counted = leg(left=(1, 90), through=(1, 300), right=(1, 700), factor=(800, 700, 600))
    walked = leg(through=(1, 0), peds=60, button=1, ped_time=20000)
    full = approach((1, 9999), (1, 9999), (1, 9999), peds=2000, button=0, ideal=1000, lost=20000, minimum=60000, ped_time=60000)
    folded = approach((0, 9999), (1, 9999), (0, 9999), shared=1, peds=2000, ideal=1000, lost=20000, minimum=60000, ped_time=60000)
    usual = (30, 30, 60, 60)
    return [
        ("free rights on every leg", record(side(0, free, free, free), side(1, free, free, free), usual, 5000)),
        ("the same rights held", record(side(0, held, held, held), side(1, held, held, held), usual, 5000)),
        ("measured lane factors on every leg", record(side(0, counted, counted, counted), side(1, counted, counted, counted), usual, 5000)),
        ("shared lanes on the arterial", record(side(0, shared, shared, held), side(1, shared, shared, held), usual, 5000)),
        ("people cross at closed legs", record(side(0, walked, held, walked), side(1, held, walked, walked), usual, 9000)),
        ("other legs change nothing", record(junction(held, held, full, held), junction(held, held, held, full), usual, 5000)),
        ("travel 0", wide((20, 20, 40, 40), 0)),
        ("travel 60 s", wide((20, 20, 40, 40), 60000)),
        ("storages of 1", wide((1, 1, 1, 1))),
        ("storages of 999", wide((999, 999, 999, 999))),
        ("everything at its most", record(side(0, full, full, full, 240), side(1, full, full, full, 240), (999,) * 4, 60000)),
        ("everything folded", record(side(0, folded, folded, folded, 240), side(1, folded, folded, folded, 240), (1,) * 4, 60000)),
        ("shortest cycle", record(side(0, held, held, held, 30), side(1, held, held, held, 30), usual, 5000)),
        ("a ratio of 1 exactly", equal_ratio(657)),
        ("one vehicle more of room", equal_ratio(658)),
    ]


def equal_ratio(storage):
    """625 of all four lefts in a cycle, with 1.28 times their root 657; lagging is the shorter plan."""
    lefts, entering = leg(left=(2, 9375)), leg(through=(1, 300))
    return record(side(0, entering, lefts, lefts, 240), side(1, entering, lefts, lefts, 240), (storage,) * 4, 7000)


def refused():
    """Each refusal, and each before those that come after it."""
    good, east_cycle = wide((20, 20, 40, 40)), EAST + CYCLE
    shared_west, shared_east = {approach_entry(WB, SHARED_LANE): 1}, {EAST + approach_entry(EB, SHARED_LANE): 1}
    no_lane_west = {movement_entry(SBT, LANES): 0, movement_entry(SBT, VOLUME): 5}
    no_lane_east = {EAST + movement_entry(NBR, LANES): 0}
    stores, travel = {STORAGES: 0, STORAGES + 2: 1000}, {TRAVEL: 60001}
    lanes = {**no_lane_west, **no_lane_east}
    return [
        ("a cycle of 29", changed(good, {CYCLE: 29})),
        ("the east's cycle another", changed(good, {east_cycle: 121, **shared_west})),
        ("the east's cycle another and out of range", changed(good, {east_cycle: 241})),
        ("the east's cycle another, an entry before it out of range", changed(
            good, {east_cycle: 121, EAST + movement_entry(EBL, IDEAL): 999, **shared_west})),
        ("both cycles out of range", changed(good, {CYCLE: 241, east_cycle: 241})),
        ("an entry of each junction out of range", changed(good, {approach_entry(SB, FREE_RIGHT): 2, EAST: 7})),
        ("an entry of the east out of range, all else wrong", changed(good, {EAST: 7, **shared_west, **lanes, **stores, **travel})),
        ("a lane factor of the east out of range", changed(good, {EAST + movement_entry(EBT, FACTOR): 499, **shared_west, **stores})),
        ("shared lanes in both junctions", changed(good, {**shared_west, **shared_east, **lanes, **stores, **travel})),
        ("a shared lane in the east", changed(good, {**shared_east, **lanes, **stores, **travel})),
        ("no lane in both junctions", changed(good, {**lanes, **stores, **travel})),
        ("no lane in the east", changed(good, {**no_lane_east, **stores, **travel})),
        ("storages out of range", changed(good, {**stores, **travel})),
        ("the last storage out of range", changed(good, {TRAVEL - 1: 1000, **travel})),
        ("the travel time out of range", changed(good, travel)),
        ("a number too few", good[:-1]),
        ("a number too many", good + [0]),
        ("the numbers of before", good[:167]),
    ]


def all_diamonds():
    """All (name, record), acceptable and refused."""
    return picks() + corners() + refused()


# ---------------------------------------------------------------- the page

ALL, THROUGH, RIGHT, STORE, FIRST = range(7), (0, 3, 5), (1, 6), (2, 4), (0,)
COLUMNS = (((EB, T), (EB, R), (WB, L), (WB, T), (SB, L), (SB, T), (SB, R)), ((WB, T), (WB, R), (EB, L), (EB, T), (NB, L), (NB, T), (NB, R)))
SHEET = icu2003.CELLS
OWN, CELLS, VOLUMES, ROOMS, FITS = 442, 447, 476, 480, 484  # where the numbers of the page begin, past both sheets


def by_entry(kind):
    """Where a page's number stands that is a movement's entry."""
    return lambda number, column: SHEET * number + movement_entry(3 * COLUMNS[number][column][0] + COLUMNS[number][column][1], kind)


def by_approach(kind):
    """One that is an approach's entry."""
    return lambda number, column: SHEET * number + approach_entry(COLUMNS[number][column][0], kind)


def by_line(line, grouped=True):
    """One that is a line of an approach: the one named, or those from it on for L, T and R."""
    return lambda number, column: SHEET * number + icu2003.cell(COLUMNS[number][column][0], line + (COLUMNS[number][column][1] if grouped else 0))


def by_storage(start):
    """One of a storage, in the record's order."""
    return lambda number, column: start + icu2003.STORED.index((number, COLUMNS[number][column][0]))


# (title, columns with a number, where the number stands) of a junction's rows
SIDE_ROWS = (
    (("", "lanes", "2", "n"), ALL, by_entry(0)), (("", "shared lane", "3", "n"), THROUGH, by_approach(0)),
    (("", "volume", "4", "v"), ALL, by_entry(1)), (("", "pedestrians", "5", "p"), THROUGH, by_approach(1)),
    (("", "push button", "6", "n"), THROUGH, by_approach(2)), (("", "pedestrian time", "7", "s"), THROUGH, by_approach(3)),
    (("", "free right", "8", "n"), RIGHT, by_approach(4)), (("", "ideal flow", "9", "v"), ALL, by_entry(2)),
    (("", "storage", "10", "n"), STORE, by_storage(OWN)), (("", "lost time", "11", "s"), ALL, by_entry(3)),
    (("", "minimum green", "12", "s"), ALL, by_entry(4)), (("1", "volume combined", "16", "v"), ALL, by_line(1)),
    (("", "lane factor", "17", "F"), ALL, by_entry(5)), (("4", "turning factor", "18", "f"), THROUGH, by_line(4, False)),
    (("5", "flow", "19", "V"), ALL, by_line(5)),
    (("10", "interference, right", "20", "s"), RIGHT, by_line(10, False)),
    (("11", "interference, through", "20", "s"), THROUGH, by_line(11, False)),
    (("12", "pedestrian frequency", "21", "f"), THROUGH, by_line(12, False)),
    (("13", "reference time", "22", "s"), ALL, by_line(13)), (("16", "adjusted time", "23", "s"), ALL, by_line(16)),
    (("", "interchange time", "24", "s"), ALL, lambda number, column: CELLS + 7 * number + column),
    (("", "left volume x cycle, N", "25", "n"), STORE, by_storage(VOLUMES)), (("", "3600 x storage", "26", "n"), STORE, by_storage(ROOMS)),
    (("", "ratio below 1", "27", "y"), STORE, by_storage(FITS)),
)
# (title, the cells shown) of the whole
WHOLE_ROWS = (
    (("", "isolated time 1", "28", "s"), (CELLS + 14, CELLS + 15)), (("", "isolated alternate", "29", "s"), (CELLS + 16, CELLS + 17)),
    (("", "isolated combined", "30", "s"), (CELLS + 18, CELLS + 19)), (("", "overlap", "31", "s"), (CELLS + 20, CELLS + 21)),
    (("", "cycle, in seconds", "13", "n"), (CYCLE,)), (("", "travel time", "14", "s"), (OWN + 4,)),
    (("", "leading alternate", "32", "s"), (CELLS + 22,)), (("", "lagging", "33", "s"), (CELLS + 23,)),
    (("", "lead-lag", "34", "s"), (CELLS + 24,)), (("", "best", "35", "s"), (CELLS + 26,)), (("", "ICU", "36", "%"), (CELLS + 27,)),
    (("", "level of service", "37", "A"), (CELLS + 28,)),
)


def page_numbers(record):
    """The 488 numbers that a page is made of."""
    west, east = icu2003.halves(record)
    volumes = [icu2003.per_cycle(record, k) for k in range(4)]
    rooms = [3600 * storage for storage in record[icu2003.STORAGES:icu2003.TRAVEL]]
    return (icu2003.fill(west) + icu2003.fill(east) + record[icu2003.STORAGES:] + icu2003.diamond(record) + volumes + rooms
            + [int(below) for below in icu2003.storage_fits(record)])


def shown(unit, value):
    return ("no", "yes")[value] if unit == "y" else table.shown(unit, value)


def printed(title, fields):
    """A row of the page: its title and seven fields."""
    return table.title(title) + "".join("%11s" % field for field in fields).ljust(77) + "\n"


def side_text(numbers, number):
    """The block of the west junction or the east one."""
    names = [table.APPROACHES[a] + "LTR"[g] for a, g in COLUMNS[number]]
    out = [printed(("no", ("west", "east")[number] + " junction", "book", ":"), names)]
    for title, columns, place in SIDE_ROWS:
        out.append(printed(title, [shown(title[3], numbers[place(number, c)]) if c in columns else "" for c in range(7)]))
    return "".join(out)


def whole_text(numbers):
    """The block of the interchange; a star stands at the plan that is picked."""
    out = [printed(("no", "interchange", "book", ":"), ("west", "east"))]
    for title, places in WHOLE_ROWS:
        fields = ["%11s" % shown(title[3], numbers[place]) for place in places]
        if places[0] == CELLS + 22 + numbers[CELLS + 25]:
            fields[0] = fields[0][0] + "*" + fields[0][2:]
        out.append(printed(title, fields))
    return "".join(out)


def page_text(record):
    """The 63 rows of an acceptable record."""
    numbers = page_numbers(record)
    return side_text(numbers, 0) + side_text(numbers, 1) + whole_text(numbers)


def heading(which, name, data):
    """The line that says whose junction it is."""
    title = table.titling(table.unmarked(data))[0]
    return which + b": " + table.shown_name(name) + (b": " + title if title else b"") + b"\n"


def page(west, east, record):
    """What is printed of two (name, text) and the record made of them."""
    return heading(b"west", *west) + heading(b"east", *east) + b"\n" + page_text(record).encode()


# ---------------------------------------------------------------- the samples

SAMPLES = (
    ("book3", "book example 3", "The book's third example"),
    ("lagging", "lagging picked", "Far apart, room for all four lefts"),
    ("leadlag", "lead-lag picked, WB left does not fit", "Far apart, too little room for WB left"),
)


def words_of(record):
    """The storages and the travel time as they are typed."""
    return [str(storage) for storage in record[icu2003.STORAGES:icu2003.TRAVEL]] + [table.value_text("travel-time", record[icu2003.TRAVEL])]


def sample_texts(name, title, record):
    """(name, text) of a sample's two junctions."""
    ways = zip(("west", "east"), icu2003.halves(record))
    return [("samples/diamond/%s-%s.txt" % (name, way), table.brief_text("%s, %s junction" % (title, way), entries)) for way, entries in ways]


def main(outdir):
    os.makedirs(outdir, exist_ok=True)
    named = dict(all_diamonds())
    for name, which, title in SAMPLES:
        texts = sample_texts(name, title, named[which])
        for (path, text), entries in zip(texts, icu2003.halves(named[which])):
            assert table.read_text(text.encode()) == entries
            table.put(outdir, os.path.basename(path), text)
        typed = [(path.encode(), text.encode()) for path, text in texts]
        table.put(outdir, name + ".words", " ".join(words_of(named[which])) + "\n")
        table.put(outdir, name + ".page", page(typed[0], typed[1], named[which]).decode())


if __name__ == "__main__":
    if len(sys.argv) != 2:
        sys.exit("usage: diamonds.py OUTDIR")
    main(sys.argv[1])
