"""Named junctions to run the worksheet on, and the text expected of each.

    python3 tests/second/junctions.py OUTDIR

writes OUTDIR/stdin (93 little-endian 32-bit entries a junction) and OUTDIR/stdout.
"""

import os
import sys

sys.dont_write_bytecode = True  # leave no cache beside the sources

import icu2003
from icu2003 import CYCLE, approach_entry, movement_entry


# ---------------------------------------------------------------- parts

def approach(left=(0, 0), through=(0, 0), right=(0, 0), shared=0, peds=0, button=1,
             ped_time=16000, free=0, ideal=1900, lost=4000, minimum=4000, factor=icu2003.BY_TABLE):
    """One approach: (lanes, volume) of each movement, and what holds for all three.

    ideal, lost, minimum and factor are one number, or three for left, through, right.
    """
    def three(x):
        return x if isinstance(x, tuple) else (x, x, x)

    movements = []
    for (lanes, volume), i, t, m, f in zip((left, through, right),
                                           three(ideal), three(lost), three(minimum), three(factor)):
        movements += [lanes, volume, i, t, m, f]
    return {"movements": movements, "rest": [shared, peds, button, ped_time, free]}


def junction(eb, wb, nb, sb, cycle=120):
    """The 93 entries of four approaches and a cycle."""
    legs = (eb, wb, nb, sb)
    return ([x for leg in legs for x in leg["movements"]]
            + [x for leg in legs for x in leg["rest"]] + [cycle])


def everywhere(leg, cycle=120):
    """Four times the same approach."""
    return junction(leg, leg, leg, leg, cycle)


def changed(entries, changes):
    """The entries with some of them typed differently."""
    entries = list(entries)
    for entry, value in changes.items():
        entries[entry] = value
    return entries


NOTHING = approach()  # a leg that is not there
# The entries of a movement and of an approach, by their kinds.
LANES, VOLUME, IDEAL, LOST, MINIMUM, FACTOR = range(6)
SHARED_LANE, PEDESTRIANS, BUTTON, PED_TIME, FREE_RIGHT = range(5)
EBL, EBT, EBR, WBL, WBT, WBR, NBL, NBT, NBR, SBL, SBT, SBR = range(12)

PLAIN = approach(left=(1, 100), through=(1, 400))
SHARED = approach(left=(0, 100), through=(1, 300), right=(0, 100), shared=1)
K1 = everywhere(PLAIN)


# ---------------------------------------------------------------- the rules' own junctions

def k_junctions():
    """K1 to K10; K5 and K6 are about a letter alone."""
    with_peds = approach(left=(1, 100), through=(1, 400), peds=60, ped_time=40000)

    def wb_through(v):
        return junction(PLAIN, approach(left=(1, 100), through=(1, v)), PLAIN, PLAIN)

    def eb_left(v):
        return junction(approach(left=(1, v), through=(1, 400)), PLAIN, PLAIN, PLAIN)

    return [
        ("K1", K1),
        ("K2", everywhere(SHARED)),
        ("K3", everywhere(with_peds)),
        ("K4", everywhere(approach(left=(1, 0), through=(1, 0)))),
        ("K7", wb_through(120)),
        ("K8", wb_through(121)),
        ("K9", eb_left(59)),
        ("K10", eb_left(60)),
    ]


def book_examples():
    """The two intersections worked in the book's chapter 10."""
    main_eb = approach((1, 100), (1, 600), (1, 100), button=0)
    main_wb = approach((1, 100), (1, 500), (1, 100), button=0)
    first_nb = approach((0, 100), (1, 300), (0, 100), shared=1, button=0)
    first_sb = approach((0, 100), (1, 200), (0, 100), shared=1, button=0)
    return [
        ("book example 1", junction(main_eb, main_wb, first_nb, first_sb)),
        ("book example 2", junction(
            approach((1, 250), (2, 500), (1, 300), peds=20),
            approach((1, 250), (2, 600), (0, 100), peds=20),
            approach((1, 200), (1, 300), (0, 100), peds=20),
            approach((1, 175), (1, 200), (0, 100), peds=20))),
    ]


# ---------------------------------------------------------------- which legs and lanes there are

def odd_legs():
    """Legs that are empty, one way, or carry lefts alone."""
    bare = approach(ideal=1000, lost=0, minimum=0, ped_time=0)
    stem = approach(left=(0, 220), through=(1, 0), right=(0, 130), shared=1)
    return [
        ("no lanes and no volumes, every entry at its least", everywhere(bare, cycle=30)),
        ("three legs, the stem one lane of lefts and rights", junction(
            approach((0, 0), (2, 700), (0, 90)), approach((1, 160), (2, 650)), stem, NOTHING)),
        ("two one-way streets", junction(
            approach((0, 0), (3, 1400), (0, 120)), NOTHING,
            approach((1, 180), (2, 900)), NOTHING)),
        ("lefts only, no through lane", junction(
            approach(left=(2, 300), lost=(5000, 6000, 4000), minimum=(4000, 7000, 4000), peds=45),
            approach(through=(1, 80), right=(1, 50)), PLAIN, PLAIN)),
        ("lefts only, beside an idle through lane", junction(
            approach(left=(1, 59), through=(1, 0), peds=35, ped_time=20000),
            approach(left=(1, 70), through=(1, 0)), NOTHING, approach(through=(1, 350)))),
        ("rights only, with lanes and without", junction(
            approach(right=(1, 240), peds=15), approach(through=(1, 0), right=(0, 240), peds=15),
            approach(through=(1, 500)), NOTHING)),
        ("pedestrians at a leg where nobody drives", junction(
            approach(through=(1, 0), peds=300, ped_time=30000), NOTHING, PLAIN, PLAIN)),
        ("pedestrians where nobody drives, without time or lanes", junction(
            approach(through=(2, 0), peds=1, lost=0, minimum=0, ped_time=0),
            approach(left=(1, 0), peds=300, ped_time=30000),
            approach(through=(1, 0), right=(1, 90), peds=80, button=0, lost=0, minimum=0, ped_time=500),
            approach(left=(0, 0), through=(1, 0), shared=1, peds=12, ped_time=3000, minimum=6000))),
    ]


def closed_legs():
    """A T junction whose fourth leg is closed, where people still cross: without a button and with one."""
    def tee(button):
        return junction(
            approach(through=(1, 400), right=(1, 90)), approach(left=(1, 100), through=(1, 450)),
            approach(left=(1, 150), right=(1, 120)),
            approach(through=(1, 0), peds=60, button=button, ped_time=20000))

    return [("a closed leg, no button", tee(0)), ("a closed leg, a button", tee(1))]


def shared_lanes():
    """Shared left-through lanes, with one and more through lanes."""
    def lane(v_l, n_t, v_t, v_r=0):
        return approach(left=(0, v_l), through=(n_t, v_t), right=(0, v_r), shared=1)

    return [
        ("shared, no lefts", junction(
            lane(0, 1, 400), lane(0, 2, 500, 60), lane(0, 1, 100), lane(0, 3, 900))),
        ("shared beside unshared, lefts on one side only", junction(
            lane(59, 1, 380), PLAIN, lane(90, 1, 90), approach(through=(1, 120)))),
        ("shared with two through lanes", junction(
            lane(40, 2, 700, 50), lane(58, 2, 640), lane(59, 2, 30, 89), lane(200, 2, 0, 121))),
        ("shared, so many lefts that they keep a lane", junction(
            lane(500, 2, 100), lane(50, 3, 120), lane(9999, 6, 1), lane(59, 6, 120))),
        ("option B counts the folded rights, not the folded lefts", junction(
            lane(300, 1, 70, 50), lane(300, 2, 70, 50),
            lane(300, 1, 71, 50), lane(300, 2, 20, 100))),
    ]


def oncoming_single():
    """Approaches facing a single lane, and facing what only looks like one."""
    many = approach(left=(1, 200), through=(2, 500))
    one = approach(left=(0, 100), through=(1, 200), right=(0, 100), shared=1)
    with_right = approach(left=(0, 100), through=(1, 200), right=(1, 100), shared=1)
    two = approach(left=(0, 100), through=(2, 200), right=(0, 100), shared=1)
    no_lefts = approach(left=(0, 0), through=(1, 300), right=(0, 100), shared=1)
    own_left = approach(left=(1, 100), through=(1, 200), right=(0, 100))
    return [
        ("single against single, unlike volumes", junction(
            approach((0, 250), (1, 300), (0, 20), shared=1),
            approach((0, 7), (1, 600), (0, 60), shared=1), one, SHARED)),
        ("a left lane against a single, both pairs", junction(many, one, one, many)),
        ("almost single: a right lane; two through lanes", junction(many, with_right, two, many)),
        ("almost single: no lefts; its own left lane", junction(many, no_lefts, own_left, many)),
        ("all lefts, both single: a left worth less than a through", everywhere(
            approach(left=(0, 300), through=(1, 0), shared=1))),
    ]


# ---------------------------------------------------------------- the ends of the ranges

def large():
    """Many lanes, many vehicles, everything at its most."""
    slow_eb = approach((0, 9999), (1, 36), (0, 9999), shared=1, peds=2000, ideal=1000, lost=20000)
    slow_wb = approach((0, 1), (1, 9999), (0, 9999), shared=1, ideal=1000)
    full = approach((0, 9999), (1, 9999), (0, 9999), shared=1, peds=2000, button=0,
                    ideal=1000, lost=20000, minimum=60000, ped_time=60000)
    most = approach((6, 9999), (6, 9999), (6, 9999), peds=2000, ped_time=60000, free=1,
                    ideal=2400, lost=20000, minimum=60000)
    return [
        ("six lanes everywhere", junction(
            approach((6, 1100), (6, 4000), (6, 1300)), approach((6, 900), (6, 4400), (6, 700)),
            approach((6, 50), (6, 6000), (6, 20)), approach((6, 1200), (6, 100), (6, 2500)))),
        ("three and four lanes", junction(
            approach((3, 800), (4, 2500), (3, 600)), approach((2, 500), (3, 1900), (2, 450)),
            approach((4, 900), (4, 2000), (0, 300)), approach((3, 59), (3, 1500), (4, 80)))),
        ("largest volumes, one lane each", everywhere(
            approach((1, 9999), (1, 9999), (1, 9999)))),
        ("largest volumes in single lanes, slowest flow", everywhere(full, cycle=240)),
        ("longest option A", junction(slow_eb, slow_wb, NOTHING, NOTHING, cycle=240)),
        ("everything at its most", everywhere(most, cycle=240)),
    ]


def cycles_and_flows():
    """Shortest and longest cycle, slowest and fastest ideal flow."""
    mixed = approach((1, 80), (2, 500), (1, 90), peds=40)
    slow = approach((1, 80), (1, 300), (0, 90), peds=10, ideal=1000)
    fast = approach((2, 380), (2, 900), (1, 190), peds=10, ideal=2400)
    three = approach((1, 58), (1, 250), (1, 77), ideal=(1000, 1900, 2400), minimum=(0, 9000, 60000))
    return [
        ("cycle 30", junction(mixed, PLAIN, SHARED, SHARED, cycle=30)),
        ("cycle 240", junction(mixed, PLAIN, SHARED, SHARED, cycle=240)),
        ("ideal flow 1,000 and 2,400", junction(slow, fast, fast, slow)),
        ("a different flow and minimum for each movement", everywhere(three, cycle=97)),
    ]


# ---------------------------------------------------------------- pedestrians and right turns

def pedestrians():
    """Pedestrians with and without a button, few and many."""
    def walked(p, button, ped_time=35000, right=(0, 120)):
        return approach((1, 90), (1, 330), right, peds=p, button=button, ped_time=ped_time)

    shared = approach((0, 40), (1, 330), (0, 75), shared=1, peds=50, ped_time=45000)
    return [
        ("pedestrians without a button", junction(
            walked(1, 0), walked(60, 0), walked(2000, 0), walked(0, 0))),
        ("pedestrians with a button", junction(
            walked(1, 1), walked(60, 1), walked(480, 1, 60000), walked(100, 1, 4000))),
        ("right lanes without right volume, pedestrians", everywhere(walked(90, 1, right=(1, 0)))),
        ("pedestrians at shared lanes", everywhere(shared, cycle=90)),
    ]


def right_turns():
    """Right turns from their own lanes, under each phasing."""
    busy = approach((1, 120), (2, 300), (1, 700), peds=25)
    free = approach((1, 120), (2, 300), (1, 700), peds=25, free=1)
    calm = approach((1, 60), (2, 300))
    light = approach((0, 90), (1, 110), (1, 400), shared=1)
    return [
        ("a right total decides", junction(busy, calm, calm, busy)),
        ("the same rights free, one of them deciding alone", junction(free, calm, calm, free)),
        ("rights across permitted and protected pairs", junction(
            busy, busy, light, light)),
        ("rights across split pairs", junction(
            approach((0, 300), (2, 100), (1, 350), shared=1),
            approach((0, 100), (2, 300), (2, 150), shared=1),
            approach((0, 10), (2, 400), (1, 333), shared=1),
            approach((0, 200), (2, 0), (1, 44), shared=1))),
    ]


# ---------------------------------------------------------------- picks, ties, letters

def picks():
    """Each phasing picked, and picked although another ties with it."""
    through = approach(left=(1, 0), through=(1, 500))
    return [
        ("permitted picked, by option B and by option A", junction(
            approach((1, 300), (1, 100)), approach((1, 280), (1, 120)), SHARED, SHARED)),
        ("split picked", junction(
            approach((0, 400), (2, 300), shared=1), approach((0, 90), (2, 500), shared=1),
            PLAIN, PLAIN)),
        ("protected ties with permitted and split", junction(through, NOTHING, through, through)),
        ("protected ties with split", junction(
            approach((1, 300), (1, 200)), approach((1, 150), (1, 400)), PLAIN, PLAIN)),
        ("permitted ties with split", junction(
            approach((0, 0), (1, 400), shared=1), NOTHING, PLAIN, PLAIN)),
    ]


def letters():
    """Both sides of the first letter's end: times come from the minimum greens alone."""
    def needs(ew, ns):
        return junction(approach(through=(1, 1), lost=0, minimum=ew), NOTHING,
                        approach(through=(1, 1), lost=0, minimum=ns), NOTHING, cycle=100)

    return [
        ("ICU 550 exactly", needs(54500, 500)),
        ("one millisecond over 550", needs(54500, 501)),
    ]


# ---------------------------------------------------------------- bus gates

def gate(left=(0, 0), through=(0, 0), right=(0, 0), ideal=1000, **rest):
    """An approach through a gate: so slow an ideal flow that a whole vehicle is a large part of it."""
    return approach(left, through, right, ideal=ideal, **rest)


def street_gate():
    """The gate of the engineers' page: K1's street, and across it one shared lane each way for buses."""
    buses = gate((0, 90), (1, 140), (0, 30), shared=1)
    return [("bus gate: across K1's street", junction(PLAIN, PLAIN, buses, buses))]


def narrow_gates():
    """Gates of one lane, or of a lane for each movement: lines 5, 6, 9 and 22 and L's own sA have a tenth."""
    one_eb, one_wb = gate((0, 17), (1, 110), (0, 23), shared=1), gate((0, 31), (1, 140), (0, 12), shared=1)
    left = gate((1, 59), (1, 85), ideal=(1003, 1000, 1000))
    lefts = gate((0, 59), (1, 0), shared=1)
    return [
        ("bus gate: one shared lane each way", junction(one_eb, one_wb, PLAIN, PLAIN)),
        ("bus gate: one shared lane on each approach, people cross", everywhere(
            approach((0, 21), (1, 150), (0, 34), shared=1, peds=30, ideal=1007), cycle=90)),
        ("bus gate: 59 lefts in a lane of their own", junction(
            gate((1, 59), (1, 85)), gate((1, 44), (1, 121)), left, gate((1, 59), (1, 130)))),
        ("bus gate: 59 lefts and nobody else, longest cycle", junction(
            lefts, gate(through=(1, 200)), gate((1, 59)), gate(through=(1, 200)), cycle=240)),
        ("bus gate: lefts in a lane of their own against a single lane", junction(
            gate((1, 150), (1, 90), ideal=(1003, 1001, 1000)), gate((0, 90), (1, 60), (0, 10), shared=1), PLAIN, PLAIN, cycle=60)),
        ("bus gate: lefts of a shared lane at 1,001, little oncoming traffic", junction(
            gate((0, 300), (1, 20), shared=1, ideal=(1001, 1000, 1000)), gate(through=(1, 110)), PLAIN, PLAIN)),
    ]


def wide_gates():
    """Gates of several lanes: lines 5 to 8 and sB have a tenth, and option B goes by it."""
    two_eb, two_wb = gate((0, 90), (2, 650), (0, 70), shared=1), gate((0, 4), (2, 101), (0, 19), shared=1)
    three_nb, three_sb = gate((0, 70), (3, 800), (0, 33), shared=1), gate((0, 5), (3, 117), (0, 3), shared=1)
    most = gate((3, 480), (3, 700), (2, 900), ideal=(1003, 1003, 1000))
    return [
        ("bus gate: two shared lanes against a quiet approach", junction(two_eb, two_wb, PLAIN, PLAIN)),
        ("bus gate: three shared lanes against a quiet approach", junction(PLAIN, PLAIN, three_nb, three_sb, cycle=100)),
        ("bus gate: two and three lanes for each movement", junction(
            most, gate((2, 310), (2, 500), (3, 700)), PLAIN, gate((2, 220), (3, 400), (1, 300), ideal=(1000, 1007, 1001)))),
    ]


# ---------------------------------------------------------------- measured lane factors

def measured_street():
    """The street of the engineers' page: two through lanes counted lane by lane, and across it a shared lane whose lefts were."""
    east, west = approach((1, 100), (2, 800), factor=(0, 870, 0)), approach((1, 100), (2, 700), factor=(0, 940, 0))
    lefts = approach((0, 200), (1, 60), (0, 20), shared=1, factor=(800, 950, 0))
    return [("measured: the engineers' street", junction(east, west, lefts, approach(through=(1, 110))))]


def measured_lanes():
    """Lanes of movements with lanes of their own: one, which the table would not change, and more of them."""
    one = approach((1, 59), (1, 400), (1, 120), factor=500)
    two = approach((2, 300), (2, 800), (2, 500), factor=(930, 870, 790))
    wide = approach((1, 100), (4, 2400), (0, 90), factor=(0, 1000, 0))
    rights = approach((1, 80), (1, 300), (1, 600), peds=20, factor=(0, 0, 700))
    some = approach((3, 500), (3, 1400), (3, 300), factor=(971, 0, 999))
    return [
        ("measured: one lane for each movement, at 0.5", everywhere(one)),
        ("measured: two lanes for each movement", junction(two, approach((2, 300), (2, 800), (2, 500)), two, PLAIN)),
        ("measured: four through lanes all used alike", junction(wide, PLAIN, PLAIN, wide)),
        ("measured: a right lane, and its total decides", junction(rights, PLAIN, rights, PLAIN)),
        ("measured: lefts and rights of three lanes, the table for the throughs", junction(some, PLAIN, some, some)),
        ("measured: some single lanes", junction(
            approach((1, 59), (1, 400), factor=(600, 0, 0)), approach((1, 59), (1, 400), factor=(0, 600, 0)),
            approach((1, 200), (1, 100), factor=(501, 999, 1000)), approach((1, 200), (1, 120), factor=(1000, 500, 500)))),
    ]


def measured_shared():
    """Shared lanes, whose lefts by themselves go by the left movement's factor; and factors of movements that have no lane."""
    lefts = approach((0, 300), (1, 20), shared=1, factor=(600, 900, 0))
    throughs = approach((0, 300), (1, 20), shared=1, factor=(0, 600, 0))
    two = approach((0, 120), (2, 500), (0, 60), shared=1, factor=(550, 880, 700))
    slow_eb = approach((0, 9999), (1, 36), (0, 9999), shared=1, peds=2000, ideal=1000, lost=20000, factor=500)
    slow_wb = approach((0, 1), (1, 9999), (0, 9999), shared=1, ideal=1000, factor=500)
    quiet = approach(through=(1, 110))
    return [
        ("measured: lefts of a shared lane by their own factor", junction(lefts, quiet, quiet, throughs)),
        ("measured: two shared lanes", junction(two, quiet, two, two)),
        ("measured: single against single", junction(
            approach((0, 100), (1, 300), (0, 100), shared=1, factor=(500, 800, 600)),
            approach((0, 100), (1, 300), (0, 100), shared=1, factor=(1000, 700, 0)), PLAIN, PLAIN)),
        ("measured: movements without lanes", junction(
            approach((0, 0), (1, 400), (0, 70), factor=(500, 0, 500)), approach((1, 90), (0, 0), (0, 0), factor=(0, 500, 500)),
            approach(factor=500), approach((1, 60), (1, 200), (0, 90), factor=(0, 0, 500)))),
        ("measured: longest option A", junction(slow_eb, slow_wb, NOTHING, NOTHING, cycle=240)),
        ("measured: everything at its least", everywhere(approach(
            (1, 59), (1, 100), (1, 100), ideal=1000, lost=0, minimum=0, ped_time=0, factor=500), cycle=30)),
    ]


# ---------------------------------------------------------------- refused

def refused():
    """Entries out of range, impossible shared lanes, volume without a lane."""
    shared_both = changed(K1, {approach_entry(a, SHARED_LANE): 1 for a in (icu2003.WB, icu2003.SB)})
    no_lane = {movement_entry(m, LANES): 0 for m in (NBT, SBT)}
    return [
        ("cycle 29", changed(K1, {CYCLE: 29})),
        ("two entries out of range, bad shared lanes besides", changed(
            shared_both, {movement_entry(EBL, LOST): 20001, approach_entry(icu2003.SB, FREE_RIGHT): 2})),
        ("a flow left at 0 where there is no lane", changed(K1, {movement_entry(EBR, IDEAL): 0})),
        ("shared lane beside a left lane", shared_both),
        ("shared lane without a through lane, volumes without lanes", changed(
            K1, {movement_entry(EBL, LANES): 0, movement_entry(SBL, LANES): 0, movement_entry(SBL, VOLUME): 0,
                 movement_entry(SBT, LANES): 0, approach_entry(icu2003.SB, SHARED_LANE): 1})),
        ("lefts without a lane", changed(K1, {movement_entry(WBL, LANES): 0})),
        ("throughs without a lane", changed(K1, no_lane)),
        ("rights without a lane", changed(K1, {
            movement_entry(NBT, LANES): 0, movement_entry(NBT, VOLUME): 0, movement_entry(NBR, VOLUME): 1})),
    ]


def refused_factors():
    """Measured lane factors that are none, of movements with lanes and without."""
    def typed(m, value):
        return changed(K1, {movement_entry(m, FACTOR): value})

    two = {movement_entry(NBR, FACTOR): 1001, movement_entry(WBL, FACTOR): 2, movement_entry(WBT, LANES): 0, CYCLE: 29}
    return [
        ("measured: a lane factor of 1 thousandth", typed(EBL, 1)),
        ("measured: a lane factor of 499", typed(WBT, 499)),
        ("measured: a lane factor of 1,001", typed(NBL, 1001)),
        ("measured: 499 without a lane", typed(SBR, 499)),
        ("measured: 971 typed for 0.971", typed(EBT, 971000)),
        ("measured: two lane factors out of range, a lane and the cycle besides", changed(K1, two)),
    ]


def all_junctions():
    """All (name, entries), in the order they are run."""
    parts = (k_junctions, book_examples, odd_legs, closed_legs, shared_lanes, oncoming_single, large,
             cycles_and_flows, pedestrians, right_turns, picks, letters, refused, narrow_gates, wide_gates, street_gate,
             measured_lanes, measured_shared, measured_street, refused_factors)
    return [named for part in parts for named in part()]


def by_table(entries):
    """Whether no lane factor is measured, as in every site of before."""
    return all(entries[movement_entry(m, FACTOR)] == icu2003.BY_TABLE for m in range(12))


# ---------------------------------------------------------------- the text expected

def expected(number, entries):
    """What the program prints for one junction."""
    refusal = icu2003.judge(entries)
    if refusal != (0, 0):
        rows = ["R%d %d" % refusal]
    else:
        sheet = icu2003.fill(entries)
        cuts = [icu2003.cell(a, 1) for a in range(4)] + [icu2003.PAIRS, icu2003.PAIRS + 4, icu2003.LAST, icu2003.CELLS]
        rows = [" ".join(map(str, sheet[i:j])) for i, j in zip(cuts, cuts[1:])]
    return "".join(row + "\n" for row in ["junction %d" % number] + rows)


def main(outdir):
    named = all_junctions()
    os.makedirs(outdir, exist_ok=True)
    with open(os.path.join(outdir, "stdin"), "wb") as f:
        for _, entries in named:
            f.write(b"".join(x.to_bytes(4, "little") for x in entries))
    with open(os.path.join(outdir, "stdout"), "w", newline="\n") as f:
        for number, (_, entries) in enumerate(named, 1):
            f.write(expected(number, entries))


if __name__ == "__main__":
    if len(sys.argv) != 2:
        sys.exit("usage: junctions.py OUTDIR")
    main(sys.argv[1])
