"""ICU 2003 worked out a second time, in plain Python, to compare with the proved worksheet.

Written from the rules alone. Whole numbers only: volumes and ideal flows in vehicles per hour,
flows that are worked out (lines 5 to 9 and 22, L's own sA, sB) in tenths of a vehicle per hour,
factors and shares in ten-thousandths, lane factors in thousandths, times in milliseconds, the cycle in
seconds.
"""

BLANK = 4294967295  # stands where an option is not allowed
FLOW_UNIT = 10  # so many of a flow's units are one vehicle per hour: a flow is worked out in tenths

L, T, R = 0, 1, 2  # the three groups of an approach

# Where things stand: entries 0 to 92, then 28 lines of each approach, four cells of each pair, the last eight.
ENTRIES = 93
OWN = 72  # the first entry that is an approach's own
CYCLE = 92
LINES_AT = 93
PAIRS = 205
LAST = 213
CELLS = 221
OLD_ENTRIES = 81  # those of a site before lane factors were measured


def up(n, d):
    """n/d rounded up."""
    return -(-n // d)


# ---------------------------------------------------------------- the 93 entries

LANE_FACTOR = 5  # which of a movement's six entries is its measured lane factor
BY_TABLE = 0  # the measured factor of a movement whose lanes were not counted: the table's holds
MOVEMENT_LIMITS = ((0, 6), (0, 9999), (1000, 2400), (0, 20000), (0, 60000), (500, 1000))
APPROACH_LIMITS = ((0, 1), (0, 2000), (0, 1), (0, 60000), (0, 1))
CYCLE_LIMITS = (30, 240)


def movement_entry(m, kind):
    """Where an entry of movement m stands."""
    return 6 * m + kind


def approach_entry(a, kind):
    """Where an entry of approach a's own stands."""
    return OWN + 5 * a + kind


def is_lane_factor(entry):
    """Whether an entry is a measured lane factor."""
    return entry < OWN and entry % 6 == LANE_FACTOR


def limits(entry):
    """Least and largest value of an entry; of a measured lane factor, of one that is not the table's."""
    if entry < OWN:
        return MOVEMENT_LIMITS[entry % 6]
    if entry < CYCLE:
        return APPROACH_LIMITS[(entry - OWN) % 5]
    return CYCLE_LIMITS


def in_range(entry, value):
    """Whether an entry may have a value."""
    least, largest = limits(entry)
    return least <= value <= largest or is_lane_factor(entry) and value == BY_TABLE


class Leg:
    """One approach: its entries under names, and its lines as they are worked out."""

    def __init__(self, entries, a):
        groups = [entries[18 * a + 6 * g:18 * a + 6 * g + 6] for g in (L, T, R)]
        self.n = [group[0] for group in groups]
        self.v = [group[1] for group in groups]
        self.ideal = [group[2] for group in groups]
        self.lost = [group[3] for group in groups]
        self.minimum = [group[4] for group in groups]
        self.measured = [group[5] for group in groups]
        self.shared, self.p, self.button, self.ped_time, self.free = entries[OWN + 5 * a:OWN + 5 * a + 5]
        self.cl = entries[CYCLE]
        self.line = [None] * 29  # line k at index k
        self.oncoming = None


# ---------------------------------------------------------------- refusals

def range_place(entries):
    """Lowest entry outside its range, or None."""
    return next((entry for entry in range(ENTRIES) if not in_range(entry, entries[entry])), None)


def shared_place(entries):
    """Lowest approach whose shared lane cannot be, or None."""
    for a in range(4):
        leg = Leg(entries, a)
        if leg.shared == 1 and (leg.n[L] > 0 or leg.n[T] == 0):
            return a
    return None


def nolane_place(entries):
    """Lowest movement that has volume and no lane to stand in, or None."""
    for a in range(4):
        leg = Leg(entries, a)
        if leg.v[L] > 0 and leg.n[L] == 0 and leg.shared == 0:
            return 3 * a + L
        if leg.v[T] > 0 and leg.n[T] == 0:
            return 3 * a + T
        if leg.v[R] > 0 and leg.n[R] == 0 and leg.n[T] == 0:
            return 3 * a + R
    return None


def judged(entries, shared_search):
    """(number, place) of the first refusal that applies, with what is looked for as SHARED."""
    if len(entries) != ENTRIES:
        return (1, 0)
    for number, search in ((3, range_place), (4, shared_search), (5, nolane_place)):
        place = search(entries)
        if place is not None:
            return (number, place)
    return (0, 0)


def judge(entries):
    """(number, place) of the first refusal that applies to a junction, (0, 0) if there is none."""
    return judged(entries, shared_place)


# ---------------------------------------------------------------- words the lines share

LANE_FACTORS = ((1000, 971), (1000, 952, 908), (1000, 885))  # of L, T, R; the last goes on


def table_factor(g, n):
    """The table's lane factor of n lanes (at least 1) of group g, in thousandths."""
    table = LANE_FACTORS[g]
    return table[min(n, len(table)) - 1]


def lane_factor(leg, g, n):
    """Lane factor of n lanes (at least 1) of group g: the measured one, also of one lane, or the table's."""
    return table_factor(g, n) if leg.measured[g] == BY_TABLE else leg.measured[g]


def flow(leg, g, n, f):
    """Saturated flow of n lanes of group g with turning factor f, in tenths."""
    if n == 0:
        return 0
    return FLOW_UNIT * leg.ideal[g] * n * lane_factor(leg, g, n) * f // 10**7


def folded_right(leg):
    """a: the right volume that travels in the through lanes."""
    return leg.v[R] if leg.n[R] == 0 else 0


def folded_left(leg):
    """b: the left volume that travels in the shared lane."""
    return leg.v[L] if leg.shared else 0


def v_st(leg):
    """vST: the T volume without the folded lefts."""
    return leg.line[2] - folded_left(leg)


def empty(leg):
    """Neither L nor T has volume."""
    return leg.line[1] == 0 and leg.line[2] == 0


def serve(leg, v, s):
    """Time in which v vehicles an hour pass at flow s, which is in tenths; nothing for nobody, even without lanes."""
    return up(1000 * FLOW_UNIT * v * leg.cl, s) if v > 0 else 0


def interference(leg):
    """G: the time the crossing pedestrians hold up right turns."""
    still_clear = 8 * decay(leg.p * (leg.cl - 8)) + 16 * decay(4 * leg.p)
    return 24000 - still_clear // 10**6


def weighted(leg, time):
    """Lost time, and the time stretched for pedestrians as often as they come."""
    without = max(leg.minimum[T], time)
    with_peds = max(without, leg.ped_time)
    return leg.lost[T] + without + up((with_peds - without) * leg.line[12], 10000)


def nobody_driving(leg):
    """What those who cross take where nobody drives; none without through lanes or without pedestrians."""
    if leg.n[T] == 0 or leg.p == 0:
        return 0
    return weighted(leg, 0)


def single(leg):
    """One lane for everything, and lefts among what stands in it."""
    return leg.n == [0, 1, 0] and leg.shared == 1 and leg.v[L] > 0


# ---------------------------------------------------------------- lines 1 to 28 of an approach

def line_1(leg):
    """Volume of group L."""
    return 0 if leg.shared else leg.v[L]


def line_2(leg):
    """Volume of group T, called vC."""
    return leg.v[T] + folded_left(leg) + folded_right(leg)


def line_3(leg):
    """Volume of group R."""
    return leg.v[R] if leg.n[R] > 0 else 0


def line_4(leg):
    """Turning factor fT of group T: one division of the whole product."""
    v_c = leg.line[2]
    if v_c == 0:
        return 10000
    return (100 * v_c - 15 * folded_right(leg)) * (100 * v_c - 5 * folded_left(leg)) // v_c**2


def line_5(leg):
    """Flow of L."""
    return flow(leg, L, leg.n[L], 9500)


def line_6(leg):
    """Flow of T."""
    return flow(leg, T, leg.n[T], leg.line[4])


def line_7(leg):
    """Flow of R."""
    return flow(leg, R, leg.n[R], 8500)


def line_8(leg):
    """sST: flow of T as if no left stood in it."""
    v = v_st(leg)
    f = 100 * (100 * v - 15 * folded_right(leg)) // v if v > 0 else 10000
    return flow(leg, T, leg.n[T], f)


def line_9(leg):
    """sSL: flow of the lefts by themselves; a shared lane counts as one left lane, with the left movement's own factor."""
    return flow(leg, L, 1, 9500) if leg.shared else leg.line[5]


def line_10(leg):
    """Interference of R, with or without right volume."""
    return interference(leg) if leg.n[R] > 0 else 0


def line_11(leg):
    """Interference of T, in the measure of the rights that stand in it."""
    if leg.n[R] > 0 or leg.line[2] == 0:
        return 0
    return up(interference(leg) * leg.v[R], leg.line[2])


def line_12(leg):
    """F: how often pedestrians call."""
    if leg.p == 0:
        return 0
    if leg.button == 0:
        return 10000
    return 10000 - decay(2 * leg.p * leg.cl) // 10**5


def line_13(leg):
    """Reference time of L."""
    return serve(leg, leg.line[1], leg.line[5])


def line_14(leg):
    """Reference time of T."""
    if leg.line[2] == 0:
        return 0
    return serve(leg, leg.line[2], leg.line[6]) + leg.line[11]


def line_15(leg):
    """Reference time of R."""
    if leg.line[3] == 0:
        return 0
    return serve(leg, leg.line[3], leg.line[7]) + leg.line[10]


def line_16(leg):
    """Adjusted time of L."""
    return leg.lost[L] + max(leg.minimum[L], leg.line[13]) if leg.line[1] > 0 else 0


def line_17(leg):
    """Adjusted time of T."""
    return weighted(leg, leg.line[14]) if leg.line[2] > 0 else nobody_driving(leg)


def line_18(leg):
    """Adjusted time of R."""
    return leg.lost[R] + max(leg.minimum[R], leg.line[15]) if leg.line[3] > 0 else 0


def line_19(leg):
    """vLL: volume of T's left lane, a left counting as five when drivers choose."""
    b, v_c = folded_left(leg), leg.line[2]
    if v_c == 0:
        return 0
    return max(b, up(4 * b + v_c, leg.n[T]) - 4 * b)


def line_20(leg):
    """q: share of lefts in that lane."""
    if leg.line[2] == 0:
        return 0
    return up(10**4 * folded_left(leg), leg.line[19])


def oncoming_share(leg):
    """o: share of lefts in what comes towards us, where that is a single lane."""
    other = leg.oncoming
    return 10**4 * other.v[L] // other.line[2] if single(other) else 0


def equivalents(leg, q):
    """E: how many through vehicles one left is worth, in ten-thousandths."""
    num = 5 * 10**8 + 80000 * q - 3 * q**2
    den = 2 * (10**4 + q) + oncoming_share(leg) * leg.cl
    return up(num * leg.cl, 10 * den)


def line_21(leg):
    """E of T."""
    return equivalents(leg, leg.line[20]) if leg.line[2] > 0 else 0


def left_lane_flow(s, n, q, e):
    """sA: flow of the left lane of n lanes with flow s, in s's unit; e may be under 10,000."""
    factor = 10**12 // (10**8 + q * (e - 10**4))
    return s * factor // (n * 10**4)


def line_22(leg):
    """sA of T."""
    if leg.line[2] == 0:
        return 0
    return left_lane_flow(leg.line[6], leg.n[T], leg.line[20], leg.line[21])


def a_through(leg):
    """T's value in option A."""
    if leg.line[2] == 0:
        return 0
    left_lane = serve(leg, leg.line[19], leg.line[22]) + leg.line[11]
    return max(left_lane, serve(leg, leg.line[2], leg.line[6]))


def own_lane(leg):
    """L's own vLL, E and sA: every vehicle in the lane turns."""
    if leg.line[1] == 0:
        return [0, 0, 0]
    e = equivalents(leg, 10000)
    return [up(leg.line[1], leg.n[L]), e, left_lane_flow(leg.line[5], leg.n[L], 10000, e)]


def a_left(leg):
    """L's value in option A, without pedestrians."""
    if leg.line[1] == 0:
        return 0
    v_ll, _, s_a = own_lane(leg)
    return max(serve(leg, v_ll, s_a), serve(leg, leg.line[1], leg.line[5]))


def line_23(leg):
    """Option A: few lefts, or gaps made by the lefts of a single lane."""
    if empty(leg):
        return 0
    if leg.v[L] >= 60 and not single(leg.oncoming):
        return BLANK
    return max(a_through(leg), a_left(leg))


def b_through(leg):
    """The first half of option B; nothing without a T volume, where there may be no flow."""
    if leg.line[2] == 0:
        return 0
    n, s_st = leg.n[T], leg.line[8]
    s_b = leg.line[6] * (n - 1) // n if leg.shared else leg.line[6]  # in tenths as s_st is, so their share needs no factor
    return 8000 + serve(leg, v_st(leg), s_st) - 8000 * s_b // s_st + leg.line[11]


def b_left(leg):
    """The second half of option B; lefts of 0 add nothing."""
    return 8000 + serve(leg, leg.v[L], leg.line[9]) if leg.v[L] > 0 else 0


def line_24(leg):
    """Option B: little oncoming traffic."""
    if empty(leg):
        return 0
    if v_st(leg.oncoming) > 120:
        return BLANK
    return max(b_through(leg), b_left(leg))


def line_25(leg):
    """The lesser of the options that are allowed."""
    allowed = [time for time in leg.line[23:25] if time != BLANK]
    return min(allowed) if allowed else BLANK


def line_26(leg):
    """Line 25 weighted."""
    if empty(leg):
        return nobody_driving(leg)
    if leg.line[25] == BLANK:
        return BLANK
    return weighted(leg, leg.line[25])


def line_27(leg):
    """Split: the largest of all together, T without its lefts, and the lefts."""
    if empty(leg):
        return 0
    through = serve(leg, v_st(leg), leg.line[8]) + leg.line[11]
    return max(leg.line[14], through, serve(leg, leg.v[L], leg.line[9]))


def line_28(leg):
    """Line 27 weighted."""
    return nobody_driving(leg) if empty(leg) else weighted(leg, leg.line[27])


LINES = (line_1, line_2, line_3, line_4, line_5, line_6, line_7, line_8, line_9, line_10,
         line_11, line_12, line_13, line_14, line_15, line_16, line_17, line_18, line_19,
         line_20, line_21, line_22, line_23, line_24, line_25, line_26, line_27, line_28)


# ---------------------------------------------------------------- the decay number

def decay(m):
    """e^(-m/7200) in billionths."""
    if m >= 115200:
        return 0
    c, r = divmod(m, 7200)
    term = total = 10**9
    for k in range(1, 13):
        term = term * r // (7200 * k)
        total += term if k % 2 == 0 else -term
    for _ in range(c):
        total = total * 367879441 // 10**9
    return total


# ---------------------------------------------------------------- pairs

def protected(one, other):
    """One approach's lefts with the other's throughs, the worse way round."""
    if one.shared or other.shared:
        return BLANK
    return max(one.line[16] + other.line[17], other.line[16] + one.line[17])


def permitted(one, other):
    """Both approaches at once."""
    if BLANK in (one.line[26], other.line[26]):
        return BLANK
    return max(one.line[26], other.line[26])


def split(one, other):
    """One approach after the other."""
    return one.line[28] + other.line[28]


def pair_cells(one, other):
    """The three totals of a pair and which of them is picked."""
    totals = [protected(one, other), permitted(one, other), split(one, other)]
    return totals + [totals.index(min(totals))]  # index finds the earlier one on a tie


# ---------------------------------------------------------------- the last eight

CROSS = (3, 2, 0, 1)  # the through that comes from the left of EBR, WBR, NBR, SBR
LETTER_ENDS = (550, 640, 730, 820, 910, 1000, 1090)


def as_through(leg, pick):
    """What a cross through takes under its pair's phasing."""
    return leg.line[(17, 26, 28)[pick]]


def as_left(leg, pick):
    """What an oncoming left takes under its pair's phasing."""
    return (leg.line[16], 0, leg.line[28])[pick]


def waited_for(legs, picks, a):
    """The cross through and the oncoming left that approach a's right turns must wait for."""
    if legs[a].line[3] == 0 or legs[a].free:
        return [0, 0]
    cross, facing = CROSS[a], a ^ 1
    return [as_through(legs[cross], picks[cross // 2]), as_left(legs[facing], picks[facing // 2])]


def right_total(legs, picks, a):
    """Total of approach a's right turns with what they must wait for."""
    if legs[a].line[3] == 0:
        return 0
    return legs[a].line[18] + sum(waited_for(legs, picks, a))


def letter(icu):
    """Letter of an ICU in tenths of a percent, 0 for A to 7 for H."""
    return sum(1 for end in LETTER_ENDS if icu > end)


def last_eight(legs, picks, combined, cl):
    """Right totals, combined, required, ICU, letter, of the pairs' picks and the picked times added."""
    rights = [right_total(legs, picks, a) for a in range(4)]
    required = max(rights + [combined])
    icu = up(required, cl)
    return rights + [combined, required, icu, letter(icu)]


# ---------------------------------------------------------------- the sheet

def worked_legs(entries, lines=LINES):
    """The four approaches with all their lines, or with the first of them."""
    legs = [Leg(entries, a) for a in range(4)]
    for a, leg in enumerate(legs):
        leg.oncoming = legs[a ^ 1]
    for k, line in enumerate(lines, 1):  # line by line, so that the oncoming lines stand ready
        for leg in legs:
            leg.line[k] = line(leg)
    return legs


def fill(entries):
    """The 221 cells of a fresh sheet. The entries must be acceptable."""
    refusal = judge(entries)
    if refusal != (0, 0):
        raise ValueError("refused: %d at %d" % refusal)
    legs = worked_legs(entries)
    pairs = [pair_cells(legs[0], legs[1]), pair_cells(legs[2], legs[3])]
    sheet = list(entries)
    for leg in legs:
        sheet += leg.line[1:]
    picks, combined = [pair[3] for pair in pairs], sum(pair[pair[3]] for pair in pairs)
    return sheet + pairs[0] + pairs[1] + last_eight(legs, picks, combined, entries[CYCLE])


def beside(entries):
    """What is worked beside the sheet: five numbers of each approach, of acceptable entries."""
    legs = worked_legs(entries)
    picks = [pair_cells(legs[0], legs[1])[3], pair_cells(legs[2], legs[3])[3]]
    return [x for a in range(4) for x in own_lane(legs[a]) + waited_for(legs, picks, a)]


def cell(a, k):
    """Where line k of approach a stands in the sheet."""
    return LINES_AT + 28 * a + k - 1


# ---------------------------------------------------------------- amendments

ALL_LINES = range(1, 29)
# What each kind of entry reaches: own lines, lines of the opposite approach.
MOVEMENT_REACH = (
    (ALL_LINES, range(21, 27)),   # lanes
    (ALL_LINES, range(21, 27)),   # volume
    (ALL_LINES, range(21, 27)),   # ideal flow
    ((16, 17, 18, 26, 28), ()),   # lost time
    ((16, 17, 18, 26, 28), ()),   # minimum green
    (ALL_LINES, range(21, 27)),   # measured lane factor
)
APPROACH_REACH = (
    (ALL_LINES, range(21, 27)),                                       # shared lane
    ((10, 11, 12, 14, 15, 17, 18, 23, 24, 25, 26, 27, 28), ()),       # pedestrians
    ((12, 17, 26, 28), ()),                                           # button
    ((17, 26, 28), ()),                                               # pedestrian time
    ((), ()),                                                         # free right
)


def reached_lines(entry):
    """The approach of an entry that is not the cycle, its own lines that are reached, and those of the opposite approach."""
    if entry < OWN:
        return (entry // 18, *MOVEMENT_REACH[entry % 6])
    return ((entry - OWN) // 5, *APPROACH_REACH[(entry - OWN) % 5])


def is_free_right(entry):
    """Whether an entry is an approach's free right, the one kind that reaches no pair."""
    return OWN <= entry < CYCLE and (entry - OWN) % 5 == 4


def reach(entry):
    """Cells that an amendment of this entry works out afresh, the entry itself apart."""
    if entry == CYCLE:
        return list(range(LINES_AT, CELLS))
    a, own, opposite = reached_lines(entry)
    cells = [cell(a, k) for k in own] + [cell(a ^ 1, k) for k in opposite]
    if not is_free_right(entry):
        cells += range(PAIRS + 4 * (a // 2), PAIRS + 4 * (a // 2) + 4)
    return sorted(cells) + list(range(LAST, CELLS))


def amended(sheet, entry, value, kind):
    """Change one entry of a sheet of a kind: its size, how entries are judged and filled, and what an entry reaches."""
    size, judging, filling, reaching = kind
    if len(sheet) != size:
        return (1, 0)
    if entry >= ENTRIES:
        return (2, 0)
    entries = sheet[:ENTRIES]
    entries[entry] = value
    refusal = judging(entries)
    if refusal != (0, 0):
        return refusal
    fresh = filling(entries)
    sheet[entry] = value
    for i in reaching(entry):
        sheet[i] = fresh[i]
    return (0, 0)


def amend(sheet, entry, value):
    """Change one entry of a junction's sheet where it stands; (number, place), (0, 0) if accepted."""
    return amended(sheet, entry, value, (CELLS, judge, fill, reach))


# ---------------------------------------------------------------- single point interchanges

# Where things stand: the entries, then lines 1 to 18 of each approach, the protected total of each pair, the last eight.
POINT_LINES = LINES[:18]
POINT_TOTALS = 165
POINT_LAST = 167
POINT_CELLS = 175
PROTECTED = (0, 0)  # the picks of both pairs: there is no other phasing
POINT_MOVEMENTS = tuple((0, 0, 2000, lost, 0, BY_TABLE) for lost in (8000, 6000, 6000))  # L, T and R to start with
POINT_APPROACH = (0, 0, 0, 0, 0)
POINT_CYCLE = 120


def point_start(entries):
    """Write the starting entries where they are wanted; (number, place), (0, 0) if there are as many as they must be."""
    if len(entries) != ENTRIES:
        return (1, 0)
    entries[:] = [x for movement in 4 * POINT_MOVEMENTS for x in movement] + list(4 * POINT_APPROACH) + [POINT_CYCLE]
    return (0, 0)


def any_shared_place(entries):
    """Lowest approach with a shared lane, or None."""
    return next((a for a in range(4) if Leg(entries, a).shared == 1), None)


def judge_point(entries):
    """(number, place) of the first refusal that applies to a single point, (0, 0) if there is none."""
    return judged(entries, any_shared_place)


def point_cell(a, k):
    """Where line k of approach a stands in the sheet."""
    return LINES_AT + 18 * a + k - 1


def fill_point(entries):
    """The 175 cells of a fresh sheet. The entries must be acceptable."""
    refusal = judge_point(entries)
    if refusal != (0, 0):
        raise ValueError("refused: %d at %d" % refusal)
    legs = worked_legs(entries, POINT_LINES)
    totals = [protected(legs[0], legs[1]), protected(legs[2], legs[3])]
    sheet = list(entries)
    for leg in legs:
        sheet += leg.line[1:19]
    return sheet + totals + last_eight(legs, PROTECTED, sum(totals), entries[CYCLE])


def point_beside(entries):
    """What is worked beside the sheet: what each approach's right turns wait for, of acceptable entries."""
    legs = worked_legs(entries, POINT_LINES)
    return [x for a in range(4) for x in waited_for(legs, PROTECTED, a)]


def point_reach(entry):
    """Cells that an amendment of this entry works out afresh: a junction's, as far as this sheet has them, the pair's total for its cells."""
    if entry == CYCLE:
        return list(range(LINES_AT, POINT_CELLS))
    a, own, _ = reached_lines(entry)
    totals = [] if is_free_right(entry) else [POINT_TOTALS + a // 2]
    return [point_cell(a, k) for k in own if k <= 18] + totals + list(range(POINT_LAST, POINT_CELLS))


def amend_point(sheet, entry, value):
    """Change one entry of a single point's sheet where it stands; (number, place), (0, 0) if accepted."""
    return amended(sheet, entry, value, (POINT_CELLS, judge_point, fill_point, point_reach))


# ---------------------------------------------------------------- diamond interchanges

EB, WB, NB, SB = range(4)
EAST = 93  # where the east junction's entries begin in a record
STORAGES = 186
TRAVEL = 190
RECORD = 191
DIAMOND_CELLS = 29
STORAGE_LIMITS = (1, 999)
TRAVEL_LIMITS = (0, 60000)
# Of the west junction and the east: what enters from outside, what comes from the other junction, the ramp.
SIDES = ((EB, WB, SB), (WB, EB, NB))
# The left that waits in each storage: side and approach, in the record's order.
STORED = ((0, WB), (1, EB), (0, SB), (1, NB))
OFF_RAMP = (2, 3)  # the storages of the lefts that come off the ramps


def halves(record):
    """The west junction's entries and the east's."""
    return record[:EAST], record[EAST:STORAGES]


def both_places(record, search, step):
    """What a search finds in the west junction, else what it finds in the east one, so many places on."""
    west, east = (search(entries) for entries in halves(record))
    if west is not None:
        return west
    return None if east is None else step + east


def diamond_range_place(record):
    """Lowest entry of both junctions outside its range; the east's cycle is also wrong where it is not the west's."""
    place = both_places(record, range_place, EAST)
    if place is None and record[EAST + CYCLE] != record[CYCLE]:
        return EAST + CYCLE
    return place


def storage_place(record):
    """Lowest storage outside its range, or None."""
    least, largest = STORAGE_LIMITS
    return next((place for place in range(STORAGES, TRAVEL) if not least <= record[place] <= largest), None)


def travel_place(record):
    """The travel time's place where it is outside its range."""
    least, largest = TRAVEL_LIMITS
    return None if least <= record[TRAVEL] <= largest else TRAVEL


def judge_diamond(record):
    """(number, place) of the first refusal that applies to a record, (0, 0) if there is none."""
    if len(record) != RECORD:
        return (1, 0)
    places = ((3, diamond_range_place(record)), (4, both_places(record, shared_place, 4)),
              (5, both_places(record, nolane_place, 12)), (7, storage_place(record)), (8, travel_place(record)))
    return next(((number, place) for number, place in places if place is not None), (0, 0))


def interchange_time(leg, g):
    """What a group of an approach takes at an interchange: free rights take nothing."""
    return 0 if g == R and leg.free else leg.line[16 + g]


def side_times(legs, side):
    """The seven times of a junction: entering through and right, the other junction's left and through, the ramp's three."""
    entering, crossing, ramp = (legs[a] for a in SIDES[side])
    return ([interchange_time(entering, g) for g in (T, R)] + [interchange_time(crossing, g) for g in (L, T)]
            + [interchange_time(ramp, g) for g in (L, T, R)])


def isolated(times):
    """Isolated time 1, the alternate and the larger of the two, of one junction."""
    through, right, left, back, ramp_left, ramp_through, ramp_right = times
    first = max(through, right) + left + max(ramp_left, ramp_through)
    alternate = back + max(ramp_left, ramp_through, ramp_right)
    return first, alternate, max(first, alternate)


def overlap(times, travel):
    """How long the next phase may start ahead: the travel time, or all that enters if that is less."""
    return min(travel, max(times[:2]))


def leading_alternate(west, east, travel):
    """Each entry and each ramp in turn, ramps held twice the travel time, less the overlaps."""
    total = sum(max(times[:2]) + max(times[4:] + [2 * travel]) for times in (west, east))
    return total - overlap(east, travel) - overlap(west, travel)


def per_cycle(record, k):
    """N of storage k: 3600 times the lefts that come in a cycle, by their entry."""
    side, a = STORED[k]
    return record[EAST * side + movement_entry(3 * a + L, 1)] * record[CYCLE]


def fits(n, storage):
    """Whether the storage ratio is below 1: x + 1.28 roots of x, with x = n/3600, is less than the storage."""
    room = 3600 * storage - n
    return room > 0 and 16384 * 3600 * n < 10000 * room**2


def storage_fits(record):
    """Whether the ratio of each storage is below 1."""
    return [fits(per_cycle(record, k), record[STORAGES + k]) for k in range(4)]


def plans(record, west, east):
    """Leading alternate, lagging and lead-lag; BLANK where the storages do not allow a plan."""
    below = storage_fits(record)
    together = max(isolated(west)[2], isolated(east)[2])
    return [leading_alternate(west, east, record[TRAVEL]), together if all(below) else BLANK,
            together if all(below[k] for k in OFF_RAMP) else BLANK]


def diamond(record):
    """The 29 cells of a diamond interchange. The record must be acceptable."""
    refusal = judge_diamond(record)
    if refusal != (0, 0):
        raise ValueError("refused: %d at %d" % refusal)
    west, east = (side_times(worked_legs(entries), side) for side, entries in enumerate(halves(record)))
    pairs = list(zip(isolated(west), isolated(east))) + [(overlap(west, record[TRAVEL]), overlap(east, record[TRAVEL]))]
    three = plans(record, west, east)
    best = min(three)
    icu = up(best, record[CYCLE])
    return west + east + [x for pair in pairs for x in pair] + three + [three.index(best), best, icu, letter(icu)]


# ---------------------------------------------------------------- open studies

PLACES = 165
FREE = 0  # the owner of a place that nobody has
OPEN_OPENING = b"ICUO"
OPEN_BYTES = 4 + 4 * PLACES + 4 * ENTRIES * PLACES


def open_sizes(owners, blocks):
    """Whether both lists of an open study are as long as they must be."""
    return len(owners) == PLACES and len(blocks) == ENTRIES * PLACES


def place_block(blocks, place):
    """The 93 entries that stand at a place."""
    return blocks[ENTRIES * place:ENTRIES * (place + 1)]


def has_site(owners, office, site):
    """Whether a site of the office's own stands there."""
    return office != FREE and site < PLACES and owners[site] == office


def open_add(owners, blocks, office, entries):
    """Put the entries at the lowest free place: (number, place) of the answer, and the place they got, or None."""
    if not open_sizes(owners, blocks) or len(entries) != ENTRIES:
        return (1, 0), None
    if office == FREE:
        return (9, 0), None
    refusal = judge(entries)
    if refusal != (0, 0):
        return refusal, None
    if FREE not in owners:
        return (10, 0), None
    place = owners.index(FREE)
    owners[place] = office
    blocks[ENTRIES * place:ENTRIES * (place + 1)] = entries
    return (0, 0), place


def open_amend(owners, blocks, office, site, entry, value):
    """Change one entry of a site in its block; (number, place), (0, 0) if accepted."""
    if not open_sizes(owners, blocks):
        return (1, 0)
    if entry >= ENTRIES:
        return (2, 0)
    if not has_site(owners, office, site):
        return (9, site)
    entries = place_block(blocks, site)
    entries[entry] = value
    refusal = judge(entries)
    if refusal == (0, 0):
        blocks[ENTRIES * site + entry] = value
    return refusal


def open_read(owners, blocks, office, site, sheet):
    """Fill the sheet where it stands from a site's block; (number, place), (0, 0) if accepted."""
    if not open_sizes(owners, blocks) or len(sheet) != CELLS:
        return (1, 0)
    if not has_site(owners, office, site):
        return (9, site)
    entries = place_block(blocks, site)
    refusal = judge(entries)
    if refusal == (0, 0):
        sheet[:] = fill(entries)
    return refusal


def open_file(owners, blocks):
    """The bytes of an open study's file."""
    return OPEN_OPENING + b"".join(word.to_bytes(4, "little") for word in owners + blocks)


def open_lists(data):
    """The owners and the blocks in a file, or None where it is no open study."""
    if len(data) != OPEN_BYTES or data[:4] != OPEN_OPENING:
        return None
    words = [number_at(data, at) for at in range(4, OPEN_BYTES, 4)]
    return words[:PLACES], words[PLACES:]


# ---------------------------------------------------------------- study file and listing

# Two kinds of study file, each by its opening: how many sites it holds at most, and how many numbers a block of it has.
OPENING, MOST_SITES = b"ICUT", 165
OLD_OPENING, OLD_MOST_SITES = b"ICUS", 180
KINDS = {OPENING: (MOST_SITES, ENTRIES), OLD_OPENING: (OLD_MOST_SITES, OLD_ENTRIES)}


def number_at(data, at):
    """The four bytes from there on, read as one number."""
    return int.from_bytes(data[at:at + 4], "little")


def block_start(k, j, numbers=ENTRIES):
    """Where block j of k stands, of blocks of so many numbers; block k would start where the file ends."""
    return 8 + 4 * k + 4 * numbers * j


def study_check(data):
    """(0, 0) for a well laid out study file of either kind, else 6 and the place."""
    size = len(data)
    if size < 4:
        return (6, size)
    if data[:4] not in KINDS:
        return (6, 0)
    most, numbers = KINDS[data[:4]]
    if size < 8:
        return (6, size)
    k = number_at(data, 4)
    if k > most:
        return (6, 4)
    for j in range(k):
        if size < 12 + 4 * j:
            return (6, size)
        if number_at(data, 8 + 4 * j) != block_start(k, j, numbers):
            return (6, 8 + 4 * j)
    if size != block_start(k, k, numbers):
        return (6, min(size, block_start(k, k, numbers)))
    return (0, 0)


def study_site_check(data, site):
    """Whether the file is good and has the site."""
    refusal = study_check(data)
    if refusal == (0, 0) and site >= number_at(data, 4):
        return (6, 4)
    return refusal


def study_site(data, site):
    """The bytes of a site's block, as many as its kind of file has; none on a refusal."""
    if study_site_check(data, site) != (0, 0):
        return data[:0]
    numbers = KINDS[data[:4]][1]
    at = block_start(number_at(data, 4), site, numbers)
    return data[at:at + 4 * numbers]


def study_write(numbers, out):
    """Write a study of these entries at the start of a bytearray; the rest of it stays."""
    if len(numbers) % ENTRIES != 0:
        return (1, 0)
    k = len(numbers) // ENTRIES
    if k > MOST_SITES:
        return (6, 0)
    if len(out) < block_start(k, k):
        return (6, 4)
    words = [k] + [block_start(k, j) for j in range(k)] + list(numbers)
    out[:block_start(k, k)] = OPENING + b"".join(word.to_bytes(4, "little") for word in words)
    return (0, 0)


def widened(old):
    """The entries of a site before lane factors were measured, as 93: the table's factor for each movement."""
    movements = [old[5 * m:5 * m + 5] + [BY_TABLE] for m in range(12)]
    return [x for movement in movements for x in movement] + old[60:]


def block_entries(block):
    """The 93 entries that a site's block of either kind of file stands for."""
    numbers = [number_at(block, at) for at in range(0, len(block), 4)]
    return widened(numbers) if len(numbers) == OLD_ENTRIES else numbers


def study_sites(data):
    """The entries of every site of a good file."""
    return [block_entries(study_site(data, j)) for j in range(number_at(data, 4))]


def study_file(sites):
    """The bytes of a study file of these sites, at most 165."""
    out = bytearray(block_start(len(sites), len(sites)))
    answer = study_write([x for entries in sites for x in entries], out)
    if answer != (0, 0):
        raise ValueError("refused: %d at %d" % answer)
    return bytes(out)


def site_line(number, entries):
    """One site's line of the listing."""
    refusal = judge(entries)
    if refusal != (0, 0):
        return "%d R%d %d\n" % ((number,) + refusal)
    sheet = fill(entries)
    return "%d %d %s %s%s\n" % (number, sheet[LAST + 6], "ABCDEFGH"[sheet[LAST + 7]],
                                "PMS"[sheet[PAIRS + 3]], "PMS"[sheet[PAIRS + 7]])


def listing(data):
    """What `iculist` prints for a study file."""
    refusal = study_check(data)
    if refusal != (0, 0):
        return "file R%d %d\n" % refusal
    return "".join(site_line(j + 1, entries) for j, entries in enumerate(study_sites(data)))
