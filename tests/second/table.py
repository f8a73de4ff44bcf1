"""The engineers' texts worked out a second time: a junction as text, its worksheet, and what a change changes.

    python3 tests/second/table.py OUTDIR

writes the sample junctions into OUTDIR: NAME.txt as a person types it, NAME.full as the programs write it,
NAME.sheet, NAME.amend (a change) and NAME.changes (what it changes).
"""

import os
import re
import sys

sys.dont_write_bytecode = True  # leave no cache beside the sources

import icu2003
import junctions

APPROACHES = ("EB", "WB", "NB", "SB")
PAIRS = ("EB-WB", "NB-SB")
GROUPS = [a + g for a in APPROACHES for g in "LTR"] + list(APPROACHES) + ["junction"]
MOVEMENT_KINDS = ("lanes", "volume", "ideal-flow", "lost-time", "minimum-green", "lane-factor")
APPROACH_KINDS = ("shared-lane", "pedestrians", "push-button", "pedestrian-time", "free-right")
MOVEMENT_USUAL = (0, 0, 1900, 4000, 4000, 0)
APPROACH_USUAL = (0, 0, 0, 0, 0)
TIMES = ("lost-time", "minimum-green", "pedestrian-time", "travel-time")  # kept in milliseconds, written with their unit
FACTORS = ("lane-factor",)  # kept in thousandths, written as a decimal number without a unit


# ---------------------------------------------------------------- entries by name

def kinds_of(group):
    """The names of a group's entries."""
    if group < 12:
        return MOVEMENT_KINDS
    return APPROACH_KINDS if group < 16 else ("cycle",)


NAMES = [(name, kind) for group, name in enumerate(GROUPS) for kind in kinds_of(group)]  # of each entry, in their order
NAMED = {names: entry for entry, names in enumerate(NAMES)}
KINDS = {kind for _, kind in NAMES}
TEXT_MOST = 65535
WORD_MOST = 4096  # the bytes of an argument
USUAL = list(12 * MOVEMENT_USUAL + 4 * APPROACH_USUAL) + [120]


def entry_name(entry):
    """The two words of an entry."""
    return " ".join(NAMES[entry])


# ---------------------------------------------------------------- values

class Wrong(Exception):
    """The first thing wrong with a text: its byte, and what is said of it."""


def thousandths_text(value):
    """Thousandths as a decimal number, without zeros at its end."""
    whole, part = divmod(value, 1000)
    return "%d%s" % (whole, (".%03d" % part).rstrip("0").rstrip("."))


def value_text(kind, value):
    """A value as it is written: a time in seconds with its unit, a factor as a decimal number, anything else as a whole number."""
    if kind in TIMES:
        return thousandths_text(value) + "s"
    return thousandths_text(value) if kind in FACTORS else str(value)


def thousandths(whole, part):
    """The thousandths of a decimal number: its digits before the point, and up to three behind it, if any."""
    return 1000 * int(whole) + int((part or b"").ljust(3, b"0"))


def time_of(word):
    """The milliseconds that a word is, or Wrong without a place."""
    found = re.fullmatch(rb"([0-9]+)ms|([0-9]+)(?:\.([0-9]{1,3}))?s", word)
    if not found:
        raise Wrong(None, "a time is written with its unit, as 4s, 4.5s or 4000ms")
    ms, whole, part = found.groups()
    return int(ms) if ms else thousandths(whole, part)


def factor_of(word):
    """The thousandths that a word is, or Wrong without a place."""
    found = re.fullmatch(rb"([0-9]+)(?:\.([0-9]{1,3}))?", word)
    if not found:
        raise Wrong(None, "a factor is written as 0.971 or 1, or as 0 for the table's")
    return thousandths(*found.groups())


def whole_of(word):
    """The whole number that a word is, or Wrong without a place."""
    if not re.fullmatch(rb"[0-9]+", word):
        raise Wrong(None, "a whole number without a unit is expected here")
    return int(word)


def value_of(kind, word):
    """The value that the bytes of a word are for an entry of that kind, or Wrong without a place."""
    value = (time_of if kind in TIMES else factor_of if kind in FACTORS else whole_of)(word)
    if value >= 2**32:
        raise Wrong(None, "this number is too large")
    return value


def limits_text(entry):
    """The limits of an entry, as its values are written."""
    kind = NAMES[entry][1]
    text = "%s to %s" % tuple(value_text(kind, limit) for limit in icu2003.limits(entry))
    return "0 or " + text if kind in FACTORS else text


# ---------------------------------------------------------------- a junction as text

def group_lines(shown):
    """A line for each group that has an entry to show: its name, and these (entry, value) of it as they are written."""
    out = []
    for name in GROUPS:
        values = [NAMES[entry][1] + " " + value_text(NAMES[entry][1], value) for entry, value in shown if NAMES[entry][0] == name]
        if values:
            out.append(" ".join([name] + values) + "\n")
    return "".join(out)


def write_text(entries):
    """A line for each group with all its entries."""
    return group_lines(list(enumerate(entries)))


def brief_text(title, entries):
    """As a person types it: a title, what is not usual, and the cycle."""
    unusual = [(entry, value) for entry, value in enumerate(entries) if value != USUAL[entry] or entry == icu2003.CYCLE]
    return 'title "%s"\n' % title + group_lines(unusual)


def unmarked(data):
    """The text past a byte-order mark at its front; places in it are counted from there."""
    return data[3:] if data[:3] == b"\xef\xbb\xbf" else data


def quoted(word):
    """A word in quotes: at most 24 of its bytes, and a question mark for what is no sign of ASCII."""
    return '"%s%s"' % ("".join(chr(b) if 33 <= b <= 126 else "?" for b in word[:24]), ".." if len(word) > 24 else "")


def titling(data):
    """A text's title and the place past it. Before it stand blanks and comments at most; Wrong where `title` begins no title."""
    front = re.match(rb"(?:[ \t\r\n]|#[^\n]*(?:\n|$))*", data).end()
    if data[front:front + 5] != b"title":
        return b"", 0
    found = re.compile(rb'title[ \t\r\n]+"([^"\x00-\x1f\x7f]{1,60})"').match(data, front)
    if not found:
        raise Wrong(front, 'a title is written in quotes, as title "Elm and 3rd", with at most 60 bytes')
    return found.group(1), found.end()


def words(data, place):
    """(place, word) of each word of the text from a place on."""
    n = len(data)
    while place < n:
        byte = data[place]
        if byte in b" \t\r\n":
            place += 1
        elif byte == ord("#"):
            while place < n and data[place] != 10:
                place += 1
        else:
            end = place
            while end < n and data[end] not in b" \t\r\n#":
                end += 1
            yield place, data[place:end]
            place = end


def parse(data):
    """(entries, places of their values), or Wrong."""
    entries, places = list(USUAL), {}
    group = wanted = None
    for place, word in words(data, titling(data)[1]):
        name = word.decode("latin-1")
        if wanted is not None:
            try:
                entries[wanted], places[wanted] = value_of(NAMES[wanted][1], word), place
            except Wrong as wrong:
                raise Wrong(place, wrong.args[1])
            wanted = None
        elif name in GROUPS:
            group = name
        elif name in KINDS:
            if group is None:
                raise Wrong(place, "name a movement, an approach or the junction before its entries")
            if (group, name) not in NAMED:
                raise Wrong(place, "what was named before has no such entry")
            wanted = NAMED[group, name]
            if wanted in places:
                raise Wrong(place, "this entry was written before")
        else:
            raise Wrong(place, quoted(word) + ": no movement, approach or entry has this name")
    if wanted is not None:
        raise Wrong(len(data), "the text ends where a value is expected")
    return entries, places


def refusal_text(number, place):
    """A refusal in words."""
    if number == 3:
        said = "%s is outside %s" % (entry_name(place), limits_text(place))
    elif number == 4:
        said = "%s: a shared lane needs a through lane and no left lane beside it; a single point takes none" % APPROACHES[place]
    elif number == 5:
        said = "%s: vehicles, and no lane that takes them" % GROUPS[place]
    elif number == 7:
        said = "the storage is outside %d to %d" % icu2003.STORAGE_LIMITS
    elif number == 8:
        said = "the travel time is outside %s to %s" % tuple(value_text("travel-time", limit) for limit in icu2003.TRAVEL_LIMITS)
    elif number == 9:
        said = "the office has no site there"
    elif number == 10:
        said = "every place is taken"
    elif place == 0:
        said = "this is no study file"
    else:
        said = "the study file is badly laid out at byte %d" % place
    return "R%d: %s" % (number, said)


def read_text(data, judge=icu2003.judge):
    """The entries of a text, or Wrong; they are judged as a junction's where nothing else is said."""
    if len(data) > TEXT_MOST:
        raise Wrong(TEXT_MOST - (len(data) - len(unmarked(data))), "a text has at most 65535 bytes")
    entries, places = parse(unmarked(data))
    number, place = judge(entries)
    if number:
        entry = {3: place, 4: icu2003.approach_entry(place, 0), 5: icu2003.movement_entry(place, 1)}[number]
        raise Wrong(places[entry], refusal_text(number, place))
    return entries


def said_of(data, judge=icu2003.judge):
    """What is said of a text that cannot be read, with line and column; nothing of another."""
    try:
        read_text(data, judge)
    except Wrong as wrong:
        place, said = wrong.args
        before = unmarked(data)[:place]
        return "line %d, column %d: %s\n" % (before.count(b"\n") + 1, place - (before.rfind(b"\n") + 1) + 1, said)
    return ""


def said_of_junction(data):
    """What is said of a file that is no junction's text, as bytes; None stands for a file that cannot be read."""
    if data is None:
        return b"cannot be read\n"
    if icu2003.study_check(data) == (0, 0):
        return b"this is a study file: name a junction's text, as icustudy show prints one\n"
    return said_of(data).encode()


# ---------------------------------------------------------------- words of a call

def word_taken(word):
    """An argument as a program takes it: one that is too long, as one of no bytes."""
    return word if len(word) <= WORD_MOST else b""


def change_of(words):
    """The entry and the value that three words ask for; Wrong, with the word at fault in place of a byte, where they ask for none."""
    name, kind, value = words
    if name.decode("latin-1") not in GROUPS:
        raise Wrong(name, "no movement, no approach and not the junction has this name")
    entry = NAMED.get((name.decode("latin-1"), kind.decode("latin-1")))
    if entry is None:
        raise Wrong(kind, "no entry has this name there")
    try:
        return entry, value_of(kind.decode(), value)
    except Wrong as wrong:
        raise Wrong(value, wrong.args[1])


# ---------------------------------------------------------------- the worksheet

# (number, name, line of the book, unit), section by section; v is whole vehicles per hour, V those kept in tenths; f is a factor in
# ten-thousandths, F a lane factor in thousandths
ENTRY_ROWS = [(g, name, book, unit) for g in "LTR" for name, book, unit in (
    ("lanes", "2", "n"), ("volume", "4", "v"), ("ideal flow", "9", "v"), ("lost time", "10", "s"), ("minimum green", "11", "s"),
    ("lane factor", "15", "F"))]
APPROACH_ROWS = [("A", name, book, unit) for name, book, unit in (
    ("shared lane", "3", "n"), ("pedestrians", "5", "p"), ("push button", "6", "n"), ("pedestrian time", "7", "s"),
    ("free right", "8", "n"))]
LINE_ROWS = [(str(k), name, book, unit) for k, (name, book, unit) in enumerate((
    ("volume, left", "13", "v"), ("volume, through", "13", "v"), ("volume, right", "13", "v"), ("turning factor", "16", "f"),
    ("flow, left", "17", "V"), ("flow, through", "17", "V"), ("flow, right", "17", "V"),
    ("flow, separate through", "18", "V"), ("flow, separate left", "18", "V"),
    ("interference, right", "19", "s"), ("interference, through", "19", "s"), ("pedestrian frequency", "20", "f"),
    ("reference, left", "22", "s"), ("reference, through", "22", "s"), ("reference, right", "22", "s"),
    ("adjusted, left", "23", "s"), ("adjusted, through", "23", "s"), ("adjusted, right", "23", "s"),
    ("volume of left lane", "25", "v"), ("lefts in left lane", "26", "f"), ("left equivalents", "27", "f"),
    ("saturation A", "29", "V"), ("permitted option A", "30", "s"), ("permitted option B", "32-33", "s"),
    ("permitted reference", "34", "s"), ("permitted adjusted", "35", "s"), ("split reference", "36-38", "s"),
    ("split adjusted", "39", "s")), 1)]
PAIR_ROWS = [("P", "protected", "40", "s"), ("P", "permitted", "41", "s"), ("P", "split", "42", "s"), ("P", "picked", "43", "*")]
LAST_ROWS = [("J", "combined", "44", "s"), ("J", "required", "51", "s"), ("J", "ICU", "51", "%"), ("J", "level of service", "52", "A")]


BESIDE_ROWS = [("23", "own volume of left lane", "25", "v"), ("23", "own left equivalents", "27", "f"), ("23", "own saturation A", "29", "V"),
               ("R", "cross through", "47", "s"), ("R", "oncoming left", "49", "s")]


def title(row):
    return "%-2s %-24s %5s %s" % row


def decimal(value, digits):
    """A whole number with its last digits after a point."""
    return "%d.%0*d" % (value // 10**digits, digits, value % 10**digits)


def shown(unit, value):
    if unit == "s":
        return "NA" if value == icu2003.BLANK else decimal(value, 3)
    if unit == "f":
        return decimal(value, 4)
    if unit == "F":
        return "table" if value == icu2003.BY_TABLE else decimal(value, 3)
    if unit in ("%", "V"):
        return decimal(value, 1)
    if unit == "A":
        return "ABCDEFGH"[value]
    if unit == "*":
        return ("protected", "permitted", "split")[value]
    return str(value)


def printed(row, fields):
    """A row of the sheet: its title and up to four fields."""
    return title(row) + "".join("%11s" % f for f in fields).ljust(44) + "\n"


FOUR, TWO, ONE = list(APPROACHES), list(PAIRS), [""]  # the names of a row's columns


def entry_cell_rows(movement_rows, approach_rows, cycle_row):
    """(row, the names of its columns, the cells in them) of the entries, which stand alike in each kind of sheet."""
    rows = [(r, FOUR, [i + 18 * a for a in range(4)]) for i, r in enumerate(movement_rows)]
    rows += [(r, FOUR, [icu2003.approach_entry(a, i) for a in range(4)]) for i, r in enumerate(approach_rows)]
    return rows + [(cycle_row, ONE, [icu2003.CYCLE])]


def last_cell_rows(right_row, rows, last):
    """The same of the last eight."""
    return [(right_row, FOUR, [last + a for a in range(4)])] + [(r, ONE, [last + 4 + i]) for i, r in enumerate(rows)]


def cell_rows():
    """All of a junction's, in the order of the worksheet."""
    rows = entry_cell_rows(ENTRY_ROWS, APPROACH_ROWS, ("J", "cycle, in seconds", "12", "n"))
    rows += [(r, FOUR, [icu2003.cell(a, k) for a in range(4)]) for k, r in enumerate(LINE_ROWS, 1)]
    rows += [(r, TWO, [icu2003.PAIRS + i, icu2003.PAIRS + 4 + i]) for i, r in enumerate(PAIR_ROWS)]
    rows += last_cell_rows(("R", "right turns", "45-50", "s"), LAST_ROWS, icu2003.LAST)
    return rows + [(r, FOUR, [icu2003.CELLS + i + 5 * a for a in range(4)]) for i, r in enumerate(BESIDE_ROWS)]


HEADINGS = {0: "entry", 24: "line", 52: "pair", 56: "junction", 61: "beside the lines"}


def sum_stars(cells, cell, one, other):
    """The left and the through in the larger sum of a pair, the first approach's left on a tie; cell says where a line stands."""
    larger = max(((one, other), (other, one)), key=lambda way: cells[cell(way[0], 16)] + cells[cell(way[1], 17)])
    return {cell(larger[0], 16), cell(larger[1], 17)}


def last_star(cells, last):
    """Where the required time comes from: combined, or a right total that is larger."""
    rights, combined = cells[last:last + 4], cells[last + 4]
    return last + rights.index(max(rights)) if max(rights) > combined else last + 4


def stars(cells):
    """The cells that decide: the larger sum of a pair, the option of an approach, the picked total, the largest of the last."""
    line = lambda a, k: cells[icu2003.cell(a, k)]
    found = {last_star(cells, icu2003.LAST)}
    for one, other, at in ((0, 1, icu2003.PAIRS), (2, 3, icu2003.PAIRS + 4)):
        if cells[at] != icu2003.BLANK:
            found |= sum_stars(cells, icu2003.cell, one, other)
        found.add(at + cells[at + 3])
    for a in range(4):
        options = [(line(a, k), k) for k in (23, 24) if line(a, k) != icu2003.BLANK]
        if options and line(a, 1) + line(a, 2) > 0:
            found.add(icu2003.cell(a, min(options)[1]))
    return found


class Kind:
    """A kind of sheet: what stands before the heading of its page; how entries are judged, filled and amended, and what is worked beside
    the cells; the rows of the page, where its sections begin, and the cells with a star; where the last eight begin."""

    def __init__(self, front, judge, fill, amend, beside, rows, headings, stars, last):
        self.front, self.judge, self.fill, self.amend, self.beside = front, judge, fill, amend, beside
        self.rows, self.headings, self.stars, self.last = rows, headings, stars, last


JUNCTION = Kind(b"", icu2003.judge, icu2003.fill, icu2003.amend, icu2003.beside, cell_rows(), HEADINGS, stars, icu2003.LAST)


def sheet_text(sheet, kind=JUNCTION):
    """The whole worksheet of a filled sheet, with what stands beside it."""
    cells = sheet + kind.beside(sheet[:icu2003.ENTRIES])
    starred = kind.stars(sheet)
    out = []
    for at, (row, columns, where) in enumerate(kind.rows):
        if at in kind.headings:
            out.append(printed(("no", kind.headings[at], "book", ":"), columns))
        fields = ["%11s" % shown(row[3], cells[i]) for i in where]
        for k, i in enumerate(where):
            if i in starred and fields[k][1] == " ":
                fields[k] = fields[k][0] + "*" + fields[k][2:]
        out.append(printed(row, fields))
    return "".join(out)


def change_text(before, after, kind=JUNCTION):
    """A row for each cell that changed, in the cells' order; the ICU and the letter in any case. Without a sheet before, every cell."""
    found = {i: (row, name) for row, columns, where in kind.rows for name, i in zip(columns, where)}
    out = [printed(("no", "changed cell", "book", ":"), ["where", "before", "after"])]
    for i in range(kind.last + 8):
        if before is None or before[i] != after[i] or i >= kind.last + 6:
            row, name = found[i]
            held = "none" if before is None else shown(row[3], before[i])
            out.append(printed(row, [name, held, shown(row[3], after[i])]))
    return "".join(out)


# ---------------------------------------------------------------- whose sheet it is

def shown_name(name):
    """A file's name as bytes, with a question mark for what would steer a terminal."""
    return bytes(63 if byte < 32 or byte == 127 else byte for byte in name)


def text_page(name, data, kind=JUNCTION):
    """The page of a text that can be read: its name and its title, and the worksheet."""
    title = titling(unmarked(data))[0]
    heading = kind.front + shown_name(name) + (b": " + title if title else b"")
    return heading + b"\n\n" + sheet_text(kind.fill(read_text(data, kind.judge)), kind).encode()


def site_page(name, sites, number, kind=JUNCTION):
    """The page of a site, counted from 1, and what is said of it: the worksheet, or why its entries are refused."""
    whose, answer = shown_name(name) + b", site %d" % number, kind.judge(sites[number - 1])
    said = b"" if answer == (0, 0) else refusal_text(*answer).encode() + b"\n"
    body = said or sheet_text(kind.fill(sites[number - 1]), kind).encode()
    return kind.front + whose + b" of %d\n\n" % len(sites) + body, whose + b": " + said if said else b""


def site_alone(name, sites, number, kind=JUNCTION):
    """What is printed and said of one site: nothing is printed where it is refused."""
    page, said = site_page(name, sites, number, kind)
    return b"" if said else page, said


# ---------------------------------------------------------------- the samples

AMENDMENTS = {
    "k1": "EBT volume 450",
    "k2": "EBL volume 140",
    "k3": "EB pedestrians 0",
    "k4": "NBT volume 300",
    "k7": "WBT volume 121",
    "k8": "WBT volume 120",
    "k9": "EBL volume 60",
    "k10": "EBL volume 59",
    "book1": "NBR volume 150",
    "book2": "EB free-right 1",
    "closed": "SB push-button 1",
    "button": "SB pedestrians 0",
    "gate": "NBL volume 91",
    "measured": "EBT lane-factor 0",
}

TITLES = {
    "k1": "K1: a left and a through lane on each approach",
    "k2": "K2: one shared lane on each approach",
    "k3": "K3: K1 with 60 people an hour and a pedestrian time of 40 s",
    "k4": "K4: K1 without vehicles",
    "k7": "K7: K1 with 120 vehicles through from the west bound side",
    "k8": "K8: K1 with 121 vehicles through from the west bound side",
    "k9": "K9: K1 with 59 lefts eastbound",
    "k10": "K10: K1 with 60 lefts eastbound",
    "book1": "The book's first example",
    "book2": "The book's second example",
    "closed": "A T junction: people cross at the closed leg, no button",
    "button": "A T junction: people cross at the closed leg, a button",
    "gate": "A bus gate of 1,000 an hour across the street of K1",
    "measured": "Lanes counted one by one: two through, and a shared one",
}


def samples():
    """(name, entries) of the fourteen junctions."""
    named = (junctions.k_junctions() + junctions.book_examples() + junctions.closed_legs() + junctions.street_gate()
             + junctions.measured_street())
    return list(zip(TITLES, (entries for _, entries in named)))


def put(outdir, name, text):
    with open(os.path.join(outdir, name), "w", newline="\n") as f:
        f.write(text)


def main(outdir):
    os.makedirs(outdir, exist_ok=True)
    for name, entries in samples():
        typed = brief_text(TITLES[name], entries)
        assert read_text(typed.encode()) == read_text(write_text(entries).encode()) == entries
        before = icu2003.fill(entries)
        after = list(before)
        group, kind, value = AMENDMENTS[name].split()
        answer = icu2003.amend(after, NAMED[group, kind], value_of(kind, value.encode()))
        put(outdir, name + ".txt", typed)
        put(outdir, name + ".full", write_text(entries))
        put(outdir, name + ".sheet", text_page(("samples/table/" + name + ".txt").encode(), typed.encode()).decode())
        put(outdir, name + ".amend", AMENDMENTS[name] + "\n")
        put(outdir, name + ".changes", change_text(before, after) if answer == (0, 0) else refusal_text(*answer) + "\n")


if __name__ == "__main__":
    if len(sys.argv) != 2:
        sys.exit("usage: table.py OUTDIR")
    main(sys.argv[1])
