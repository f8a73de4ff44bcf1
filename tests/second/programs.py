"""Runs the engineers' programs and compares what they print with the second calculation.

    python3 tests/second/programs.py PART

PART is one of: usage, samples, junctions, runs, typed, damaged, studies, amendments, convert, kept, diamond, office, point. Programs are
taken from target/bin and samples from samples/, under the project's root, where this is to be started. The last line counts what was
compared.
"""

import os
import random
import resource
import signal
import subprocess
import sys
import tempfile

sys.dont_write_bytecode = True  # leave no cache beside the sources

import diamonds
import icu2003
import junctions
import offices
import points
import table
from icu2003 import CYCLE, ENTRIES, PLACES, STORAGES, TRAVEL, approach_entry, in_range, movement_entry
from junctions import LANES, SHARED_LANE, VOLUME
from points import POINT
from studies import narrowed, old_file, old_study, put

BIN = os.path.abspath("target/bin")
SAMPLES = "samples/table"
DIAMONDS = "samples/diamond"
OFFICES = "samples/office"
POINTS = "samples/point"
NAMES = list(table.TITLES)
NAMED = dict(junctions.all_junctions())
MARK = b"\xef\xbb\xbf"  # a byte-order mark
CHANGES_MOST = 20


class Bench:
    """A folder to work in, the kind of sheet that is asked for there, and a count of what was compared."""

    def __init__(self, folder, seed, kind=table.JUNCTION):
        self.folder, self.rng, self.count, self.kind = folder, random.Random(seed), 0, kind

    def path(self, name):
        return os.path.join(self.folder, name)

    def put(self, name, data):
        with open(self.path(name), "wb") as f:
            f.write(data)
        return self.path(name)

    def get(self, name):
        with open(self.path(name), "rb") as f:
            return f.read()

    def same(self, what, got, wanted):
        self.count += 1
        if got != wanted:
            sys.exit("%s: got %r, wanted %r" % (what, got, wanted))

    def run(self, program, *words):
        """(standard output, standard error) of a program that must end well."""
        done = subprocess.run([os.path.join(BIN, program)] + list(words), capture_output=True, timeout=60)
        self.same("exit status of %s" % program, done.returncode, 0)
        return done.stdout, done.stderr

    def sheet(self, *words):
        """The same of icusheet, asked for this kind of sheet."""
        return self.run("icusheet", *option(self.kind), *words)

    def amend(self, *words):
        """The same of icuamend."""
        return self.run("icuamend", *option(self.kind), *words)

    def run_so(self, status, program, words, before=None, out=subprocess.PIPE, source=None):
        """(standard output, standard error) of a program that ends with this status, after a step of its own before it begins."""
        done = subprocess.run([os.path.join(BIN, program)] + list(words), stdin=source, stdout=out, stderr=subprocess.PIPE,
                              preexec_fn=before, cwd=self.folder, timeout=60)
        self.same("exit status of %s" % program, done.returncode, status)
        return done.stdout or b"", done.stderr

    def held(self):
        """Everything in the folder: each file's bytes, each link's text."""
        found = {}
        for name in os.listdir(self.folder):
            path = self.path(name)
            if os.path.islink(path):
                found[name] = os.readlink(path)
            elif os.path.isfile(path):
                found[name] = self.get(name)
            else:
                found[name] = None
        return found


# ---------------------------------------------------------------- what is expected

def option(kind):
    """The word in front that asks for a kind of sheet, if one is needed."""
    return ["--point"] if kind is POINT else []


def study_of(sites):
    """The bytes of a study file of these sites."""
    return icu2003.study_file(sites)


def all_pages(path, sites, kind=table.JUNCTION):
    """What icusheet prints and says of all sites of a study: pages that a form feed parts."""
    pages = [table.site_page(path.encode(), sites, number, kind) for number in range(1, len(sites) + 1)]
    return b"\f".join(page for page, _ in pages), b"".join(said for _, said in pages)


def typed_sheet(path, data, kind=table.JUNCTION):
    """What icusheet prints of a text."""
    if icu2003.study_check(data) == (0, 0):
        return b"", path.encode() + b": this is a study file: add a site, counted from 1, or all\n"
    said = table.said_of(data, kind.judge)
    if said:
        return b"", path.encode() + b": " + said.encode()
    return table.text_page(path.encode(), data, kind), b""


def pick(rng, entry):
    """A value in range; of a lane factor half the time the table's."""
    least, most = icu2003.limits(entry)
    if icu2003.is_lane_factor(entry) and rng.random() < 0.5:
        return icu2003.BY_TABLE
    return rng.choice((least, most, rng.randint(least, most), rng.randint(least, most)))


def likely(rng):
    """Entries that are mostly acceptable."""
    entries = list(table.USUAL)
    for entry in range(ENTRIES):
        if entry >= icu2003.OWN or entry % 6 in (LANES, VOLUME) or rng.random() < 0.3:
            entries[entry] = pick(rng, entry)
    for a in range(4):
        left, through = movement_entry(3 * a, LANES), movement_entry(3 * a + 1, LANES)
        if rng.random() < 0.9:
            entries[through] = max(1, entries[through])
            if entries[approach_entry(a, SHARED_LANE)]:
                entries[left] = 0
            else:
                entries[left] = max(1, entries[left])
    return entries


def likely_of(b):
    """Entries that are mostly acceptable for the kind of sheet: of a single point most shared lanes are taken away."""
    entries = likely(b.rng)
    for a in range(4):
        if b.kind is POINT and entries[approach_entry(a, SHARED_LANE)] and b.rng.random() < 0.9:
            entries[approach_entry(a, SHARED_LANE)] = 0
            entries[movement_entry(3 * a, LANES)] = max(1, entries[movement_entry(3 * a, LANES)])
    return entries


def of_before(entries):
    """The entries as a study of before holds them: the table's lane factor for each movement."""
    return icu2003.widened(narrowed(entries))


def typed_value(rng, kind, value):
    """A value in one of the ways in which it may be typed."""
    word, exact = str(value).zfill(rng.choice((1, 1, 1, 6))), table.value_text(kind, value)
    padded = "%0*d.%03d" % ((rng.choice((1, 4)),) + divmod(value, 1000))
    if kind in table.FACTORS:
        return rng.choice((exact, exact, padded))
    return rng.choice((exact, exact, padded + "s", word + "ms")) if kind in table.TIMES else word


def loosely(rng, entries):
    """A text of these entries in any order and layout, with comments."""
    parts = []
    for entry in rng.sample(range(ENTRIES), ENTRIES):
        group, kind = table.entry_name(entry).split()
        parts.append((group, kind, typed_value(rng, kind, entries[entry])))
    gaps = (" ", "\t", "\n", "\r\n", "  ", "# a comment, EBL lanes 9\n", " #\n", "\n\n")
    return "".join(rng.choice(gaps) + word for part in parts for word in part).encode() + rng.choice((b"", b"\n", b" # end"))


def named_value(entry, value):
    """An entry's two names and its value, as icuamend takes them."""
    group, kind = table.entry_name(entry).split()
    return [group, kind, table.value_text(kind, value)]


def one_change(entries, words, kind):
    """The entries after a change that three words ask for, and what is said of it if it is not made."""
    try:
        entry, value = table.change_of([table.word_taken(word) for word in words])
    except table.Wrong as wrong:
        return entries, wrong.args[0] + b": " + wrong.args[1].encode() + b"\n"
    changed = junctions.changed(entries, {entry: value})
    refusal = kind.judge(changed)
    return (changed, b"") if refusal == (0, 0) else (entries, table.refusal_text(*refusal).encode() + b"\n")


def sheet_before(entries, kind):
    """The sheet of the entries as they were, None where they are refused."""
    return kind.fill(entries) if kind.judge(entries) == (0, 0) else None


def several_changes(entries, words, kind=table.JUNCTION):
    """What icuamend prints and says of the changes in these words, the entries after them, and whether one was made."""
    changes, now, made, said = [words[i:i + 3] for i in range(0, len(words), 3)], entries, False, b""
    for number, change in enumerate(changes, 1):
        now, why = one_change(now, change, kind)
        made = made or not why
        if why:
            said += (b"change %d: " % number if len(changes) > 1 else b"") + why
    if not made:
        return (b"", said), entries, False
    return (table.change_text(sheet_before(entries, kind), kind.fill(now), kind).encode(), said), now, True


def damaged(rng, data):
    """A text with some bytes lost, added or changed, or cut short."""
    data = bytearray(data)
    for _ in range(rng.choice((1, 1, 1, 2, 5))):
        at = rng.randrange(len(data) + 1)
        way = rng.randrange(5)
        if way == 0:
            del data[at:at + rng.choice((1, 2, 10))]
        elif way == 1:
            data[at:at] = bytes([rng.choice(b"\0\n #9xE\xff.sm")])
        elif way == 2:
            data[at:at + 1] = bytes([rng.randrange(256)])
        elif way == 3:
            del data[at:]
        else:
            other = rng.randrange(len(data) + 1)
            data[at:at] = data[other:other + rng.randrange(30)]
    return bytes(data)


# ---------------------------------------------------------------- the parts

# What icuamend says of the words of a change.
SAID_OF_CHANGES = (
    (("EBQ", "volume", "1"), b"EBQ: no movement, no approach and not the junction has this name\n"),
    (("ebt", "volumes", "x"), b"ebt: no movement, no approach and not the junction has this name\n"),
    (("", "volume", "1"), b": no movement, no approach and not the junction has this name\n"),
    (("volume", "volume", "1"), b"volume: no movement, no approach and not the junction has this name\n"),
    (("EBT", "volumes", "1"), b"volumes: no entry has this name there\n"),
    (("EBT", "EBT", "1"), b"EBT: no entry has this name there\n"),
    (("junction", "volume", "1"), b"volume: no entry has this name there\n"),
    (("EB", "volume", "1"), b"volume: no entry has this name there\n"),
    (("EBT", "volume", "-1"), b"-1: a whole number without a unit is expected here\n"),
    (("EBT", "volume", ""), b": a whole number without a unit is expected here\n"),
    (("EBT", "volume", "0" * 5000), b": a whole number without a unit is expected here\n"),
    (("EBT", "volume", "4s"), b"4s: a whole number without a unit is expected here\n"),
    (("junction", "cycle", "120s"), b"120s: a whole number without a unit is expected here\n"),
    (("EBT", "lost-time", "4"), b"4: a time is written with its unit, as 4s, 4.5s or 4000ms\n"),
    (("EB", "pedestrian-time", "16000"), b"16000: a time is written with its unit, as 4s, 4.5s or 4000ms\n"),
    (("EBT", "lost-time", "20.001s"), b"R3: EBT lost-time is outside 0s to 20s\n"),
    (("EBT", "", "1"), b": no entry has this name there\n"),
    (("EBL", "storage", "20"), b"storage: no entry has this name there\n"),
    (("junction", "travel-time", "7s"), b"travel-time: no entry has this name there\n"),
    (("EBT", "lost-time", "4294968s"), b"4294968s: this number is too large\n"),
    (("EBT", "volume", "4294967296"), b"4294967296: this number is too large\n"),
    (("EBT", "lane-factor", "971"), b"R3: EBT lane-factor is outside 0 or 0.5 to 1\n"),
    (("SBR", "lane-factor", "0.499"), b"R3: SBR lane-factor is outside 0 or 0.5 to 1\n"),
    (("EBT", "lane-factor", "1.001"), b"R3: EBT lane-factor is outside 0 or 0.5 to 1\n"),
    (("EBT", "lane-factor", "0.001"), b"R3: EBT lane-factor is outside 0 or 0.5 to 1\n"),
    (("EBT", "lane-factor", "0.9710"), b"0.9710: a factor is written as 0.971 or 1, or as 0 for the table's\n"),
    (("EBT", "lane-factor", ".971"), b".971: a factor is written as 0.971 or 1, or as 0 for the table's\n"),
    (("EBT", "lane-factor", "table"), b"table: a factor is written as 0.971 or 1, or as 0 for the table's\n"),
    (("EBT", "lane-factor", "1s"), b"1s: a factor is written as 0.971 or 1, or as 0 for the table's\n"),
    (("EBT", "lane-factor", ""), b": a factor is written as 0.971 or 1, or as 0 for the table's\n"),
    (("EBT", "lane-factor", "4294967.296"), b"4294967.296: this number is too large\n"),
    (("EB", "lane-factor", "1"), b"lane-factor: no entry has this name there\n"),
)

# How icusheet, icuamend and icustudy are used.
SHEET_USE = (b"usage: icusheet TEXT         prints the worksheet of the junction in a text\n"
             b"       icusheet STUDY SITE   prints that of a site of a study file, sites from 1\n"
             b"       icusheet STUDY all    prints those of all its sites, a page each\n"
             b"       icusheet --point ..   with any of these: prints that of a single point interchange\n"
             b"       icusheet --help       prints this, and --version the version\n")
AMEND_USE = (b"usage: icuamend [--point] STUDY SITE NAME ENTRY VALUE [NAME ENTRY VALUE ..] [NEW]\n"
             b"  prints what changes on the sheet of a site, from 1, as in: icuamend STUDY 1 EBT volume 450\n"
             b"  --point: on the sheet of a single point interchange\n"
             b"  NAME: EBL EBT EBR .. SBR with lanes volume ideal-flow lost-time minimum-green lane-factor,\n"
             b"        EB WB NB SB with shared-lane pedestrians push-button pedestrian-time free-right,\n"
             b"        junction with cycle; at most 20 changes, one after the other\n"
             b"  NEW: the file that the changed study is written to\n")
STUDY_USE = (b"usage: icustudy make STUDY TEXT ...   makes a study file of the junctions in the texts\n"
             b"       icustudy show STUDY SITE       prints a site of a study file as text, sites from 1\n"
             b"       icustudy convert STUDY NEW     writes a study of before (ICUS) as one of today (ICUT)\n"
             b"       icustudy point                 prints a text to begin a single point interchange with\n")
VERSION = b"icu2003 3.1\n"

# Words that ask for nothing, and a word in front that asks for a single point's sheet does not change that.
NO_SHEET = ((), ("a", "1", "c"), ("a", "all", "all", "all"), ("--help",) * 3)
NO_CHANGE = ((), ("a",), ("a", "1", "EBT", "volume"), ("a", "1", "EBT", "volume", "1", "n", "o"), ("a", "1") + ("EBT", "volume", "1") * 21,
             ("a", "1") + ("EBT", "volume", "1") * 21 + ("n",), ("a", "1") + ("EBT", "volume", "1") * 400, ("--help", "a"), ("--version", "a"), ("-h",))
NO_JOB = ((), ("make",), ("make", "a"), ("show", "a"), ("mend", "a", "b"), ("show", "a", "1", "2"), ("convert",), ("convert", "a"),
          ("convert", "a", "b", "c"), ("Convert", "a", "b"), ("point", "x"), ("point", ""), ("point", "point"), ("point", "--help"), ("Point",),
          ("points",), ("--point",), ("point", "a", "b"), ("point", "a", "b", "c"), ("--help", "point"))


def usage(b):
    """Called with nothing or with a wrong word, each program says how it is used."""
    for program, use, calls in (("icusheet", SHEET_USE, NO_SHEET), ("icuamend", AMEND_USE, NO_CHANGE), ("icustudy", STUDY_USE, NO_JOB)):
        for words in calls:
            b.same("use of %s" % program, b.run(program, *words), (b"", use))
    b.same("the header's version", version(), VERSION)
    study = b.put("s.icut", study_of([junctions.K1]))
    for words, said in SAID_OF_CHANGES:
        b.same("said", b.run("icuamend", study, "1", *words), (b"", said))
        b.same("words", several_changes(junctions.K1, [word.encode() for word in words])[0], (b"", said))
    no_such_sites(b, study)
    for program, use in (("icusheet", SHEET_USE), ("icuamend", AMEND_USE), ("icustudy", STUDY_USE)):
        b.same("help", b.run(program, "--help"), (use, b""))
        b.same("version", b.run(program, "--version"), (VERSION, b""))
    for missing in ("nothing", ".", ""):
        b.same("missing", b.run("icusheet", missing), (b"", missing.encode() + b": cannot be read\n"))
    b.same("unwritable", b.run("icustudy", "make", ".", os.path.join(SAMPLES, "k1.txt")), (b"", b".: cannot be written\n"))


def no_such_sites(b, study):
    """Sites that a study lacks, a study of one site among them; and texts, which have none."""
    for word in ("0", "2", "x", "", "4294967296"):
        b.same("no site", b.run("icuamend", study, word, "EBQ", "volume", "1"), (b"", word.encode() + b": the study has 1 site\n"))
    b.same("no study", b.run("icuamend", "nothing", "1", "EBQ", "volume", "1"), (b"", b"nothing: cannot be read\n"))
    for word in ("0", "2", "x", "", "4294967296", "9" * 20, "ALL", "all "):
        for program in (("icusheet",), ("icustudy", "show")):
            b.same("site", b.run(*program, study, word), (b"", word.encode() + b": the study has 1 site\n"))
    for made in (study_of, old_study):
        for sites in (0, 3):
            path = b.put("some.icut", made([junctions.K1] * sites))
            b.same("no ninth", b.run("icusheet", path, "9"), (b"", b"9: the study has %d sites\n" % sites))
        b.same("none of none", b.run("icusheet", b.put("none.icut", made([])), "all"), (b"", b"all: the study has 0 sites\n"))
    text = os.path.join(SAMPLES, "k1.txt")
    for word in ("1", "all"):
        b.same("no study file", b.run("icusheet", text, word), (b"", text.encode() + b": R6: this is no study file\n"))


def samples(b):
    """The fourteen junctions: texts to a study and back, their sheets, and a change of each."""
    texts = [os.path.join(SAMPLES, name + ".txt") for name in NAMES]
    for folder in (SAMPLES, b.folder):
        table.main(b.folder)
        for name in NAMES:
            for kind in (".txt", ".full", ".sheet", ".amend", ".changes"):
                with open(os.path.join(folder, name + kind), "rb") as f:
                    b.same(name + kind, f.read(), b.get(name + kind))
    sites = [entries for _, entries in table.samples()]
    study = b.path("all.icut")
    b.same("make", b.run("icustudy", "make", study, *texts), (b"", b""))
    b.same("study", b.get("all.icut"), study_of(sites))
    for number, name in enumerate(NAMES, 1):
        b.same("typed " + name, b.run("icusheet", texts[number - 1]), (b.get(name + ".sheet"), b""))
        b.same("site " + name, b.run("icusheet", study, str(number)), table.site_alone(study.encode(), sites, number))
        b.same("text " + name, b.run("icustudy", "show", study, str(number)), (b.get(name + ".full"), b""))
        words = b.get(name + ".amend").decode().split()
        b.same("change " + name, b.run("icuamend", study, str(number), *words), (b.get(name + ".changes"), b""))
    b.same("all of them", b.run("icusheet", study, "all"), all_pages(study, sites))
    sample_study(b)


def sample_study(b):
    """The sample study, of before and of today: the last site is refused, a cycle of 29 s, and can be mended once it is converted."""
    read = {}
    for name in ("study.icus", "study.icut"):
        with open(os.path.join(os.path.dirname(SAMPLES), name), "rb") as f:
            read[name] = b.put(name, f.read())
        sites = icu2003.study_sites(b.get(name))
        b.same("a refused site", icu2003.judge(sites[10]), (3, CYCLE))
        b.same("all eleven", b.run("icusheet", read[name], "all"), all_pages(read[name], sites))
    mended = junctions.changed(sites[10], {CYCLE: 120})
    words, printed = ["11", "junction", "cycle", "120"], table.change_text(None, icu2003.fill(mended)).encode()
    b.same("on paper", b.run("icuamend", read["study.icus"], *words), (printed, b""))
    b.same("not before it is converted", b.run("icuamend", read["study.icus"], *words, b.path("mended.icut")),
           (b"", read["study.icus"].encode() + CONVERT_FIRST))
    b.same("converted", b.run("icustudy", "convert", read["study.icus"], b.path("mended.icut")), (b"", b""))
    b.same("as the sample", b.get("mended.icut"), b.get("study.icut"))
    b.same("mended", b.run("icuamend", b.path("mended.icut"), *words, b.path("mended.icut")), (printed, b""))
    b.same("mended study", b.get("mended.icut"), study_of(sites[:10] + [mended]))


def named(b, these=junctions.all_junctions()):
    """Every one that is named, acceptable or not."""
    sites = [entries for _, entries in these]
    study = b.put("named.icut", study_of(sites))
    for number, (name, _) in enumerate(these, 1):
        b.same("named: " + name, b.sheet(study, str(number)), table.site_alone(study.encode(), sites, number, b.kind))
    b.same("all of them", b.sheet(study, "all"), all_pages(study, sites, b.kind))


def correction(rng):
    """An entry and a value: mostly within the range, sometimes past an end."""
    entry = rng.randrange(ENTRIES)
    least, most = icu2003.limits(entry)
    roll = rng.random()
    if roll < 0.1:
        return entry, most + 1
    if roll < 0.15 and least > 0:
        return entry, least - 1
    if icu2003.is_lane_factor(entry) and roll < 0.3:
        return entry, rng.choice((icu2003.BY_TABLE, icu2003.BY_TABLE, 1))
    return entry, rng.choice((least, most, rng.randint(least, most), rng.randint(least, min(most, least + 200))))


def runs(b, these=junctions.all_junctions()):
    """Runs of changes, refused ones among them, each on the study that the last one left."""
    for _, entries in these:
        if b.kind.judge(entries) != (0, 0):
            mending(b, entries)
            continue
        study, sheet = b.put("run.icut", study_of([entries])), b.kind.fill(entries)
        for entry, value in [correction(b.rng) for _ in range(16)]:
            before = list(sheet)
            answer = b.kind.amend(sheet, entry, value)
            b.same("a fresh fill", sheet, b.kind.fill(sheet[:ENTRIES]))
            changed = table.change_text(before, sheet, b.kind).encode()
            wanted = (b"", (table.refusal_text(*answer) + "\n").encode()) if answer[0] else (changed, b"")
            b.same("run", b.amend(study, "1", *named_value(entry, value), study), wanted)
            b.same("run's study", b.get("run.icut"), study_of([sheet[:ENTRIES]]))


def mending(b, entries):
    """Changes of entries that are refused: each is judged as all entries would stand, until they can be filled."""
    study = b.put("mend.icut", study_of([entries]))
    usual = [(entry, table.USUAL[entry]) for entry in range(ENTRIES) if not in_range(entry, entries[entry])]
    usual += [(movement_entry(3 * a + 1, LANES), 2) for a in range(4)] + [(approach_entry(a, SHARED_LANE), 0) for a in range(4)]
    for entry, value in [correction(b.rng) for _ in range(4)] + usual:
        words = named_value(entry, value)
        wanted, after, made = several_changes(entries, [word.encode() for word in words], b.kind)
        b.same("mending", b.amend(study, "1", *words, study), wanted)
        entries = after
        b.same("mended", b.get("mend.icut"), study_of([entries]))


def any_title(rng):
    """A title at a text's front, mostly well written, past blanks and comments."""
    title = bytes(rng.choice(b"Elm and 3rd, #'\xc3\x9f\xff") for _ in range(rng.choice((0, 1, 2, 20, 59, 60, 61))))
    front = b"".join(rng.choice((b"", b" ", b"\n", b"# title \"x\"\n", b"\t#\r\n")) for _ in range(3))
    return front + b"title" + rng.choice((b" ", b" ", b" \n\t", b"")) + b'"' + title + rng.choice((b'"', b'"', b'"', b"", b'\x07"', b'\x7f"', b"\n"))


def typed(b):
    """Texts in any order and layout, with and without a title; and names that would steer a terminal."""
    for _ in range(150):
        data = (any_title(b.rng) if b.rng.random() < 0.5 else b"") + loosely(b.rng, likely_of(b))
        path = b.put("typed.txt", data)
        b.same("typed", b.sheet(path), typed_sheet(path, data, b.kind))
    sites = [junctions.K1, junctions.changed(junctions.K1, {CYCLE: 29})]
    for name in ("a\x1b[31mb.txt", "x\x7f", "new\nline", "Stra\xdfe", "a b", "a: b, site 3 of 3", "n" * 200):
        path = b.put(name, b'title "Elm"\n' + table.write_text(junctions.K1).encode())
        b.same("name", b.sheet(path), typed_sheet(path, b.get(name), b.kind))
        for study in (study_of(sites), old_study(sites)):
            b.put(name, study)
            b.same("name of a study", b.sheet(path, "all"), all_pages(path, sites, b.kind))


def unread(b, data):
    """A text, whatever its bytes: its sheet or what is wrong; and no study is made of it if anything is."""
    path, study = b.put("text.txt", data), b.path("made.icut")
    b.same("text", b.sheet(path), typed_sheet(path, data, b.kind))
    if os.path.exists(study):
        os.remove(study)
    # a study is made of junctions' texts, whatever the sheet is, and a study file is no text
    said = table.said_of(data, table.JUNCTION.judge)
    said = path.encode() + b": " + said.encode() if said else b""
    b.same("said of a study", b.run("icustudy", "make", study, os.path.join(SAMPLES, "k2.txt"), path), (b"", said))
    b.same("study made", os.path.exists(study), said == b"")


def damaged_texts(b):
    """Any bytes as text."""
    texts = [table.brief_text(table.TITLES[name], entries).encode() for name, entries in table.samples()]
    texts += [table.write_text(entries).encode() for _, entries in table.samples()]
    for _ in range(400):
        unread(b, damaged(b.rng, b.rng.choice(texts)))
    for data in (b"", b"\n", b"#", b"EBL", b"EBL lanes", b"EBL lanes ", b"lanes 1", b"EB lanes 1", b"EBL lanes 1 lanes 1",
                 b"junction cycle 29", b"junction cycle 4294967295", b"junction cycle 4294967296", b"EBL 1", b"ebl lanes 1",
                 b"EBL\0 lanes 1", b"EBL lanes 1,", b"junctions cycle 60", b"pedestrian-times 1",
                 b"EBL lost-time 4", b"EBL lost-time 4000", b"EBL lost-time 4.5s", b"EBL lost-time 4.5ms", b"EBL lost-time 4.1234s",
                 b"EBL lost-time 20.001s", b"EBL storage 20", b"junction travel-time 7s", b"storage 20",
                 b"EBL lane-factor", b"EBL lane-factor 0.971", b"EBL lane-factor 971", b"EBL lane-factor .9", b"EBL lane-factor 0.", b"EBL lane-factor 0.9710",
                 b"EBL lane-factor 0.5", b"EBL lane-factor 0.499", b"EBL lane-factor 1.000", b"EBL lane-factor 1.001", b"EBL lane-factor 00", b"lane-factor 1",
                 b"EBL lane-factor 0.9s", b"EBL lane-factor 4294967.295", b"EBL lane-factor 4294967.296", b"EBL lane-factor table", b"EB lane-factor 1",
                 b"EBL lane-factor 1 lane-factor 1", b"EBL lane-factors 1", b"EBL lane-factor 0.97 volume 5", b"SBR lanes 1\nlane-factor 0.001",
                 b"EBL lost-time 99999999999.5s", b"EB pedestrian-time 16", b"EBL volume 4s", b"junction cycle 120s", b"EBL lanes 99999999999",
                 b"Stra\xc3\x9fe", b"x" * 24, b"x" * 25, b"\x1b[31mEBL", b"\"EBL\"", b"EBL lanes 1\n  lane 2", b"EBL\tlanes\xc2\xa01",
                 b"title", b"title ", b'title "', b'title ""', b'title "x"', b'title "x"EBL lanes 1', b'title"x"', b"titles", b'title "x" title "y"',
                 b'EBL lanes 1 title "x"', b'# c\n \ttitle\r\n"x"# c', b'title "' + b"x" * 60 + b'"', b'title "' + b"x" * 61 + b'"', b"title 'x'",
                 b'title "a\nb"', b'title "a\x7fb"', b'title "\xff\xfe"', b'Title "x"', b'title "x\nEBL volume 5', b'title # a comment\n"Elm"',
                 b'title "Elm""',
                 b'title "\x1b[31m"', b'title "#"', b'#title "Elm"', b"junction title", b'title "Elm" EBL lanes', b'title "Elm"\njunction cycle 29',
                 b'title "Elm"\nEBL lane 1', b"tit", b'title \xc2\xa0"Elm"'):
        unread(b, data)
        unread(b, MARK + data)
        unread(b, MARK + MARK + data)
        unread(b, data + b"\n" + MARK)
    for size in (1, 10, 1000, 65535):
        unread(b, bytes(b.rng.randrange(256) for _ in range(size)))
        unread(b, b" " * size)
    for size in (65536, 200000):
        for front in (b"", MARK):
            unread(b, front + b"# " + b"x" * 70 + b"\n" + b" " * size)


def any_numbers(rng, size):
    """So many numbers, small and large."""
    return [rng.choice((0, 1, 2**32 - 1, rng.randrange(2**32), rng.randrange(3000), rng.randrange(490, 1010))) for _ in range(size)]


def any_sites(rng):
    """A study file of today or of before, of sites of any numbers, and the entries of its sites."""
    if rng.random() < 0.5:
        data = study_of([any_numbers(rng, ENTRIES) for _ in range(rng.randint(1, 3))])
    else:
        data = old_file([any_numbers(rng, icu2003.OLD_ENTRIES) for _ in range(rng.randint(1, 3))])
    return data, icu2003.study_sites(data)


def shown_sites(b):
    """Sites of any numbers as texts and back, of both kinds of study file."""
    for _ in range(80):
        data, sites = any_sites(b.rng)
        study = b.put("any.icut", data)
        for number, entries in enumerate(sites, 1):
            out, said = b.run("icustudy", "show", study, str(number))
            b.same("shown", (out, said), (table.write_text(entries).encode(), b""))
            b.same("read back", table.parse(out)[0], entries)
            b.same("sheet", b.sheet(study, str(number)), table.site_alone(study.encode(), sites, number, b.kind))
        b.same("sheets", b.sheet(study, "all"), all_pages(study, sites, b.kind))
        b.same("no text", b.sheet(study), typed_sheet(study, data, b.kind))


def damaged_studies(b):
    """Study files of both kinds with any damage."""
    sites = [likely_of(b) for _ in range(3)]
    wholes = (study_of(sites), old_study([of_before(entries) for entries in sites]))
    wholes += tuple(opening + data[4:] for opening, data in zip((b"ICUS", b"ICUT"), wholes))
    for turn in range(220):
        data = wholes[turn % 4]
        data = data if b.rng.random() < 0.1 else damaged(b.rng, data)
        path, answer = b.put("bad.icut", data), icu2003.study_check(data)
        if answer == (0, 0):
            sites = icu2003.study_sites(data)
            if sites:
                b.same("good study", b.sheet(path, "all"), all_pages(path, sites, b.kind))
        else:
            wanted = b"", path.encode() + b": " + table.refusal_text(*answer).encode() + b"\n"
            for word in ("1", "all"):
                b.same("bad study", b.sheet(path, word), wanted)
            b.same("bad study, shown", b.run("icustudy", "show", path, "1"), wanted)
            b.same("bad study, amended", b.amend(path, "1", *CHANGE), wanted)


def full_studies(b):
    """As many sites as each kind holds; and one text too many."""
    for most, made in ((165, study_of), (180, old_study)):
        full = [likely_of(b) if most == 165 else of_before(likely_of(b)) for _ in range(most)]
        study = b.put("full.icut", made(full))
        b.same("last of all", b.sheet(study, str(most)), table.site_alone(study.encode(), full, most, b.kind))
        b.same("all of them", b.sheet(study, "all"), all_pages(study, full, b.kind))
        b.same("one more", b.sheet(study, str(most + 1)), (b"", b"%d: the study has %d sites\n" % (most + 1, most)))
    k1 = os.path.join(SAMPLES, "k1.txt")
    b.same("165 texts", b.run("icustudy", "make", b.path("most.icut"), *[k1] * 165), (b"", b""))
    b.same("165 sites", b.get("most.icut"), study_of([junctions.K1] * 165))
    for more in (166, 180, 181):
        b.same("%d texts" % more, b.run("icustudy", "make", b.path("more.icut"), *[k1] * more), (b"", b"a study holds at most 165 junctions\n"))
    b.same("no file", os.path.exists(b.path("more.icut")), False)


def studies(b):
    """Study files of both kinds: sites of any numbers, any bytes, and as many sites as there may be."""
    for part in (shown_sites, damaged_studies, full_studies):
        part(b)


# What icuamend says where it is to write a study of before.
CONVERT_FIRST = b": a study of before (ICUS), which is not written any more: first icustudy convert it\n"


def amendments(b):
    """Changes of any entry to any value: what changes, and the changed study."""
    for _ in range(250):
        sites = [likely_of(b) for _ in range(b.rng.randint(1, 4))]
        site = b.rng.randrange(len(sites))
        entry = b.rng.choice((b.rng.randrange(ENTRIES), b.rng.randrange(ENTRIES), movement_entry(b.rng.randrange(12), icu2003.LANE_FACTOR)))
        value = pick(b.rng, entry) if b.rng.random() < 0.8 else b.rng.choice((b.rng.randrange(2**32), 1, 499, 1001))
        study, new = b.put("study.icut", study_of(sites)), b.path("new.icut")
        if os.path.exists(new):
            os.remove(new)
        words = [study, str(site + 1)] + named_value(entry, value) + [new]
        before = sheet_before(sites[site], b.kind)
        after = sites[site][:entry] + [value] + sites[site][entry + 1:]
        answer = b.kind.judge(after)
        if answer == (0, 0):
            sites[site] = after
            after = b.kind.fill(after)
            wanted = table.change_text(before, after, b.kind).encode(), b""
            amended = list(before or after)
            b.same("amended", (b.kind.amend(amended, entry, value), amended), ((0, 0), after))
        else:
            wanted = b"", (table.refusal_text(*answer) + "\n").encode()
        b.same("change", b.amend(*words), wanted)
        b.same("new study", os.path.exists(new), answer == (0, 0))
        if answer == (0, 0):
            b.same("new study's bytes", b.get("new.icut"), study_of(sites))
        b.same("old study", b.amend(*words[:-1]), wanted)
    together(b)
    of_a_study_before(b)


def of_a_study_before(b):
    """A study of before: its changes are printed, whatever they are; with a name to write to nothing is done."""
    b.put("there.icut", study_of([K2]))
    b.put("text.txt", table.write_text(K2).encode())
    for _ in range(60):
        sites = [of_before(likely_of(b)) for _ in range(b.rng.randint(1, 4))]
        site, words = b.rng.randrange(len(sites)), [word for _ in range(b.rng.choice((1, 1, 1, 2, 5))) for word in three_words(b.rng)]
        study = b.put("before.icus", old_study(sites))
        b.same("on paper", b.amend(study, str(site + 1), *words), several_changes(sites[site], words, b.kind)[0])
        was = b.held()
        for new in ("new.icut", "there.icut", "before.icus", "text.txt", "missing/new.icut", ""):
            said = study.encode() + CONVERT_FIRST
            b.same("not written", b.amend(study, str(site + 1), *words, new and b.path(new)), (b"", said))
            b.same("no such site", b.amend(study, "9", *words, new and b.path(new)), (b"", said))
        b.same("all stays", b.held(), was)


HOSTILE = (b"EBQ", b"", b"EBT", b"lanes", b"volume", b"-1", b"4s", b"0x10", b"\xff\xfe", b"EBT\n", b"%s%n", b"9" * 30, b"n" * 4096, b"n" * 4097,
           b"--help", b"change 1: ")


def three_words(rng):
    """A change as it is asked for: mostly an entry and a value of it, sometimes any words."""
    words = [word.encode() for word in named_value(*correction(rng))]
    for place in range(3):
        if rng.random() < 0.1:
            words[place] = rng.choice(HOSTILE)
    return words


def together(b):
    """Several changes in one call, refused ones and words that are none among them."""
    for count in list(range(1, CHANGES_MOST + 1)) * 4 + [CHANGES_MOST] * 20:
        entries = likely_of(b) if b.rng.random() < 0.8 else b.rng.choice(junctions.all_junctions())[1]
        words = [word for _ in range(count) for word in three_words(b.rng)]
        study, new = b.put("many.icut", study_of([entries, junctions.K1])), b.path("new.icut")
        if os.path.exists(new):
            os.remove(new)
        wanted, after, made = several_changes(entries, words, b.kind)
        b.same("several", b.amend(study, "1", *words), wanted)
        b.same("several kept", b.amend(study, "1", *words, new), wanted)
        b.same("several's study", os.path.exists(new), made)
        if made:
            b.same("several's bytes", b.get("new.icut"), study_of([after, junctions.K1]))
        b.same("as it was", b.get("many.icut"), study_of([entries, junctions.K1]))
        if made and wanted[1]:
            stays = study.encode() + b": stays as it was, since not all that was asked for was done: name a new file\n"
            b.same("not over a study", b.amend(study, "1", *words, study), (b"", wanted[1] + stays))
            b.same("stays", b.get("many.icut"), study_of([entries, junctions.K1]))
    # the longest that can be said
    study = b.put("long.icut", study_of([junctions.K1]))
    words = [b"EBT", b"n" * table.WORD_MOST, b"1"] * CHANGES_MOST
    wanted = several_changes(junctions.K1, words, b.kind)[0]
    b.same("longest", b.amend(study, "1", *words), wanted)


# What is said where a file or standard output is not written.
STAYS = b": there is such a file and it is no study file, so it stays as it is: name another\n"
UNWRITTEN = b": cannot be written\n"
IS_LINK = b": this is a symbolic link, which stays as it is: name its file\n"
NO_OUTPUT = b": standard output cannot be written\n"
K2 = table.samples()[1][1]
CHANGE = ["EBT", "volume", "450"]


def writers(b, new):
    """Each way in which a study is written to this name, after in.icut of K1 and K2 and the same study of before were made."""
    b.put("in.icut", study_of([junctions.K1, K2]))
    b.put("before.icus", old_study([junctions.K1, K2]))
    b.put("k2.txt", table.write_text(K2).encode())
    return ("icuamend", ["in.icut", "1"] + CHANGE + [new]), ("icustudy", ["convert", "before.icus", new]), ("icustudy", ["make", new, "k2.txt"])


def changed():
    """What icuamend prints of that change, and the study with it."""
    before = icu2003.fill(junctions.K1)
    after = list(before)
    assert icu2003.amend(after, table.NAMED[tuple(CHANGE[:2])], int(CHANGE[2])) == (0, 0)
    return table.change_text(before, after).encode(), study_of([after[:ENTRIES], K2])


def refused(b, new, sentence, status=0, **how):
    """Nothing is printed, one sentence is said, and everything in the folder stays."""
    for program, words in writers(b, new):
        was = b.held()
        b.same("refused " + new, b.run_so(status, program, words, **how), (b"", new.encode() + sentence))
        b.same("all stays", b.held(), was)


def targets(b):
    """What can stand where a study is to be written."""
    study, old = study_of([junctions.K1]), old_study([junctions.K1])
    for data in (table.write_text(junctions.K1).encode(), b"", b"ICUS", b"ICUT", study[:-1], study + b"\0", b"icut" + study[4:], study + study,
                 b"\0" * 70000, study + b" " * 70000, old[:-1], old + b"\0", b"ICUS" + study[4:], b"ICUT" + old[4:], old + study,
                 old_file([narrowed(junctions.K1)] * 181), icu2003.open_file([0] * PLACES, junctions.K1 * PLACES)):
        b.put("there", data)
        refused(b, "there", STAYS)
    for name, text in (("to-study", "in.icut"), ("to-text", "k2.txt"), ("to-nothing", "nowhere"), ("to-itself", "to-itself")):
        os.symlink(text, b.path(name))
        refused(b, name, IS_LINK)
    os.mkdir(b.path("folder"))
    os.mkfifo(b.path("pipe"))
    for name in ("folder", "folder/", ".", "pipe", "missing/new.icut", "k2.txt/new.icut", "/proc/x.icut", "", "n" * 250, "./" * 2042 + "new.icut"):
        refused(b, name, UNWRITTEN)
    refused(b, "/dev/null", STAYS)
    # the study's name forgotten: the first of three texts stays
    for name in ("oneway.txt", "tee.txt", "arterial.txt"):
        b.put(name, table.write_text(junctions.K1).encode())
    was = b.held()
    b.same("forgotten", b.run_so(0, "icustudy", ["make", "oneway.txt", "tee.txt", "arterial.txt"]), (b"", b"oneway.txt" + STAYS))
    b.same("all stays", b.held(), was)


def limited():
    """A file may have 100 bytes, and a write past them fails."""
    signal.signal(signal.SIGXFSZ, signal.SIG_IGN)
    resource.setrlimit(resource.RLIMIT_FSIZE, (100, 100))


def ended():
    """A file may have 100 bytes, and a write past them ends the program."""
    resource.setrlimit(resource.RLIMIT_FSIZE, (100, 100))


def writes(b):
    """Writes that are done, that fail and that are ended midway."""
    printed, study = changed()
    for new in ("in.icut", "new.icut", "before.icus"):
        refused(b, new, UNWRITTEN, before=limited)
    for program, words in writers(b, "in.icut"):
        was = b.held()
        b.same("ended", b.run_so(-signal.SIGXFSZ, program, words, before=ended)[0], b"")
        now = b.held()
        b.same("left beside", len(now.pop("in.icut.part0", b"")), 100)
        b.same("all else stays", now, was)
        os.remove(b.path("in.icut.part0"))
    for left in range(10):
        # files that were left beside stay; the next number is taken
        amend, words = writers(b, "in.icut")[0]
        was = b.held()
        b.same("in place", b.run_so(0, amend, words), (printed, b""))
        b.same("only the study", b.held(), dict(was, **{"in.icut": study}))
        b.same("rights", os.stat(b.path("in.icut")).st_mode & 0o777, 0o666 & ~umask())
        b.put("in.icut.part%d" % left, b"left")
    refused(b, "in.icut", UNWRITTEN)
    b.same("a new name", b.run_so(0, amend, words[:-1] + ["other.icut"]), (printed, b""))
    b.same("its study", b.get("other.icut"), study)
    over_studies(b, printed, study)


def over_studies(b, printed, amended):
    """Each writer over a good study of either kind, which it replaces; and studies of both kinds converted over themselves."""
    for there in (study_of([]), old_study([]), study_of([K2] * 165), old_study([K2] * 180)):
        for (program, words), out, written in zip(writers(b, "other.icut"), (printed, b"", b""),
                                                  (amended, study_of([junctions.K1, K2]), study_of([K2]))):
            b.put("other.icut", there)
            b.same("over a study", b.run_so(0, program, words), (out, b""))
            b.same("replaced", b.get("other.icut"), written)
    was = b.held()
    for name in ("before.icus", "other.icut"):
        b.same("over itself", b.run_so(0, "icustudy", ["convert", name, name]), (b"", b""))
        b.same("only the study", b.held(), dict(was, **{"before.icus": study_of([junctions.K1, K2])}))


def nobody():
    """Without the superuser's rights."""
    if os.geteuid() == 0:
        os.setuid(65534)


def protected(b):
    """A study that may not be written, in a folder in which files may be made: it stays."""
    writers(b, "in.icut")
    b.put("locked.icut", b.get("in.icut"))
    os.chmod(b.path("locked.icut"), 0o444)
    os.chmod(b.folder, 0o777)
    try:
        refused(b, "locked.icut", UNWRITTEN, before=nobody)
    except PermissionError:
        pass  # the superuser may write it, and nobody else can reach the programs


# ---------------------------------------------------------------- studies of before, converted

TOO_MANY = b": has more than 165 sites, which a study file holds at most: make two of its texts (icustudy show, make)\n"


def converting(name, data):
    """What icustudy convert says of a file of these bytes, None for one that cannot be read; and the file that it writes, if any."""
    if data is None:
        return name + b": cannot be read\n", None
    answer = icu2003.study_check(data)
    if answer != (0, 0):
        return name + b": " + table.refusal_text(*answer).encode() + b"\n", None
    sites = icu2003.study_sites(data)
    return (name + TOO_MANY, None) if len(sites) > 165 else (b"", study_of(sites))


def convert_is(b, what, data):
    """These bytes, converted to a new name and over a study of either kind: as expected, and all else stays."""
    b.put("source", data)
    said, written = converting(b"source", data)
    for there in (None, study_of([K2]), old_study([junctions.K1])):
        if os.path.exists(b.path("new.icut")):
            os.remove(b.path("new.icut"))
        if there is not None:
            b.put("new.icut", there)
        was = b.held()
        b.same("what is said, " + what, b.run_so(0, "icustudy", ["convert", "source", "new.icut"]), (b"", said))
        b.same("what is written, " + what, b.held(), was if written is None else dict(was, **{"new.icut": written}))


def convert_good(b):
    """Studies of both kinds: the same sites, and so the same texts, sheets and listing."""
    for made in (study_of, old_study):
        for count in (0, 1, 2, 164, 165):
            convert_is(b, "good", made([of_before(likely(b.rng)) for _ in range(count)]))
    for _ in range(30):
        convert_is(b, "any numbers", any_sites(b.rng)[0])
    b.put("old.icus", old_study([of_before(likely(b.rng)) for _ in range(3)] + [NAMED["cycle 29"]]))
    b.same("converted", b.run_so(0, "icustudy", ["convert", "old.icus", "new.icut"]), (b"", b""))
    for before, after in ((["iculist"], []), (["icusheet"], ["1"]), (["icusheet"], ["4"]), (["icustudy", "show"], ["4"]), (["icuamend"], ["2"] + CHANGE)):
        old, new = (b.run_so(0, before[0], before[1:] + [name] + after) for name in ("old.icus", "new.icut"))
        b.same("the same of both", [part.replace(b"old.icus", b"new.icut") for part in old], list(new))


def convert_bad(b):
    """Files that are none, damaged ones, and studies with more sites than a file of today holds."""
    two = [junctions.K1, K2]
    for data in (b"", b"I", b"ICU", b"ICUS", b"ICUT", b"ICUO" + study_of(two)[4:], table.write_text(K2).encode(), b"\0" * 70000,
                 study_of(two)[:-1], study_of(two) + b"\0", old_study(two)[:-1], old_study(two) + b"\0",
                 b"ICUT" + old_study(two)[4:], b"ICUS" + study_of(two)[4:], icu2003.open_file([0] * PLACES, junctions.K1 * PLACES),
                 old_file([narrowed(K2)] * 181), put(study_of([K2] * 165), 4, 166), study_of([K2] * 165) + b"\0" * 9000):
        convert_is(b, "bad", data)
    for count in (166, 167, 180):
        convert_is(b, "too many", old_study([of_before(likely(b.rng)) for _ in range(count)]))
    for turn in range(120):
        convert_is(b, "damaged", damaged(b.rng, (study_of(two), old_study(two))[turn % 2]))


def convert_words(b):
    """What cannot be read; what is wrong with the study is told before what stands in the way of the new one."""
    b.put("old.icus", old_study([K2]))
    b.put("text.txt", table.write_text(K2).encode())
    os.mkdir(b.path("folder"))
    os.symlink("old.icus", b.path("to-study"))
    was = b.held()
    for name in ("nothing", ".", "", "folder", "old.icus/x", "missing/old.icus", "n" * 5000):
        for new in ("new.icut", "text.txt", "to-study", "missing/new.icut"):
            said = (name if len(name) < 5000 else "").encode() + b": cannot be read\n"
            b.same("unread", b.run_so(0, "icustudy", ["convert", name, new]), (b"", said))
    for new in ("text.txt", "to-study", "missing/new.icut", ""):
        b.same("no study", b.run_so(0, "icustudy", ["convert", "text.txt", new]), (b"", b"text.txt: R6: this is no study file\n"))
    for new, said in (("text.txt", STAYS), ("to-study", IS_LINK), ("folder", UNWRITTEN), ("missing/new.icut", UNWRITTEN), ("", UNWRITTEN)):
        b.same("in the way", b.run_so(0, "icustudy", ["convert", "old.icus", new]), (b"", new.encode() + said))
    b.same("all stays", b.held(), was)
    b.same("read by a link", b.run_so(0, "icustudy", ["convert", "to-study", "new.icut"]), (b"", b""))
    b.same("its study", b.held(), dict(was, **{"new.icut": study_of([K2])}))


def convert(b):
    """icustudy convert: studies of before, of today, damaged ones and such with too many sites; what stands in the way is with `kept`."""
    each_apart(b, (convert_good, convert_bad, convert_words))


# ---------------------------------------------------------------- what asks for no work

def umask():
    mask = os.umask(0)
    os.umask(mask)
    return mask


def outputs(b):
    """Standard output that is full or closed: said by each program, and no file is written."""
    writers(b, "in.icut")
    for program, words in (("icusheet", ["k2.txt"]), ("icusheet", ["in.icut", "2"]), ("icuamend", ["in.icut", "1"] + CHANGE),
                           ("icuamend", ["in.icut", "1"] + CHANGE + ["in.icut"]), ("icuamend", ["in.icut", "1"] + CHANGE + ["fresh.icut"]),
                           ("icuamend", ["before.icus", "1"] + CHANGE), ("icustudy", ["show", "before.icus", "1"]),
                           ("icustudy", ["show", "in.icut", "1"]), ("icustudy", ["--help"]), ("iculist", ["in.icut"]), ("iculist", ["--version"])):
        was = b.held()
        with open("/dev/full", "wb") as full:
            b.same("full", b.run_so(0, program, words, out=full), (b"", program.encode() + NO_OUTPUT))
        b.same("closed", b.run_so(0, program, words, before=lambda: os.close(1), out=None), (b"", program.encode() + NO_OUTPUT))
        b.same("all stays", b.held(), was)
    # nothing to print: a study is made all the same
    for words, sites in ((["make", "made.icut", "k2.txt"], [K2]), (["convert", "before.icus", "made.icut"], [junctions.K1, K2])):
        b.same("made", b.run_so(0, "icustudy", words, before=lambda: os.close(1), out=None), (b"", b""))
        b.same("its study", b.get("made.icut"), study_of(sites))


def listed(b):
    """iculist of a file that is named, and of standard input."""
    usage_of = b"usage: iculist "
    bad = [junctions.changed(junctions.K1, {entry: value}) for entry, value in ((CYCLE, 29), (movement_entry(11, LANES), 7))]
    whole, before = study_of([junctions.K1, K2] + bad), old_study([junctions.K1, K2] + bad)
    full = old_study([K2] * 180), study_of([junctions.K1] * 165)
    for data in (whole, before, b"", b"ICUS", b"ICUT", b"ICU", b"\0" * 70000, b"ICUT" + before[4:], b"ICUS" + whole[4:], whole[:-1], before + b"\0",
                 *full, full[1] + b"\0", full[1] + b"\0" * 9000, old_file([narrowed(K2)] * 181)):
        path = b.put("listed.icut", data)
        wanted = icu2003.listing(data).encode(), b""
        b.same("named", b.run("iculist", path), wanted)
        with open(path, "rb") as source:
            b.same("standard input", b.run_so(0, "iculist", [], source=source), wanted)
    for name in ("nothing", ".", "", "listed.icut/x"):
        b.same("unread", b.run_so(0, "iculist", [name]), (b"", name.encode() + b": cannot be read\n"))
    b.same("no input", b.run_so(0, "iculist", [], before=lambda: os.close(0)), (b"", b"iculist: standard input cannot be read\n"))
    for words in (["listed.icut", "listed.icut"], ["--help", "--help"], ["a"] * 5):
        out, said = b.run_so(0, "iculist", words)
        b.same("usage", (out, said.startswith(usage_of)), (b"", True))


def wished(b):
    """What is asked for in place of work, printed and not said; not where there are other words beside it."""
    for program in ("icustudy", "iculist"):
        _, told = b.run_so(0, program, ["a", "b"])
        b.same("help", b.run(program, "--help"), (told, b""))
        b.same("version", b.run(program, "--version"), (version(), b""))
        for words in (["--help", "x"], ["--version", "--help"], ["x", "--version"]):
            b.same("no wish", b.run_so(0, program, words), (b"", told))


def version():
    """The header's version, as a program prints it."""
    with open("include/icu.h") as f:
        return ("icu2003 %s\n" % f.read().split('#define ICU2003_VERSION "')[1].split('"')[0]).encode()


def each_apart(b, parts, kind=table.JUNCTION):
    """Each part in a folder of its own."""
    for part in parts:
        with tempfile.TemporaryDirectory(dir=b.folder) as folder:
            bench = Bench(folder, part.__name__, kind)
            part(bench)
            b.count += bench.count


def kept(b):
    """At the table nothing is lost: files in the way, writes and output that fail; and the two programs that read or tell besides."""
    each_apart(b, (targets, writes, protected, outputs, listed, wished))


# ---------------------------------------------------------------- diamond interchanges

DIAMOND_USE = (b"usage: icudiamond WEST EAST WBL EBL EASTBOUND WESTBOUND TRAVEL\n"
               b"                             prints the worksheet of a diamond interchange: the texts of its west and its east\n"
               b"                             junction; the vehicles that find room for WB left, for EB left and on the road\n"
               b"                             between, eastbound and westbound; and the time from one to the other, as 7.1s\n"
               b"       icudiamond --help     prints this, and --version the version\n")
DIAMOND_KINDS = ("storage",) * 4 + ("travel-time",)


def diamond_run(words, files):
    """What icudiamond prints and says of its seven words; files holds what is in the two that are named first."""
    words, numbers = [table.word_taken(word) for word in words], []
    for name, data in zip(words, files):
        said = table.said_of_junction(data)
        if said:
            return b"", name + b": " + said
    for word, kind in zip(words[2:], DIAMOND_KINDS):
        try:
            numbers.append(table.value_of(kind, word))
        except table.Wrong as wrong:
            return b"", word + b": " + wrong.args[1].encode() + b"\n"
    record = diamonds.record(table.read_text(files[0]), table.read_text(files[1]), numbers[:4], numbers[4])
    number, place = icu2003.judge_diamond(record)
    if number == 3:
        return b"", words[1] + b": R3: the cycle is not that of the west junction\n"
    if number:
        return b"", words[2 + place - icu2003.STORAGES] + b": " + table.refusal_text(number, place).encode() + b"\n"
    return diamonds.page((words[0], files[0]), (words[1], files[1]), record), b""


def diamond_is(b, what, words, files):
    """Two files beside each other and the words after their names: as expected."""
    paths = [b.put(name, data) if data is not None else b.path("missing") for name, data in zip(("west.txt", "east.txt"), files)]
    named = [path.encode() for path in paths] + list(words)
    b.same(what, b.run("icudiamond", *named), diamond_run(named, files))


def diamond_words(record):
    return [word.encode() for word in diamonds.words_of(record)]


def diamond_usage(b):
    """Any other number of words than seven; help and version; and an output that is full or closed."""
    for count in (0, 1, 2, 3, 4, 5, 6, 8, 9, 100):
        b.same("usage", b.run("icudiamond", *["1"] * count), (b"", DIAMOND_USE))
    for words in (["--help", "x"], ["--version", "--help"], ["-h"], ["--help"] * 6, ["x"] * 7 + ["--help"]):
        b.same("usage", b.run("icudiamond", *words), (b"", DIAMOND_USE))
    b.same("help", b.run("icudiamond", "--help"), (DIAMOND_USE, b""))
    b.same("version", b.run("icudiamond", "--version"), (version(), b""))
    b.same("seven wishes", b.run("icudiamond", *["--help"] * 7), (b"", b"--help: cannot be read\n"))
    b.put("k1.txt", table.write_text(junctions.K1).encode())
    for words in (["k1.txt", "k1.txt", "9", "9", "9", "9", "7s"], ["--help"], ["--version"]):
        was = b.held()
        with open("/dev/full", "wb") as full:
            b.same("full", b.run_so(0, "icudiamond", words, out=full), (b"", b"icudiamond" + NO_OUTPUT))
        b.same("closed", b.run_so(0, "icudiamond", words, before=lambda: os.close(1), out=None), (b"", b"icudiamond" + NO_OUTPUT))
        b.same("all stays", b.held(), was)


def diamond_samples(b):
    """The samples as they are called by name, and every named interchange."""
    diamonds.main(b.folder)
    for name, _, _ in diamonds.SAMPLES:
        for kind in ("-west.txt", "-east.txt", ".words", ".page"):
            with open(os.path.join(DIAMONDS, name + kind), "rb") as f:
                b.same(name + kind, f.read(), b.get(name + kind))
        texts = [os.path.join(DIAMONDS, name + way) for way in ("-west.txt", "-east.txt")]
        b.same(name, b.run("icudiamond", *texts, *b.get(name + ".words").decode().split()), (b.get(name + ".page"), b""))
    for name, record in diamonds.all_diamonds():
        if len(record) == icu2003.RECORD:
            diamond_is(b, name, diamond_words(record), [table.write_text(entries).encode() for entries in icu2003.halves(record)])


def fair(rng):
    """Entries that are acceptable, once in ten times perhaps not."""
    entries = likely(rng)
    while icu2003.judge(entries) != (0, 0) and rng.random() < 0.9:
        entries = likely(rng)
    return entries


def likely_diamond(rng):
    """A record that is mostly acceptable."""
    west, east = fair(rng), fair(rng)
    if rng.random() < 0.9:
        east[CYCLE] = west[CYCLE]
    storages = [rng.choice((1, 999, rng.randint(1, 999), rng.randint(1, 60))) for _ in range(4)]
    record = diamonds.record(west, east, storages, rng.choice((0, 60000, rng.randint(0, 60000), rng.randint(0, 20000))))
    if rng.random() < 0.2:
        record[rng.randrange(STORAGES, TRAVEL + 1)] = rng.choice((0, 1000, 60001, 2**32 - 1, 999, 60000))
    return record


def diamond_typed(b):
    """Texts in any layout with any title, words in each way they may be typed; names that would steer a terminal; the same file twice."""
    for _ in range(150):
        record = likely_diamond(b.rng)
        files = [(any_title(b.rng) if b.rng.random() < 0.3 else b"") + loosely(b.rng, entries) for entries in icu2003.halves(record)]
        words = [typed_value(b.rng, kind, value).encode() for kind, value in zip(DIAMOND_KINDS, record[STORAGES:])]
        diamond_is(b, "typed", words, files)
    text = b'title "Elm"\n' + table.write_text(junctions.K1).encode()
    for name in ("a\x1b[31mb.txt", "x\x7f", "new\nline", "Stra\xdfe", "a b", "east: b", "n" * 200):
        named = [b.put(name, text).encode()] * 2 + [b"9", b"9", b"9", b"9", b"0s"]
        b.same("name", b.run("icudiamond", *named), diamond_run(named, [text] * 2))
        named[5] = b"0"
        b.same("name and no storage", b.run("icudiamond", *named), diamond_run(named, [text] * 2))


def diamond_wrong_words(b):
    """Words that are no storage or no travel time, one or several of them, beside refused numbers and another cycle."""
    good = [table.write_text(entries).encode() for entries in icu2003.halves(diamonds.book())]
    other = [good[0], good[1].replace(b"cycle 120", b"cycle 121")]
    hostile = HOSTILE + (b"0", b"1", b"999", b"1000", b"4294967295", b"4294967296", b"0s", b"60s", b"60.001s", b"60000ms", b"60001ms", b"7.1",
                         b"4294967.295s", b"4294967.296s", b"19.4", b"007", b"0007.100s", b" 7s", b"7s ", b"0" * 5000)
    usual = [b"19", b"19", b"26", b"26", b"7.1s"]
    for place in range(5):
        for word in hostile:
            diamond_is(b, "word", usual[:place] + [word] + usual[place + 1:], good)
    for _ in range(120):
        words = [b.rng.choice(hostile) if b.rng.random() < 0.4 else word for word in usual]
        diamond_is(b, "words", words, b.rng.choice((good, other)))


def diamond_wrong_files(b):
    """Damaged texts, study files, any bytes and nothing, in one place or both; the first of them is spoken of."""
    good = [table.brief_text("Book", entries).encode() for entries in icu2003.halves(diamonds.book())]
    bad = [b"", None, study_of([]), study_of([junctions.K1, K2]), study_of([junctions.K1])[:-1], MARK + good[0], b"x" * 66000, b" " * 65536,
           old_study([]), old_study([junctions.K1, K2]), b"ICUT" + old_study([K2])[4:], b"EBT lane-factor 0.4", b"EBT lane-factor 2s",
           b"junction cycle 29", b"EBL volume 5", b"EBT lanes 1\nEBL volume 5\nEB shared-lane 1 ", b"EB shared-lane 1", good[0] + b"lanes", b"title x",
           b" " * 200000, bytes(range(256))]
    words = [b"19", b"19", b"26", b"26", b"7.1s"]
    for data in bad:
        for files in ([data, good[1]], [good[0], data], [data, data], [data, b"?"], [b"?", data]):
            diamond_is(b, "file", words, files)
            diamond_is(b, "file and words", [b"x"] * 5, files)
    for _ in range(250):
        files = [damaged(b.rng, data) if b.rng.random() < 0.7 else data for data in good]
        diamond_is(b, "damaged", words if b.rng.random() < 0.8 else [b"0", b"1000", b"1", b"1", b"61s"], files)
    west = b.put("west.txt", good[0]).encode()
    for name in (b"nothing", b".", b"", west + b"/x", b"n" * 5000):
        for named in ([name, west], [west, name], [name, name]):
            files = [good[0] if path == west else None for path in named]
            b.same("unread", b.run("icudiamond", *named, *words), diamond_run(named + words, files))


def diamond(b):
    """icudiamond: its pages, and all that it says."""
    for part in (diamond_usage, diamond_samples, diamond_typed, diamond_wrong_words, diamond_wrong_files):
        part(b)


# ---------------------------------------------------------------- offices in an open study

# Where not even the lock can be made.
NOWHERE = ("missing/new.icuo", "k1.txt/new.icuo", "/proc/new.icuo", "n" * 251, "./" * 2043 + "new.icuo")
STRANGE_NUMBERS = (b"0", b"00", b"", b"x", b"-1", b"+1", b" 1", b"1 ", b"1.0", b"1s", b"0x1", b"1\n", b"1,2", b"one", b"\xff", b"\xd9\xa1", b"--help",
                   b"4294967296", b"18446744073709551617", b"9" * 30, b"n" * 4096, b"0" * 4097, b"0" * 5000 + b"1")


def stood_at(b, name, **how):
    """What stands in the folder where a study is named."""
    path = b.path(name)
    data = b.get(name) if os.path.isfile(path) else None
    closed = data is None and os.path.lexists(path)
    found = {"data": data, "link": os.path.islink(path), "closed": closed, "locked": os.path.lexists(path + ".lock")}
    return offices.Stood(**{**found, **how})


def differing(got, wanted):
    """Where two files differ, number by number; of files of unlike lengths, the lengths."""
    if got == wanted:
        return []
    if got is None or wanted is None or len(got) != len(wanted):
        return [data if data is None else len(data) for data in (got, wanted)]
    return [(at, got[at:at + 4], wanted[at:at + 4]) for at in range(0, len(got), 4) if got[at:at + 4] != wanted[at:at + 4]]


def all_stays(b, was, now=None):
    """The names of what is no longer as it was in the folder: none."""
    now = b.held() if now is None else now
    b.same("all stays", sorted(name for name in now.keys() | was.keys() if (name in now, now.get(name)) != (name in was, was.get(name))), [])


def text_at(b, words):
    """What is in the file that the last of four words names."""
    name = os.fsdecode(words[-1])
    return b.get(name) if len(words) == 4 and os.path.isfile(b.path(name)) else None


def office_is(b, what, words, **how):
    """A call in the folder: it prints and says what is expected, writes the study that is, and leaves all else as it was."""
    words = [word if isinstance(word, bytes) else word.encode() for word in words]
    name, was = table.word_taken(words[0]).decode(), b.held()
    out, said, written = offices.run(words, stood_at(b, name, **how), text_at(b, words))
    b.same("%s %r" % (what, words[1:]), b.run_so(0, "icuoffice", words), (out, said))
    now = b.held()
    before = was.pop(name, None)
    b.same("study after %s %r" % (what, words[1:]), differing(now.pop(name, None), before if written is None else written), [])
    all_stays(b, was, now)


def put_texts(b):
    """Two texts to add; a study to add them to."""
    for name in ("k1", "k2"):
        b.put(name + ".txt", offices.sample_text(name))
    b.put("s.icuo", icu2003.open_file(*offices.any_study(b.rng, (1, 2), [junctions.K1, K2])))


def fresh_study(b, sites=()):
    """A study s.icuo of these (office, entries)."""
    owners, blocks = [0] * PLACES, [0] * ENTRIES * PLACES
    for office, entries in sites:
        assert icu2003.open_add(owners, blocks, office, entries)[0] == (0, 0)
    b.put("s.icuo", icu2003.open_file(owners, blocks))


def office_usage(b):
    """Words that ask for nothing; help and version, also beside a lock that stands; and names that look like them."""
    put_texts(b)
    b.put("s.icuo.lock", b"")
    for words in ([], ["s.icuo"], ["new"], ["-h"], ["s.icuo", "New"], ["s.icuo", "1"], ["s.icuo", "1", "add"], ["s.icuo", "1", "read"],
                  ["s.icuo", "1", "new", "1"], ["s.icuo", "add", "1", "k1.txt"], ["s.icuo", "1", "amend", "1"], ["s.icuo", "1", "list", "1"],
                  ["s.icuo", "1", "add", "k1.txt", "k2.txt"], ["s.icuo", "1", "read", "1", "2"], ["s.icuo", "1", "amend", "1", "EBT"],
                  ["s.icuo", "1", "amend", "1", "EBT", "volume"], ["s.icuo", "1", "amend", "1", "EBT", "volume", "1", "2"],
                  ["s.icuo", "1", "add", "1", "EBT", "volume", "1"], ["s.icuo", "1", "read", "1", "EBT", "volume", "1"], ["s.icuo"] * 100,
                  ["--help", "x"], ["--version", "--help"], ["--help"] * 4, ["--help"] * 7, ["s.icuo", "new" + " " * 5000], ["new", "s.icuo"]):
        b.same("usage", b.run_so(0, "icuoffice", words), (b"", offices.USE))
        b.same("no job", offices.run([word.encode() for word in words], offices.Stood())[1], offices.USE)
    b.same("help", b.run_so(0, "icuoffice", ["--help"]), (offices.USE, b""))
    b.same("version", b.run_so(0, "icuoffice", ["--version"]), (version(), b""))
    for words in (["--help", "new"], ["--version", "new"], ["--help", "1", "add", "k1.txt"], ["--help", "1", "read", "1"],
                  ["--help", "1", "amend", "1", "EBL", "volume", "140"]):
        office_is(b, "a study by that name", words)


def office_samples(b):
    """The sample as the repository holds it, and its calls one after the other."""
    made = b.path("made")
    offices.main(made)
    names = sorted(os.listdir(made))
    b.same("files of the sample", sorted(os.listdir(OFFICES)), names)
    for name in names:
        with open(os.path.join(OFFICES, name), "rb") as f:
            b.same(name, f.read(), b.get(os.path.join("made", name)))
    os.makedirs(b.path(SAMPLES))
    for name in offices.TEXTS:
        with open(os.path.join(SAMPLES, name + ".txt"), "rb") as f:
            b.put(os.path.join(SAMPLES, name + ".txt"), f.read())
    for name, words, out, said, study in offices.sample_calls():
        b.same(name, b.run_so(0, "icuoffice", words), (out, said))
        b.same("study after " + name, differing(b.get(offices.STUDY), study), [])


def office_new(b):
    """What can stand where a study is to be made, or worked on."""
    put_texts(b)
    for name in ("fresh.icuo", "a b", "Stra\xdfe", "n" * 250, "x\x1b[31m", "new\nline", "--help"):
        office_is(b, "new", [name, "new"])
        b.same("rights", os.stat(b.path(name)).st_mode & 0o777, 0o666 & ~umask())
        office_is(b, "first add", [name, "1", "add", "k1.txt"])
        office_is(b, "first read", [name, "1", "read", "1"])
        b.same("rights", os.stat(b.path(name)).st_mode & 0o777, 0o666 & ~umask())
    for name, data in (("there", b""), ("text", b.get("k1.txt")), ("good", b.get("s.icuo"))):
        b.put(name, data)
    for name, text in (("to-study", "s.icuo"), ("to-text", "k1.txt"), ("to-nothing", "nowhere"), ("to-itself", "to-itself")):
        os.symlink(text, b.path(name))
    os.mkdir(b.path("folder"))
    os.mkfifo(b.path("pipe"))
    for name in ("there", "text", "good", "to-study", "to-text", "to-nothing", "to-itself", "folder", "folder/", ".", "pipe", "", "n" * 4097,
                 "missing") + NOWHERE:
        # no file, and so no lock, has a name of no bytes; a word that is too long is taken as one
        how = {"lockable": False} if name in NOWHERE + ("", "n" * 4097) else {}
        if name != "missing":
            office_is(b, "no new", [name, "new"], **how)
        for words in (["1", "add", "k1.txt"], ["0", "add", "k1.txt"], ["1", "add", "nothing"], ["2", "amend", "1", "EBL", "volume", "90"],
                      ["x", "amend", "1", "EBQ", "volume", "90"]):
            office_is(b, "changed where it cannot be", [name] + words, **how)
        if name != "pipe":
            office_is(b, "read", [name, "1", "read", "1"], **how)
            office_is(b, "read by none", [name, "0", "read", "1"], **how)
    b.same("nothing left", os.listdir(b.path("folder")), [])


def site_word(rng, owners, office):
    """A site as it is typed: mostly one of the office's own, else any, or a word that is none."""
    own = [place for place, owner in enumerate(owners) if owner == office]
    if own and rng.random() < 0.75:
        return b"%d" % (rng.choice(own) + 1)
    return rng.choice((b"%d" % rng.randint(1, 165), b"0", b"166", b"180", b"4294967295", b"%03d" % rng.randint(1, 165), rng.choice(STRANGE_NUMBERS)))


def office_step(b, office):
    """One call of an office, whatever it asks for."""
    rng, word = b.rng, b"%d" % office
    owners = icu2003.open_lists(b.get("s.icuo"))[0]
    job = rng.choice(("add", "add", "amend", "amend", "amend", "read", "read"))
    if job == "add":
        text = loosely(rng, fair(rng)) if rng.random() < 0.8 else offices.sample_text("k2")
        b.put("t.txt", damaged(rng, text) if rng.random() < 0.15 else text)
        office_is(b, "add", ["s.icuo", word, job, "t.txt"])
    else:
        site = site_word(rng, owners, office)
        office_is(b, job, ["s.icuo", word, job, site] + (three_words(rng) if job == "amend" else []))


def office_runs(b):
    """Three offices by turns, in studies of any history: after each call every number of the study is as it should be."""
    for history in range(14):
        numbers = [1, 2, 3] if history % 2 else [b.rng.randrange(1, 2**32), 2**32 - 1, 165]
        blocks = [fair(b.rng) for _ in range(3)] + [junctions.K1, likely(b.rng), [0] * ENTRIES, [b.rng.randrange(2**32) for _ in range(ENTRIES)]]
        if history < 4:
            fresh_study(b)
        else:
            b.put("s.icuo", icu2003.open_file(*offices.any_study(b.rng, numbers, blocks)))
        for _ in range(45):
            office_step(b, b.rng.choice(numbers))


def office_full(b):
    """The last free places, and none: a bad text is told of before a full study."""
    put_texts(b)
    owners, blocks = [7] * PLACES, junctions.K1 * PLACES
    for free in ([0], [164], [17, 163], []):
        b.put("s.icuo", icu2003.open_file([0 if place in free else owner for place, owner in enumerate(owners)], blocks))
        b.put("bad.txt", b"junction cycle 29")
        for text in ("bad.txt", "k2.txt", "k1.txt", "nothing", "bad.txt", "k1.txt"):
            office_is(b, "nearly full", ["s.icuo", "4294967295", "add", text])
        for site in (b"1", b"18", b"164", b"165", b"166"):
            office_is(b, "what was added", ["s.icuo", "4294967295", "read", site])


def office_studies(b):
    """Files that are no open study, and studies of any numbers."""
    put_texts(b)
    whole = icu2003.open_file([1, 0, 2] + [0] * 162, junctions.K1 * PLACES)
    before = icu2003.open_file([1, 0, 2] + [0] * 177, narrowed(junctions.K1) * 180)
    for data in (b"", b"ICUO", whole[:-1], whole + b"\0", whole[:4], b"ICUT" + whole[4:], b"icuo" + whole[4:], MARK + whole, whole[4:], whole * 2,
                 study_of([junctions.K1]), study_of([junctions.K1] * 165), old_study([junctions.K1] * 180), before,
                 b"\0" * len(whole), b.get("k1.txt"), b"x" * 200000):
        b.put("s.icuo", data)
        for words in (["1", "add", "k1.txt"], ["1", "add", "nothing"], ["1", "amend", "1", "EBL", "volume", "90"], ["1", "read", "1"], ["0", "read", "1"]):
            office_is(b, "no open study", ["s.icuo"] + words)
    for _ in range(60):
        data = bytearray(whole)
        for _ in range(b.rng.choice((1, 1, 3))):
            at = b.rng.choice((0, 4 * b.rng.randrange(1, 4), 4 + 4 * PLACES + 4 * b.rng.randrange(ENTRIES), b.rng.randrange(len(data) - 4)))
            data[at:at + 4] = b.rng.choice((0, 1, 2, 7, 2**32 - 1, b.rng.randrange(2**32), b.rng.randrange(300))).to_bytes(4, "little")
        b.put("s.icuo", bytes(data))
        for words in (["1", "read", "1"], ["2", "read", "3"], ["1", "amend", "1", "EBT", "volume", "450"], ["2", "add", "k2.txt"], ["2", "read", "2"]):
            office_is(b, "any numbers", ["s.icuo"] + words)


def office_words(b):
    """Words that are no office's number, no site and no change, alone and together; the first of them in order is spoken of."""
    put_texts(b)
    fresh_study(b, [(1, junctions.K1), (2, K2)])
    change = ["EBT", "volume", "450"]
    for word in STRANGE_NUMBERS + (b"1", b"01", b"4294967295"):
        for rest in (["add", "nothing"], ["read", "1"], ["amend", "1"] + change, ["amend", "2", "EBQ", "volumes", "x"]):
            office_is(b, "office", ["s.icuo", word] + rest)
    for word in STRANGE_NUMBERS + (b"1", b"2", b"3", b"001", b"165", b"166", b"180", b"4294967295", b"all"):
        for rest in (["read", word], ["amend", word] + change, ["amend", word, "EBQ", "volume", "1"], ["amend", word, "EBT", "lanes", "0"]):
            office_is(b, "site", ["s.icuo", "1"] + rest)
    for words, _ in SAID_OF_CHANGES:
        for site in ("1", "2", "0"):
            office_is(b, "change", ["s.icuo", "1", "amend", site] + list(words))
    for _ in range(60):
        office_is(b, "changes", ["s.icuo", "1", "amend", b.rng.choice(("1", "1", "2"))] + three_words(b.rng))


def office_texts(b):
    """Texts that are none, also the study itself and files of studies."""
    put_texts(b)
    fresh_study(b)
    texts = [table.write_text(junctions.K1).encode(), offices.sample_text("k2")]
    for data in (b"", study_of([]), study_of([junctions.K1, K2]), study_of([K2])[:-1], MARK + texts[1], b"x" * 66000, b" " * 65536, b" " * 200000,
                 old_study([]), old_study([junctions.K1, K2]), b"EBT lanes 2 lane-factor 0.87", b"EBT lane-factor 0.4", b"EBT lane-factor 1s",
                 b"junction cycle 29", b"EBL volume 5", b"EB shared-lane 1", texts[0] + b"lanes", b"title x", bytes(range(256))):
        b.put("t.txt", data)
        for study in ("s.icuo", "k1.txt"):
            office_is(b, "text", [study, "1", "add", "t.txt"])
    for name in ("nothing", ".", "", "k1.txt/x", "s.icuo", "n" * 5000):
        office_is(b, "no text", ["s.icuo", "2", "add", name])
    for _ in range(80):
        b.put("t.txt", damaged(b.rng, b.rng.choice(texts)))
        office_is(b, "damaged text", ["s.icuo", "3", "add", "t.txt"])


CHANGING = (["new.icuo", "new"], ["s.icuo", "1", "add", "k2.txt"], ["s.icuo", "1", "amend", "1", "EBL", "volume", "90"], ["s.icuo", "new"],
            ["s.icuo", "0", "add", "nothing"], ["s.icuo", "2", "amend", "1", "EBQ", "volume", "90"], ["nothing.icuo", "1", "add", "k2.txt"])


def office_locks(b):
    """A lock that stands in the way, whatever it is; reads go on beside it."""
    put_texts(b)
    fresh_study(b, [(1, junctions.K1)])
    locks = [b.path(name + ".lock") for name in ("s.icuo", "new.icuo", "nothing.icuo")]
    for make, remove in ((os.mknod, os.remove), (os.mkfifo, os.remove), (os.mkdir, os.rmdir), (lambda lock: os.symlink("nowhere", lock), os.remove),
                         (lambda lock: os.symlink("k1.txt", lock), os.remove)):
        for lock in locks:
            make(lock)
        for words in CHANGING:
            office_is(b, "locked", words)
        office_is(b, "read", ["s.icuo", "1", "read", "1"])
        for lock in locks:
            remove(lock)
    office_is(b, "unlocked", CHANGING[1])


def office_writes(b):
    """Writes that fail and that are ended midway; output that is full or closed: the study stays as it was."""
    put_texts(b)
    fresh_study(b, [(1, junctions.K1)])
    for words in CHANGING[:3]:
        was, study = b.held(), words[0].encode()
        b.same("write fails", b.run_so(0, "icuoffice", words, before=limited), (b"", study + UNWRITTEN))
        all_stays(b, was)
        b.same("ended", b.run_so(-signal.SIGXFSZ, "icuoffice", words, before=ended)[0], b"")
        now = b.held()
        b.same("lock left", len(now.pop(words[0] + ".lock", b"")), 100)
        all_stays(b, was, now)
        office_is(b, "left locked", words)
        os.remove(b.path(words[0] + ".lock"))
    for words in CHANGING[1:3] + (["s.icuo", "1", "read", "1"], ["--help"], ["--version"]):
        was = b.held()
        with open("/dev/full", "wb") as full:
            b.same("full", b.run_so(0, "icuoffice", words, out=full), (b"", b"icuoffice" + NO_OUTPUT))
        b.same("closed", b.run_so(0, "icuoffice", words, before=lambda: os.close(1), out=None), (b"", b"icuoffice" + NO_OUTPUT))
        all_stays(b, was)
    # nothing to print: a study is made all the same
    b.same("made", b.run_so(0, "icuoffice", CHANGING[0], before=lambda: os.close(1), out=None), (b"", b""))
    office_is(b, "made study", ["new.icuo", "1", "add", "k1.txt"])


def office_rights(b):
    """A study that may not be written, and a folder in which no lock can be made: all stays."""
    put_texts(b)
    fresh_study(b, [(1, junctions.K1)])
    os.chmod(b.path("s.icuo"), 0o444)
    try:
        for rights in (0o777, 0o555):
            os.chmod(b.folder, rights)
            for words in CHANGING[1:3]:
                was = b.held()
                b.same("no rights", b.run_so(0, "icuoffice", words, before=nobody), (b"", b"s.icuo" + UNWRITTEN))
                all_stays(b, was)
            page = offices.run([b"s.icuo", b"1", b"read", b"1"], stood_at(b, "s.icuo"))[0]
            b.same("read all the same", b.run_so(0, "icuoffice", ["s.icuo", "1", "read", "1"], before=nobody), (page, b""))
    except PermissionError:
        pass  # the superuser may write it, and nobody else can reach the programs
    os.chmod(b.folder, 0o755)


def office_race(b):
    """Eight offices at once: each add is made whole or refused for the lock, and every site that was printed is there."""
    put_texts(b)
    for _ in range(12):
        fresh_study(b)
        runs = [subprocess.Popen([os.path.join(BIN, "icuoffice"), "s.icuo", str(office), "add", "k1.txt"], stdout=subprocess.PIPE,
                                 stderr=subprocess.PIPE, cwd=b.folder) for office in range(1, 9)]
        got, wanted = [run.communicate(timeout=60) for run in runs], [0] * PLACES
        for office, (out, said) in enumerate(got, 1):
            b.same("said", said, b"" if out else b"s.icuo.lock: " + offices.LOCKED + b"\n")
            if out:
                wanted[int(out.split()[1]) - 1] = office
        count = sum(1 for out, _ in got if out)
        b.same("sites in turn", [bool(owner) for owner in wanted], [True] * count + [False] * (PLACES - count))
        b.same("study", differing(b.get("s.icuo"), icu2003.open_file(wanted, junctions.K1 * count + [0] * ENTRIES * (PLACES - count))), [])
        b.same("no lock", "s.icuo.lock" in os.listdir(b.folder), False)


def office(b):
    """icuoffice: what it prints and says, and the study after each call."""
    each_apart(b, (office_usage, office_samples, office_new, office_runs, office_full, office_studies, office_words, office_texts, office_locks,
                   office_writes, office_rights, office_race))


# ---------------------------------------------------------------- single point interchanges

# A road whose throughs cross the arterial and whose lefts stand among them, which a junction may have and a single point may not.
SHARED_ROAD = dict(points.all_points())["a shared lane that a junction may have, SB"]
SHARED_SAID = b"R4: SB: a shared lane needs a through lane and no left lane beside it; a single point takes none\n"


def point_usage(b):
    """The word in front alone and before words that ask for nothing; help and version past it; and where it is no such word."""
    for program, use, calls in (("icusheet", SHEET_USE, NO_SHEET), ("icuamend", AMEND_USE, NO_CHANGE)):
        for words in calls:
            b.same("use of " + program, b.run(program, "--point", *words), (b"", use))
        for wish, told in (("--help", use), ("--version", VERSION)):
            b.same(wish, b.run(program, "--point", wish), (told, b""))
    for words in (["--point", "--point"], ["--Point"], ["-point"], ["--points"], ["--point "]):
        b.same("a text of that name", b.run("icusheet", *words), (b"", words[-1].encode() + b": cannot be read\n"))
    b.same("not in front", b.run("icusheet", "nothing", "--point"), (b"", b"nothing: cannot be read\n"))
    b.same("not in front", b.run("icusheet", "nothing", "1", "--point"), (b"", SHEET_USE))
    b.same("a study of that name", b.run("icuamend", "--point", "--point", "1", *CHANGE), (b"", b"--point: cannot be read\n"))
    b.same("not in front", b.run("icuamend", "nothing", "--point", *CHANGE), (b"", b"nothing: cannot be read\n"))
    b.same("text to begin with", b.run("icustudy", "point"), (table.write_text(points.start()).encode(), b""))
    for name in ("a.txt", "point"):
        b.put(name, table.write_text(SHARED_ROAD).encode())
    for program, words in (("iculist", ["--point", "a.txt"]), ("icudiamond", ["--point"]), ("icuoffice", ["--point"])):
        out, said = b.run_so(0, program, words)
        b.same("unknown to " + program, (out, said.startswith(b"usage: " + program.encode())), (b"", True))
    b.same("a study named point", b.run_so(0, "icustudy", ["make", "made", "point"]), (b"", b""))
    b.same("its site", b.run_so(0, "icustudy", ["show", "made", "1"]), (table.write_text(SHARED_ROAD).encode(), b""))


def point_samples(b):
    """The samples as the repository holds them; their texts, a study of them, a change, and the text to begin with."""
    made = b.path("made")
    points.main(made)
    names = sorted(os.listdir(made))
    b.same("files of the samples", sorted(os.listdir(POINTS)), names)
    for name in names:
        with open(os.path.join(POINTS, name), "rb") as f:
            b.same(name, f.read(), b.get(os.path.join("made", name)))
    texts, named_points = [os.path.join(POINTS, name + ".txt") for name, _, _ in points.SAMPLES], dict(points.all_points())
    sites, study = [named_points[which] for _, which, _ in points.SAMPLES], b.path("points.icut")
    b.same("make", b.run("icustudy", "make", study, *texts), (b"", b""))
    b.same("study", b.get("points.icut"), study_of(sites))
    for number, (name, _, _) in enumerate(points.SAMPLES, 1):
        b.same("typed " + name, b.sheet(texts[number - 1]), (b.get(os.path.join("made", name + ".sheet")), b""))
        b.same("site " + name, b.sheet(study, str(number)), table.site_alone(study.encode(), sites, number, POINT))
        b.same("as a junction " + name, b.run("icusheet", study, str(number)), table.site_alone(study.encode(), sites, number))
        if name in points.AMENDMENTS:
            words, printed = points.AMENDMENTS[name].split(), b.get(os.path.join("made", name + ".changes"))
            b.same("change " + name, b.amend(study, str(number), *words), (printed, b""))
            b.same("change kept", b.amend(study, str(number), *words, b.path("new.icut")), (printed, b""))
            changed = [several_changes(entries, [word.encode() for word in words], POINT)[1] if at == number else entries
                       for at, entries in enumerate(sites, 1)]
            b.same("changed study", b.get("new.icut"), study_of(changed))
    b.same("all of them", b.sheet(study, "all"), all_pages(study, sites, POINT))
    text = os.path.join(POINTS, "start.txt")
    b.same("start", b.run("icustudy", "point"), (b.get(os.path.join("made", "start.txt")), b""))
    b.same("its page", b.sheet(text), typed_sheet(text, b.get(os.path.join("made", "start.txt")), POINT))


def point_named(b):
    """Every named single point and every named junction, as a single point; and the first as junctions."""
    named(b, points.all_points())
    named(b)
    as_junctions = Bench(b.folder, "as junctions")
    named(as_junctions, points.all_points())
    b.count += as_junctions.count


def point_texts(b):
    """Texts that are refused, with line and column, those among them that a junction's sheet takes; and any bytes."""
    shared, sample = table.write_text(SHARED_ROAD).encode(), table.brief_text("Elm and 3rd", points.book()).encode()
    for data in (b"", shared, b'title "Elm"\n' + shared, sample, MARK + sample, MARK + shared, sample.replace(b"\n", b"\r\n"), b"EB shared-lane 1",
                 b"EBT lanes 1\nEBL volume 5\nEB shared-lane 1 ", b"EBT lanes 1\n\tSB pedestrians 3 shared-lane 1\nNB shared-lane 01",
                 b"WB\nshared-lane\n 1\nWBT volume 1", b"EB shared-lane 2", b"EB shared-lane 1 junction cycle 29", b"NBT volume 1", b"EB shared-lane",
                 b"EBL volume 5\nEBT lanes 1", b"EB shared-lane 1 shared-lane 1", b"SB shared-lane 1\nNB shared-lane 1 EBL volume 1",
                 b"EB shared-lane 0", b"EB shared-lane 1s", b"point", b"--point", b"single point: EBL lanes 1", b"EBL lane-factor 0.499", b"# EB shared-lane 1",
                 study_of([]), study_of([points.book()]), old_study([junctions.K1]), study_of([points.book()])[:-1], b" " * 65536):
        unread(b, data)
    for _ in range(200):
        unread(b, damaged(b.rng, b.rng.choice((sample, shared, table.write_text(likely_of(b)).encode()))))
    for missing in ("nothing", ".", ""):
        b.same("missing", b.sheet(missing), (b"", missing.encode() + b": cannot be read\n"))


def point_sites(b):
    """Sites that a study lacks, and texts for a study; a refused site alone and among others."""
    sites = [points.book(), SHARED_ROAD, points.start(), junctions.changed(points.book(), {CYCLE: 29})]
    study, text = b.put("four.icut", study_of(sites)), os.path.join(POINTS, "book4.txt")
    for word in ("0", "5", "x", "", "ALL", "4294967296", "--point"):
        b.same("no site", (b.sheet(study, word), b.amend(study, word, "EBQ", "volume", "1")), ((b"", word.encode() + b": the study has 4 sites\n"),) * 2)
    b.same("none of none", b.sheet(b.put("none.icut", study_of([])), "all"), (b"", b"all: the study has 0 sites\n"))
    for word in ("1", "all"):
        b.same("no study file", b.sheet(text, word), (b"", text.encode() + b": R6: this is no study file\n"))
    whose = b"%s, site 2" % study.encode()
    b.same("a refused site", b.sheet(study, "2"), (b"", whose + b": " + SHARED_SAID))
    pages = [table.sheet_text(icu2003.fill_point(sites[k]), POINT).encode() for k in (0, 2)]
    heading, cycle = b"single point: " + study.encode() + b", site %d of 4\n\n", b"R3: junction cycle is outside 30 to 240\n"
    printed = b"\f".join([heading % 1 + pages[0], heading % 2 + SHARED_SAID, heading % 3 + pages[1], heading % 4 + cycle])
    b.same("among others", b.sheet(study, "all"), (printed, whose + b": " + SHARED_SAID + b"%s, site 4: " % study.encode() + cycle))
    b.same("mended", b.amend(study, "2", "SB", "shared-lane", "0"), several_changes(SHARED_ROAD, [b"SB", b"shared-lane", b"0"], POINT)[0])
    b.same("none before", b.amend(study, "2", "SB", "shared-lane", "0")[0].count(b"       none "), 175)
    b.same("not another entry", b.amend(study, "2", "EBT", "volume", "450"), (b"", SHARED_SAID))
    b.same("as a junction's", b.run("icuamend", study, "2", "EBT", "volume", "450"), several_changes(SHARED_ROAD, [b"EBT", b"volume", b"450"])[0])


def point_words(b):
    """What is said of the words of a change on a single point's sheet."""
    study = b.put("s.icut", study_of([junctions.K1]))
    for words, said in SAID_OF_CHANGES:
        b.same("said", b.amend(study, "1", *words), (b"", said))
    for word in ("EB", "WB", "NB", "SB"):
        b.same("shared", b.amend(study, "1", word, "shared-lane", "1"), (b"", SHARED_SAID.replace(b"SB", word.encode())))


def point_outputs(b):
    """Standard output that is full or closed: said, and no file is written."""
    b.put("in.icut", study_of([points.book(), junctions.K1]))
    b.put("book4.txt", table.write_text(points.book()).encode())
    for program, words in (("icusheet", ["--point", "book4.txt"]), ("icusheet", ["--point", "in.icut", "all"]), ("icusheet", ["--point", "--help"]),
                           ("icuamend", ["--point", "in.icut", "1"] + CHANGE), ("icuamend", ["--point", "in.icut", "1"] + CHANGE + ["in.icut"]),
                           ("icuamend", ["--point", "in.icut", "1"] + CHANGE + ["fresh.icut"]), ("icustudy", ["point"])):
        was = b.held()
        with open("/dev/full", "wb") as full:
            b.same("full", b.run_so(0, program, words, out=full), (b"", program.encode() + NO_OUTPUT))
        b.same("closed", b.run_so(0, program, words, before=lambda: os.close(1), out=None), (b"", program.encode() + NO_OUTPUT))
        b.same("all stays", b.held(), was)
    amending = ["--point", "in.icut", "1"] + CHANGE
    for new, said in (("book4.txt", STAYS), (".", UNWRITTEN), ("missing/new.icut", UNWRITTEN)):
        was = b.held()
        b.same("in the way", b.run_so(0, "icuamend", amending + [new]), (b"", new.encode() + said))
        b.same("all stays", b.held(), was)
    printed, after, _ = several_changes(points.book(), [word.encode() for word in CHANGE], POINT)
    b.same("in place", b.run_so(0, "icuamend", amending + ["in.icut"]), printed)
    b.same("its study", b.get("in.icut"), study_of([after, junctions.K1]))


def point_runs(b):
    """Runs of changes of the named single points and of some junctions."""
    runs(b, points.all_points())
    runs(b, junctions.all_junctions()[::4])


def point(b):
    """A single point's sheet: all that icusheet and icuamend print and say of one, and the text that icustudy gives to begin with."""
    each_apart(b, (point_usage, point_samples, point_named, typed, point_texts, point_sites, shown_sites, damaged_studies, full_studies, point_words,
                   amendments, point_runs, point_outputs), POINT)


PARTS = {"usage": usage, "samples": samples, "junctions": named, "runs": runs, "typed": typed, "damaged": damaged_texts, "studies": studies,
         "amendments": amendments, "convert": convert, "kept": kept, "diamond": diamond, "office": office, "point": point}


def main(part):
    with tempfile.TemporaryDirectory() as folder:
        bench = Bench(folder, part)
        PARTS[part](bench)
    print("%s: %d compared, all the same" % (part, bench.count))


if __name__ == "__main__":
    if len(sys.argv) != 2 or sys.argv[1] not in PARTS:
        sys.exit(__doc__)
    main(sys.argv[1])
