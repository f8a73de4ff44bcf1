"""The program icuoffice worked out a second time: offices in one open study; and the sample of two of them.

    python3 tests/second/offices.py OUTDIR

writes the sample into OUTDIR: for each call, in their order, NAME.words (the words behind the program's name) and NAME.out (what it prints)
or NAME.err (what it says). The first call prints nothing.
"""

import os
import sys

sys.dont_write_bytecode = True  # leave no cache beside the sources

import icu2003
import table

# ---------------------------------------------------------------- what is said

USE = (b"usage: icuoffice STUDY new                                   makes an open study of 165 free places\n"
       b"       icuoffice STUDY OFFICE add TEXT                       puts the text's junction at the lowest free place\n"
       b"       icuoffice STUDY OFFICE amend SITE NAME ENTRY VALUE    changes an entry of a site of the office's own\n"
       b"       icuoffice STUDY OFFICE read SITE                      prints the sheet of a site of the office's own\n"
       b"  OFFICE: the office's number, from 1; sites are counted from 1; NAME ENTRY VALUE: see icuamend --help\n")
LINKED = b"this is a symbolic link, which stays as it is: name its file"
THERE = b"there is such a file, which stays as it is: name another"
UNWRITTEN = b"cannot be written"
UNREAD = b"cannot be read"
NO_STUDY = b"no open study stands here: icuoffice STUDY new makes one where there is no file"
NO_OFFICE = b"an office has a number, from 1 to 4294967295"
LOCKED = b"stands while somebody changes the study: try again, or remove it if nobody is at work"


class Said(Exception):
    """What is said in place of work: the word at fault, and the sentence."""


class Stood:
    """What stands where a study is named: the bytes that can be read there, if any; whether the name is a link's; whether no file can be
    opened there for writing; whether the lock stands beside it, and whether it can be made."""

    def __init__(self, data=None, link=False, closed=False, locked=False, lockable=True):
        self.data, self.link, self.closed, self.locked, self.lockable = data, link, closed, locked, lockable


def refused(word, answer):
    """What is said of a refusal."""
    return Said(word, table.refusal_text(*answer).encode())


def number_of(word):
    """The number that a word is, or None."""
    try:
        return table.value_of("volume", word)
    except table.Wrong:
        return None


# ---------------------------------------------------------------- the four jobs

def hold(study, stood):
    """The lock is taken before anything else is judged."""
    if stood.locked:
        raise Said(study + b".lock", LOCKED)
    if not stood.lockable:
        raise Said(study, UNWRITTEN)


def office_of(word):
    """The office's number."""
    number = number_of(word)
    if not number:
        raise Said(word, NO_OFFICE)
    return number


def lists_of(study, data):
    """The owners and the blocks of the study."""
    lists = None if data is None else icu2003.open_lists(data)
    if lists is None:
        raise Said(study, NO_STUDY)
    return lists


def to_change(study, stood):
    """Those of a study that is to be written anew."""
    if stood.link:
        raise Said(study, LINKED)
    if stood.closed:
        raise Said(study, UNWRITTEN)
    return lists_of(study, stood.data)


def place_of(word):
    """A site's place, counted from 0; what is no number from 1 is a place that there is not."""
    number = number_of(word)
    return number - 1 if number else icu2003.PLACES


def new(words, stood, _):
    """A study of free places, where there is no file."""
    study, = words[:1]
    hold(study, stood)
    if stood.link:
        raise Said(study, LINKED)
    if stood.data is not None:
        raise Said(study, THERE)
    if stood.closed:
        raise Said(study, UNWRITTEN)
    return b"", icu2003.open_file([icu2003.FREE] * icu2003.PLACES, [0] * icu2003.ENTRIES * icu2003.PLACES)


def add(words, stood, text):
    """A text's junction at the lowest free place."""
    study, office, _, name = words
    hold(study, stood)
    number = office_of(office)
    owners, blocks = to_change(study, stood)
    said = table.said_of_junction(text)
    if said:
        raise Said(name, said[:-1])
    answer, place = icu2003.open_add(owners, blocks, number, table.read_text(text))
    if answer != (0, 0):
        raise refused(study, answer)
    return b"site %d\n" % (place + 1), icu2003.open_file(owners, blocks)


def sheet_of(lists, office, site):
    """The answer to a read, and the sheet where it is accepted."""
    sheet = [None] * icu2003.CELLS
    answer = icu2003.open_read(*lists, office, site, sheet)
    return answer, sheet if answer == (0, 0) else None


def amend(words, stood, _):
    """An entry of a site changed, and every cell that changes with it."""
    study, office, _, site = words[:4]
    hold(study, stood)
    number, place = office_of(office), place_of(site)
    lists = to_change(study, stood)
    try:
        entry, value = table.change_of(words[4:])
    except table.Wrong as wrong:
        raise Said(wrong.args[0], wrong.args[1].encode())
    before = sheet_of(lists, number, place)[1]
    answer = icu2003.open_amend(*lists, number, place, entry, value)
    if answer != (0, 0):
        raise refused(site, answer)
    return table.change_text(before, sheet_of(lists, number, place)[1]).encode(), icu2003.open_file(*lists)


def read(words, stood, _):
    """The page of a site."""
    study, office, _, site = words
    number, place = office_of(office), place_of(site)
    if stood.data is None:
        raise Said(study, UNREAD)
    lists = lists_of(study, stood.data)
    answer, _ = sheet_of(lists, number, place)
    if answer != (0, 0):
        raise refused(site, answer)
    sites = [icu2003.place_block(lists[1], p) for p in range(icu2003.PLACES)]
    return table.site_page(study, sites, place + 1)[0], None


def job_of(words):
    """What the words ask for, or None."""
    if len(words) == 2 and words[1] == b"new":
        return new
    return {(4, b"add"): add, (7, b"amend"): amend, (4, b"read"): read}.get((len(words), b"".join(words[2:3])))


def run(words, stood, text=None):
    """What icuoffice prints and says, and the study where it writes one; text is what is in the file that an add names, if it can be read."""
    words = [table.word_taken(word) for word in words]
    job = job_of(words)
    if job is None:
        return b"", USE, None
    try:
        printed, written = job(words, stood, text)
    except Said as said:
        return b"", b"%s: %s\n" % said.args, None
    return printed, b"", written


# ---------------------------------------------------------------- studies of any history

def any_study(rng, numbers, blocks):
    """The lists of a study that these offices and others share, with places free, few and none, and these blocks at them."""
    owners = [rng.choice(numbers) if rng.random() < 0.9 else rng.randrange(1, 2**32) for _ in range(icu2003.PLACES)]
    few = [rng.randrange(icu2003.PLACES) for _ in range(rng.choice((0, 1, 2, 30, 300)))]
    for place in range(icu2003.PLACES) if rng.random() < 0.15 else few:
        owners[place] = icu2003.FREE
    return owners, [number for _ in owners for number in rng.choice(blocks)]


# ---------------------------------------------------------------- the sample

STUDY = "town.icuo"
TEXTS = ("k1", "k2")
# The city is office 1, the county 2.
CALLS = (
    ("1-new", "new"),
    ("2-city-adds", "1 add samples/table/k1.txt"),
    ("3-county-adds", "2 add samples/table/k2.txt"),
    ("4-city-amends", "1 amend 1 EBL volume 140"),
    ("5-county-amends", "2 amend 1 EBL volume 90"),
    ("6-city-reads", "1 read 1"),
    ("7-county-reads", "2 read 2"),
)


def sample_text(name):
    """A text of samples/table."""
    return table.brief_text(table.TITLES[name], dict(table.samples())[name]).encode()


def sample_calls():
    """(name, words, what is printed, what is said, the study afterwards) of each call."""
    texts, study, calls = {"samples/table/%s.txt" % name: sample_text(name) for name in TEXTS}, None, []
    for name, rest in CALLS:
        words = [STUDY] + rest.split()
        out, said, written = run([word.encode() for word in words], Stood(study), texts.get(words[-1]))
        study = written or study
        calls.append((name, words, out, said, study))
    return calls


def main(outdir):
    os.makedirs(outdir, exist_ok=True)
    for name, words, out, said, _ in sample_calls():
        table.put(outdir, name + ".words", " ".join(words) + "\n")
        for kind, data in ((".out", out), (".err", said)):
            if data:
                table.put(outdir, name + kind, data.decode())


if __name__ == "__main__":
    if len(sys.argv) != 2:
        sys.exit("usage: offices.py OUTDIR")
    main(sys.argv[1])
