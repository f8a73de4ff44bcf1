#!/usr/bin/env python3
"""What a stranger must believe: the definitions that the public calls' promises reach, counted.

usage: believe.py [--list] [--check]

A public call is a `pub fn` of the crate icu, or one of those that the programs make their texts and files with (PUBLIC below).
What C links, the crate icu_c, has the calls of icu with the same contracts, word for word; that is checked.
From the names in its `ensures` the definitions in specs/ are followed, through each file's `use` lines, as far as they go; the
structs, enums and named types that the code declares count where a definition names them. Blank lines and comments are not counted.

The theorem files speak of some definitions more (runs of amendments, K1 to K10, what fair means, texts and pages one after the other): those
are counted by themselves.
All others are working definitions and stand in files of their own: specs/Working.antt, or a file whose first line says so.

The layout is exempt: it names every cell, also those that only proofs and programs ask for.

--list   names every definition, by what it serves
--check  exits with 1 where a promise reaches a working definition, a definition that serves neither a promise nor a theorem
         stands among those that do, or what C links promises otherwise than the calls of icu
"""
import os
import re
import sys

ROOT = os.path.normpath(os.path.join(os.path.dirname(os.path.abspath(__file__)), "..", ".."))
CRATES = os.path.join(ROOT, "crates")

# the calls beside those of icu that the programs make, and that they make their texts and files with
PUBLIC = {
    "study": ["site", "entries_of"],
    "text_numbers": ["number_of"],
    "text_values": ["value_of"],
    "text_reader": ["read"],
    "text_writer": ["write"],
    "page": ["print", "changes"],
    "sheet_beside": ["fill"],
    "text_refusals": ["say_answer", "say_reading", "say_trouble"],
    "text_names": ["entry_named"],
    "program_outcome": ["front", "say"],
    "program_wish": ["worksheet_of", "words_for", "arguments_for"],
    "program_words": ["word"],
    "program_sheet": ["takes", "run", "pages", "page"],
    "program_amend": ["takes", "new_place", "run"],
    "program_study": ["job_of", "texts_in", "tell", "show"],
    "program_make": ["add", "make"],
    "program_convert": ["run"],
    "program_list": ["takes", "is_named", "run"],
    "program_target": ["judge"],
    "program_diamond": ["takes", "run"],
    "program_office": ["job_of", "tell", "start"],
    "program_open_add": ["run"],
    "program_open_amend": ["run"],
    "program_open_read": ["run"],
    "diamond_beside": ["fill"],
    "diamond_page": ["print"],
}

NAME = r"[^\s(){}\[\],;.⌜⌝⟦⟧λ∷≡×→≤<:=+*/%-][^\s(){}\[\],;.⌜⌝⟦⟧λ∷≡×→:=+*/%]*"
HEAD = re.compile(r"^(?:abbrev |unfoldable )?(?:pub )?(?:record |data )?([^\s:]+)(?: .*)? : ")
USE = re.compile(r"^\s*(?:ghost |pub )?use (Rattle\.\S+?)\.\{([^}]*)\};?$")


class Definition:
    def __init__(self, crate, file, name):
        self.crate, self.file, self.name, self.lines = crate, file, name, []

    def key(self):
        return (self.crate, self.file, self.name)


def module_of(path, crate):
    """The crate and the spec file, or the declared type, that a module's name says."""
    m = re.match(r"Rattle\.(\w+)\.specs\.(.+)$", path)
    if not m:
        return None
    parts = m.group(2).split(".")
    if parts[0] == "declared":
        return (m.group(1), "declared", parts[1])
    return (m.group(1), parts[0], None)


def uses(text, crate):
    """What each name that a file uses stands for: name -> (crate, file, name)."""
    found = {}
    for line in text.split("\n"):
        whole = re.match(r"^\s*(?:ghost )?use (Rattle\.\S+?) as (\S+?);?$", line)
        if whole and module_of(whole.group(1), crate):
            # a module under a name of its own: what follows the name is one of its definitions
            module = module_of(whole.group(1), crate)
            for name in re.findall(r"(?<!\S)\(?" + re.escape(whole.group(2)) + r"\.([^\s(){},;]+)", text):
                found[whole.group(2) + "." + name] = (module[0], module[1], name)
        m = USE.match(line)
        if not m:
            continue
        module = module_of(m.group(1), crate)
        if module is None:
            continue
        for item in m.group(2).split(","):
            item = item.strip()
            if not item:
                continue
            there, _, here = item.partition(" as ")
            name = module[2] if module[1] == "declared" else there.strip()
            found[(here or there).strip()] = (module[0], module[1], name)
    return found


def read_specs():
    table, tables = {}, {}
    for crate in sorted(os.listdir(CRATES)):
        folder = os.path.join(CRATES, crate, "specs")
        if not os.path.isdir(folder):
            continue
        for file in sorted(os.listdir(folder)):
            if not file.endswith(".antt") or file == "Lib.antt":
                continue
            stem = file[:-5]
            text = open(os.path.join(folder, file), encoding="utf-8").read()
            tables[(crate, stem)] = uses(text, crate)
            current, notes, inner = None, [], False
            for line in text.split("\n"):
                if line.startswith("module _"):
                    # what stands in a section is indented
                    inner, current = True, None
                    continue
                if inner and line.startswith("  "):
                    line = line[2:]
                if re.match(r"^((?:pub )?use|infix)", line):
                    if not line.startswith("infix"):
                        notes = []
                    else:
                        notes.append(line)
                    continue
                if not line.strip():
                    continue
                head = HEAD.match(line)
                if line.startswith("--"):
                    notes.append(line)
                    continue
                if head and not line.startswith((" ", "\t")):
                    name = head.group(1)
                    current = table.setdefault((crate, stem, name), Definition(crate, stem, name))
                    current.lines += notes + [line]
                    notes = []
                elif current is not None:
                    current.lines += notes + [line]
                    notes = []
    return table, tables


def read_declared():
    """The structs, enums and named types of the code, as the definitions name them."""
    found = {}
    for crate in sorted(os.listdir(CRATES)):
        folder = os.path.join(CRATES, crate, "src")
        for file in sorted(os.listdir(folder)) if os.path.isdir(folder) else []:
            text = open(os.path.join(folder, file), encoding="utf-8").read()
            for m in re.finditer(r"(?m)^(?:#\[[^\n]*\]\n)*(?:pub )?(?:(?:struct|enum) (\w+)(?:<[^>]*>)?(?:\([^;]*\);|;|\s*\{.*?^\})|type (\w+)[^=\n]* = [^;]*;)", text, re.S | re.M):
                name = m.group(1) or m.group(2)
                d = Definition(crate, "declared", name)
                d.lines = [l for l in m.group(0).split("\n") if l.strip()]
                found[(crate, "declared", name)] = d
    return found


def names_in(text):
    text = re.sub(r'"[^"\n]*"', " ", text)
    text = re.sub(r"(?m)--.*$", " ", text)
    words = set(re.findall(r"[^\s(){}\[\],;⌜⌝⟦⟧.λ]+", text))
    return words | set(re.findall(r"[^\s(){}\[\],;⌜⌝⟦⟧.λ]+\.[^\s(){}\[\],;⌜⌝⟦⟧.λ]+", text))


def closure(start, table, declared, tables):
    seen, queue = {}, list(start)
    while queue:
        key = queue.pop()
        if key in seen:
            continue
        d = table.get(key) or declared.get(key)
        if d is None:
            # a name that a file hands on
            there = tables.get(key[:2], {}).get(key[2])
            if there is not None and there != key:
                queue.append(there)
            continue
        seen[key] = d
        if d.file == "declared":
            for name in names_in(re.sub(r"[<>&]", " ", "\n".join(d.lines))):
                for other in declared:
                    if other[2] == name and (other[0] == d.crate or len([k for k in declared if k[2] == name]) == 1):
                        queue.append(other)
            continue
        body = "\n".join(d.lines)
        known = tables[(d.crate, d.file)]
        for name in names_in(body):
            for form in (name, "◌" + name + "◌"):
                if form in known:
                    queue.append(known[form])
                elif (d.crate, d.file, form) in table:
                    queue.append((d.crate, d.file, form))
        # mixfix names, as ◌to◌usually◌
        for other in table:
            if other[:2] == key[:2] and "◌" in other[2] and other[2].strip("◌").split("◌")[0] in names_in(body):
                queue.append(other)
    return seen


def heads(crate):
    """The public functions of a crate, each with its parameters and its contract; and the text that they stand in."""
    text = open(os.path.join(CRATES, crate, "src", "lib.rt"), encoding="utf-8").read()
    found = {}
    for m in re.finditer(r"(?m)^\s*pub (?:extern \"C\" )?fn (\w+)", text):
        # the contract ends where the body's brace does the line; that of a clause may do so, too
        head = re.split(r"(?m)^(?!.*\b(?:requires|ensures)\b).*\{$", text[m.end():], maxsplit=1)[0]
        if head.count("{") != head.count("}"):
            sys.exit(f"{crate}::{m.group(1)} has a contract that is laid out so that this script cannot read it")
        found[m.group(1)] = head
    return text, found


def contracts(crate, wanted):
    text, found = heads(crate)
    known = uses(text, crate)
    for name, head in found.items():
        if wanted is not None and name not in wanted:
            continue
        promise = "\n".join(re.findall(r"ensures(.*?)(?=ensures|\Z)", head, re.S))
        start = [known[n] for n in names_in(promise) if n in known]
        yield name, start, "requires" in head


def theorems(table):
    """What the statements in the theorem files name."""
    start = []
    for crate, file in (("icu_theorems", "Theorems.antt"), ("program_theorems", "Theorems.antt"),
                        ("program_make", "Made.antt"), ("program_sheet", "Whole.antt")):
        text = open(os.path.join(CRATES, crate, "proofs", file), encoding="utf-8").read()
        known = uses(text, crate)
        stated = "\n".join(re.findall(r"(?m)^ *(?:abbrev )?pub .*(?:\n    .*)*", text))
        start += [known[n] for n in names_in(stated) if n in known]
    # a theorem may be stated by a record of the laws that prove it
    for crate in ("line_bounds", "sheet", "study_theorems", "page_form"):
        folder = os.path.join(CRATES, crate, "proofs")
        for file in sorted(os.listdir(folder)):
            if file.endswith(".antt"):
                law = open(os.path.join(folder, file), encoding="utf-8").read()
                there = uses(law, crate)
                for m in re.finditer(r"(?m)^pub record (Refused|PairBlank|Fits|ReadBack|OnPage)\b.*\n(?:  .*\n)+", law):
                    start += [there[n] for n in names_in(m.group(0)) if n in there]
    return start


def is_working(crate, file):
    path = os.path.join(CRATES, crate, "specs", file + ".antt")
    return file == "Working" or open(path, encoding="utf-8").readline().startswith("-- Working")


def count(definitions):
    # derives say nothing that a promise leans on
    return sum(1 for d in definitions for line in d.lines if not line.strip().startswith(("--", "//", "#[derive")))


def main():
    table, tables = read_specs()
    declared = read_declared()
    everything, of_icu, failed = {}, {}, False
    for crate, wanted in [("icu", None)] + sorted(PUBLIC.items()):
        for name, start, asks in contracts(crate, wanted):
            reached = closure(start, table, declared, tables)
            print(f"{crate + '::' + name:32} {count(reached.values()):5} lines, {len(reached):4} definitions")
            if asks:
                print(f"  {crate}::{name} has a `requires`")
                failed = True
            everything.update(reached)
            if crate == "icu":
                of_icu.update(reached)
    print(f"{'all calls of icu':32} {count(of_icu.values()):5} lines, {len(of_icu):4} definitions")
    print(f"{'all public calls':32} {count(everything.values()):5} lines, {len(everything):4} definitions")
    stated = {k: d for k, d in closure(theorems(table), table, declared, tables).items() if k not in everything}
    working = [d for k, d in table.items() if is_working(k[0], k[1])]
    astray = [d for k, d in table.items() if k[0] != "layout" and not is_working(k[0], k[1]) and k not in everything and k not in stated]
    print(f"{'for the theorems, beside them':32} {count(stated.values()):5} lines, {len(stated):4} definitions")
    print(f"{'working definitions':32} {count(working):5} lines, {len(working):4} definitions")
    if heads("icu_c")[1] != heads("icu")[1]:
        print("the calls of icu_c are not those of icu, word for word")
        failed = True
    for key in sorted(everything):
        if key[1] != "declared" and is_working(key[0], key[1]):
            print("a promise reaches a working definition:", *key)
            failed = True
    for d in sorted(astray, key=lambda d: d.key()):
        print("serves no promise and no theorem:", *d.key())
        failed = True
    if "--list" in sys.argv:
        for title, some in (("believed", everything), ("stated", stated)):
            for key in sorted(some):
                print(" ", title, *key)
    if "--check" in sys.argv:
        sys.exit(1 if failed else 0)


main()
