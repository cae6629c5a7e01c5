#!/usr/bin/env python3
"""Writes what the program's claim rests on: docs/DEFINITIONS.md, and the numbers of docs/HEADLINE.md and README.md.

    python3 docs/definitions.py [--check [PAGE ..]]

The claim is one definition of crates/*/specs, and this follows the names that definitions use, down to the last. The chapters
are the rows of the table in docs/HEADLINE.md: a definition stands in the last chapter that needs it, so it rests on those of
its own chapter and of later ones. What a definition is, is the sentence above it. With --check nothing is written: a line for
each page says whether it is current.

A name that a definition gives to a part of its own, and that is also the name of a definition which it could use, counts as
that one: so nothing is missed, and a few definitions may be one too many.
"""
import collections
import re
import sys

sys.dont_write_bytecode = True
import page

# the definition that the clause of the public call is made of
TOP = "AnswersWords"

HEAD = re.compile(r"(?:abbrev |unfoldable )?pub (?:record |data )?(\S+)")
IMPORT = re.compile(r"use Rattle\.(\w+)\.specs\.(\S+?)(?:\.\{(.*)\}| as (\S+))$")
NAME = re.compile(r"[^\W\d][\w'-]*(?:\.[\w'-]+)*")

# where a definition stands, and where a type or a constant of the code does, each in a crate
Place = collections.namedtuple("Place", "crate file name")


class Specs:
    """All definitions: the sentence and the lines of each, and what the names in its file mean."""

    def __init__(self):
        self.said, self.lines, self.names, self.titles = {}, {}, {}, {}
        for crate in page.crates():
            for file in sorted((page.ROOT / "crates" / crate / "specs").glob("*.antt")):
                if file.stem != "Lib":
                    self.read(crate, file)

    def read(self, crate, file):
        names = self.names[crate, file.stem] = {}
        lines = file.read_text().splitlines()
        self.titles[crate, file.stem] = lines[0].removeprefix("-- ")
        said, last, now = [], [], None
        for line in lines[1:]:
            if line.startswith("-- "):
                said, now = [*said, line[3:]], None
                continue
            if match := IMPORT.match(line):
                self.bring(names, *match.groups())
            elif match := HEAD.match(line):
                # a definition without a sentence of its own shares that of the one above
                last, said = said or last, []
                now = Place(crate, file.stem, match[1].replace("◌", ""))
                self.said[now], self.lines[now] = " ".join(last), []
                names[now.name] = now
            if now and line.strip() and not line.startswith("use "):
                self.lines[now].append(line)
            elif not line.strip():
                said = []

    def bring(self, names, crate, module, listed, alias):
        """What an import brings into a file: definitions, files of them, or types and constants of the code."""
        if module.startswith("declared."):
            file, *parts = module.removeprefix("declared.").split(".")
            kind = ".".join([file, *[part for part in parts if not part.startswith("The")]])
            for item in (listed or alias).split(","):
                name, _, other = item.strip().partition(" as ")
                constant = "TheConstants" in parts
                names[other or name] = Place(crate, "", f"{file}.{name}" if constant else kind)
            return
        if alias:
            names[alias] = (crate, module)
        for item in (listed or "").split(",") if listed else []:
            name, _, other = item.strip().partition(" as ")
            names[(other or name).replace("◌", "")] = Place(crate, module, name.replace("◌", ""))

    def uses(self, place):
        """The definitions, and the types and constants of the code, that a definition names."""
        names = self.names[place.crate, place.file]
        text = "\n".join(line for line in self.lines[place] if not line.strip().startswith("--"))
        words = [*NAME.findall(text), *(name for name in names if not NAME.match(name) and f" {name} " in text)]
        for word in dict.fromkeys(words):
            first, *rest = word.split(".")
            found = names.get(first)
            if isinstance(found, Place):
                yield found
            elif found and rest:
                yield Place(*found, rest[0])

    def below(self, places):
        """These definitions and all that they rest on, in the order in which they are reached; and the same of the code's types."""
        reached, types, queue = {}, {}, list(places)
        while queue:
            place = queue.pop(0)
            if place in reached:
                continue
            reached[place] = None
            for used in self.uses(place):
                if used in self.lines:
                    queue.append(used)
                elif used.file == "" and (page.ROOT / "crates" / used.crate).is_dir():
                    types[used] = None
        return list(reached), list(types)


def rows_of(part):
    """The rows of a table of docs/HEADLINE.md, whose first cell is a number or a name."""
    text = (page.ROOT / "docs" / "HEADLINE.md").read_text().partition(f"<!-- {part} -->")[2].partition(f"<!-- end of {part} -->")[0]
    return [[cell.strip() for cell in line.strip("|").split("|")] for line in text.splitlines() if re.match(r"\| *[\d`]", line)]


class Claim:
    """What the claim rests on, chapter by chapter."""

    def __init__(self):
        self.specs = specs = Specs()
        named = collections.defaultdict(list)
        for place in specs.lines:
            named[place.name].append(place)
        self.all, self.types = specs.below(named[TOP])
        below = set(self.all)
        self.below, self.named = below, named
        self.rows = rows_of("chapters")
        # each definition stands in the last chapter that needs it
        self.chapters, taken = [], set()
        for row in reversed(self.rows):
            chapter = [place for place in specs.below(self.roots(row[1]))[0] if place not in taken]
            taken.update(chapter)
            self.chapters.insert(0, chapter)
        if taken != below:
            sys.exit(f"docs/HEADLINE.md: {len(below - taken)} definitions stand in no chapter; the first has to be that of {TOP}")

    def roots(self, cell):
        """The definitions that a cell names."""
        roots = []
        for name in re.findall(r"`([^`]+)`", cell):
            found = [place for place in self.named[name] if place in self.below]
            if len(found) != 1:
                sys.exit(f"docs/HEADLINE.md: {name} names {len(found)} definitions below {TOP}, and has to name one")
            roots += found
        return roots

    def size(self, places):
        return sum(len(self.specs.lines[place]) for place in places)


claim = Claim()


def headline(now):
    rows = ["| | Begin with | What it says | Definitions | Lines |", "|---|---|---|---|---|"]
    for number, (row, chapter) in enumerate(zip(claim.rows, claim.chapters), 1):
        rows.append(f"| {number} | {row[1]} | {row[2]} | {len(chapter)} | {claim.size(chapter):,} |")
    files = {(place.crate, place.file) for place in claim.all}
    rows += ["", f"Together {len(claim.all):,} definitions in {claim.size(claim.all):,} lines, in {len(files)} files of "
             f"{len({crate for crate, _ in files})} crates. Beside these they name {len(claim.types)} types and constants of the code."]
    forms = ["| Begin with | Form | Definitions | Lines |", "|---|---|---|---|"]
    for name, form, *_ in rows_of("forms"):
        places = claim.specs.below(claim.roots(name))[0]
        forms.append(f"| {name} | {form} | {len(places):,} | {claim.size(places):,} |")
    return page.filled(page.filled(now, "chapters", "\n".join(rows)), "forms", "\n".join(forms))


def definitions(now):
    specs = claim.specs
    out = ["# Definitions", "",
           f"What the contract of `top` says, it says with these {len(claim.all):,} definitions, chapter by chapter from the top down, as",
           "[HEADLINE](HEADLINE.md) lists them. A definition rests on those of its own chapter and of later ones. Each is one sentence here, as",
           "above the definition itself. `docs/definitions.py` writes this page from the sources, and `tests/run` checks that it is current.", ""]
    for number, (row, chapter) in enumerate(zip(claim.rows, claim.chapters), 1):
        out += [f"## {number}. {row[2].rstrip('.')}", ""]
        for crate, file in dict.fromkeys((place.crate, place.file) for place in chapter):
            out += [f"`crates/{crate}/specs/{file}.antt`: {specs.titles[crate, file]}", "", "| Definition | What it is |", "|---|---|"]
            out += [f"| `{place.name}` | {specs.said[place]} |" for place in chapter if place[:2] == (crate, file)]
            out += [""]
    out += ["## Types and constants of the code", "", "Definitions name these, which stand in `src/`.", "", "| File | Names |", "|---|---|"]
    files = collections.defaultdict(list)
    for place in claim.types:
        file, _, name = place.name.partition(".")
        files[place.crate, file].append(name or file)
    for crate, file in sorted(files, key=lambda key: (page.crates().index(key[0]), key[1])):
        out.append(f"| `crates/{crate}/src/{file}.rt` | {', '.join(f'`{name}`' for name in sorted(files[crate, file]))} |")
    return "\n".join(out) + "\n"


def readme(now):
    return re.sub(r"[\d,]+ definitions", f"{len(claim.all):,} definitions", now)


page.write({"docs/HEADLINE.md": headline, "docs/DEFINITIONS.md": definitions, "README.md": readme})
