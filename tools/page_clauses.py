"""Whether the clauses and the laws that a page names are those of functions of the crates. For tools/documents.py.

- After the word `clause`, each name is one that some function has; where `of` and functions follow, one of these has it.
- After the word `law`, each name is that of a function.
- In a table with the columns Function and Clause each function is one of the file to which its row leads, or else of the crates,
  and each clause is one of the functions of its row."""

import glob
import os
import re

import clauses
import page_words
from page import cells

NAMES = r"`[A-Za-z_:0-9]+`(?:(?:, | and |, and )`[A-Za-z_:0-9]+`)*"
NAMED = re.compile(rf"\bclauses? ({NAMES})(?: (?:of|on) ({NAMES}))?")
LAWS = re.compile(rf"\b[Ll]aws? ({NAMES})")


def names_in(text):
    return re.findall(r"`([A-Za-z_:0-9]+)`", text)


def type_of(holder):
    """The name of the type or trait that has a function."""
    while re.search(r"<[^<>]*>", holder):
        holder = re.sub(r"<[^<>]*>", "", holder.replace("->", ""))
    words = re.findall(r"\w+", re.sub(r"\bwhere\b.*", "", holder))
    return words[-1] if words else ""


class Functions:
    """The names of the clauses of each function, by its name, by its type's and its own, and by its file."""

    def __init__(self, top):
        self.of, self.top = {}, top
        for path in glob.glob(f"{top}/crates/*/src/**/*.rt", recursive=True):
            for name, clause in clauses.clauses_of(path):
                found = re.match(r"(?:ensures|requires) (\w+) \{", clause)
                holder, _, function = name.rpartition("::")
                for it in {function, f"{type_of(holder)}::{function}"}:
                    for where in ("", os.path.relpath(path, top)):
                        self.of.setdefault((where, it), set()).update([found[1]] if found else [])
        self.all = set().union(*self.of.values()) if self.of else set()

    def clauses(self, name, where=""):
        """Those of a function, None if there is none. Before it may be its type, or the module that is its file."""
        *before, function = name.split("::")
        if before and before[-1][0].isupper():
            return self.of.get((where, f"{before[-1]}::{function}"))
        if before and not where:
            found = [it for (place, own), it in self.of.items() if own == function and place.endswith(f"/{before[-1]}.rt")]
            return set().union(*found) if found else None
        return self.of.get((where, function))


def wrong_clauses(page, functions):
    """The number of a line, and what is wrong with the clauses that it names."""
    for unit in page_words.text_units(page.lines):
        text = " ".join(line for _, line in unit)
        for names, holders in NAMED.findall(text):
            own = [functions.clauses(it) for it in names_in(holders)]
            known = set().union(*(it for it in own if it is not None)) if holders else functions.all
            for it, found in zip(names_in(holders), own):
                if found is None:
                    yield unit[0][0], f"no function `{it}`"
            for it in names_in(names):
                if it not in known:
                    yield unit[0][0], f"no clause `{it}`" + (f" of {holders}" if holders else "")
        for names in LAWS.findall(text):
            for it in names_in(names):
                if functions.clauses(it) is None:
                    yield unit[0][0], f"no law `{it}`"
    for table in page.tables:
        yield from wrong_rows(page, table, functions)


def wrong_rows(page, table, functions):
    head = cells(table[0][1])
    if "Function" not in head or "Clause" not in head:
        return
    for number, line in table[2:]:
        row = cells(line)
        cell = row[head.index("Function")]
        places = [os.path.relpath(os.path.normpath(f"{page.folder}/{it}"), page.top) for it in re.findall(r"\]\(([^)#]+\.rt)\)", cell)]
        known = set()
        for name in names_in(cell):
            found = [it for it in (functions.clauses(name, place) for place in places or [""]) if it is not None]
            if not found:
                yield number, f"no function `{name}` in {', '.join(places) or 'the crates'}"
            known |= set().union(*found) if found else set()
        for name in names_in(row[head.index("Clause")]):
            if name not in known:
                yield number, f"no clause `{name}` of these functions"
