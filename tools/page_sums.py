"""Whether the tables of definitions on pages are what `reading_order.py` prints, and the sums that pages give are those of the table that
they speak of. For tools/documents.py.

- `<!-- order: DEFINITIONS -->` before a table says of which definitions it is: it has the files, and of each how many definitions and lines.
- A link whose text is `N lines of definitions` leads to a heading, and N is the last row's sum of the first table of definitions there.
- Where prose before such a table says `in this table: N lines`, N is its sum too.

`reading_order.py` needs rt: without it the tables are taken as they are."""

import importlib
import os
import re
import shutil

from page import Page, cells

LINK = re.compile(r"\[([\d,]+) lines of definitions\]\(([^)\s#]*)#([^)\s]+)\)")
SAID = re.compile(r"in this table: ([\d,]+) lines")
#: the column of a table of definitions that counts their lines
LINES = 2


def number_of(text):
    return int(text.replace(",", ""))


def sum_from(page, line):
    """The sum of the first table of definitions at or after a line, or None."""
    for number, _ in page.orders:
        if number >= line:
            table = next(it for it in page.tables if it[0][0] == number)
            return number_of(cells(table[-1][1])[LINES])
    return None


def wrong_orders(page):
    """The number of the line of a table of definitions that is not the one which is printed, and that one."""
    if not page.orders or not shutil.which("rt"):
        return
    reading_order = importlib.import_module("reading_order")
    for number, words in page.orders:
        wanted = reading_order.table(page.top, *words.split())
        there = page.lines[number - 1:number - 1 + len(wanted)]
        if [cells(it)[:3] for it in there] != [cells(it)[:3] for it in wanted]:
            yield number, "the reading order is\n" + "\n".join(wanted)


def wrong_sums(page):
    """The number of a line and what is wrong with a sum there."""
    for number, line in page.prose:
        for found in LINK.finditer(line):
            path = os.path.normpath(os.path.join(os.path.dirname(page.path), found[2])) if found[2] else page.path
            other = Page(page.top, path)
            there = next((at for at, it in other.prose if it.startswith("#") and other.slug(it) == found[3]), None)
            yield from compared(number, found[1], None if there is None else sum_from(other, there))
        for found in SAID.finditer(line):
            yield from compared(number, found[1], sum_from(page, number))


def compared(number, said, wanted):
    if wanted is None:
        yield number, f"{said} lines: no table of definitions is there"
    elif number_of(said) != wanted:
        yield number, f"{said} lines: the table has {wanted}"
