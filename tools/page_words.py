"""Words and forms that readers of the pages stumbled over, each with what to say instead. For tools/documents.py.

They are looked for in the prose of a page, and of a source (`source_words.py`): not in blocks, nor in what is between backticks, nor, of
a man page, in what it shows literally. tools/excused_words.txt has the lines that excuse one: `PATH: TEXT`, where TEXT is what the page
or source says there."""

import os
import re

#: forms that a page must not have, and what to say
FORMS = tuple((re.compile(form, re.I), better) for form, better in (
    (r"\b(?:tells|told|telling)\b|\btell\b(?! (?:whether|how|which|from|\w+ (?:apart|from)))", "say, report, return, record"),
    (r"\b(?:stands?|stood|standing)\b", "is, appears, waits"),
    (r"(?<!there )\b(?:is|are|was|were) no\b(?! (?:longer|more|less|fewer|greater|smaller|other|later|earlier|such))", "is not a"),
    (r"\bbehind\b", "after"),
    (r"\bin front of\b", "before"),
    (r"\bso (?:many|long)\b(?! as)", "n, a number"),
    (r"\bbut for\b", "except"),
    (r"\bwant of\b|\bfor want\b", "out of memory, lack of"),
    (r"(?:^|[.;:|] |\*\*|- |\bso )(?-i:[Ww]ho)\b", "a client that .."),
    (r"\bbesides\b", "also"),
    (r"\balone\b", "only, by itself"),
    (r"\ba beginning of\b", "a prefix of"),
    (r"\b(?:go|goes|went|going) on\b", "resume, continue"),
    (r"\bin the place of\b", "instead of, replaces"),
    (r"\bof one's own\b", "of your own"),
    (r"\bno way to it\b", "impossible"),
))
#: what a man page shows as it is: the macros that begin and end it, and those whose line is it
LITERAL = re.compile(r"\.(?:Bd|Ed)\b")
SHOWN = re.compile(r"\.(?:\\\"|D[l1]|Ql|Li|Dd|Dt|Os|Xr|Nm|In|Ft|Fn|Fo|Fa|Fc|Vt)")
NEW_UNIT = re.compile(r"\.(?:Pp|It|Sh|Ss|El|Bl)")


def units(path, lines):
    """The paragraphs, items and rows of a page as lists of numbered lines."""
    return man_units(lines) if re.search(r"\.\d$", path) else text_units(lines)


def text_units(lines):
    unit, fenced, indented = [], False, False
    for number, line in enumerate(lines, 1):
        if line.startswith("```"):
            fenced = not fenced
        indented = line.startswith("    ") and (indented or not unit)
        if fenced or indented or line.startswith(("```", "<!--")) or not line.strip():
            if unit:
                yield unit
            unit = []
            continue
        if unit and re.match(r"[|#]|\s*(?:[-*]|\d+\.) ", line):
            yield unit
            unit = []
        unit.append((number, line.strip()))
    if unit:
        yield unit


def man_units(lines):
    unit, literal = [], False
    for number, line in enumerate(lines, 1):
        if LITERAL.match(line):
            literal = line.startswith(".Bd")
        if literal or SHOWN.match(line):
            continue
        if NEW_UNIT.match(line) and unit:
            yield unit
            unit = []
        unit.append((number, re.sub(r"^\.\w+ ?", "", line).strip()))
    if unit:
        yield unit


def joined(unit):
    """The prose of a unit as one line, and where in it each of its lines begins."""
    text, begins = "", []
    for number, line in unit:
        begins.append((len(text), number))
        text += re.sub(r"\]\([^)]*\)", "]", re.sub(r"`[^`]*`", "`_`", line)) + " "
    return text, begins


class Excuses:
    """The lines that excuse a form, and those of them that nothing needed."""

    def __init__(self, path):
        self.lines, self.unused = {}, set()
        if os.path.exists(path):
            with open(path, encoding="utf-8") as file:
                for line in file.read().split("\n"):
                    page, _, text = line.partition(": ")
                    if text and not line.startswith("#"):
                        self.lines.setdefault(page, []).append(text)
                        self.unused.add((page, text))

    def excuse(self, path, text, found):
        """Whether a line excuses what was found in a text of a page."""
        for it in self.lines.get(path, ()):
            at = text.find(it)
            if at >= 0 and at <= found.start() and found.end() <= at + len(it):
                self.unused.discard((path, it))
                return True
        return False


def wrong_words(path, lines, excuses):
    """The number of a line, what is there, and what to say."""
    for unit in units(path, lines):
        yield from wrong_in(path, unit, excuses)


def wrong_in(path, unit, excuses):
    """The same of one unit."""
    text, begins = joined(unit)
    heading = text.startswith("#")
    for form, better in FORMS:
        for found in form.finditer(text):
            if (heading and "who" in found[0].lower()) or excuses.excuse(path, text, found):
                continue
            number = [number for at, number in begins if at <= found.start()][-1]
            yield number, found[0].strip(), better
