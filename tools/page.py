"""A page cut into its parts: blocks that are shown as they are, tables, prose, headings. For tools/documents.py."""

import os
import re

FIRST_WORDS = re.compile(r"\(?(rt|ring_tool|out/ring_tool|cd|git|(?:bench|tools|trials)/\S+|\.ci/run)( |$)")


class Block:
    """Lines of a page that are shown as they are."""

    def __init__(self, number, section, mark, kind):
        self.number, self.section, self.mark, self.kind = number, section, mark, kind
        self.lines = []

    def text(self):
        return "\n".join(self.lines).strip("\n") + "\n"

    def sessions(self):
        """What stands before the first command behind `$ `, and each of those with what it prints."""
        first, *others = re.split(r"^\$ ", self.text(), flags=re.M)
        return first, [it.partition("\n")[::2] for it in others]

    def is_commands(self):
        return bool(self.lines) and bool(FIRST_WORDS.match(self.lines[0]))


class Page:
    """A page cut into blocks, tables and prose."""

    def __init__(self, top, path):
        self.top, self.path = top, path
        self.folder = os.path.dirname(f"{top}/{path}")
        with open(f"{top}/{path}", encoding="utf-8") as file:
            self.lines = file.read().split("\n")
        self.blocks, self.tables, self.prose, self.headings = [], [], [], []
        self.orders, self.journals = [], []
        self.read()

    def read(self):
        section, mark, block, fenced = "", None, None, False
        for number, line in enumerate(self.lines, 1):
            if fenced:
                if line.startswith("```"):
                    fenced = False
                    block = None
                else:
                    block.lines.append(line)
                continue
            if line.startswith("```"):
                fenced, block, mark = True, Block(number, section, mark, line[3:].strip()), None
                self.blocks.append(block)
            elif line.startswith("    ") and (block or not self.lines[number - 2].strip()):
                if block is None or (not block.lines[-1] and FIRST_WORDS.match(line[4:])):
                    block, mark = Block(number, section, mark, ""), None
                    self.blocks.append(block)
                block.lines.append(line[4:])
            elif block and not line.strip():
                block.lines.append("")
            else:
                block = None
                found = re.match(r"<!-- ((?:run|file|played|order|journal): .*) -->$", line)
                if mark and line.startswith("|"):
                    kind, _, word = mark.partition(": ")
                    {"order": self.orders, "journal": self.journals}.get(kind, []).append((number, word))
                mark = found[1] if found else mark if not line.strip() else None
                if line.startswith("#"):
                    section = line
                    self.headings.append(line.lstrip("#").strip())
                self.add_prose(number, line)

    def add_prose(self, number, line):
        if line.startswith("|"):
            if self.tables and self.tables[-1][-1][0] == number - 1:
                self.tables[-1].append((number, line))
            else:
                self.tables.append([(number, line)])
        self.prose.append((number, line))

    def wrong_links(self):
        """The number of a line and what is wrong with a link there."""
        for number, line in self.prose:
            for target in re.findall(r"\]\(([^)\s]+)\)", line):
                if target.startswith(("http:", "https:")):
                    continue
                path, _, heading = target.partition("#")
                file = os.path.normpath(f"{self.folder}/{path}") if path else f"{self.top}/{self.path}"
                if not os.path.exists(file):
                    yield number, f"no file {target}"
                elif heading and heading not in Page(self.top, os.path.relpath(file, self.top)).slugs():
                    yield number, f"no heading {target}"

    def slugs(self):
        return {self.slug(it) for it in self.headings}

    @staticmethod
    def slug(heading):
        """The anchor of a heading, with or without its marks."""
        return re.sub(r"[^\w\- ]", "", heading.lstrip("#").strip().lower()).replace(" ", "-")


def cells(line):
    return [it.strip() for it in line.strip().strip("|").split("|")]
