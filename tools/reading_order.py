"""Prints which definitions a reader has to believe who reads some of them: file by file, lowest first, as a table. Words: the
definitions, each as crate.File.Name, and the top of the tree. For docs/THEORY.md and tools/documents.py. A definition behind a `-`
is taken for what its comment says: it is not opened, and its lines do not count.

A definition stands on each that its text names, in its own file or by an import from another crate's specs/, also of a crate of
the toolchain; what std and the types of the sources (`declared`) say is not counted, and any other file that is not found is a
fault. A line counts if it is a definition's, without its comment. In a section, `module _ {..} (..) where`, each definition
stands on what the section's head names, which is no line of its own."""

import os
import re
import shutil
import sys

# The toolchain's folder.
KIT = os.path.dirname(os.path.dirname(os.path.realpath(shutil.which("rt") or sys.exit("there is no rt"))))

HEAD = re.compile(r"^(?:(?:abbrev|unfoldable|opaque) )*pub (?:(?:record|data) )?([^\s:(]+)")
SECTION = re.compile(r"^module _ (.*) where$")
USE = re.compile(r"^(?:pub )?use Rattle\.(\w+)\.specs\.([\w.]+)\.\{(.*)\}")


class File:
    """A file of specs/: its definitions, and where the names that it imports are defined."""

    def __init__(self, path):
        self.lines_of, self.imports, self.says, self.section_of = {}, {}, [], {}
        name, begun, section = None, False, ""
        with open(path, encoding="utf-8") as file:
            lines = file.read().split("\n")
        for line in lines:
            if section and line.startswith("  "):
                line = line[2:]
            elif line:
                opened = SECTION.match(line)
                section = opened[1] if opened else ""
                name = None if opened else name
            head, use = HEAD.match(line), USE.match(line)
            begun = begun or bool(use)
            if use:
                for it in use[3].split(", "):
                    self.imports[it] = (use[1], use[2], it)
            elif line.startswith("--"):
                name = None if not head else name
                if not begun:
                    self.says.append(line.lstrip("- "))
            elif head:
                name = head[1]
                self.lines_of[name], self.section_of[name] = [line], section
            elif name and line.strip():
                self.lines_of[name].append(line)

    def below(self, name):
        for word in re.findall(r"[\w◌]+", "\n".join([self.section_of[name], *self.lines_of[name]])):
            if word in self.lines_of:
                yield None, None, word
            elif word in self.imports:
                yield self.imports[word]


def path_of(top, crate, module):
    """The file of a module, of this repository or of the toolchain; none if it is not counted."""
    if crate == "std" or module.split(".")[0] == "declared":
        return None
    name = f"{crate}/specs/{module.replace('.', '/')}.antt"
    found = [it for it in (f"{top}/crates/{name}", f"{KIT}/rattle/{name}") if os.path.exists(it)]
    return found[0] if found else sys.exit(f"there is no file of {crate}.{module}")


def files_below(top, words, taken):
    """Of each file the definitions that are needed, without those that are taken for what they say; files by (crate, module)."""
    files, needed, queue, met = {}, {}, [tuple(it.split(".")) for it in words], set()
    while queue:
        crate, module, name = queue.pop()
        path = path_of(top, crate, module)
        if not path:
            continue
        file = files.setdefault((crate, module), None) or File(path)
        files[crate, module] = file
        names = needed.setdefault((crate, module), set())
        if (crate, module, name) in taken:
            met.add((crate, module, name))
            continue
        if name not in file.lines_of:
            queue += [file.imports[name]] if name in file.imports else []  # it is handed on
        if name in names or name not in file.lines_of:
            continue
        names.add(name)
        queue += [(other or crate, where or module, it) for other, where, it in file.below(name)]
    for crate, module, name in (it.split(".") for it in words):
        if name not in needed.get((crate, module), ()):
            sys.exit(f"there is no {crate}.{module}.{name}")
    for it in taken - met:
        sys.exit(f"nothing names {'.'.join(it)}")
    return files, {place: names for place, names in needed.items() if names}


def in_order(top, files, needed):
    """The files, each behind those that it imports from: the toolchain's crates, then those of crates.txt in its order."""
    with open(f"{top}/crates.txt", encoding="utf-8") as file:
        crates = re.findall(r"^(\w+)", file.read(), re.M)
    ordered = []

    def visit(place):
        if place not in ordered:
            for other in sorted({it[:2] for it in files[place].imports.values()} & set(needed)):
                if other != place:
                    visit(other)
            ordered.append(place)

    def rank(place):
        return crates.index(place[0]) if place[0] in crates else -1

    for place in sorted(needed, key=lambda it: (rank(it), it)):
        visit(place)
    return ordered


def table(top, *words):
    taken = {tuple(it[1:].split(".")) for it in words if it.startswith("-")}
    files, needed = files_below(top, [it for it in words if not it.startswith("-")], taken)
    rows, sums = ["| File | Definitions | Lines | Says |", "|---|---|---|---|"], [0, 0]
    for place in in_order(top, files, needed):
        lines = sum(len(files[place].lines_of[it]) for it in needed[place])
        sums = [sums[0] + len(needed[place]), sums[1] + lines]
        says = re.split(r"\. | \(|\.$", " ".join(files[place].says))[0].replace("|", "\\|")
        rows.append(f"| `{place[0]}/specs/{place[1]}.antt` | {len(needed[place])} | {lines} | {says} |")
    rows.append(f"| {len(needed)} files | {sums[0]} | {sums[1]} | |")
    return rows


if __name__ == "__main__":
    print("\n".join(table(sys.argv[-1], *sys.argv[1:-1])))
