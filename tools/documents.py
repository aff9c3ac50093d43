"""Tries what the documents say. Words: the top of the tree; and the program, for tools/documents.sh.

Without a program it only reads, in a few seconds, for ./test. Of each page, man pages too: no word or form of `page_words.py` is
in it; each link leads to a file, and to a heading of it; each clause that it names is one of the crates (`page_clauses.py`); a table
of definitions is the one that `reading_order.py` prints, and a sum that a page gives is that of its table (`page_sums.py`). The first
page has at most 150 lines of 120 characters, and cells of 200. Nor is such a word in help texts, in what the server logs and answers,
in comments, or in the names of the proved crates (`source_words.py`). The last line is `N passed, M failed`, one for each page and
each kind of source.

With a program, of each page (README, CHANGELOG, docs/, each crate's README; of the others only links and names):

- a link leads to a file, and to a heading of it; the page of a crate tells each function that the crate hands out, and
  docs/LIMITS.md the number of each constant that is a limit;
- a name in backticks stands in the sources, a path is a file: NAME in capitals stands for any; in a table of promises a
  clause is one of the functions that its row names;
- a block of commands (rt, ring_tool, scripts) is run as far as it is the program's, in a copy of the tree's data, and the
  next block of the section is what it printed; words in capitals or brackets are no run: then only the options are looked up;
- behind `$ ` in a block stands a command, and behind it what it prints; a block with `wozgirt-server` is a shell's, with jobs, and
  `server/tests/test_documents.py` plays it;
- `<!-- run: COMMAND -->` before a block says what prints it, `<!-- file: PATH -->` where its lines stand, in order, and
  `<!-- played: PATH -->` which script runs it;
- a block that begins with `ringfarm 1` or `ringfarm 2` is a legal history, one that begins with `legal rings` what `check`
  says of the last one; one of settings is run;
- `<!-- order: DEFINITIONS -->` before a table says that it is the one of reading_order.py;
- a block that begins with `ringjournal 1` is recovered; `<!-- journal: N -->` before a table says that each of its rows adds
  lines to the first N of that block, and what `recover` says then;
- a table headed Words, Text, Status is run row by row, one headed "`check` says" with the last history and a changed line.
"""

import glob
import importlib
import os
import re
import shlex
import shutil
import subprocess
import sys
import tempfile

import clauses
import page_clauses
import page_sums
import page_words
import source_words
from page import Page, cells

PLACEHOLDER = re.compile(r"\b[A-Z][A-Z_]+\b|[][|]|\.\.\.|\b[A-Z]\b")
IDENTIFIER = re.compile(r"[A-Za-z_][A-Za-z0-9_]*(?:(?:::|\.)(?:[A-Za-z_][A-Za-z0-9_]*|\*))*(?:\(\))?!?$")
FILE_ENDS = (".rt", ".antt", ".md", ".sh", ".py", ".c", ".rs", ".json", ".txt", ".svg", ".png", ".edits")
COMMIT = re.compile(r"[0-9a-f]{7,40}$")
reading_order = None
#: the most lines of the first page, characters of a line, characters of a cell
FIRST_PAGE = (150, 120, 200)

# what is made and not kept, or lies elsewhere; names of tools that no script here calls
OTHERS = ("perf", "nix", "memoffset", "clap_complete", "ureq", "rustls")
# what stands in brackets in a table of promises, and is no clause: calls of the system
CALLS = ("flock", "fsync", "fdatasync")
MADE = ("out/", "release/out", "wozgirt_VERSION", "gpu/", "/", "./", "missing", "-", "~", "../../")

FOLDERS_OF_SCRIPTS = ("bench/", "tools/", "trials/")


class Sources:
    """The words that stand in the sources, and the paths of the files that are kept."""

    def __init__(self, top):
        self.top = top
        listed = subprocess.run(["git", "-C", top, "ls-files", "-co", "--exclude-standard"], capture_output=True, text=True, check=True)
        self.files = [it for it in listed.stdout.split("\n") if it and os.path.exists(f"{top}/{it}")]
        self.words = set()
        self.read_clauses()
        for path in self.files:
            if path.endswith((".md", ".png", ".svg")):
                continue
            self.words |= set(re.findall(r"\w+", path))
            with open(f"{top}/{path}", encoding="utf-8", errors="replace") as file:
                self.words |= set(re.findall(r"[A-Za-z_][A-Za-z0-9_]*", file.read()))

    def has_path(self, page, path):
        pattern = re.sub(r"\b[A-Z][A-Z_]*\b(?!\.(?:md|py))", "*", path) if "README" not in path else path.replace("NAME", "*")
        pattern = pattern.replace("...", "**").rstrip("/")
        if "/" not in path and any(it.endswith(f"/{path}") for it in self.files):
            return True
        below = ("", "/crates", "/crates/*", "/crates/*/src", "/bench", "/models", "/tools", "/trials", "/docs", "/examples", "/server/wozgirt-server/src")
        roots = (page.folder, reading_order.KIT, f"{reading_order.KIT}/rattle", *(f"{self.top}{it}" for it in below))
        return any(glob.glob(f"{root}/{it}", recursive=True) for root in roots for it in (path.rstrip("/"), pattern))

    def read_clauses(self):
        """The names of each function's clauses, and all that specs/ define."""
        self.clauses, self.defined = {}, set()
        for path in self.files:
            if path.startswith("crates/") and path.endswith(".rt"):
                for name, clause in clauses.clauses_of(f"{self.top}/{path}"):
                    found = re.match(r"(?:ensures|requires) (\w+) \{", clause)
                    self.clauses.setdefault(re.split(r"::|\.", name)[-1], set()).update([found[1]] if found else [])
            elif "/specs/" in path and path.endswith(".antt"):
                self.defined |= set(reading_order.File(f"{self.top}/{path}").lines_of)
                with open(f"{self.top}/{path}", encoding="utf-8") as file:
                    self.defined |= set(re.findall(r"^ +pub (\w+) :", file.read(), re.MULTILINE))  # members of what is defined

    def has_word(self, word):
        """Whether a word stands in the sources, or in those of the kit."""
        if word not in self.words:
            found = subprocess.run(["grep", "-rqwF", "--include=*.rt", "--include=*.antt", word, reading_order.KIT], check=False)
            self.words |= {word} if found.returncode == 0 else set()
        return word in self.words

    def has_commit(self, name):
        return subprocess.run(["git", "-C", self.top, "cat-file", "-e", name], capture_output=True, check=False).returncode == 0


class Trial:
    """What was tried, and what differs."""

    def __init__(self, top, tool):
        self.top, self.sources = top, Sources(top)
        self.counts = dict.fromkeys(("pages", "links", "names", "commands", "outputs", "rows"), 0)
        self.faults = 0
        self.room = tempfile.mkdtemp()
        os.mkdir(f"{self.room}/bin")
        os.symlink(os.path.abspath(tool), f"{self.room}/bin/ring_tool")

    def differs(self, page, number, said):
        self.faults += 1
        print(f"{page.path}:{number}: {said}")

    def begin(self, page):
        """A copy of the data that a page's commands name."""
        self.tree = tempfile.mkdtemp(dir=self.room)
        for name in ("examples", "docs"):
            shutil.copytree(f"{self.top}/{name}", f"{self.tree}/{name}")
        shutil.copy(f"{self.top}/README.md", self.tree)
        os.makedirs(f"{self.tree}/crates/ring_tool")
        os.mkdir(f"{self.tree}/tmp")
        os.symlink("../../examples", f"{self.tree}/crates/ring_tool/examples")
        for folder in (self.tree, f"{self.tree}/crates/ring_tool"):
            shutil.copy(f"{self.top}/examples/first.json", folder)
            self.run("ring_tool run first.json --history history.txt", folder)
        self.place, self.history = self.tree, ""

    def run(self, line, folder, given=""):
        """Runs a command line of the program: its output, its status and its other output."""
        path = f"{self.room}/bin:{os.environ['PATH']}"
        line = line.replace("/tmp/", f"{self.tree}/tmp/")
        done = subprocess.run(["sh", "-c", line], cwd=folder, input=given, capture_output=True, text=True, timeout=120, env={**os.environ, "PATH": path})
        return done.stdout, done.returncode, done.stderr

    def read_page(self, page):
        """A page whose blocks are played elsewhere, or are no program's."""
        self.counts["pages"] += 1
        self.follow_links(page)
        self.look_names_up(page)

    def try_page(self, page):
        self.begin(page)
        self.read_page(page)
        if page.path == "docs/PROMISES.md" or re.match("crates/(?!wrong_)", page.path):
            self.look_clauses_up(page)
        if page.path.startswith("crates/"):
            self.look_calls_up(page)
        if page.path == "docs/ARCHITECTURE.md":
            self.look_crates_up(page)
        if page.path == "docs/TESTING.md":
            self.look_scripts_up(page)
        if page.path == "docs/LIMITS.md":
            self.look_limits_up(page)
        self.play_blocks(page)
        for table in page.tables:
            self.play_table(page, table)
        for number, said in page_sums.wrong_orders(page):
            self.differs(page, number, said)
        self.counts["outputs"] += len(page.orders)
        for number, word in page.journals:
            self.play_journal(page, number, int(word))

    def follow_links(self, page):
        self.counts["links"] += sum(len(re.findall(r"\]\([^)\s]+\)", line)) for _, line in page.prose)
        for number, said in page.wrong_links():
            self.differs(page, number, said)

    def look_names_up(self, page):
        shown = {number for table in page.tables if is_of_words(table) for number, _ in table}
        for number, line in page.prose:
            if number in shown:
                continue
            for name in re.findall(r"`([^`]+)`", line):
                if not self.is_known(page, name):
                    self.differs(page, number, f"no `{name}`")

    def look_calls_up(self, page):
        """Each function that a crate hands out at its top stands on its page, and each twin on the page of its crate."""
        crate = os.path.basename(page.folder)
        sources = glob.glob(f"{page.folder}/src/**/*.rt", recursive=True) if crate.startswith("wrong_") else glob.glob(f"{page.folder}/src/lib.rt")
        for path in sources:
            with open(path, encoding="utf-8") as file:
                text = file.read()
            for name in re.findall(r"^pub fn (\w+)", text, re.M) + re.findall(r"\b([a-z]\w*)(?=[,;} \n])", " ".join(re.findall(r"^pub use ([^;]*;)", text, re.M))):
                if not any(f"{name}`" in line for line in page.lines):
                    self.differs(page, 1, f"`{name}` is not told")

    def look_clauses_up(self, page):
        """In a row that names functions with clauses, each name in brackets or before a colon is a clause of one of them."""
        known = self.sources
        for number, line in (it for table in page.tables for it in table):
            functions = [it.split("::")[-1] for it in re.findall(r"`([A-Za-z_:]+)`", line)]
            own = set().union(*(known.clauses.get(it, ()) for it in functions))
            told = re.findall(r"\(([^()]*)\)", line) + re.findall(r"(`[a-z_]+`): ", line)
            for name in re.findall(r"`([a-z_]+)`", " ".join(told)) if own and "`Display`" not in line else ():
                self.counts["names"] += 1
                if name not in own and name not in known.clauses and name not in known.defined and name not in CALLS and not self.is_crate(name):
                    self.differs(page, number, f"no clause `{name}` of these functions")

    def is_crate(self, name):
        return os.path.isdir(f"{self.top}/crates/{name}")

    def look_scripts_up(self, page):
        for path in [it for folder in FOLDERS_OF_SCRIPTS for it in glob.glob(f"{self.top}/{folder}*.sh")]:
            name = os.path.relpath(path, self.top)
            if name != "tools/common.sh" and not any(f"`{name}" in line for line in page.lines):
                self.differs(page, 1, f"the script `{name}` is not told")

    def look_limits_up(self, page):
        """Each constant of the sources that is a limit has its number on the page."""
        for path in self.sources.files:
            if re.match(r"crates/(?!wrong_|ticket_|\w+_tests).*\.rt$", path):
                with open(f"{self.top}/{path}", encoding="utf-8") as file:
                    found = re.findall(r"const (\w*LIMIT|MOST_\w+|DRAWN|PART_NAMES): \w+ = ([0-9_]+);", file.read())
                for name, value in found:
                    self.counts["names"] += 1
                    if not re.search(rf"(?<![\d,]){int(value):,}(?![\d,]*\d)", "\n".join(page.lines)):
                        self.differs(page, 1, f"the limit `{name}`, {int(value):,}, is not told")

    def look_crates_up(self, page):
        """Each crate has a row of a table, and is on a figure."""
        figures = "\n".join(it.text() for it in page.blocks)
        with open(f"{self.top}/crates.txt", encoding="utf-8") as file:
            for crate in re.findall(r"^(\w+)", file.read(), re.M):
                if not any(f"`{crate}`" in line for line in page.lines):
                    self.differs(page, 1, f"the crate `{crate}` is not told")
                if not re.search(rf"\b{crate}\b", figures):
                    self.differs(page, 1, f"the crate `{crate}` is on no figure")

    def is_known(self, page, name):
        word = name.split(" ")[0]
        if word.startswith(FOLDERS_OF_SCRIPTS) or (" " not in name and ("/" in name or name.endswith(FILE_ENDS))):
            self.counts["names"] += 1
            return name.startswith(MADE) or "/out/" in name or "first.json" in word or self.sources.has_path(page, word.partition(":")[0])
        if IDENTIFIER.match(name):
            self.counts["names"] += 1
            parts = re.findall(r"[A-Za-z_][A-Za-z0-9_]*", name)
            return name.isupper() or name in OTHERS or name.startswith(MADE) or COMMIT.match(name) and self.sources.has_commit(name) or all(map(self.sources.has_word, parts))
        return True

    def play_blocks(self, page):
        printed = None
        for block in page.blocks:
            if printed and printed[0] != block.section:
                printed = None
            if re.match(r"ringfarm [12]\n", block.text()):
                self.history = block.text()
            if block.mark:
                self.play_mark(page, block)
            elif block.is_commands():
                said = self.play_commands(page, block)
                printed = (block.section, said) if said else None
            elif "$ wozgirt-server " in block.text():
                printed = None
            elif "$ " in (it[:2] for it in block.lines):
                self.play_sessions(page, block, printed[1] if printed else "")
                printed = None
            elif printed:
                self.compare(page, block, printed[1])
                printed = None
            else:
                self.play_text(page, block)

    def play_sessions(self, page, block, printed):
        first, sessions = block.sessions()
        if first.strip():
            self.compare(page, block, printed, first)
        for command, wanted in sessions:
            self.counts["commands"] += 1
            said, _, fault = self.run(re.sub(r"\S*out/ring_tool ", "ring_tool ", command), self.place)
            self.compare(page, block, said + fault, wanted)

    def compare(self, page, block, said, wanted=None):
        wanted = (block.text() if wanted is None else wanted).strip("\n")
        self.counts["outputs"] += 1
        if said.strip("\n") != wanted:
            self.differs(page, block.number, f"it prints\n{said}and not\n{wanted}")

    def play_mark(self, page, block):
        kind, _, word = block.mark.partition(": ")
        if kind == "run":
            self.counts["commands"] += 1
            self.compare(page, block, self.run(word, self.place)[0])
            return
        self.counts["outputs"] += 1
        if kind == "played":
            is_test = os.path.basename(word).startswith("test_") and os.path.isfile(f"{self.top}/{word}")  # which server/tests/run.py runs
            if not is_test and not os.access(f"{self.top}/{word}", os.X_OK):
                self.differs(page, block.number, f"there is no {word}")
            return
        with open(f"{self.top}/{word}", encoding="utf-8") as file:
            there = iter([it.strip() for it in file])
        missing = [it for it in map(str.strip, block.lines) if it and it not in there]
        if missing:
            self.differs(page, block.number, f"{word} has no line (behind those before it) {missing[0]}")

    def play_text(self, page, block):
        text = block.text()
        if text == self.history:
            self.counts["commands"] += 1
            _, status, fault = self.run("ring_tool check -", self.place, text)
            if status:
                self.differs(page, block.number, f"the history is not legal: {fault}")
        elif text.startswith("ringjournal 1\n"):
            self.counts["commands"] += 1
            _, status, fault = self.run("ring_tool recover - -", self.place, text)
            if status:
                self.differs(page, block.number, f"the journal is refused: {fault}")
        elif block.kind == "json" and '"rings"' in text:
            self.counts["commands"] += 1
            _, status, fault = self.run("ring_tool run -", self.place, text)
            if status:
                self.differs(page, block.number, f"the settings are refused: {fault}")
        elif text.startswith("legal rings") and not PLACEHOLDER.search(text):
            self.compare(page, block, self.run("ring_tool check -", self.place, self.history)[0])
        elif text.startswith(("tickets ", "client 0 turns")):
            wanted = text.strip("\n").split("\n")
            with open(f"{self.top}/crates/ticket_desk/stdout", encoding="utf-8") as file:
                said = file.read().split("\n")
            first = said.index(wanted[0]) if wanted[0] in said else 0
            self.compare(page, block, "\n".join(said[first : first + len(wanted)]))

    def play_commands(self, page, block):
        """Runs the commands of a block, and returns what those of the program printed."""
        said = []
        for number, line in enumerate(block.lines, block.number):
            line = re.sub(r"\s+#.*", "", line).strip().strip("()")
            self.look_commands_up(page, number, line)
            if "../../" in line:
                self.place = f"{self.tree}/crates/ring_tool"
            found = re.search(r"(?:\brt (?:run|try)\b.*? -- |(?:^|&& )(?:\S*out/)?ring_tool )(.*)", line)
            if not found or " --test" in line.partition(" -- ")[0]:
                continue
            words = re.sub(r"\S*out/ring_tool ", "ring_tool ", found[1])
            if PLACEHOLDER.search(words.replace("| ring_tool", "")):
                self.look_options_up(page, number, words)
                continue
            self.counts["commands"] += 1
            printed, status, fault = self.run(f"ring_tool {words}", self.place)
            if status:
                self.differs(page, number, f"status {status}: {fault.strip()}")
            said.append(printed)
        return "".join(said)

    def look_commands_up(self, page, number, line):
        for part in line.split("&&"):
            words = part.split()
            if words and words[0] == "cd":
                known = os.path.isdir(f"{self.top}/{words[1]}")
                self.place = f"{self.tree}/crates/ring_tool" if words[1] == "crates/ring_tool" else self.place
            else:
                known = not words or not words[0].startswith(FOLDERS_OF_SCRIPTS) or os.access(f"{self.top}/{words[0]}", os.X_OK)
            if not known:
                self.differs(page, number, f"there is no {part.strip()}")

    def look_options_up(self, page, number, words):
        self.counts["commands"] += 1
        command = words.split()[0]
        if command.isupper() or command.startswith("-"):
            return
        told = self.run(f"ring_tool {command} --help", self.place)[0]
        for option in re.findall(r"--[a-z]+", words):
            if option not in told:
                self.differs(page, number, f"{command} has no {option}")

    def play_journal(self, page, number, count):
        """The rows of a table: lines that are added to the first lines of the journal before it, and what `recover` says."""
        journal = [it for it in page.blocks if it.number < number and it.text().startswith("ringjournal 1\n")][-1]
        for place in range(number + 1, len(page.lines)):
            if not page.lines[place].startswith("|"):
                return
            self.counts["rows"] += 1
            row = cells(page.lines[place])
            text = "\n".join(journal.lines[:count] + re.findall(r"`([^`]+)`", row[0])) + "\n"
            said, _, fault = self.run("ring_tool recover - recovered.txt", self.tree, text)
            if (said or fault).strip() != row[1].strip("`"):
                self.differs(page, place + 1, f"recover says {(said or fault).strip()}")

    def play_table(self, page, table):
        if is_of_words(table):
            for number, line in table[2:]:
                self.play_words(page, number, cells(line))
        elif "`check` says" in table[0][1]:
            for number, line in table[2:]:
                self.play_change(page, number, cells(line))

    def play_words(self, page, number, row):
        """A row of words that are refused: each of those in backticks is a run with the text and the status. A row that tells
        of anything else, as of an input that fails, is not tried."""
        texts = re.findall(r"`([^`]+)`", row[1])
        if re.sub(r"`[^`]+`|[,\s]|none", "", row[0]):
            return
        for at, words in enumerate(re.findall(r"`([^`]+)`", row[0]) or [""]):
            self.counts["rows"] += 1
            words = re.sub(r"^ring_tool ", "", words)
            _, status, fault = self.run(f"ring_tool {shlex.join(words.split())}", self.tree)
            if " ".join(row[2].split()) != str(status):
                self.differs(page, number, f"`{words}` has the status {status}")
            missing = [it for it in texts if it not in fault]
            if missing and not (at < len(texts) and texts[at] in fault):
                self.differs(page, number, f"`{words}` says {fault.strip()}")

    def play_change(self, page, number, row):
        """A row of a line that is changed in the page's last history, and what `check` says then."""
        self.counts["rows"] += 1
        lines = self.history.split("\n")
        lines[int(row[0]) - 1] = row[1].strip("`")
        _, _, fault = self.run("ring_tool check -", self.tree, "\n".join(lines))
        if fault.strip() != row[2].strip("`"):
            self.differs(page, number, f"check says {fault.strip()}")


def is_of_words(table):
    return cells(table[0][1]) == ["Words", "Text", "Status"]


def main(top, tool):
    global reading_order
    reading_order = importlib.import_module("reading_order")  # it needs rt
    trial = Trial(top, tool)
    kept = [it for it in ("README.md", "CHANGELOG.md") if os.path.exists(f"{top}/{it}")]
    pages = kept + sorted(os.path.relpath(it, top) for it in glob.glob(f"{top}/docs/*.md") + glob.glob(f"{top}/crates/*/README.md"))
    try:
        for path in pages:
            trial.try_page(Page(top, path))
        for path in (it for it in pages_of(top) if it.endswith(".md") and it not in pages):
            trial.read_page(Page(top, path))
    finally:
        shutil.rmtree(trial.room)
    counted = ", ".join(f"{count} {what}" for what, count in trial.counts.items())
    print(f"{counted}; {trial.faults} differ")
    return 1 if trial.faults else 0


def pages_of(top):
    """Each page of the tree, and each man page."""
    for folder, folders, files in os.walk(top):
        folders[:] = sorted(it for it in folders if it not in ("out", "target", "node_modules") and not it.startswith("."))
        for it in sorted(files):
            path = os.path.relpath(os.path.join(folder, it), top)
            if it.endswith(".md") or os.path.basename(folder) == "man":
                yield path


def wrong_form(page):
    """The first page is short, and can be read in a terminal."""
    if len(page.lines) > FIRST_PAGE[0] + 1:
        yield FIRST_PAGE[0], f"the first page has more than {FIRST_PAGE[0]} lines"
    for number, line in enumerate(page.lines, 1):
        if len(line) > FIRST_PAGE[1]:
            yield number, f"a line of more than {FIRST_PAGE[1]} characters"
        if line.startswith("|") and any(len(it) > FIRST_PAGE[2] for it in cells(line)):
            yield number, f"a cell of more than {FIRST_PAGE[2]} characters"


def read_only(top):
    """What can be seen by reading: words of pages and sources, clauses, links, and the form of the first page. Runs nothing."""
    functions = page_clauses.Functions(top)
    excuses = page_words.Excuses(f"{top}/tools/excused_words.txt")
    passed = failed = 0
    for path in pages_of(top):
        page = Page(top, path)
        said = [(number, f"\"{found}\": say {better}") for number, found, better in page_words.wrong_words(path, page.lines, excuses)]
        if path.endswith(".md"):
            said += [*page.wrong_links(), *page_clauses.wrong_clauses(page, functions), *page_sums.wrong_orders(page), *page_sums.wrong_sums(page)]
        said += wrong_form(page) if path == "README.md" else ()
        print("".join(f"{path}:{number}: {it}\n" for number, it in sorted(said)), end="")
        passed, failed = (passed, failed + 1) if said else (passed + 1, failed)
    for _, said in source_words.wrong_sources(top, excuses):
        print("".join(f"{path}:{number}: \"{found}\": say {better}\n" for path, number, found, better, _ in said), end="")
        passed, failed = (passed, failed + 1) if said else (passed + 1, failed)
    for path, text in sorted(excuses.unused):
        print(f"tools/excused_words.txt: nothing needs the line {path}: {text}")
    failed += len(excuses.unused)
    print(f"{passed} passed, {failed} failed")
    return 1 if failed else 0


if __name__ == "__main__":
    sys.exit(main(*sys.argv[1:]) if len(sys.argv) > 2 else read_only(sys.argv[1]))
