"""The prose of the sources: comments, help texts, what the server logs and answers. For tools/documents.py, which looks in it for the
words and forms of `page_words.py`, as in a page. And the names in the proved crates: none has a word of `NAMED`.

`python3 tools/source_words.py TOP` prints what it finds of each kind, with the text around it, and how many of each."""

import glob
import io
import os
import re
import sys
import tokenize

import page_words

#: a comment, or a text between quotes, of Rust, Rattle and C; one character between quotes is skipped
TOKENS = re.compile(
    r"""(?P<line>//[^\n]*)|(?P<block>/\*.*?\*/)|(?P<raw>\br\#*"(?:[^"]*)"\#*)|"(?P<text>(?:[^"\\]|\\.)*)"|'(?:[^'\\\n]|\\.[^'\n]*)'""",
    re.S,
)
MARK = re.compile(r"//[/!]? ?")
#: a text of fewer words is not prose
FEWEST_WORDS = 3
TESTS = re.compile(r"^#\[cfg\(test\)\]\nmod \w+ \{", re.M)

#: what is judged: the name of the kind, its files, and what of them is read
KINDS = (
    ("help of ring_tool", ("crates/command_line/src/*.rt",), "texts"),
    ("texts of the server and the command", ("server/*/src/**/*.rs",), "texts"),
    ("texts of the clients", ("clients/python/wozgirt/*.py", "clients/rust/*/src/*.rs", "clients/c/*.h", "clients/c/*.c"), "texts"),
    ("comments of the C headers", ("clients/c/*.h", "clients/c/*.c"), "comments"),
    ("comments of the server and the command", ("server/*/src/**/*.rs",), "comments"),
    ("comments of the clients", ("clients/python/wozgirt/*.py", "clients/python/wozgirt-log", "clients/python/*.py", "clients/rust/*/src/*.rs", "clients/rust/*/*.rs"), "comments"),
    ("comments of the proved crates", ("crates/*/src/**/*.rt",), "comments"),
    ("comments of definitions and proofs", ("crates/*/specs/**/*.antt", "crates/*/proofs/**/*.antt"), "comments"),
)


#: words of ARCHITECTURE's table that no name of the proved crates has, as they have no other meaning there, with what to say
NAMED = {word: better for words, better in (
    ("node", "machine"), ("enabled active", "privileged"), ("payload", "order"), ("stable legitimate", "settled"), ("distance", "rest"),
    ("age", "calm"), ("account", "till"), ("user slot", "seat"), ("correct", "legal, right"), ("offset", "base, shift"),
    ("ledger", "book"), ("owner", "holder"), ("lease", "hold"), ("scenario", "plan"), ("dump", "saved history"), ("failure", "refusal"),
    ("announce", "report"), ("mutant", "twin, edit"),
) for word in words.split()}
#: the same of several words
NAMED_FORMS = re.compile(r"want_of_\w+"), "lack"
NAMES = "names in the proved crates", ("crates/*/src/**/*.rt", "crates/*/specs/**/*.antt", "crates/*/proofs/**/*.antt")


def names_of(text):
    """The names in a source of the proved crates, each with its line: not what is in comments and between quotes."""
    for number, line in enumerate(text.split("\n"), 1):
        for name in re.findall(r"[A-Za-z_]\w*", re.sub(r"//.*|--.*|\"(?:[^\"\\]|\\.)*\"", "", line)):
            yield number, name


def wrong_name(name):
    """The word in a name that no name has, and what to say; or None."""
    for word in re.findall(r"[A-Z]?[a-z]+|[A-Z]+(?![a-z])", name):
        if word.lower() in NAMED:
            return word, NAMED[word.lower()]
    found = NAMED_FORMS[0].search(name)
    return (found[0], NAMED_FORMS[1]) if found else None


def wrong_names(top):
    """What `wrong_sources` has of a kind, of the names."""
    for path in files_of(top, NAMES[1]):
        if "/out/" in path:
            continue
        with open(f"{top}/{path}", encoding="utf-8") as file:
            for number, name in names_of(file.read()):
                found = wrong_name(name)
                if found:
                    yield path, number, name, found[1], [(number, name)]


def numbered(text, start, lines):
    """Lines of a page with the numbers that they have in the file."""
    first = text.count("\n", 0, start) + 1
    return [(first + at, line) for at, line in enumerate(lines)]


def units_of(block):
    """The paragraphs, items and rows of numbered lines, as those of a page."""
    shift = block[0][0] - 1
    for unit in page_words.text_units([line for _, line in block]):
        yield [(number + shift, line) for number, line in unit]


def comments_of_code(text):
    """Blocks of lines: comments that follow one another, and each comment after code by itself."""
    block, after = [], -1
    for found in TOKENS.finditer(text):
        if found["block"]:
            lines = [re.sub(r"^\s*\*? ?", "", it) for it in found["block"][2:-2].split("\n")]
            yield numbered(text, found.start(), lines)
        if not found["line"]:
            continue
        before = text[text.rfind("\n", 0, found.start()) + 1 : found.start()]
        number = text.count("\n", 0, found.start()) + 1
        if block and (before.strip() or number != after + 1):
            yield block
            block = []
        block.append((number, MARK.sub("", found["line"], count=1)))
        after = number if not before.strip() else -1
    if block:
        yield block


def comments_of_proofs(text):
    """The same of Rattle's definitions and proofs, where each comment has lines of its own."""
    block = []
    for number, line in enumerate(text.split("\n"), 1):
        found = re.match(r"\s*--+(?: |$)(.*)", line)
        if found:
            block.append((number, found[1]))
        elif block:
            yield block
            block = []


def texts_of_code(text):
    """Blocks of lines: the texts between quotes that are prose, except in tests."""
    found = TESTS.search(text)
    for it in TOKENS.finditer(text[: found.start()] if found else text):
        said = it["text"] or it["raw"]
        if said and is_prose(said):
            lines = re.sub(r'^r#*"|"#*$', "", said).split("\n")
            yield numbered(text, it.start(), [spoken(line.replace('\\"', '"').rstrip("\\")) for line in lines])


def is_prose(said):
    """A text of fewer words is a name, or a part of a line."""
    return len([it for it in said.split() if re.search(r"[A-Za-z]{2}", it)]) >= FEWEST_WORDS


def spoken(line):
    """A line of a text without the values that are filled in."""
    return re.sub(r"\{[^{}]*\}", "_", line.replace("\\n", " "))


def python_tokens(text):
    """What is a comment or a docstring, and what is another text, each with its line."""
    first = True
    for it in tokenize.generate_tokens(io.StringIO(text).readline):
        if it.type == tokenize.COMMENT:
            yield "comments", it.start[0], re.sub(r"^#[:!]? ?", "", it.string)
        elif it.type in (tokenize.STRING, getattr(tokenize, "FSTRING_MIDDLE", -1)):
            said = re.sub(r'^[a-zA-Z]*("""|\'\'\'|"|\')(.*)\1$', r"\2", it.string, flags=re.S)
            yield "comments" if first and it.type == tokenize.STRING else "texts", it.start[0], said
        if it.type in (tokenize.NEWLINE, tokenize.INDENT, tokenize.DEDENT):
            first = True
        elif it.type not in (tokenize.NL, tokenize.COMMENT, tokenize.ENCODING):
            first = False


def blocks_of_python(text, kind):
    block = []
    for what, number, said in python_tokens(text):
        if what != kind:
            continue
        if kind == "texts" and not is_prose(said):
            continue
        lines = [spoken(it.strip()) for it in said.split("\n")] if kind == "texts" else said.split("\n")
        here = [(number + at, re.sub(r"^ {4}(?! )|^ {8}(?! )", "", line)) for at, line in enumerate(lines)]
        if block and (kind == "texts" or number != block[-1][0] + 1):
            yield block
            block = []
        block += here
    if block:
        yield block


def blocks_of(path, text, kind):
    if path.endswith(".py") or text.startswith("#!/usr/bin/env python3"):
        return blocks_of_python(text, kind)
    if path.endswith(".antt"):
        return comments_of_proofs(text)
    return comments_of_code(text) if kind == "comments" else texts_of_code(text)


def files_of(top, patterns):
    found = {it for pattern in patterns for it in glob.glob(f"{top}/{pattern}", recursive=True)}
    yield from sorted(os.path.relpath(it, top) for it in found)


def wrong_sources(top, excuses):
    """Each kind with what it has: the path, the number of a line, what is there, what to say, and the text around it."""
    for name, patterns, kind in KINDS:
        said = []
        for path in files_of(top, patterns):
            with open(f"{top}/{path}", encoding="utf-8") as file:
                text = file.read()
            for block in blocks_of(path, text, kind):
                for unit in units_of(block):
                    said += [(path, *it, unit) for it in page_words.wrong_in(path, unit, excuses)]
        yield name, said
    yield NAMES[0], list(wrong_names(top))


def main(top):
    excuses = page_words.Excuses(f"{top}/tools/excused_words.txt")
    counts = []
    for name, said in wrong_sources(top, excuses):
        for path, number, found, better, unit in said:
            print(f"{path}:{number}: {found!r}: say {better}", *(f"    {it}: {line}" for it, line in unit), sep="\n")
        counts.append(f"{name}: {len(said)}")
    print(*counts, sep="\n")


if __name__ == "__main__":
    main(sys.argv[1])
