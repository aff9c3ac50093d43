"""Scripts of rows: what a script says, and what is wanted of it. README.md has the verbs, the first characters of the lines."""
import os

HERE = os.path.dirname(os.path.realpath(__file__))
ROWS, DATA = f"{HERE}/rows", f"{HERE}/rows/data"
TEXT, RUNS = b" .*:!+~", b"$>%?&<^"


def names():
    """The names of all scripts."""
    return sorted(it.removesuffix(".rows") for it in os.listdir(ROWS) if it.endswith(".rows"))


def read(path):
    with open(path, "rb") as it:
        return it.read()


def lines_of(name):
    """The lines of a script, each as its verb and the rest."""
    return [(line[:1], line[1:]) for line in read(f"{ROWS}/{name}.rows").split(b"\n")[:-1]]


def wanted(name):
    """What has to be printed of a script."""
    return read(f"{ROWS}/{name}.out")


def words_of(rest):
    """The words of a run: the parts between two bars, none where there is nothing."""
    return rest.split(b"|") if rest else []


def add(text, verb, rest, folder):
    """Returns the text at hand with what a line adds to it; the files that it names are in the folder."""
    if verb == b" ":
        return text + rest + b"\n"
    if verb == b".":
        return text + rest
    if verb == b"!":
        return text + bytes([int(rest)])
    if verb == b"+":
        return text + read(os.path.join(os.fsencode(folder), rest))
    if verb == b"~":
        old, new = rest.split(b"|", 1)
        if old not in text:
            raise ValueError(f"the text at hand has no {old!r}")
        return text.replace(old, new, 1)
    count, piece = rest.split(b" ", 1)
    end = b"\n" if verb == b":" else b""
    return text + b"".join(piece.replace(b"#", b"%d" % number, 1) + end for number in range(1, int(count) + 1))


def is_echoed(verb):
    """Whether a line with this verb is printed itself, in front of what it prints: not those that make the text at hand, but for `~`, nor
    those that make and remove files."""
    return not verb or verb == b"~" or verb not in TEXT + b"=-/\\"


def place_of(text, line, at):
    """Where a printed line begins with these bytes, from a place on; that place where none does."""
    while (found := text.find(line, at)) > 0 and text[found - 1 : found] != b"\n":
        at = found + 1
    return max(found, at)


def split(text, lines):
    """Cuts what was printed of a script: for each of its lines, what it printed, and none where the line itself is not printed. What does
    not begin with the line that is next belongs to the one before."""
    places, at = [], 0
    for verb, rest in lines:
        if is_echoed(verb):
            # (of `@` the number of bytes comes behind the name)
            at = place_of(text, verb + rest + (b":" if verb == b"@" else b"\n"), at)
            places.append(at)
            at += 1
    ends = iter([*places[1:], len(text)])
    begins = iter(places)
    return [text[next(begins) : next(ends)] if is_echoed(verb) else b"" for verb, _ in lines]
