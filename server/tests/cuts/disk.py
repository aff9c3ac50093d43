"""A disk that loses its power: what of a folder is on it, and what it may leave, from the records of power.c.

On the disk is what was synced: the bytes of a file by a sync of the file, the names of a folder by a sync of the folder. What was written
since is there, in part or not at all: KINDS says how a part is drawn."""

import os
from dataclasses import dataclass, field

#: What is left of that which was written and not synced:
#: none of it; all of it, as at a kill; of each file the first bytes, torn anywhere, and of the names the first changes; the same with any
#: of the changes of names; then zeros, up to any length; any of the blocks, with zeros in the place of the others; bytes of other files;
#: zeros with ends of lines among them.
KINDS = ("none", "all", "first", "some", "zeros", "blocks", "old", "lines")
#: Those that hold no end of a line that nobody wrote there: a start takes them. That of a folder leaves out the lines of zeros.
TAKEN, LINES = KINDS[:5], KINDS[-1]
BLOCK = 512


@dataclass
class Record:
    """A call that a program made: its kind, the number of the file, another number, and the names or bytes."""

    kind: str
    file: int
    number: int
    bytes: bytes

    def names(self):
        return [os.fsdecode(name) for name in self.bytes.split(b"\0")]


def records(path):
    """Those of a log. A last one that is not whole does not count."""
    with open(path, "rb") as file:
        log = file.read()
    found, at = [], 0
    while (end := log.find(b"\n", at)) >= 0:
        kind, number, other, length = log[at:end].split(b" ")
        at = end + 1 + int(length)
        if at > len(log):
            break
        found.append(Record(kind.decode(), int(number), int(other), log[end + 1:at]))
    return found


def moments(found, draw, count):
    """Some places in the records, in their order: behind a write, behind a change of a name, each name as often, or anywhere."""
    writes, names = [0], {"": [0]}
    for at, it in enumerate(found, 1):
        if it.kind in "wt":
            writes.append(at)
        elif it.kind in "crulm":
            names.setdefault(it.kind + os.path.basename(it.names()[-1]).strip("0123456789"), []).append(at)
    drawn = []
    for _ in range(count):
        places = draw.choice((writes, writes, names[draw.choice(sorted(names))], range(len(found) + 1)))
        drawn.append(draw.choice(places))
    return sorted(drawn)


@dataclass
class File:
    """What is on the disk, and what was done since: bytes at a place, or a length."""

    bytes: bytes = b""
    later: list = field(default_factory=list)
    is_folder: bool = False

    def after(self, changes):
        """Its bytes after these changes."""
        now = bytearray(self.bytes)
        for at, what in changes:
            if what is None:
                del now[at:]
            now += bytes(max(0, at - len(now)))
            if what is not None:
                now[at:at + len(what)] = what
        return bytes(now)

    def sync(self):
        self.bytes, self.later = self.after(self.later), []

    def torn(self, draw):
        """Some of the changes, the last of which may be torn at any byte."""
        count = draw.randint(0, len(self.later))
        changes = self.later[:count]
        at, what = self.later[count] if count < len(self.later) else (0, None)
        if what is not None:
            changes.append((at, what[:draw.randint(0, len(what))]))
        return self.after(changes)

    def left(self, kind, draw, other):
        """What a loss of power leaves; `other` are bytes of other files."""
        if kind == "none" or not self.later:
            return self.bytes
        whole = self.after(self.later)
        if kind == "all":
            return whole
        if kind in ("first", "some"):
            return self.torn(draw)
        front = len(os.path.commonprefix([self.bytes, whole]))
        if kind == "blocks":
            return blocks(whole, front, draw)
        begin = draw.randint(front, len(whole))
        length = draw.randint(begin, len(whole) + (0 if kind == "old" else BLOCK)) - begin
        if kind == LINES:
            return whole[:begin] + bytes(10 * (at > 0 and draw.random() < 0.1) for at in range(length))
        return whole[:begin] + (bytes(length) if kind == "zeros" else other(length))


def blocks(whole, front, draw):
    """Behind the front, any of the blocks, and zeros in the place of the others."""
    left = bytearray(whole)
    for begin in range(front - front % BLOCK, len(whole), BLOCK):
        if draw.random() < 0.5:
            first, end = max(begin, front), min(begin + BLOCK, len(whole))
            left[first:end] = bytes(end - first)
    return bytes(left)


def contents(folder):
    """The files below a folder, by their names: their bytes; of folders, nothing."""
    found = {}
    for path, folders, files in os.walk(folder):
        found.update((os.path.join(path, name), None) for name in folders)
        for name in files:
            with open(os.path.join(path, name), "rb") as file:
                found[os.path.join(path, name)] = file.read()
    return found


class Disk:
    """A disk that has this folder with all that is in it now, synced; `go_on` does what a program did with it since."""

    def __init__(self, folder):
        self.folder = folder
        self.files, self.now = {}, {}
        for path, its in contents(folder).items():
            number = os.stat(path).st_ino
            self.now[path] = self.files.setdefault(number, File(its or b"", is_folder=its is None))
        self.kept, self.later = dict(self.now), []

    def go_on(self, record):
        """Does what the record says."""
        if record.kind == "w":
            self.files[record.file].later.append((record.number, record.bytes))
        elif record.kind == "t":
            self.files[record.file].later.append((record.number, None))
        elif record.kind == "s":
            self._sync(record)
        elif record.kind not in "ak":
            self._rename(record)

    def _sync(self, record):
        if not record.bytes:
            return self.files[record.file].sync()
        folder = record.names()[0]
        for its, names in self.later:
            if its == folder:
                put(self.kept, names)
        self.later = [it for it in self.later if it[0] != folder]
        return None

    def _rename(self, record):
        """A change of names: a new file, another name, a new folder, one that is gone."""
        first, last = record.names()[0], record.names()[-1]
        if record.kind == "c":
            self.files[record.file] = File()
            names = {first: self.files[record.file]}
        elif record.kind == "m":
            names = {first: File(is_folder=True)}
        elif record.kind == "u":
            names = {first: None}
        else:
            names = {**({first: None} if record.kind == "r" else {}), last: self.now[first]}
        put(self.now, names)
        self.later.append((os.path.dirname(last), names))

    def is_open(self):
        """Whether something is not synced."""
        return bool(self.later or any(file.later for file in self.now.values()))

    def whole(self):
        """What is there while there is power."""
        return shown(self.now, self.folder, lambda file: file.after(file.later))

    def left(self, kind, draw):
        """What a loss of power leaves, by names."""
        names = dict(self.kept)
        for change in self._changes(kind, draw):
            put(names, change)
        old = b"".join(file.after(file.later) for file in self.files.values()) or b"\n"

        def other(length):
            begin = draw.randrange(len(old))
            return (old[begin:] + old * (length // len(old) + 1))[:length]

        taken = {}
        return shown(names, self.folder, lambda file: taken.setdefault(id(file), file.left(kind, draw, other)))

    def _changes(self, kind, draw):
        """The changes of names that are left: the first ones, or else the newest, all but one, or any. One of a name whose change is lost
        is lost too."""
        if kind in ("none", "all", "first"):
            count = {"none": 0, "all": len(self.later)}.get(kind, draw.randint(0, len(self.later)))
            return [names for _, names in self.later[:count]]
        how = draw.choice(("newest", "all but one", "any"))
        if how == "newest":
            return self.newest()
        one, left, lost = draw.randrange(len(self.later) + 1), [], set()
        for at, (_, names) in enumerate(self.later):
            is_left = at != one if how == "all but one" else draw.random() < 0.5
            if is_left and lost.isdisjoint(names):
                left.append(names)
            else:
                lost.update(names)
        return left

    def newest(self):
        """The last change of names, and those before it of the same names."""
        left, names = [], set()
        for _, change in reversed(self.later):
            if not left or not names.isdisjoint(change):
                left.insert(0, change)
                names.update(change)
        return left

    def with_newest(self):
        """The files by their names, if of the changes of names only the newest is left."""
        names = dict(self.kept)
        for change in self.newest():
            put(names, change)
        return names


def put(names, change):
    """Does a change of names."""
    for name, file in change.items():
        if file is None:
            names.pop(name, None)
        else:
            names[name] = file


def shown(names, top, bytes_of):
    """The bytes of the files by their names, with nothing for a folder. What lies in a folder that is not there is not there."""
    folders, found = {top}, {}
    for name in sorted(names):
        if os.path.dirname(name) in folders:
            found[name] = None if names[name].is_folder else bytes_of(names[name])
            if names[name].is_folder:
                folders.add(name)
    return found


def build(left, old, new):
    """Makes the files anew, in the folder `new` in the place of `old`."""
    os.makedirs(new)
    for name in sorted(left):
        path = new + name.removeprefix(old)
        if left[name] is None:
            os.mkdir(path)
        else:
            with open(path, "wb") as file:
                file.write(left[name])
