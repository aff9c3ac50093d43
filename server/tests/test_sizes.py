"""Each file of the server has one subject, and each struct few things: a reader can hold that at once."""

import glob
import os
import re
import unittest

from harness import TOP

SOURCES = os.path.join(TOP, "server")
#: how many lines a file may have, and how many fields a struct
LINES, FIELDS = 400, 12
#: what a single server keeps of its sessions, and that alone
LONGER = {"wozgirt-server/src/alone/mod.rs", "wozgirt-server/src/alone/store.rs"}
STRUCT = re.compile(r"^ *(?:pub(?:\([a-z]+\))? )?struct (\w+)[^;{(]*\{\n(.*?)^ *\}", re.MULTILINE | re.DOTALL)
FIELD = re.compile(r"^ +(?:pub(?:\([a-z]+\))? )?\w+: ", re.MULTILINE)


def files():
    for crate in ("system", "wozgirt-server"):
        yield from glob.glob(os.path.join(SOURCES, crate, "src", "**", "*.rs"), recursive=True)


def large(text):
    """The structs of a text that have too many fields."""
    return [name for name, body in STRUCT.findall(text) if len(FIELD.findall(body)) > FIELDS]


class Sizes(unittest.TestCase):
    def test_files_and_structs(self):
        self.assertGreater(len(list(files())), 80)
        for path in files():
            with open(path, encoding="utf-8") as file:
                text, name = file.read(), os.path.relpath(path, SOURCES)
            with self.subTest(file=name):
                self.assertEqual(large(text), [])
                if name not in LONGER:
                    self.assertLessEqual(text.count("\n"), LINES)

    def test_what_is_counted(self):
        fields = "".join(f"    /// One.\n    pub(super) field_{i}: Vec<u8>,\n" for i in range(FIELDS))
        self.assertEqual(large(f"pub struct Few<'a> {{\n{fields}}}\n"), [])
        self.assertEqual(large(f"pub(crate) struct Many {{\n{fields}    last: u8,\n}}\n"), ["Many"])
        self.assertEqual(large("struct None;\nstruct Pair(u8, u8);\n"), [])


if __name__ == "__main__":
    unittest.main()
