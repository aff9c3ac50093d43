"""That tools/documents.py finds what it looks for in pages: words, clauses, links, and the form of the first page."""

import os
import shutil
import sys
import tempfile
import textwrap
import unittest

from harness import TOP

sys.path.insert(0, os.path.join(TOP, "tools"))

import documents  # noqa: E402
import page_clauses  # noqa: E402
import page_sums  # noqa: E402
import page_words  # noqa: E402
from page import Page  # noqa: E402

#: a sentence with each form, and one beside it without
SENTENCES = (("The line tells it.", "You can tell whether it is so."), ("It stands there.", "It is a standard."), ("It is no lock.", "There is no lock."),
             ("It comes behind it.", "It comes after it."), ("It is in front of it.", "The front page."), ("It has so many.", "It stays so as long as it can."),
             ("All but for one.", "All but one."), ("It is out for want of memory.", "What you want of it: all."), ("It is. Who waits is served.", "See who waits."),
             ("And besides that.", "It is beside that."), ("It alone is there.", "It is lone."), ("It is a beginning of it.", "The beginning of the page."),
             ("It goes on.", "Go to it."), ("It is put in the place of another.", "It is put in place."))


def found_in(text, path="page.md", excuses=None):
    lines = textwrap.dedent(text).split("\n")
    return [(number, words) for number, words, _ in page_words.wrong_words(path, lines, excuses or page_words.Excuses("/nonexistent"))]


class Words(unittest.TestCase):
    def test_each_form(self):
        for wrong, right in SENTENCES[:7] + SENTENCES[8:]:
            self.assertEqual(len(found_in(wrong)), 1, wrong)
            self.assertEqual(found_in(right), [], right)
        self.assertEqual(len(found_in(SENTENCES[7][0])), 1)

    def test_a_form_over_the_end_of_a_line(self):
        self.assertEqual(found_in("# Page\n\nIt is\nno lock, and it stays.\n"), [(3, "is no")])

    def test_what_is_shown_as_it_is(self):
        self.assertEqual(found_in("The word `behind` and a block:\n\n    it stands behind\n\n```\nit tells\n```\n"), [])

    def test_rows_and_items(self):
        self.assertEqual([number for number, _ in found_in("| A | B |\n|---|---|\n| Who | it tells |\n\n- Who waits\n")], [3, 3, 5])

    def test_a_man_page(self):
        text = ".Sh NAME\n.It Fl x\nIt stands there.\n.Bd -literal\nit tells\n.Ed\n.Dl it stands\n"
        self.assertEqual(found_in(text, "page.1"), [(3, "stands")])

    def test_a_line_that_excuses(self):
        with tempfile.NamedTemporaryFile("w", suffix=".txt", encoding="utf-8") as file:
            file.write("# why\npage.md: It stands there\npage.md: never said\n")
            file.flush()
            excuses = page_words.Excuses(file.name)
        self.assertEqual(found_in("It stands there, and it tells.", excuses=excuses), [(1, "tells")])
        self.assertEqual(excuses.unused, {("page.md", "never said")})


class Pages(unittest.TestCase):
    def page(self, text):
        folder = tempfile.TemporaryDirectory()
        self.addCleanup(folder.cleanup)
        with open(os.path.join(folder.name, "page.md"), "w", encoding="utf-8") as file:
            file.write(textwrap.dedent(text))
        return Page(folder.name, "page.md")

    def test_links(self):
        page = self.page("# A page\n\n[this](page.md#a-page), [that](other.md), [there](#nowhere), [out](https://example.com)\n")
        self.assertEqual([said for _, said in page.wrong_links()], ["no file other.md", "no heading #nowhere"])

    def test_the_form_of_the_first_page(self):
        text = "\n".join(["line"] * 150 + ["x" * 121, "| " + "y" * 201 + " |"]) + "\n"
        said = [said for _, said in documents.wrong_form(self.page(text))]
        self.assertEqual(len(said), 4, said)
        self.assertEqual(list(documents.wrong_form(self.page("line\n" * 150))), [])

    def test_sums_of_definitions(self):
        table = "<!-- order: some.Definition -->\n\n| File | Definitions | Lines | Says |\n|---|---|---|---|\n| `a` | 2 | 7 | |\n| 1 files | 2 | 7 | |\n"
        said = "[7 lines of definitions](page.md#all), [8 lines of definitions](page.md#all) and [7 lines of definitions](#after).\n\n"
        page = self.page(f"{said}# All\n\nIt is in this table: 7 lines, in this table: 9 lines.\n\n{table}\n# After\n")
        self.assertEqual([it for _, it in page_sums.wrong_sums(page)],
                         ["8 lines: the table has 7", "7 lines: no table of definitions is there", "9 lines: the table has 7"])

    @unittest.skipUnless(shutil.which("rt"), "there is no rt")
    def test_tables_of_definitions(self):
        def said(lines):
            with open(os.path.join(folder.name, "page.md"), "w", encoding="utf-8") as file:
                file.write(f"<!-- order: low.Low.IsLow -->\n\n| File | Definitions | Lines | Says |\n|---|---|---|---|\n| `low/specs/Low.antt` | 2 | {lines} | Low |\n| 1 files | 2 | {lines} | |\n")
            return [it for _, it in page_sums.wrong_orders(Page(folder.name, "page.md"))]

        folder = tempfile.TemporaryDirectory()
        self.addCleanup(folder.cleanup)
        os.makedirs(os.path.join(folder.name, "crates/low/specs"))
        for path, text in (("crates.txt", "low:\n"), ("page.md", ""),
                           ("crates/low/specs/Low.antt", "-- Low.\nuse Rattle.std.specs.Prelude.{◌≡◌, ℕ}\n\nabbrev pub zeroth : ℕ\nzeroth = 0\n\n-- it is low\nabbrev pub IsLow : ℕ → Type 0\nIsLow n = n ≡ zeroth\n")):
            with open(os.path.join(folder.name, path), "w", encoding="utf-8") as file:
                file.write(text)
        self.assertEqual(said(4), [])
        self.assertEqual([it.split("\n")[0] for it in said(5)], ["the reading order is"])


class Clauses(unittest.TestCase):
    @classmethod
    def setUpClass(cls):
        cls.functions = page_clauses.Functions(TOP)

    def wrong(self, text):
        return [said for _, said in page_clauses.wrong_clauses(Pages.page(self, textwrap.dedent(text)), self.functions)]

    def test_in_prose(self):
        self.assertEqual(self.wrong("The clause `headline` of `run_farm`, clauses `right` and `meaning` of `check_saved`.\n"), [])
        self.assertEqual(self.wrong("The clause `meaning` of `run_farm`.\n"), ["no clause `meaning` of `run_farm`"])
        self.assertEqual(self.wrong("The clause `no_such_clause`.\n"), ["no clause `no_such_clause`"])
        self.assertEqual(self.wrong("The clause `headline` of `run_nothing`.\n"), ["no function `run_nothing`", "no clause `headline` of `run_nothing`"])

    def test_laws(self):
        self.assertEqual(self.wrong("The laws `exclusion` and `tokens_rise` of `held_locks`.\n"), [])
        self.assertEqual(self.wrong("The law `nobody_dies`.\n"), ["no law `nobody_dies`"])

    def test_in_a_table(self):
        table = "| Promise | Function | Clause |\n|---|---|---|\n| it | {} | {} |\n"
        self.assertEqual(self.wrong(table.format("`Ring::close`", "`progress`")), [])
        self.assertEqual(self.wrong(table.format("`locks::run`", "`ok`, `err`")), [])
        self.assertEqual(self.wrong(table.format("`locks::run`", "`unread`")), ["no clause `unread` of these functions"])
        self.assertEqual(self.wrong(table.format("`Ring::close`", "`headline`")), ["no clause `headline` of these functions"])
        self.assertEqual(self.wrong(table.format("`Ring::nothing`", "`progress`"))[0], "no function `Ring::nothing` in the crates")


if __name__ == "__main__":
    unittest.main()
