"""That tools/edits.py, tools/edit_sums.py and tools/edit_checks.py read wrong bodies, join those of different functions, know after which
changes one has to be tried again, and take no refusal for one of a clause that is none."""

import os
import sys
import tempfile
import textwrap
import types
import unittest

from harness import TOP

sys.path.insert(0, os.path.join(TOP, "tools"))

import edit_checks  # noqa: E402
import edit_sums  # noqa: E402
import edits  # noqa: E402
import kit  # noqa: E402

LOW = """\
    /// Adds.
    pub fn add(a: u32, b: u32) -> u64
        ensures { result ≡ a + b }
    {
        let sum = a as u64;
        sum + b as u64
    }

    fn hidden() -> u32 {
        7
    }

    pub const fn seven() -> u32 {
        7
    }

    impl Reader for Pair {
        fn first(&self) -> u32
            ensures { result ≡ self.now.first }
        {
            self.first
        }
    }
    """
LEMMAS = """\
    use Rattle.std.proofs.Common.{◌≡◌, ℕ, refl, sym}
    use Rattle.std.proofs.Math.Nat.{add_comm}

    -- what a sum is
    abbrev pub Sum : ℕ → ℕ → Type 0
    Sum a b = a ≡ b

    pub turned : (a b : ℕ) → a ≡ b → b ≡ a
    turned a b e =
        sym e

    helper : (a : ℕ) → a ≡ a
    helper a = refl
    """
HIGH = """\
    pub fn twice(a: u32) -> u64
        ensures { result ≡ a + a }
    {
        low::add(a, a)
    }

    pub fn thrice(a: u32) -> u64 {
        twice(a) + a as u64
    }
    """
EDITS = """\
    # for readers
    edit: adds_once
    promise: a number is added twice
    file: src/lib.rt
    old: low::add(a, a)
    new: low::add(a, 0)

    edit: adds_twice
    promise: a number is added three times
    file: src/lib.rt
    old: twice(a) + a as u64
    new: twice(a)

    edit: calls_another
    promise: a number is added twice
    file: src/lib.rt
    old: low::add
    new: low::least

    edit: another_twice
    promise: twice says what it answers
    file: src/lib.rt
    old: ensures { result ≡ a + a }
    new: ensures { result ≡ a }
    """


class Tree(unittest.TestCase):
    """A crate `high` above a crate `low`, with four edits."""

    def setUp(self):
        room = tempfile.TemporaryDirectory()
        self.addCleanup(room.cleanup)
        self.top = room.name
        for path, text in (("low/src/lib.rt", LOW), ("low/proofs/Lib.antt", "    pub mod Sums\n    pub mod Nothing\n    mod Own\n"), ("low/proofs/Nothing.antt", "-- nothing yet\n"), ("low/proofs/Sums.antt", LEMMAS),
                           ("low/proofs/Own.antt", LEMMAS), ("high/src/lib.rt", HIGH), ("high.edits", EDITS)):
            os.makedirs(os.path.dirname(f"{self.top}/{path}"), exist_ok=True)
            self.write(path, textwrap.dedent(text))
        self.write("KIT-ID", "kit 1 logic abc\n")
        low = types.SimpleNamespace(name="low", folder=f"{self.top}/low", said={}, deps=[])
        self.high = types.SimpleNamespace(name="high", folder=f"{self.top}/high", said={}, deps=[low])
        self.rtlib = types.SimpleNamespace(KIT=self.top, files_of=self.files_of)
        self.addCleanup(setattr, edits, "FOLDER", edits.FOLDER)
        edits.FOLDER = self.top

    def write(self, path, text):
        with open(f"{self.top}/{path}", "w", encoding="utf-8") as file:
            file.write(text)

    @staticmethod
    def files_of(folder):
        return sorted(os.path.join(at, name) for at, _, names in os.walk(folder) for name in names)

    def edits(self):
        return edits.read(self.high)[0]

    def sums(self):
        return [edit_sums.sum_of(self.rtlib, it, {}) for it in self.edits()]

    def changed(self, path, old, new):
        """How many of the edits have another sum after this change, which is undone."""
        before = self.sums()
        with open(f"{self.top}/{path}", encoding="utf-8") as file:
            text = file.read()
        self.assertEqual(text.count(old), 1, old)
        self.write(path, text.replace(old, new))
        after = self.sums()
        self.write(path, text)
        return sum(a != b for a, b in zip(before, after))


class Reading(Tree):
    def test_edits_are_read_with_their_promises(self):
        found, faults = edits.read(self.high)
        self.assertEqual(faults, [])
        self.assertEqual([(it.name, it.promise) for it in found][:2], [("adds_once", "a number is added twice"), ("adds_twice", "a number is added three times")])
        self.assertEqual(found[0].pairs, [("src/lib.rt", "low::add(a, a)", "low::add(a, 0)")])

    def test_what_is_wrong_with_the_file_is_told(self):
        self.write("high.edits", "edit: a\nfile: src/lib.rt\nold: x\nnew: y\nodd line\n\nedit: a\npromise: p\n")
        self.assertEqual(edits.read(self.high)[1], ["line 5 cannot be read: odd line", "a is there twice", "a names no promise", "a has no pair of texts"])

    def test_an_edit_that_cannot_be_applied_says_why(self):
        for old, new, file, why in (("none", "x", "src/lib.rt", "0 times"), ("u64", "x", "src/lib.rt", "3 times"), ("twice(a)", "twice(a)", "src/lib.rt", "nothing"),
                                    ("x", "y", "src/no.rt", "no file"), ("x", "y", "../low/src/lib.rt", "no file below")):
            edit = edits.Edit(self.high, "it")
            edit.pairs = [(file, old, new)]
            self.assertIn(why, edits.apply(edit, {})[0], old)

    def test_edits_of_different_functions_are_joined(self):
        groups = [[it.name for it in group] for group in edits.groups_of(self.edits(), 24)]
        self.assertEqual(groups, [["adds_once", "adds_twice"], ["calls_another"], ["another_twice"]])
        self.assertEqual([len(it) for it in edits.groups_of(self.edits(), 1)], [1, 1, 1, 1])

    def test_a_method_is_of_its_type(self):
        text = textwrap.dedent(LOW)
        self.assertEqual(edits.body_at(text, text.index("self.first\n")), ("first", "PairReader"))
        self.assertIsNone(edits.body_at(text, text.index("self.now.first")))

    def test_an_impl_is_named_as_a_check_does(self):
        for head, owner in (("impl<W: Work> Ring<W> {", "Ring"), ("impl Cell for u8 {", "U8Cell"), ("impl From<ReadError> for ToolError<'_> {", "ToolErrorFrom<ReadError>"),
                            ("impl<T: Drop> From<low::Failed<T>> for Stop where T: Copy {", "StopFrom<Failed>"), ("impl Rule<'_, Event, u64> for Law {", "LawRule<Eventu64>")):
            self.assertEqual(edits.owner_of([head, "    fn f() {"], 1), owner)


class Sums(Tree):
    def test_what_no_check_reads_changes_no_sum(self):
        for path, old, new in (("low/src/lib.rt", "let sum = a as u64;", "let sum = 0 + a as u64;"), ("low/src/lib.rt", "    7\n}\n\npub const", "    8\n}\n\npub const"),
                               ("low/src/lib.rt", "            self.first\n".replace("    ", "", 1), "        (self.first)\n"), ("low/src/lib.rt", "/// Adds.", "/// Adds up."),
                               ("low/src/lib.rt", "fn hidden() -> u32", "fn hidden() -> u64"), ("low/proofs/Sums.antt", "    sym e", "    sym (sym (sym e))"),
                               ("low/proofs/Sums.antt", "helper a = refl", "helper a = sym refl"), ("low/proofs/Sums.antt", "Nat.{add_comm}", "Nat.{add_comm, add_assoc}"),
                               ("low/proofs/Sums.antt", "-- what a sum is", "-- a sum"), ("low/proofs/Own.antt", "(a b : ℕ) →", "(b a : ℕ) →"),
                               ("low/proofs/Lib.antt", "mod Own", "mod Own\nmod Mine"), ("high/src/lib.rt", "pub fn twice", "// a remark\npub fn twice")):
            with self.subTest(path=path, new=new):
                self.assertEqual(self.changed(path, old, new), 0)

    def test_a_statement_below_changes_every_sum(self):
        for path, old, new in (("low/src/lib.rt", "ensures { result ≡ a + b }", "ensures { result ≡ b + a }"), ("low/src/lib.rt", "pub fn add(a: u32", "pub fn add(a: u8"),
                               ("low/src/lib.rt", "pub const fn seven() -> u32 {\n    7", "pub const fn seven() -> u32 {\n    8"), ("low/src/lib.rt", "self.now.first }", "self.now.second }"),
                               ("low/proofs/Sums.antt", "Sum a b = a ≡ b", "Sum a b = b ≡ a"), ("low/proofs/Sums.antt", "→ b ≡ a", "→ a ≡ b"), ("KIT-ID", "abc", "abd")):
            with self.subTest(path=path, new=new):
                self.assertEqual(self.changed(path, old, new), 4)

    def test_the_own_text_changes_every_sum_and_an_edit_its_own(self):
        self.assertEqual(self.changed("high/src/lib.rt", "twice(a) + a as u64", "a as u64 + twice(a)"), 4)
        self.assertEqual(self.changed("high.edits", "new: twice(a)\n", "new: thrice(a)\n"), 1)
        self.assertEqual(self.changed("high.edits", "promise: a number is added three times", "promise: three times a number is added"), 0)

    def test_an_edit_with_its_sum_is_left_out(self):
        path = f"{self.top}/tried.txt"
        self.addCleanup(setattr, edit_sums, "TRIED", edit_sums.TRIED)
        edit_sums.TRIED = path
        self.write("tried.txt", "# head\nhigh/gone 1 clause returns\n")
        known = {}
        edit_sums.note_tried({"high/adds_once": (edit_sums.sum_of(self.rtlib, self.edits()[0], known), "clause", "returns")})
        with open(path, encoding="utf-8") as file:
            self.assertEqual([it.split()[0] for it in file], ["#", "high/adds_once"])
        self.assertEqual([it.name for it in edit_sums.untried(self.rtlib, [self.high])["high"]], ["adds_twice", "calls_another", "another_twice"])


class Verdicts(unittest.TestCase):
    PLACE = "src/counts.rt", "count", ""

    def told(self, *lines):
        return edit_checks.judged(edit_checks.said_of(edit_checks.reasons_in(lines, {"follow"}), self.PLACE))

    def test_a_goal_of_the_function_refuses(self):
        note = "note: src/counts.rt:4:9: it is not proved that %s (`%s` in the answers)"
        for goal, kind in (("returns-in-Ok-clause-said", "clause"), ("loop-i-preserved", "invariant"), ("cuts-preserved", "invariant"), ("follow-requires-clause-onward", "condition"),
                           ("push-requires", "safety"), ("overflow-add", "safety"), ("index-2", "safety")):
            self.assertEqual(self.told(note % ("it holds", goal), "fn high::counts::count: not proved"), (kind, goal))
        self.assertEqual(self.told("fn high::counts::count: no proof: search did not prove `returns`"), ("clause", "returns"))

    def test_a_goal_that_is_left_to_prove_by_hand_refuses(self):
        line = "note: `returns-in-Full` of proofs/counts/count/Answers.antt must prove: 1 ≡ 2"
        self.assertEqual(self.told(line, "impl high::counts: not proved; it waits for the proof of `count`"), ("clause", "returns-in-Full"))
        self.assertEqual(self.told(line.replace("/count/", "/other/")), ("", ""))

    def test_what_is_said_of_another_function_does_not_count(self):
        note = "note: src/counts.rt:4:9: it is not proved that it holds (`returns` in the answers)"
        self.assertEqual(self.told(note, "fn high::counts::other: not proved", "fn high::counts::count: no proof: it calls high::counts::other, which is not proved"), ("", ""))
        self.assertEqual(self.told(note, "fn high::others::count: not proved"), ("", ""))
        self.assertEqual(self.told(note, "fn high::others::count: not proved", "fn high::counts::count: not proved"), ("", ""))

    def test_a_trait_that_a_type_has_twice_is_told_apart(self):
        found = {"faults::ErrorFromRead::from": [("clause", "returns")], "locks::LawRule::turn": [("clause", "returns-2")]}
        for owner, function, said in (("ErrorFrom<Read>", "from", 1), ("ErrorFrom<Write>", "from", 0), ("ErrorFrom", "from", 0), ("LawRule<Eventu64>", "turn", 1)):
            self.assertEqual(len(edit_checks.said_of(found, ("src/faults.rt", function, owner))), said, owner)

    def test_a_name_that_a_proof_misses_is_no_clause(self):
        line = "proofs/counts/count/Answers.antt:3:5: error: `returns`: the type has no field `n`"
        self.assertEqual(self.told(line)[0], "name")
        for kind in edit_checks.LITTLE:
            self.assertFalse(edit_checks.told("high/it", (kind, "goal"))[0], kind)
        for kind in edit_checks.TELLS:
            self.assertTrue(edit_checks.told("high/it", (kind, "goal"))[0], kind)


class Gate(Tree):
    """What becomes of edits that are tried beside the proofs of `rt ci`, with a prover that gives these verdicts."""

    def in_lanes(self, tasks):
        given = {}
        for key, (waits, _, _, call) in tasks.items():
            self.assertTrue(all(it in given for it in waits), key)
            given[key] = call(given, 1)
        return given

    def outcomes(self, verdicts, is_sound=True, is_proved=True, passes_tests=True):
        trial = types.SimpleNamespace(tried=lambda group: {it: verdicts[it.name] for it in group if it.name in verdicts}, ended=lambda: is_sound)
        self.addCleanup(setattr, edit_checks, "begun", edit_checks.begun)
        edit_checks.begun = lambda rt, crate, jobs: trial if is_proved else None
        self.high.count = lambda pattern: 1
        rt = types.SimpleNamespace(rtlib=types.SimpleNamespace(crates_below=lambda top: [self.high]), need=lambda crate: 1, in_lanes=self.in_lanes)
        wanted = {"high": self.edits()}
        told = kit.with_edits(rt, wanted)
        given = rt.in_lanes({("high", "proof"): ([], 1, 1, lambda given, jobs: True), ("high", "tests"): ([], 1, 1, lambda given, jobs: passes_tests)})
        self.assertTrue(given["high", "proof"])
        return [is_refused for is_refused, _ in kit.outcomes(wanted, told)]

    def test_only_a_clause_an_invariant_or_a_law_counts(self):
        telling = dict(zip(("adds_once", "adds_twice", "calls_another"), ((it, "goal") for it in edit_checks.TELLS)))
        for kind in (*edit_checks.LITTLE, edit_checks.NOT_REFUSED, edit_checks.NOT_READ, edit_checks.NO_VERDICT):
            self.assertEqual(self.outcomes({**telling, "another_twice": (kind, "goal")}), [True, True, True, False], kind)

    def test_an_edit_that_was_not_tried_fails(self):
        self.assertEqual(self.outcomes({"adds_once": ("clause", "returns")}), [True, False, False, False])
        verdicts = {it.name: ("clause", "returns") for it in self.edits()}
        self.assertEqual(self.outcomes(verdicts), [True] * 4)
        self.assertEqual(self.outcomes(verdicts, is_sound=False), [False] * 4)
        self.assertEqual(self.outcomes(verdicts, is_proved=False), [False] * 4)
        self.assertEqual(self.outcomes(verdicts, passes_tests=False), [False] * 4)


class Kept(unittest.TestCase):
    """What the tries of a crate begin with, with a prover that writes a file into what is kept."""

    def setUp(self):
        room = tempfile.TemporaryDirectory()
        self.addCleanup(room.cleanup)
        self.room = room.name
        self.addCleanup(setattr, tempfile, "tempdir", tempfile.tempdir)
        tempfile.tempdir = self.room

    def begun(self, status, kept=None, spoils=False):
        def checked(_crate, texts, _flags, folder):
            self.seen = sorted(os.listdir(folder))
            if "proofs" in self.seen:
                with open(f"{folder}/proofs", encoding="utf-8") as file:
                    self.found = file.read()
            if os.path.exists(f"{folder}/proofs") and not spoils:
                os.remove(f"{folder}/proofs")
            with open(f"{folder}/proofs", "a", encoding="utf-8") as file:
                file.write("changed" if texts else "proved")
            with open(f"{folder}/{edit_checks.LAST_USED}", "w", encoding="utf-8"):
                pass
            return types.SimpleNamespace(returncode=status if not texts else 1, stdout="logic=not-proved")

        return edit_checks.begun(types.SimpleNamespace(checked=checked, unread=lambda *_: False), types.SimpleNamespace(name="high"), 1, kept)

    def test_each_try_has_a_copy(self):
        trial = self.begun(0)
        trial.checked({"src/lib.rt": "another"})
        self.assertEqual(self.seen, ["proofs", edit_checks.LAST_USED])
        self.assertTrue(trial.ended())
        self.assertEqual(os.listdir(self.room), [])

    def test_a_try_that_spoils_its_copy_spoils_no_other(self):
        trial = self.begun(0, spoils=True)
        for _ in range(2):
            trial.checked({"src/lib.rt": "another"})
            self.assertEqual(self.found, "proved")
        self.assertTrue(trial.ended())

    def test_a_change_of_what_they_begin_with_is_seen(self):
        trial = self.begun(0)
        with open(f"{trial.seed}/proofs", "a", encoding="utf-8") as file:
            file.write("more")
        self.assertFalse(trial.ended())

    def test_they_begin_with_what_was_kept_and_leave_it(self):
        kept = f"{self.room}/kept"
        os.mkdir(kept)
        with open(f"{kept}/older", "w", encoding="utf-8"):
            pass
        trial = self.begun(0, kept)
        self.assertEqual(self.seen, ["older"])
        self.assertTrue(trial.ended())
        self.assertEqual(os.listdir(kept), ["older"])

    def test_a_crate_that_is_not_proved_has_no_tries(self):
        self.assertIsNone(self.begun(1))
        self.assertEqual(os.listdir(self.room), [])


class Files(unittest.TestCase):
    def test_each_edit_of_the_tree_names_its_promise(self):
        folders = sorted(os.listdir(f"{TOP}/crates"))
        names = [it.removesuffix(".edits") for it in sorted(os.listdir(f"{TOP}/wrong")) if it.endswith(".edits")]
        self.assertGreater(len(names), 30)
        for name in names:
            self.assertIn(name, folders)
            found, faults = edits.read(types.SimpleNamespace(name=name, folder=f"{TOP}/crates/{name}"))
            self.assertEqual(faults, [], name)
            self.assertEqual([(it.name, why) for it in found for why in [edits.apply(it, {})[0]] if why], [], name)


if __name__ == "__main__":
    unittest.main()
