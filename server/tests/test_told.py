"""What the model of `told` says of clients that come back: wrong where they were in time, and nothing where it was too late."""

import os
import sys
import time
import unittest

from harness import Server, needs_programs, wait_until

sys.path.insert(0, os.path.join(os.path.dirname(os.path.abspath(__file__)), "told"))

# pylint: disable=wrong-import-position
from clients import Plain, Session
from model import Model, Wrong

LEASE = 30.0


@needs_programs
class Returns(unittest.TestCase):
    def setUp(self):
        self.server = Server(lease=str(LEASE))
        self.addCleanup(self.server.__exit__)
        self.model = Model(LEASE)

    def session(self, key, is_attached=False):
        client = Session(f"session {key}", self.model, self.server.path, LEASE, key, is_attached)
        return self.come(client)

    def plain(self, name):
        return self.come(Plain(name, self.model, self.server.path, LEASE))

    def come(self, client):
        """It is there, and has heard what it has."""
        client.come()
        self.hear(client, client.is_ready)
        return client

    def hear(self, client, condition):
        wait_until(lambda: self.assertTrue(client.pump()) or condition())

    def ask(self, client, *words):
        client.say(list(words))
        self.hear(client, client.is_ready)

    def end_late(self, client, held):
        """The client of a session with this lock is away until that is another's."""
        other = self.plain("who gets it")
        self.ask(other, "acquire", held, "90")
        client.end_late(time.monotonic() - LEASE / 2)
        self.hear(other, lambda: held in self.model.claimed(other.name))

    def test_one_that_is_late_does_not_ask_again_for_what_was_answered(self):
        holder, late = self.plain("holder"), self.session(3, is_attached=True)
        self.ask(holder, "acquire", "a", "1")
        self.ask(late, "acquire", "b", "2")
        self.ask(late, "acquire", "a", "3")
        self.assertEqual(late.waits, ("a", 3))
        self.end_late(late, "b")
        self.come(late)
        self.assertEqual((late.waits, self.model.claimed(late.name)), (None, {}))
        self.ask(late, "acquire", "c", "4")  # a session that waits is refused that
        self.assertEqual(self.model.claimed(late.name), {"c": 1})

    def test_one_that_is_late_may_give_back_what_it_lost(self):
        late = self.session(3, is_attached=True)
        self.ask(late, "acquire", "b", "2")
        late.asked, late.number = ["release", "b", "1"], late.number + 1  # the server has not heard that
        self.end_late(late, "b")
        self.come(late)
        self.assertEqual(self.model.claimed(late.name), {})

    def test_a_try_of_one_that_is_late_may_have_been_granted(self):
        late = self.session(3, is_attached=True)
        self.ask(late, "acquire", "b", "2")
        late.say(["try", "a", "3"])
        wait_until(lambda: self.server.operate("stats a").split()[6] == "1")
        self.end_late(late, "b")
        holder = self.plain("holder")
        self.ask(holder, "acquire", "a", "4")
        self.come(late)
        self.assertEqual((late.last[2], self.model.busy), (["busy", "a"], set()))
        self.ask(late, "try", "a", "5")
        self.assertEqual(self.model.busy, {5})

    def test_one_that_was_granted_a_lock_meanwhile_waits_no_longer(self):
        holder, it = self.plain("holder"), self.session(1)
        self.ask(holder, "acquire", "a", "1")
        it.say(["acquire", "a", "2"])
        self.server.wait_for_waiters("a", 1)
        it.close()  # it has not read that it waits
        self.ask(holder, "release", "a", "1")
        self.come(it)
        self.assertEqual((it.last[2], it.waits, self.model.claimed("session 1")), (["waiting", "a", "0"], None, {"a": 2}))
        self.ask(it, "release", "a", "2")
        it.close()
        self.come(it)

    def test_one_that_is_silent_says_something_before_its_lease_ends(self):
        it = self.session(1)
        it.keep()
        self.assertEqual(it.line.lines(), [])
        it.said -= LEASE / 4
        it.keep()
        self.assertLess(time.monotonic() - it.said, LEASE / 8)
        self.ask(it, "try", "a", "1")  # and hears the answer to that before

    def test_one_that_is_back_in_time_has_to_be_told_its_place(self):
        holder, it = self.plain("holder"), self.session(1)
        self.ask(holder, "acquire", "a", "1")
        self.ask(it, "acquire", "a", "2")
        number = next(line.split()[1] for line in self.server.operate("clients", 3).splitlines() if " - a " in line)
        it.close()
        wait_until(lambda: " away, " in self.server.operate("clients", 3))
        self.server.operate(f"kick {number}")
        with self.assertRaisesRegex(Wrong, "^session 1 waited for a, was back in time, and is told {} and "):
            self.come(it)


class Claims(unittest.TestCase):
    def test_a_lock_is_another_s_when_a_lease_is_over(self):
        for since in ("away", "said"):
            model = Model(LEASE)
            model.tell("session 1", "a", 1, 5, 100)
            getattr(model, since)["session 1"] = 100
            with self.assertRaisesRegex(Wrong, "^plain is told a 2 while session 1 has it by 1$"):
                model.tell("plain", "a", 2, 6, 100 + LEASE)
            model.tell("plain", "a", 2, 6, 101 + LEASE)
            self.assertEqual(model.claims, {"a": ("plain", 2)})


if __name__ == "__main__":
    unittest.main()
