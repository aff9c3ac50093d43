"""The record of grants of each of several servers: what it says to its own clients."""

import os
import unittest

from harness import needs_programs, say, wait_until
import test_cluster
from test_cluster import needs_strict
from test_grants import USER, lines_of, short


@needs_programs
@needs_strict
class Several(test_cluster.Trial):
    """Each of several servers records what it says to its own clients."""

    def begin(self, name, **more):
        return self.server(name, "--grants", os.path.join(self.folder, f"{name}.grants"), locks="a,b,c", **more)

    def lines(self, name):
        return lines_of(os.path.join(self.folder, f"{name}.grants"))

    def wait_for(self, name, line):
        wait_until(lambda: line in short(self.lines(name)))

    def test_each_has_what_concerns_its_clients(self):
        x, y = self.begin("x"), self.begin("y")
        one, two = self.raw(x), self.raw(y)
        self.assertEqual(say(one, "acquire a 7\n"), ["granted a 1"])
        self.assertEqual(say(two, "acquire a 8\n"), ["waiting a 0"])
        say(one, "release a 1\n")
        self.assertEqual(test_cluster.granted_late(two), "granted a 2")
        self.assertEqual(short(self.lines("x")), ["granted a 1", "ended a 1 released"])
        self.assertEqual(short(self.lines("y")), ["granted a 2"])
        self.assertRegex(self.lines("y")[0], rf"label=8 client=\d+ {USER} process={os.getpid()}$")
        with open(os.path.join(self.folder, "x.grants"), encoding="ascii") as file:
            self.assertIn("Z began server=x\n", file.read())
        say(two, "leave\n")
        self.wait_for("y", "ended a 2 left")
        say(one, "acquire b 1\n")
        one.close()
        self.wait_for("x", "ended b 1 closed")
        self.catch_up(x, y)
        self.assertEqual((len(self.lines("x")), len(self.lines("y"))), (4, 2))

    def test_a_session_that_comes_to_another_server(self):
        x, y = self.begin("x"), self.begin("y")
        one, _ = self.session(x, 77)
        self.assertEqual(say(one, "1 acquire a 7\n"), ["1 granted a 1"])
        two, holds = self.session(y, 77, 1)
        self.assertEqual(holds, ["holds a 1"])
        self.assertEqual(say(two, "2 release a 1\n"), ["2 released a"])
        self.assertEqual((short(self.lines("x")), short(self.lines("y"))), (["granted a 1"], ["kept a 1", "ended a 1 released"]))

    def test_a_server_that_is_over(self):
        x, y = self.begin("x", lease="1", host_lease="1"), self.begin("y", lease="1", host_lease="1")
        one = self.raw(x)
        say(one, "acquire a 7\n")
        self.kill(x)
        self.wait_for("y", "ended a 1 server")
        self.assertEqual(short(self.lines("x")), ["granted a 1"])
        self.assertEqual(self.position(y) > 0, True)

    def test_an_engine_that_begins_again_brings_no_line_twice(self):
        x = self.begin("x")
        one, _ = self.session(x, 77)
        self.assertEqual(say(one, "1 acquire a 7\n"), ["1 granted a 1"])
        x.kill_engine()
        wait_until(lambda: "client-went" in x.text_of_log())
        wait_until(lambda: "engine-ready" in x.text_of_log().split("client-went")[1])
        two, _ = self.session(x, 77, 1)
        self.assertEqual(say(two, "2 release a 1\n"), ["2 released a"])
        self.assertEqual(short(self.lines("x")), ["granted a 1", "kept a 1", "ended a 1 released"])


if __name__ == "__main__":
    unittest.main()
