"""Clients that are sent a line when the locks have changed, and `wozgirt watch`, which prints them then."""

import json
import os
import subprocess
import time
import unittest

from harness import COMMAND, Server, at_least, needs_programs, read_lines, say


def changes(sock, seen):
    line, = say(sock, f"changes {seen}\n")
    word, number = line.split(" ")
    assert word == "changes", line
    return int(number)


@needs_programs
class Watching(unittest.TestCase):
    def test_a_change_is_told_once(self):
        with Server() as server, server.raw() as watcher, server.raw() as client:
            seen = changes(watcher, 2**64 - 1)
            for text in ("acquire a 1", "release a 1", "acquire a 1"):
                watcher.sendall(f"changes {seen}\n".encode())
                self.assertEqual(say(watcher, "ping\n"), ["pong"])  # nothing has changed
                say(client, text + "\n")
                line, = read_lines(watcher, 1)
                self.assertNotEqual(line, f"changes {seen}")
                seen = int(line.removeprefix("changes "))
            self.assertEqual(say(watcher, "ping\n"), ["pong"])
            say(client, "acquire b 1\n")  # who did not ask again hears nothing
            self.assertEqual(say(watcher, "ping\n"), ["pong"])
            self.assertNotEqual(changes(watcher, seen), seen)  # and at once what came meanwhile

    def test_one_that_asks_again_gets_one_line(self):
        with Server() as server, server.raw() as watcher, server.raw() as client:
            seen = changes(watcher, 2**64 - 1)
            self.assertEqual(say(watcher, f"changes {seen}\nchanges {seen}\nping\n"), ["pong"])
            say(client, "acquire a 1\n")
            self.assertNotEqual(read_lines(watcher, 1), [f"changes {seen}"])
            self.assertEqual(say(watcher, "ping\n"), ["pong"])

    def test_what_is_no_number(self):
        with Server() as server, server.raw() as sock:
            self.assertEqual(say(sock, "changes\nchanges x\nping\n", 3), ["refused syntax", "refused syntax", "pong"])

    def test_the_command_prints_at_a_change(self):
        """Long before the time after which it prints anyway."""
        with Server(locks="a,b") as server, server.raw() as client:
            words = [COMMAND, "watch", "a", "--json", "--every", "1000", "--socket", server.path]
            with subprocess.Popen(words, stdout=subprocess.PIPE, text=True, env={**os.environ, "WOZGIRT_SOCKET": ""}) as watch:
                def state():
                    lock, = json.loads(watch.stdout.readline())
                    return lock["state"], lock["token"]

                self.assertEqual(state(), ("free", None))
                say(client, "acquire a 7\n")
                shown = state()
                while shown[0] == "free":  # what had come before it asked
                    shown = state()
                self.assertEqual(shown, ("held", 1))
                say(client, "release a 1\n")
                self.assertEqual(state()[0], "free")
                watch.kill()

    def test_the_command_prints_after_the_time_too(self):
        with Server(locks="a") as server:
            words = [COMMAND, "watch", "--json", "--every", "0.3", "--socket", server.path]
            with subprocess.Popen(words, stdout=subprocess.PIPE, text=True) as watch:
                watch.stdout.readline()
                watch.stdout.readline()
                begun = time.monotonic()
                watch.stdout.readline()
                watch.stdout.readline()
                at_least(0.3, begun)
                watch.kill()


if __name__ == "__main__":
    unittest.main()
