"""Names in the rules as the system knows them, whatever service it asks: here one that a library in front of the system's plays. A name that
nobody knows lets nobody in, and keeps no server from starting; a service that is slow keeps no client waiting."""

import os
import shutil
import signal
import subprocess
import tempfile
import time
import unittest
from unittest import mock

from harness import FOLDER, Server, needs_programs, say, wait_until

COMPILER = shutil.which("cc")
#: it knows one user and one group that are in no file, needs more room than is offered at first, and takes long for one name
SERVICE = r"""
#define _GNU_SOURCE
#include <dlfcn.h>
#include <errno.h>
#include <grp.h>
#include <pwd.h>
#include <stdlib.h>
#include <string.h>
#include <unistd.h>

int getpwnam_r(const char *name, struct passwd *it, char *text, size_t size, struct passwd **found) {
    static int (*next)(const char *, struct passwd *, char *, size_t, struct passwd **);
    if (strcmp(name, "slow-user") == 0)
        sleep(3);
    if (strcmp(name, "user-of-a-directory") == 0) {
        if (size < 100000)
            return ERANGE;
        memset(it, 0, sizeof *it);
        it->pw_uid = atoi(getenv("SERVED_USER"));
        *found = it;
        return 0;
    }
    if (!next)
        *(void **)&next = dlsym(RTLD_NEXT, "getpwnam_r");
    return next(name, it, text, size, found);
}

int getgrnam_r(const char *name, struct group *it, char *text, size_t size, struct group **found) {
    static int (*next)(const char *, struct group *, char *, size_t, struct group **);
    if (strcmp(name, "group-of-a-directory") == 0) {
        memset(it, 0, sizeof *it);
        it->gr_gid = atoi(getenv("SERVED_GROUP"));
        *found = it;
        return 0;
    }
    if (!next)
        *(void **)&next = dlsym(RTLD_NEXT, "getgrnam_r");
    return next(name, it, text, size, found);
}
"""


@needs_programs
class Accounts(unittest.TestCase):
    def setUp(self):
        self.folder = tempfile.mkdtemp(prefix="wozgirt-", dir=FOLDER)
        self.addCleanup(shutil.rmtree, self.folder, ignore_errors=True)
        self.rules = os.path.join(self.folder, "rules")

    def write(self, text):
        with open(self.rules, "w", encoding="ascii") as file:
            file.write(text)

    def server_with_a_service(self):
        """Its own user and group have other names than in the system's files."""
        source, library = os.path.join(self.folder, "service.c"), os.path.join(self.folder, "service.so")
        with open(source, "w", encoding="ascii") as file:
            file.write(SERVICE)
        subprocess.run([COMPILER, "-shared", "-fPIC", "-o", library, source, "-ldl"], check=True, timeout=60)
        more = {"LD_PRELOAD": library, "SERVED_USER": str(os.getuid()), "SERVED_GROUP": str(os.getgid())}
        with mock.patch.dict(os.environ, more):
            return Server("--rules", self.rules)

    @unittest.skipUnless(COMPILER, "there is no C compiler")
    def test_who_is_in_no_file(self):
        self.write("lock a: user-of-a-directory\nlock b: %group-of-a-directory\nlock c: user-in-no-directory\n")
        with self.server_with_a_service() as server, server.raw() as sock:
            self.assertEqual(say(sock, "try a 1\ntry b 1\ntry c 1\n", 3), ["granted a 1", "granted b 1", "refused permission c"])
            self.assertIn("rules-unknown rules, line 3: there is no user user-in-no-directory: this lets nobody in\n", server.text_of_log())

    @unittest.skipUnless(COMPILER, "there is no C compiler")
    def test_a_service_that_is_slow_keeps_nobody_waiting(self):
        self.write("lock a: user-of-a-directory\n")
        with self.server_with_a_service() as server, server.raw() as sock:
            self.write("lock a: slow-user\nlock b: user-of-a-directory\n")
            server.process.send_signal(signal.SIGHUP)
            begun, longest = time.monotonic(), 0
            while "rules-read" not in server.text_of_log():
                asked = time.monotonic()
                self.assertEqual(say(sock, "ping\n"), ["pong"])
                longest = max(longest, time.monotonic() - asked)
                time.sleep(0.01)
            self.assertGreater(time.monotonic() - begun, 2.5)
            self.assertLess(longest, 2)
            self.assertEqual(say(sock, "try a 1\ntry b 1\n", 2), ["refused permission a", "granted b 1"])

    def test_who_is_not_known_keeps_no_server_from_starting(self):
        self.write(f"lock a: gone-user %gone-group {os.getuid()}\nlock b: gone-user\n")
        with Server("--rules", self.rules) as server, server.raw() as sock:
            self.assertEqual(say(sock, "try a 1\ntry b 1\ntry c 1\n", 3), ["granted a 1", "refused permission b", "granted c 1"])
            for line in ("line 1: there is no user gone-user", "line 1: there is no group gone-group", "line 2: there is no user gone-user"):
                self.assertIn(f"rules-unknown rules, {line}: this lets nobody in\n", server.text_of_log())
            self.write("lock b: other-gone-user\n")
            server.process.send_signal(signal.SIGHUP)
            wait_until(lambda: "rules-read" in server.text_of_log())
            self.assertIn("line 1: there is no user other-gone-user", server.text_of_log())
            self.assertEqual(say(sock, "try b 1\n"), ["refused permission b"])


if __name__ == "__main__":
    unittest.main()
