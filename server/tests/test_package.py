"""The Debian packages: what is in each, and that an upgrade starts a server that runs again."""

import collections
import os
import re
import subprocess
import sys
import tempfile
import unittest

from harness import FOLDER, PATIENCE, TOP

sys.path.insert(0, os.path.join(TOP, "release"))

import packages  # noqa: E402

POSTINST = os.path.join(TOP, "release", "debian", "wozgirt-server.postinst")


class Postinst(unittest.TestCase):
    def said(self, *words, settings=None):
        """What it has systemctl do, where systemd runs; the server does not start again. `self.settings` are those that it leaves."""
        with tempfile.TemporaryDirectory(dir=FOLDER) as folder:
            said = os.path.join(folder, "said")
            for name in ("systemctl", "deb-systemd-invoke", "systemd-sysusers"):
                with open(os.path.join(folder, name), "w", encoding="ascii") as file:
                    file.write(f'#!/bin/sh\necho {name} "$@" >>{said}\n[ "$1" != try-restart ]\n')
                os.chmod(os.path.join(folder, name), 0o755)
            with open(POSTINST, encoding="utf-8") as file:
                script = file.read().replace("/run/systemd/system", folder).replace("/etc/wozgirt", f"{folder}/etc")
            script = script.replace("/usr/share/wozgirt/settings", os.path.join(TOP, "release", "settings"))
            if settings is not None:
                os.mkdir(os.path.join(folder, "etc"))
                with open(os.path.join(folder, "etc", "settings"), "w", encoding="ascii") as file:
                    file.write(settings)
            subprocess.run(["sh", "-c", script, "postinst", *words], env={"PATH": f"{folder}:/usr/bin:/bin"}, timeout=PATIENCE, check=True)
            with open(os.path.join(folder, "etc", "settings"), encoding="ascii") as file:
                self.settings = file.read()
            with open(said, encoding="ascii") as file:
                return file.read().splitlines()[1:]

    def test_a_first_installation_starts_again_only_what_runs(self):
        """As after a package that had the server under another name."""
        self.assertEqual(self.said("configure", ""), ["systemctl --system daemon-reload", "deb-systemd-invoke try-restart wozgirt-server.service"])

    def test_settings_that_are_there_stay(self):
        """The journal fits only the list of locks with which it was begun."""
        self.said("configure", "", settings="WOZGIRT_LOCKS=deploy,more\n")
        self.assertEqual(self.settings, "WOZGIRT_LOCKS=deploy,more\n")
        self.said("configure", "")
        with open(os.path.join(TOP, "release", "settings"), encoding="ascii") as file:
            self.assertEqual(self.settings, file.read())

    def test_an_upgrade_is_left_to_debhelper(self):
        self.assertEqual(self.said("configure", "0.1.0-1"), [])


class Contents(unittest.TestCase):
    """Which packages there are, and which files each gets."""

    FOLDER = os.path.join(TOP, "release", "debian")

    def names(self, text):
        return re.findall("^Package: (.*)$", text, re.MULTILINE)

    def test_only_the_packages_of_the_library_need_it(self):
        every = ["wozgirt", "wozgirt-server", "libwozgirt0", "libwozgirt-dev", "python3-wozgirt"]
        self.assertEqual(self.names(packages.control(True)), every)
        self.assertEqual(self.names(packages.control(False)), ["wozgirt", "wozgirt-server", "python3-wozgirt"])

    def test_units_are_where_debhelper_looks_for_them(self):
        """It writes what an upgrade does only of those in lib/systemd/system."""
        for name, units in (("wozgirt-server", ["wozgirt-server.service", "wozgirt-tls.service"]), ("wozgirt", ["wozgirt-tunnel@.service"])):
            with open(os.path.join(self.FOLDER, f"{name}.install"), encoding="utf-8") as file:
                found = [line.split() for line in file if "systemd/system" in line]
            self.assertEqual(found, [[f"usr/lib/systemd/system/{it}", "lib/systemd/system"] for it in units])
        with open(os.path.join(self.FOLDER, "rules"), encoding="utf-8") as file:
            self.assertIn("dh_installsystemd -pwozgirt-server --no-enable --no-start --restart-after-upgrade wozgirt-server.service\n", file.read())

    def test_each_file_is_in_one_package(self):
        files = collections.Counter()
        for name in self.names(packages.control(True)):
            with open(os.path.join(self.FOLDER, f"{name}.install"), encoding="utf-8") as file:
                files.update(line.split()[0] for line in file)
        self.assertEqual([it for it, times in files.items() if times > 1], [])
        for shell, folder in (("bash", "bash-completion/completions"), ("zsh", "zsh/vendor-completions"), ("fish", "fish/vendor_completions.d")):
            for name in os.listdir(os.path.join(TOP, "release", "completions", shell)):
                self.assertIn(f"usr/share/{folder}/{name}", files)
        for name in os.listdir(os.path.join(TOP, "docs", "man")):
            section = f"usr/share/man/man{name[-1]}"
            self.assertTrue(files[f"{section}/{name}.gz"] or files[section], name)


if __name__ == "__main__":
    unittest.main()
