"""The examples of `examples/locks`, run as their pages say."""

import os
import re
import subprocess
import sys
import tempfile
import unittest

from harness import COMMAND, TOP, Server, needs_programs

EXAMPLES = os.path.join(TOP, "examples", "locks")


def shown(example):
    """What the page says that the example prints."""
    with open(os.path.join(EXAMPLES, example, "README.md"), encoding="utf-8") as file:
        return re.search(r"^    \$ python3 .*\n((?:    .*\n)+)", file.read(), re.MULTILINE)[1].replace("    ", "")


@needs_programs
class Examples(unittest.TestCase):
    def python(self, server, example, program):
        it = subprocess.run([sys.executable, "-B", program, server.path], cwd=os.path.join(EXAMPLES, example), capture_output=True,
                            text=True, timeout=120, check=False, env=dict(os.environ, PYTHONPATH=os.path.join(TOP, "clients", "python")))
        self.assertEqual((it.returncode, it.stderr), (0, ""))
        self.assertEqual(it.stdout, shown(example))

    @unittest.skipUnless(os.access("/dev/shm", os.W_OK), "no /dev/shm, which multiprocessing needs")
    def test_gpu(self):
        with Server(locks="gpu/0") as server:
            self.python(server, "gpu", "workers.py")

    def test_store(self):
        with Server(locks="deploy") as server:
            self.python(server, "store", "late_writer.py")

    def test_deploy(self):
        with Server(locks="deploy") as server, tempfile.TemporaryDirectory() as folder:
            script = os.path.join(EXAMPLES, "deploy", "deploy.sh")
            words = [COMMAND, "lock", "--socket", server.path, "--wait", "60", "deploy", "--", script, folder]
            both = [subprocess.Popen([*words, version], stdout=subprocess.PIPE, text=True) for version in ("1.0", "2.0")]
            said = [it.communicate(timeout=60)[0] for it in both]
            self.assertEqual([it.returncode for it in both], [0, 0])
            versions = set()
            for part in ("code", "data", "pages"):
                with open(os.path.join(folder, part), encoding="ascii") as file:
                    versions.add(file.read())
            self.assertEqual(len(versions), 1, said)

    def test_deploy_without_its_words(self):
        script = os.path.join(EXAMPLES, "deploy", "deploy.sh")
        it = subprocess.run([script, "www"], capture_output=True, text=True, timeout=60, check=False)
        self.assertEqual((it.returncode, it.stdout, it.stderr), (64, "", f"usage: wozgirt lock deploy -- {script} FOLDER VERSION\n"))


if __name__ == "__main__":
    unittest.main()
