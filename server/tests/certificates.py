"""Certificates for tests, made by openssl: an authority in a folder, and those that it signs."""

import os
import shutil
import subprocess
import unittest

needs_openssl = unittest.skipUnless(shutil.which("openssl"), "openssl is not installed")
KIND = ["-utf8", "-newkey", "ec", "-pkeyopt", "ec_paramgen_curve:prime256v1", "-nodes"]


def run(*words):
    subprocess.run(["openssl", *words], check=True, capture_output=True)


class Authority:
    """One that signs: `path` has its certificate."""

    def __init__(self, folder, name="authority"):
        self.folder, self.path, self.key = folder, os.path.join(folder, f"{name}.pem"), os.path.join(folder, f"{name}.key")
        run("req", "-x509", *KIND, "-subj", f"/CN={name}", "-out", self.path, "-keyout", self.key, "-days", "2")

    def of_server(self, name="server", hosts="IP:127.0.0.1", days=1, usage="serverAuth"):
        """A certificate and its key in one file, as HAProxy wants it; with less than 1 for `days` it is over."""
        return self._signed(name, name, days, f"subjectAltName={hosts}", f"extendedKeyUsage={usage}")

    def of_client(self, name, file=None):
        """A certificate with this name, and its key in the same file."""
        return self._signed(file or name, name, 1, "extendedKeyUsage=clientAuth")

    def _signed(self, file, name, days, *extensions):
        path = os.path.join(self.folder, f"{file}.pem")
        words = [word for it in ("basicConstraints=critical,CA:FALSE", *extensions) for word in ("-addext", it)]
        run("req", "-new", *KIND, "-subj", f"/CN={name}", "-out", path + ".request", "-keyout", path + ".key", *words)
        run("x509", "-req", "-in", path + ".request", "-CA", self.path, "-CAkey", self.key, "-days", str(days), "-copy_extensions", "copy",
            "-out", path)
        with open(path, "ab") as both, open(path + ".key", "rb") as key:
            both.write(key.read())
        return path
