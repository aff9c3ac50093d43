"""A file that refuses writes with a token that is older than one it has seen."""

import fcntl
import os


class OldToken(Exception):
    """A later holder of the lock has written: this one lost the lock, and may not know it."""


class Store:
    """A text in a file, behind fencing tokens. The token of the last write is in the file's first line, and so is replaced
    together with the text."""

    def __init__(self, path: str):
        self._path = path

    def read(self) -> tuple[int, str]:
        """The token of the last write, and the text."""
        try:
            with open(self._path, encoding="utf-8") as file:
                return int(file.readline()), file.read()
        except FileNotFoundError:
            return 0, ""

    def write(self, token: int, text: str) -> None:
        """Replaces the text. The comparison and the replacement are one step for other writers of this machine."""
        with open(self._path + ".guard", "w", encoding="utf-8") as guard:
            fcntl.flock(guard, fcntl.LOCK_EX)
            last, _ = self.read()
            if token < last:
                raise OldToken(f"{token} is older than {last}")
            part = self._path + ".part"
            with open(part, "w", encoding="utf-8") as file:
                file.write(f"{token}\n{text}")
                file.flush()
                os.fsync(file.fileno())
            os.replace(part, self._path)
