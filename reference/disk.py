"""The files that are read and written."""

import os
import stat

from .texts import Named, Stream


class Opened:
    """A file that is read from its beginning, by the system's own calls: a folder can be opened, but not read."""

    def __init__(self, number: int) -> None:
        self.number = number

    def read(self, most: int, /) -> bytes:
        return os.read(self.number, most)

    def __del__(self) -> None:
        os.close(self.number)


class Disk:
    def open(self, path: str) -> Stream | None:
        """A file, if it can be opened."""
        try:
            return Opened(os.open(path, os.O_RDONLY | os.O_CLOEXEC))
        except (OSError, ValueError):
            return None

    def is_folder(self, path: str) -> bool:
        return os.path.isdir(path)

    def is_there(self, path: str) -> bool:
        """Whether there is a file, also where a link leads to."""
        return os.path.exists(path)

    def is_named(self, path: str) -> bool:
        """Whether a folder has a file of this name, also a link that leads nowhere."""
        return os.path.lexists(path)

    def waits(self, path: str) -> bool:
        """Whether a read of a file may wait, as that of a pipe."""
        try:
            return not stat.S_ISREG(os.stat(path).st_mode)
        except (OSError, ValueError):
            return False

    def write_folder(self, folder: str, texts: dict[str, str]) -> None:
        """Makes a folder with these files."""
        try:
            os.mkdir(folder)
        except (OSError, ValueError):
            raise Named(f"fault make {folder}", 4) from None
        try:
            for name, text in texts.items():
                with open(f"{folder}/{name}", "x", encoding="ascii") as file:
                    file.write(text)
        except OSError:
            raise Named("fault write", 4) from None
