"""How often each word was said, in a file that the metrics are read from: counted since this process
started."""

from __future__ import annotations

import json
import pathlib
import threading


class Counts:
    """`path`: the file, or nothing where nobody reads. A file that cannot be written is no reason not to
    answer."""

    def __init__(self, path: str | None = None) -> None:
        self.path, self.lock = pathlib.Path(path) if path else None, threading.Lock()
        self.words: dict[str, int] = {}
        self.write()

    def add(self, word: str) -> None:
        """Counts a word once more."""
        with self.lock:
            self.words[word] = self.words.get(word, 0) + 1
            self.write()

    def write(self) -> None:
        """Writes the file as a whole; without room for it the count is kept in memory."""
        if self.path is None:
            return
        part = self.path.with_name(f".{self.path.name}.part")
        try:
            part.write_text(json.dumps(self.words))
            part.chmod(0o644)
            part.replace(self.path)
        except OSError:
            pass
