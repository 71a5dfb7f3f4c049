"""What the command knows of a repository: its crates, and the lists in the data folder."""
import re

from functions import Names


class Settings:
    """The repository, and what `settings.txt` of the data folder says of it: lines `NAME: VALUE`."""

    def __init__(self, root, data):
        self.root, self.data, self.values, self.crates, self.calls = root, data, {}, [], ""
        self.words = {"texts": {"Vec", "String"}, "devices": {"read", "write", "write_all", "flush"}, "reads": {"read"}}
        for line in self.lines("settings.txt"):
            name, _, value = line.partition(": ")
            if name == "crates":
                self.crates = value.split()
            elif name == "calls":
                self.calls = value
            elif name in self.words:
                self.words[name] |= {*value.split()}
            else:
                self.values.setdefault(name, []).append(value)

    def names(self):
        """What mutants are made from, before any source is read."""
        return Names(values=self.values, **self.words)

    def lines(self, name):
        """The lines of a file of the data folder, without comments; none if there is no file."""
        file = self.data / name
        text = file.read_text(encoding="utf-8") if file.is_file() else ""
        return [line for line in text.splitlines() if line and not line.startswith("#")]

    def all_crates(self):
        text = (self.root / "crates.txt").read_text(encoding="utf-8")
        return re.findall(r"^(\w+)[ :]", text, re.MULTILINE)
