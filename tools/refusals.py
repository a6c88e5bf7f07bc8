"""Which wrong bodies were refused on this machine, so that they needn't be tried again.

Refusals are kept in gambyrei/refused of the user's cache ($XDG_CACHE_HOME, or ~/.cache), a file for
each crate, by sums of all that they rest on: the toolchain, these tools, the sources of the crate
and of those below it, and the wrong body. If one of the first three is another, none is taken.
"""

import hashlib
import json
import os
import subprocess
import tempfile

HERE = os.path.dirname(os.path.realpath(__file__))
TOOLS = ("try-wrong-bodies", "hollow.py", "edits.py", "kit.py", "refusals.py")


def folder():
    cache = os.environ.get("XDG_CACHE_HOME") or os.path.expanduser("~/.cache")
    return f"{cache}/gambyrei/refused"


def sum_of(*parts):
    return hashlib.sha256(repr(parts).encode()).hexdigest()


def tools_sum():
    """Returns a sum of the toolchain's version and of what tries wrong bodies."""
    version = subprocess.run(["rt", "version"], capture_output=True, text=True, check=True).stdout
    texts = []
    for name in TOOLS:
        with open(f"{HERE}/{name}", encoding="utf-8") as file:
            texts.append(file.read())
    return sum_of(version, texts)


class Refusals:
    """Those of one crate. Of each wrong body it is known whether its form alone was refused."""

    def __init__(self, name, basis):
        self.path, self.basis = f"{folder()}/{name}.json", basis
        self.known = self.read()

    def read(self):
        try:
            with open(self.path, encoding="utf-8") as file:
                told = json.load(file)
        except (OSError, ValueError):
            return {}
        return told["refused"] if told.get("basis") == self.basis else {}

    def has(self, edit):
        return sum_of(edit.label, edit.changes) in self.known

    def is_of_form(self, edit):
        return self.known[sum_of(edit.label, edit.changes)]

    def keep(self, shapes):
        """Keeps that these were refused: wrong bodies, each with whether its form alone was."""
        known = self.read() | {sum_of(it.label, it.changes): is_of_form for it, is_of_form in shapes.items()}
        os.makedirs(folder(), exist_ok=True)
        # (another run may keep some at the same time: whoever reads sees the file of one of them)
        with tempfile.NamedTemporaryFile("w", dir=folder(), delete=False, encoding="utf-8") as file:
            json.dump({"basis": self.basis, "refused": known}, file)
        os.replace(file.name, self.path)
