"""Wrong bodies: edits that make a function wrong, as files of crates/NAME/FOLDER/*.edit.

A file has lines 'file: PATH' and, behind each, pairs 'old: TEXT' and 'new: TEXT', as rt must-fail
reads them. PATH is named from the folder of the crate. Each old text stands once in its file.
"""

import functools
import glob
import os
import re

ROOT = os.path.dirname(os.path.dirname(os.path.realpath(__file__)))


class Misfit(Exception):
    """Why an edit can't be applied."""


class Edit:
    """A wrong body, with its changes: for each the file, the old text and the new one."""

    def __init__(self, path):
        self.path, self.label, self.changes = path, os.path.relpath(path, ROOT), []
        file = old = ""
        with open(path, encoding="utf-8") as lines:
            for line in lines.read().split("\n"):
                if line.startswith("file: "):
                    file = line[len("file: ") :].strip()
                elif line.startswith("old: "):
                    old = line[len("old: ") :]
                elif line.startswith("new:"):
                    self.changes.append((file, old, line[len("new:") :].removeprefix(" ")))

    def apply(self, folder, texts):
        """Returns texts, by their path in the crate at this folder, with this edit made in them."""
        texts = dict(texts)
        for file, old, new in self.changes:
            text = texts.get(file) or read(f"{folder}/{file}")
            count = text.count(old) if old else 0
            if count != 1:
                raise Misfit(f"an old text is in {file} {count} times, and not once")
            texts[file] = text.replace(old, new)
        if not texts:
            raise Misfit("it changes nothing")
        return texts

    def places(self, folder):
        """Returns what it changes of the sources as they stand: files, from where to where, new texts."""
        found = []
        for file, old, new in self.changes:
            text = read(f"{folder}/{file}")
            if not old or text.count(old) != 1:
                raise Misfit(f"an old text isn't in {file} once, as it stands")
            at = text.find(old)
            found.append((file, at, at + len(old), new))
        return found

    def function(self, folder):
        """Returns the module, type, trait and name of the one function that it changes, or None."""
        found = {around(folder, file, old) for file, old, _ in self.changes}
        return found.pop() if len(found) == 1 else None


def read(path):
    try:
        with open(path, encoding="utf-8") as file:
            return file.read()
    except OSError as error:
        raise Misfit(f"{path}: {error.strerror}") from error


def with_changes(folder, places):
    """Returns the texts, by their path in the crate at this folder, in which these places are changed."""
    texts = {}
    # (from the end on, so that what stands before a change stays where it is)
    for file, begin, end, new in sorted(places, reverse=True):
        text = texts.get(file) or read(f"{folder}/{file}")
        texts[file] = text[:begin] + new + text[end:]
    return texts


def around(folder, file, old):
    """Returns the module, type, trait and name of the function that a text stands in, or None."""
    text = read(f"{folder}/{file}")
    at = text.find(old) + len(old) - len(old.lstrip())
    head = text[: text.find("\n", at) + 1]
    name = re.findall(r"(?m)^ *(?:pub(?:\([a-z ]+\))? )?(?:const )?(?:unsafe )?fn (\w+)", head)
    if not name or not file.startswith("src/") or not file.endswith(".rt"):
        return None
    # (what stands at the margin is in no impl)
    last = re.findall(r"(?m)^(impl\b[^{]*|(?:pub(?:\([a-z ]+\))? )?(?:const )?fn \w+)", head)[-1]
    kind, trait = "", ""
    if last.startswith("impl"):
        head = re.sub(r"<[^<>]*>", "", re.sub(r"<[^<>]*>", "", last[len("impl") :]))
        # (what an impl is of may stand on a line of its own)
        words = " ".join(head.split()).split(" for ")
        kind = words[-1].split()[0].split("::")[-1]
        trait = words[0].split("::")[-1] if len(words) > 1 else ""
        # (another crate's type is named by all its words, as BoxDynPool of Box<dyn Pool>)
        if home_of(kind, folder) is None:
            # (without the impl's own parameters, as PoolSet of PoolSet<P>)
            own = re.findall(r"(\w+)(?=\s*[:,>])", re.match(r"impl(<[^<>]*>)?", last)[0][len("impl") :])
            whole = [it for it in re.findall(r"\w+", last.split(" for ")[-1]) if it not in own]
            kind = "".join(it[0].upper() + it[1:] for it in whole)
    return module_of(file), kind, trait, name[-1]


def module_of(file):
    """Returns the module of a file below src, as in `a::b`; none for the root."""
    module = file[len("src/") : -len(".rt")].removesuffix("/mod").replace("/", "::")
    return "" if module in ("lib", "main") else module


@functools.cache
def home_of(kind, folder):
    """Returns the module in which the crate at this folder declares a type, or None."""
    declared = re.compile(rf"(?m)^(?:pub(?:\([a-z ]+\))? )?(?:struct|enum) {kind}\b")
    for path in sorted(glob.glob(f"{folder}/src/**/*.rt", recursive=True)):
        if declared.search(read(path)):
            return module_of(os.path.relpath(path, folder))
    return None


def edits_of(names, folder):
    """Returns the edits in this folder of each crate, or of those that are named, by the crate."""
    found = {}
    for path in sorted(glob.glob(f"{ROOT}/crates/*/{folder}/*.edit")):
        name = path.split("/")[-3]
        if not names or name in names:
            found.setdefault(name, []).append(Edit(path))
    return found


def look(found):
    """Says which edits no longer fit the sources, and returns how many do and don't."""
    passed = failed = 0
    for name, edits in found.items():
        for edit in edits:
            try:
                edit.apply(f"{ROOT}/crates/{name}", {})
                passed += 1
            except Misfit as misfit:
                failed += 1
                print(f"{edit.label}: {misfit}")
    return passed, failed
