"""Leaves the bodies of functions out of a copy of a crate, all but some.

What calls such a function still has its contract: its proof is a hole, which `rattle check
--allow-holes` takes for what its statement says. So a check of some functions needs no proof of
those that they call.

Left as they are: what an impl of a trait has, whose names the prover makes in its own way; what the
compiler computes (`const fn`), which needs its body; and functions that share one proof (`cycle`).
"""

import glob
import os
import re
import shutil

from edits import home_of, module_of

# A function at the margin, or in an impl at the margin, that isn't computed by the compiler.
HEAD = re.compile(r"(?P<indent>(?:    )?)(?:pub(?:\([a-z ]+\))? )?(?:unsafe )?fn (?P<name>\w+)\b")
# Words that antt reserves.
RESERVED = {"abbrev", "as", "data", "do", "in", "let", "mod", "open", "pub", "record", "unfold", "use", "where"}
# What stands for a body: it returns a value of any type.
BODY = "loop {}"


def kind_of(line):
    """Returns the type that an impl is of; None for an impl of a trait, and for any other line."""
    rest = line.removeprefix("impl")
    while rest != (shorter := re.sub(r"<[^<>]*>", "", rest)):
        rest = shorter
    words = rest.replace("{", " ").split()
    return words[0].split("::")[-1] if line.startswith("impl") and len(words) == 1 else None


def body_of(lines, first, indent):
    """Returns where the lines of a function's body begin and end, or None if it has none of its own."""
    for i in range(first, len(lines)):
        line = lines[i]
        rest = line.removeprefix(indent)
        is_signature = i == first or rest.startswith(")")
        if rest == "{" or is_signature and line.endswith(" {"):
            return i + 1, lines.index(f"{indent}}}", i)
        if is_signature and line.endswith((";", "}")):
            return None
        # (clauses, parameters and bounds stand further in)
        if i > first and line.startswith(indent) and not rest.startswith((" ", ")", ">")):
            return None
    return None


def functions_in(lines):
    """Returns of each function its type, or None, its name, and where its body begins and ends."""
    found, kind = [], None
    for i, line in enumerate(lines):
        if re.match(r"[a-z>]", line):
            kind = kind_of(line)
        head = HEAD.match(line)
        if not head or head["indent"] and not kind or "cycle(" in lines[i - 1]:
            continue
        body = body_of(lines, i, head["indent"])
        if body:
            found.append((kind if head["indent"] else None, head["name"], body))
    return found


def leave_out(crate, folder, changed):
    """Leaves the bodies out of the copy of a crate in this folder, but those of the functions `changed`.

    `changed` has them by the prover's names.
    """
    for path in sorted(glob.glob(f"{folder}/src/**/*.rt", recursive=True)):
        with open(path, encoding="utf-8") as file:
            lines = file.read().split("\n")
        module = module_of(os.path.relpath(path, folder))
        # (from the end, so that the lines before stay where they are)
        for kind, name, (begin, end) in reversed(functions_in(lines)):
            home = module if kind is None else home_of(kind, crate.folder)
            if home is None:
                continue
            parts = [it for it in (*home.split("::"), kind, name) if it]
            if "::".join([crate.name, *parts]) not in changed:
                lines[begin:end] = [f"    {BODY}"]
                make_hole(crate.name, folder, parts)
        with open(path, "w", encoding="utf-8") as file:
            file.write("\n".join(lines))


def make_hole(crate, folder, parts):
    """Puts a hole in place of the proof of a function, which is named from its crate's root."""
    place = f"{folder}/proofs/{'/'.join(parts)}"
    shutil.rmtree(place, ignore_errors=True)
    os.makedirs(place)
    path, name = ".".join(f"«{it}»" if it in RESERVED else it for it in parts), parts[-1]
    with open(f"{place}/Proof.antt", "w", encoding="utf-8") as file:
        file.write(f"use Rattle.{crate}.proofs.{path}.Statement.{{statement}}\n\n")
        file.write(f"pub {name}_spec : {{M : Type 1}} → statement M\n{name}_spec = ?\n")
