"""What the scripts of this folder use of the toolchain's private parts.

Rattle's command rt is made of a module that no page describes. It knows the crates of a repository,
what each stands on, and how the prover is called for one. A new toolchain may change it: then this
file is the one to mend.

  kit.py build NAME [--jobs N]   proves and builds the library or the program of this crate, over
                                 the libraries below it, which have to stand; whoever calls this
                                 keeps others out (build-program does)
"""

import functools
import importlib.machinery
import importlib.util
import os
import shutil
import subprocess
import sys

sys.dont_write_bytecode = True
ROOT = os.path.dirname(os.path.dirname(os.path.realpath(__file__)))


@functools.cache
def toolchain():
    """Returns the module that rt is made of. The first call is the main thread's."""
    found = shutil.which("rt")
    if not found:
        sys.exit(f"{os.path.basename(sys.argv[0])}: needs Rattle's command rt on the PATH")
    path = f"{os.path.dirname(os.path.realpath(found))}/rtlib.py"
    loader = importlib.machinery.SourceFileLoader("rtlib", path)
    tool = importlib.util.module_from_spec(importlib.util.spec_from_loader("rtlib", loader))
    sys.modules["rtlib"] = tool
    loader.exec_module(tool)
    # (its first call sets a signal's handler, which only the main thread may)
    guard = tool.guarded()
    tool.guarded = lambda *_, **__: guard
    return tool


def crates():
    """Returns the crates of this repository, lowest first. Each has a `name` and a `folder`."""
    return toolchain().crates_below(ROOT)


def lock(names):
    """Keeps every other rt out of these crates, until the descriptors returned are closed."""
    return toolchain().lock([it for it in crates() if it.name in names])


def sums_of(asked):
    """Returns, by the names of these crates, a sum of all that each one's library is made from."""
    kind = toolchain().Crate
    # (rt sums what stands below a crate again for each way that leads there)
    plain, kind.stamp = kind.stamp, functools.cache(kind.stamp)
    try:
        return {it.name: it.stamp() for it in asked}
    finally:
        kind.stamp = plain


def stands(crate):
    """Returns whether the crate's library or program is newer than all that it is made of."""
    made = f"{crate.folder}/out/{crate.name}" if crate.is_program else crate.rlib
    if not os.path.exists(made):
        return False
    times = [os.path.getmtime(it) for it in toolchain().files_of(crate.folder)]
    times += [os.path.getmtime(it.rlib) for it in crate.below() if os.path.isdir(it.rlib)]
    return max(times) <= os.path.getmtime(made)


def build_below(above):
    """Builds the libraries that these crates stand on. Returns one's name if it isn't proved."""
    below = {dep.name: dep for it in above for dep in it.below()}.values()
    # (rt ci leaves no stamps: then it has just made these libraries)
    if all(stands(it) and not os.path.exists(f"{it.folder}/out/rlib/stamp") for it in below):
        return None
    return next((it.name for it in below if it.build_rlib(["--jobs", "2"], anew=False)), None)


def sum_once(crate):
    """Has each crate's sources summed once before the prover is called for this crate, and once behind.

    rt sums what stands below a crate again for each way that leads there, which took a minute for
    the program. The sums behind tell of what was changed meanwhile.
    """
    kind = toolchain().Crate
    kind.stamp = functools.cache(kind.stamp)
    plain = crate.call

    def call(*words):
        try:
            return plain(*words)
        finally:
            kind.stamp.cache_clear()

    crate.call = call


def build(name, jobs):
    """Builds the library or the program of a crate whose libraries below stand. Returns rt's status."""
    tool = toolchain()
    for crate in crates():
        if crate.name == name:
            os.chdir(crate.folder)
            # (a fresh clone has no folder for what is made, and nothing else makes it for a program)
            os.makedirs("out", exist_ok=True)
            flags, crate.held = ["--jobs", str(jobs)], []
            sum_once(crate)
            if crate.is_program:
                # (over a folder that keeps what was proved, the prover parts a large program into
                # many checks, each of which loads all that stands below)
                tool.KEPT = []
                return crate.build_and_run(flags, ["--version"], False)
            # (rt has the library over such a folder: without one, the prover also writes down what
            # others can cite of all that the library calls, which takes longer than many a proof)
            return crate.build_rlib(flags, anew=False)
    sys.exit(f"kit.py: there is no crate {name}")


def copy_sources(crate, folder):
    """Copies what a check of the crate reads into this folder."""
    for part in toolchain().PARTS:
        if os.path.isdir(f"{crate.folder}/{part}"):
            shutil.copytree(f"{crate.folder}/{part}", f"{folder}/{part}")


def check(crate, folder, kept, only=(), flags=()):
    """Checks a copy of the crate in this folder: all of it, or these functions alone.

    `kept` is a folder that keeps what was proved from check to check. Returns the ended process.
    """
    tool = toolchain()
    words = [tool.RATTLE, "check", *crate.words(["--jobs", "1"], keeps=False), *flags]
    words += ["--incremental", kept]
    words += [word for name in only for word in ("--only", name)]
    how = {"stdin": subprocess.DEVNULL, "stdout": subprocess.PIPE, "stderr": subprocess.STDOUT}
    return subprocess.run([*tool.guarded(), *words], cwd=folder, errors="replace", **how)


def main(words):
    if len(words) in (2, 4) and words[0] == "build" and words[2:3] in ([], ["--jobs"]):
        jobs = words[3] if len(words) == 4 else "1"
        if jobs.isdigit() and int(jobs):
            return build(words[1], int(jobs))
    if words in (["--help"], ["-h"]):
        print(__doc__)
        return 0
    print(f"kit.py: what is {' '.join(words) or 'to be done'}? See kit.py --help", file=sys.stderr)
    return 2


if __name__ == "__main__":
    sys.exit(main(sys.argv[1:]))
