"""What this repository's commands take of the toolchain's command rt: its crates, its words for rattle, its lanes.

rt is a file of Python. These names of it are no documented interface; docs/DECISIONS.md says what stands on them, and
what to do when they go.
"""
import importlib.machinery
import importlib.util
import os
import shutil
import sys

sys.dont_write_bytecode = True
TOP = os.path.dirname(os.path.dirname(os.path.realpath(__file__)))
# What a check of one crate takes at the most, in bytes.
CHECK = 3_600_000_000


def load(name="rt"):
    """Returns a file of the toolchain's commands as a module."""
    file = os.path.realpath(shutil.which("rt") or sys.exit("the toolchain's command rt is not on the path"))
    loader = importlib.machinery.SourceFileLoader(name, f"{os.path.dirname(file)}/{name}")
    made = importlib.util.module_from_spec(importlib.util.spec_from_loader(name, loader))
    loader.exec_module(made)
    return made


rt = load()
Crate = rt.rtlib.Crate
sum_of_sources, make, sums = Crate.stamp, Crate.__init__, {}


def stamp(crate):
    """Returns the sum of all that the crate is made from, once for each crate: rt reads those below once for each path to them."""
    if crate.folder not in sums:
        sums[crate.folder] = sum_of_sources(crate)
    return sums[crate.folder]


def make_with_files(crate, *given, **named):
    make(crate, *given, **named)
    rt.read_files(crate)


Crate.stamp, Crate.__init__ = stamp, make_with_files


def crates(names=()):
    """Returns the repository's crates, lowest first: those of these names and all below them, or all."""
    found = rt.rtlib.crates_below(TOP)
    lacking = {*names} - {it.name for it in found}
    if lacking:
        sys.exit(f"crates.txt has no crate {' '.join(sorted(lacking))}")
    if names:
        kept = {below.name for it in found if it.name in names for below in [it, *it.below()]}
        found = [it for it in found if it.name in kept]
    rt.rtlib.guarded()
    return sorted(found, key=lambda it: len(it.below()))


def proved_libraries(names=()):
    """Returns the libraries of these names, or all, lowest first, once ./prove has proved them; or ends, with what to say."""
    found = [it for it in crates(names) if it.makes_rlib() and (it.name in names or not names)]
    programs = {*names} - {it.name for it in found}
    if programs:
        sys.exit(f"no library: {' '.join(sorted(programs))}")
    if os.system(f"{TOP}/prove {' '.join(it.name for it in found)}"):
        sys.exit(1)
    return found


def share_work():
    """Has checks take what other checkouts on this machine kept of the same text, where rt can share it."""
    if hasattr(rt, "share_work"):
        rt.share_work(True)


def take_kept(found):
    """Gives crates, lowest first, what `rt ci` proved of the same text on this machine, and yields for each whether it could.
    Some versions of rt keep nothing: then it yields nothing."""
    if not hasattr(rt, "Kept"):
        return
    rt.Crate.allowed = rt.handles_of(TOP)
    kept = rt.Kept(found)
    for crate in found:
        is_built = crate.makes_rlib() and crate.is_built()
        if not is_built:
            # (what `rt ci` left here are links to its store, which gives nothing over them and then drops what it has)
            shutil.rmtree(f"{crate.folder}/out/rlib", ignore_errors=True)
        given = [is_built or kept.give(crate, False, kept.key(crate))]
        given += [kept.give(crate, True, kept.key(crate))] if given[0] and crate.has_tests() else []
        if crate.makes_rlib() and given[0]:
            with open(f"{crate.folder}/out/rlib/stamp", "w", encoding="utf-8") as it:
                it.write(crate.stamp())
        kept.is_built(crate)
        yield crate, all(given)


def lanes():
    """Returns how many checks go side by side: as many as processors and free memory bear, or what RT_JOBS says."""
    said = os.environ.get("RT_JOBS", "")
    return int(said) if said.isdigit() and int(said) else max(1, min(rt.processors(), rt.free() // CHECK))
