"""The kit's `rt` as a module, for scripts that ask it what it keeps and how it checks. They change nothing of it."""
import importlib.machinery
import importlib.util
import os
import shutil
import sys

FOLDER = "/opt/rattle/bin"


def loaded(path):
    """A script as a module."""
    name = os.path.basename(path)
    loader = importlib.machinery.SourceFileLoader(name, path)
    module = importlib.util.module_from_spec(importlib.util.spec_from_loader(name, loader))
    loader.exec_module(module)
    return module


def load():
    """The kit's `rt`."""
    sys.path.insert(0, FOLDER)
    return loaded(f"{FOLDER}/rt")


def keeps(rt):
    """Whether the kit keeps on the machine what its gate has proved: 13f does, 13b doesn't."""
    return hasattr(rt, "Kept")


def crates(rt, folder):
    """The crates of a checkout, lowest first. The kit reads a checkout in its folder, which becomes that of the script."""
    os.chdir(folder)
    rt.Crate.allowed = rt.handles_of(folder)
    if keeps(rt):
        return rt.crates_of(folder)
    # `crates_of` of a kit that keeps nothing sets aside what is built.
    rt.rtlib.Crate = rt.Crate
    return sorted(rt.rtlib.crates_below(folder), key=lambda it: len(it.below()))


def begin_with(rt, crate, kept):
    """Gives the checks of a crate, which keep what they prove in the folder `kept`, what earlier checks of it have kept, if anything."""
    if keeps(rt):
        rt.adopt(crate, False)
    earlier = f"{crate.folder}/out/incremental"
    if not os.path.isdir(earlier):
        os.mkdir(kept)
    elif keeps(rt):
        rt.linked(earlier, kept)
    else:
        shutil.copytree(earlier, kept, copy_function=linked)


def linked(source, to):
    """Links a file, or copies it to another disk."""
    try:
        os.link(source, to)
    except OSError:
        shutil.copy2(source, to)
