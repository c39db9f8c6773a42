"""The kit's own commands, for scripts that change what they do."""
import importlib.machinery
import importlib.util
import os
import shutil
import sys


def command(name):
    """A command of the kit as a module: `rt`, `rt-plant`."""
    folder = os.path.dirname(os.path.realpath(shutil.which("rt") or sys.exit("there is no command rt")))
    sys.path.insert(0, folder)
    own = name.replace("-", "_") + "_itself"
    loader = importlib.machinery.SourceFileLoader(own, f"{folder}/{name}")
    made = importlib.util.module_from_spec(importlib.util.spec_from_loader(own, loader))
    loader.exec_module(made)
    return made


def rt_itself():
    """`rt` as a module."""
    return command("rt")


def once(make):
    """The sum of a crate's files, made once unless it is the crate in whose folder this runs."""
    made = {}

    def stamp(crate):
        if crate.folder == os.getcwd():
            return make(crate)
        if crate.folder not in made:
            made[crate.folder] = make(crate)
        return made[crate.folder]

    return stamp
