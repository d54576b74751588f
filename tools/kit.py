"""The toolchain's own scripts as modules, for the scripts beside this one. They lean on names inside the kit of `rt version` and are not part of the gate."""
import importlib.machinery
import importlib.util
import os
import shutil
import subprocess
import sys
import types

sys.dont_write_bytecode = True
KIT = os.path.dirname(os.path.dirname(os.path.realpath(shutil.which("rt"))))


def script(name):
    """A script of the kit as a module."""
    path = f"{KIT}/bin/{name}"
    module = types.ModuleType(name.replace("-", "_"))
    module.__file__ = path
    sys.modules[module.__name__] = module
    importlib.machinery.SourceFileLoader(module.__name__, path).exec_module(module)
    return module


def named_in(top):
    """The crates of a repository, with what each names in crates.txt, lowest first."""
    found = {}
    with open(f"{top}/crates.txt") as lines:
        for line in lines:
            name, _, below = line.split("#")[0].strip().partition(":")
            if name:
                found[name] = below.split()
    return found


def libraries_of(top):
    """The libraries of a repository that others may stand on, with those that each names, lowest first."""
    found = named_in(top)
    is_library = {it: os.path.isfile(f"{top}/crates/{it}/src/lib.rt") and not it.endswith("_tests") for it in found}
    return {it: [dep for dep in below if dep in found] for it, below in found.items() if is_library[it]}


def usable(below):
    """Built libraries over built libraries alone."""
    names = set()
    for library in below:
        if library.is_built() and all(it.name in names for it in library.deps):
            names.add(library.name)
    return names


def stamp_of(top, name):
    """By which text a library was proved, if it was."""
    path = f"{top}/crates/{name}/out/rlib/stamp"
    if not os.path.isfile(path):
        return None
    with open(path) as kept:
        return kept.read()


def hand_library(source, target, name):
    """Hard-links a proved library of one clone into another one, where that has another."""
    if stamp_of(source, name) in (None, stamp_of(target, name)):
        return
    to = f"{target}/crates/{name}/out/rlib"
    shutil.rmtree(to, ignore_errors=True)
    os.makedirs(os.path.dirname(to), exist_ok=True)
    subprocess.run(["cp", "-al", f"{source}/crates/{name}/out/rlib", to], check=True)


def hand_kept(source, target, name):
    """Copies what checks of a crate kept in one clone to another one."""
    kept = f"{source}/crates/{name}/out/incremental"
    if os.path.isdir(kept):
        to = f"{target}/crates/{name}/out/incremental"
        shutil.rmtree(to, ignore_errors=True)
        os.makedirs(os.path.dirname(to), exist_ok=True)
        subprocess.run(["cp", "-a", kept, to], check=True)
