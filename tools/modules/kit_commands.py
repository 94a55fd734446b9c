"""The kit's own `rt` as a module, and the crates of a checkout as it sees them."""

import importlib.machinery
import importlib.util
import os
import shutil
import sys
from pathlib import Path


def folder_of_kit():
    """The folder of the toolchain: /opt/rattle, or where `rt` on PATH stands."""
    on_path = shutil.which("rt")
    places = [Path("/opt/rattle")] + ([Path(on_path).resolve().parent.parent] if on_path else [])
    found = next((it for it in places if (it / "bin" / "rtlib.py").is_file()), None)
    if found is None:
        sys.exit("there is no toolchain: no `rt` on PATH and none in /opt/rattle/bin")
    return found


def once(method):
    """A method of a crate that is asked once for each folder."""
    answers = {}

    def asked(crate):
        if crate.folder not in answers:
            answers[crate.folder] = method(crate)
        answer = answers[crate.folder]
        return list(answer) if isinstance(answer, list) else answer

    return asked


def loaded(file, name):
    """A script of the kit as a module."""
    sys.dont_write_bytecode = True
    bin_of_kit = folder_of_kit() / "bin"
    sys.path.insert(0, str(bin_of_kit))
    loader = importlib.machinery.SourceFileLoader(name, str(bin_of_kit / file))
    made = importlib.util.module_from_spec(importlib.util.spec_from_loader(name, loader))
    sys.modules[name] = made
    loader.exec_module(made)
    return made


def ask_once(crate):
    """The sum of a crate's texts and what stands below it are computed once."""
    crate.stamp = once(crate.stamp)
    crate.below = once(crate.below)


def module():
    """`rt` as a module."""
    rt = loaded("rt", "rt_command")
    ask_once(rt.rtlib.Crate)
    return rt


def plant(words):
    """`rt plant`, which the kit runs as a script of its own."""
    script = loaded("rt-plant", "rt_plant")
    ask_once(script.rt.Crate)
    return script.main(*words)


def load(checkout):
    """`rt` as a module that works on this checkout."""
    rt = module()
    os.chdir(checkout)
    rt.rtlib.Crate = rt.Crate
    line = Path("HANDLES").read_text().strip()
    rt.Crate.allowed = tuple(line.removeprefix("Handles allowed: ").removesuffix(".").split(", "))
    return rt


def libraries(rt, checkout, wanted):
    """The libraries of the wanted crates (of all, where none is named) and of all below them, lowest first, but for static ones, which no
    crate stands on."""
    crates = {it.name: it for it in rt.rtlib.crates_below(str(checkout))}
    unknown = [it for it in wanted if it not in crates]
    if unknown:
        sys.exit("no such crate: " + " ".join(unknown))
    found = {}
    for name in wanted or crates:
        for crate in [*crates[name].below(), crates[name]]:
            found.setdefault(crate.name, crate)
    return [it for it in found.values() if not it.is_program and not it.is_static]


def library_of(crate):
    """Where the library of a crate stands, and the stamp that says of which text it is."""
    at = Path(crate.folder) / "out" / "rlib"
    return at / (crate.name + ".rlib"), at / "stamp"


def has_library(crate):
    """Whether the library of this very text stands in the crate's out/."""
    library, stamp = library_of(crate)
    return library.is_dir() and stamp.is_file() and stamp.read_text() == crate.stamp()
