"""The archives of the programs, in a folder outside the repository: fetched of Debian's pool once, each with its checksum."""

import hashlib
import os
import subprocess
import tarfile
from pathlib import Path

POOL = "http://deb.debian.org/debian/pool/"


class Lacks(Exception):
    """Why a program can't be had, or can't be built."""


def cache():
    """Where archives and trees stand where no other folder is named."""
    return Path(os.environ.get("XDG_CACHE_HOME") or Path.home() / ".cache") / "kombazily" / "programs"


def fetched(folder, program, may_fetch):
    """The archive of a program, with the right checksum, fetched where it isn't there."""
    file = folder / "archives" / Path(program.archive).name
    if not file.is_file() and not may_fetch:
        raise Lacks("%s isn't there" % file)
    if not file.is_file():
        file.parent.mkdir(parents=True, exist_ok=True)
        new = file.with_suffix(".new")
        asked = ["curl", "-sSfL", "--retry", "3", "-m", "300", "-o", new, POOL + program.archive]
        made = subprocess.run(asked, capture_output=True, text=True)
        if made.returncode != 0:
            raise Lacks("%s wasn't fetched: %s" % (POOL + program.archive, made.stderr.strip()))
        os.replace(new, file)
    found = hashlib.sha256(file.read_bytes()).hexdigest()
    if found != program.checksum:
        raise Lacks("%s has the checksum %s, not %s" % (file, found, program.checksum))
    return file


def unpack(archive, folder):
    """Unpacks an archive into a new folder, without the one folder that all of it may stand in."""
    folder.mkdir(parents=True)
    with tarfile.open(archive) as it:
        members = it.getmembers()
        tops = {member.name.removeprefix("./").split("/")[0] for member in members} - {"", "."}
        it.extractall(folder)
    alone = folder / tops.pop() if len(tops) == 1 else None
    if alone is not None and alone.is_dir():
        moved = folder.with_name(folder.name + ".one")
        os.rename(alone, moved)
        for left in sorted(folder.iterdir()):
            left.unlink()
        folder.rmdir()
        os.rename(moved, folder)
