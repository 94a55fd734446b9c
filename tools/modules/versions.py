"""Whether all texts that tell a version tell the one of the file VERSION.

Programs are proved with their texts, so their version is a literal in a crate; man pages and the compilers' words are files that are
taken as they are.
"""

import re

from programs import TOP, version

# What tells a version: the files, and how it stands in them.
TOLD = [
    ("crates/*/src/*.rt", re.compile(r"\(Kombazily\) ([^\"\\]+)[\"\\]")),
    ("bindings/c/src/*.c", re.compile(r"\"Kombazily ([^,\"]+),")),
    ("tools/mpicc", re.compile(r"\(Kombazily\) ([^\"]+)\"")),
    ("README.md", re.compile(r"[Vv]ersion (\d[\d.]*\d)")),
    ("docs/INSTALL.md", re.compile(r"kombazily[-_](\d[\d.]*\d)")),
    ("docs/man/*.1", re.compile(r"^\.TH \S+ 1 \"[^\"]*\" \"Kombazily ([^\"]+)\"", re.M)),
]
HEADING = re.compile(r"^## (\d+\.\d+\.\d+) \((\d{4}-\d\d-\d\d)\)$", re.M)
DATE = re.compile(r"^\.TH \S+ 1 \"([^\"]*)\"", re.M)


def date():
    """The date of this version, as CHANGELOG.md tells it; None where it has no heading of its own."""
    return dict(HEADING.findall((TOP / "CHANGELOG.md").read_text())).get(version())


def faults():
    """What tells another version or another date, a line each."""
    found = []
    for pattern, told in TOLD:
        files = sorted(it for it in TOP.glob(pattern))
        texts = [(it, told.findall(it.read_text())) for it in files]
        if not any(all_told for _, all_told in texts):
            found.append("%s: no version is told" % pattern)
        found += ["%s: it tells %s" % (it.relative_to(TOP), other) for it, all_told in texts for other in all_told if other != version()]
    if date() is None:
        found.append("CHANGELOG.md: there is no heading '## %s (YEAR-MONTH-DAY)'" % version())
    for page in sorted(TOP.glob("docs/man/*.1")):
        if DATE.findall(page.read_text()) != [date()]:
            found.append("%s: its date isn't that of CHANGELOG.md, %s" % (page.relative_to(TOP), date()))
    return found
