"""Pages as a release has them: with its own commands, and without what a clone of the repository alone has.

What stands on a page between the lines '<!-- clone -->' and '<!-- end -->' is left out, and so are rows of tables and lines of fences
that begin with a command of tools/ other than the compilers. What stands between '<!-- release' and '-->' is there alone. The first
page has paragraphs of its own there.
"""

import os
import re

CLONE = re.compile(r"^<!-- clone -->\n.*?^<!-- end -->\n", re.M | re.S)
RELEASE = re.compile(r"^<!-- release\n(.*?)^-->\n", re.M | re.S)
COMPILERS = re.compile(r"\btools/(mpi(?:cc|cxx|c\+\+|CC|fort|f77|f90))(?![\w/])")
# Pages on the repository itself, whose commands stay.
OF_REPOSITORY = {"docs/%s.md" % it for it in ("ARCHITECTURE", "DECISIONS", "LIBRARY", "PERFORMANCE", "PROGRAMS", "PROOF", "PROOF_STATUS")}
# Man pages by another name in a release.
MANUALS = {"mpiexec": "kombazily-mpiexec"}
# A row of a table or a line of a fence with a command that a release hasn't.
LACKING = re.compile(r"^(?:\| `)?(?:tools/(?!mpi[^/]*\s)|\./run build\b|\./run --proved\b).*\n", re.M)
# The launcher that joins lines, whose name is mpirun's in a release.
JOINING = re.compile(r"((?:^|\$ |`))mpiexec (?=-)")
# What a command is called in a clone.
IN_CLONE = re.compile(r", in a clone `\./run [a-z]+`,")
LINK = re.compile(r"\[([^][]*)\]\(([^()#: ]+)(#[^()]*)?\)")

# What stands on the first page behind a heading, in place of the paragraph there.
FIRST = {
    "Install": """This is a release: put its `bin` on PATH ([INSTALL](docs/INSTALL.md)). Its file `BUILT` says what was proved before it
was compiled. `crates/`, `bindings/` and `tools/` on these pages are folders of the repository, which it hasn't.
""",
    "Commands": "They need Python 3.9, and for C programs a C compiler.\n",
}


def command(line):
    """A line with the commands of a release in place of those of a clone; what stands behind blanks stays in its column."""
    front, gap, behind = re.fullmatch(r"(\S.*?(?= {2})|)( *)(.*)", line).groups()
    new = called(front)
    return new + " " * max(2 if gap else 0, len(gap) + len(front) - len(new)) + called(behind) if front else called(line)


def called(text):
    """A text with the commands of a release."""
    return COMPILERS.sub(r"\1", re.sub(r"\./run\b", "kombazily", JOINING.sub(r"\1kombazily-mpiexec ", text)))


def commands(text):
    """The same of each line of a text."""
    return "\n".join(map(command, text.split("\n")))


def of_release(text, name, files):
    """A page of this name as a release has it, which has these files; names are those from the top of the repository."""
    if name not in OF_REPOSITORY:
        text = IN_CLONE.sub("", RELEASE.sub(r"\1", CLONE.sub("", text)))
        for heading, paragraph in FIRST.items() if name == "README.md" else ():
            text = re.sub(r"(?m)(^## %s\n\n)(?:.+\n)+" % heading, lambda it: it[1] + paragraph, text)
        text = re.sub(r"\n{3,}", "\n\n", commands(LACKING.sub("", text)))
        text = re.sub(r"(?:man -l )?docs/man/([\w-]+)\.1", lambda it: "man " + MANUALS.get(it[1], it[1]), text)

    def linked(found):
        to = os.path.normpath(os.path.join(os.path.dirname(name), found[2]))
        return found[0] if any(it == to or it.startswith(to + "/") for it in files) else found[1]

    return LINK.sub(linked, text)
