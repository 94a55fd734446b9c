"""Each line of a file of events with what `mpisim` answers to it.

`mpisim` prints answers alone, and some lines have none. So each beginning of the file is run: what it prints more than the one before
belongs to its last line.
"""

import subprocess
import tempfile
from pathlib import Path


def is_statement(line):
    return bool(line.strip()) and not line.lstrip().startswith("#")


def printed(program, file):
    """The lines that a run prints, or None where a line is faulty."""
    ended = subprocess.run([program, file], stdin=subprocess.DEVNULL, stdout=subprocess.PIPE, stderr=subprocess.DEVNULL)
    return None if ended.returncode else ended.stdout.decode("latin-1").split("\n")[:-1]


def answered(program, lines):
    """Yields each line with its answers, a list, up to a line that is faulty; lines without a statement have none."""
    with tempfile.TemporaryDirectory() as room:
        beginning, before = Path(room) / "beginning.txt", 0
        for end, line in enumerate(lines, 1):
            if not is_statement(line):
                yield line, []
                continue
            beginning.write_text("".join(it + "\n" for it in lines[:end]), encoding="latin-1")
            output = printed(program, beginning)
            if output is None:
                return
            yield line, output[before:]
            before = len(output)


def rows(program, lines):
    """The same as text: an answer stands behind its line, and further ones below, each behind an arrow."""
    found = list(answered(program, lines[:-1] if lines[-1:] == [""] else lines))
    width = max((len(line) for line, answers in found if answers), default=0)
    for line, answers in found:
        yield "%-*s  => %s" % (width, line, answers[0]) if answers else line
        yield from ("%*s  => %s" % (width, "", it) for it in answers[1:])
