"""A page as it is read: its fences, and what is wrong with its lines, cells and links."""

import re
from dataclasses import dataclass
from functools import lru_cache
from pathlib import Path

MOST_IN_LINE, MOST_IN_CELL, MOST_LINES_OF_README = 120, 200, 120
RUN = ("script", "events", "answers", "sh", "shell", "file", "output", "errors")
EXCERPTS = ("rattle", "antt")
KINDS = (*RUN, *EXCERPTS, "crates", "text")
# A path of the repository; those with a wildcard or a word in capitals for a name aren't seen as one.
PATH = re.compile(r"`((?:docs|tools|examples|crates)/[a-z0-9_./-]+(?:[A-Z_]{2,}\.md)?|docs/[A-Z_]+\.md)`")
LINK = re.compile(r"\[[^\]]*\]\(([^)\s]+)\)")


@dataclass
class Fence:
    """A block of a page: its kind, the words behind that, its lines, and where it begins."""

    kind: str
    words: list
    lines: list
    number: int


class Page:
    """A page, split into fences and the lines between them."""

    def __init__(self, path, top):
        self.path, self.top = path, top
        self.name = str(path.relative_to(top)) if path.is_relative_to(top) else str(path)
        self.lines = path.read_text(encoding="utf-8").split("\n")
        self.fences, self.prose, self.faults = [], [], []
        self.split()

    def fault(self, number, text):
        self.faults.append("%s:%d: %s" % (self.name, number, text))

    def split(self):
        fence, margin = None, ""
        for number, line in enumerate(self.lines, 1):
            mark = re.fullmatch(r"( *)```(.*)", line)
            if mark and fence is None:
                kind, *words = mark[2].split() or [""]
                fence, margin = Fence(kind, words, [], number), mark[1]
                self.fences.append(fence)
            elif mark and not mark[2].strip():
                fence = None
            elif fence is not None:
                fence.lines.append(line.removeprefix(margin))
            else:
                self.prose.append((number, line))
        if fence is not None:
            self.fault(fence.number, "the fence has no end")

    def check_layout(self, are_run):
        """Notes faults of the page's form; are_run: whether its fences are to be run."""
        is_readme = self.name == "README.md"
        if is_readme and len(self.lines) - 1 > MOST_LINES_OF_README:
            self.fault(len(self.lines), "more than %d lines" % MOST_LINES_OF_README)
        rows = {number for number, line in self.prose if line.lstrip().startswith("|")}
        for number, line in enumerate(self.lines, 1):
            if len(line) > MOST_IN_LINE and (is_readme or number not in rows):
                self.fault(number, "%d characters, more than %d" % (len(line), MOST_IN_LINE))
        for number, line in self.prose:
            for cell in re.split(r"(?<!\\)\|", line) if number in rows else []:
                if len(cell.strip()) > MOST_IN_CELL:
                    self.fault(number, "a cell of %d characters, more than %d" % (len(cell.strip()), MOST_IN_CELL))
            if are_run and re.match(r" {4,}\$ ", line):
                self.fault(number, "a command that nothing runs: write a fence of kind shell")
        for fence in self.fences if are_run else []:
            if fence.kind not in KINDS:
                self.fault(fence.number, "a fence of kind '%s'; there are %s" % (fence.kind, ", ".join(KINDS)))

    def check_links(self):
        """Notes links that lead nowhere, and paths of the repository that aren't there."""
        for number, line in self.prose:
            for target in LINK.findall(line):
                if not re.match(r"[a-z]+:", target):
                    self.check_link(number, target)
            for path in PATH.findall(line):
                if "/out" not in path and not (self.top / path).exists():
                    self.fault(number, "there is no %s" % path)

    def check_link(self, number, target):
        path, _, anchor = target.partition("#")
        page = (self.path.parent / path).resolve() if path else self.path
        if not page.exists():
            self.fault(number, "there is no %s" % path)
        elif anchor and anchor not in anchors(page):
            self.fault(number, "%s has no heading #%s" % (page.name, anchor))


@lru_cache(maxsize=None)
def anchors(page):
    """The names of a page's headings, as GitHub makes them."""
    found, in_fence = [], False
    for line in page.read_text(encoding="utf-8").split("\n"):
        in_fence ^= line.lstrip().startswith("```")
        heading = re.fullmatch(r"#+ (.*?)\s*#*", line)
        if heading and not in_fence:
            name = re.sub(r"[^\w\- ]", "", heading[1].lower()).replace(" ", "-")
            times = sum(it == name or re.fullmatch(re.escape(name) + r"-\d+", it) is not None for it in found)
            found.append("%s-%d" % (name, times) if times else name)
    return set(found)


def pages_of(top):
    """The pages whose fences are run, and those that are only read."""
    run = [top / it for it in ("README.md", "CONTRIBUTING.md", "CHANGELOG.md", "examples/README.md") if (top / it).exists()]
    run += sorted((top / "docs").glob("*.md"))
    return run, sorted(Path(top / "docs" / "internal").glob("*.md"))
