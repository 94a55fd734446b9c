"""The checks of pages and examples: which runs these show, and with what each run is compared."""

import os
import re
import tempfile
from concurrent.futures import ThreadPoolExecutor
from pathlib import Path

import answered
from page_checks import reading, running

# What may stand behind a run, before the next one.
SHOWN = ("output", "errors", "answers", "text")
# So many faults of a page's form are told.
MOST_TOLD = 20


def run_before(fences, place):
    """The fence of the run that what stands at this place belongs to."""
    return next((it for it in reversed(fences[:place]) if it.kind not in SHOWN), None)


def shown_behind(fences, place, kind):
    """The fence of this kind that belongs to the run at this place."""
    for it in fences[place + 1 :]:
        if it.kind not in SHOWN:
            break
        if it.kind == kind:
            return it
    return None


def shown_of(fences, place):
    """What is shown of the run at this place: its output, its standard error (None where it isn't shown) and its status."""
    output, errors = (shown_behind(fences, place, it) for it in ("output", "errors"))
    told = [int(it.words[1]) for it in (output, errors) if it and it.words[:1] == ["status"]]
    return output.lines if output else [], errors.lines if errors else None, told[0] if told else 0


class Checks:
    """The checks of some pages and examples of a repository, and what they found."""

    def __init__(self, top, runner, room):
        self.top, self.runner, self.room = top, runner, room
        # Most runs wait for their ranks.
        self.pool = ThreadPoolExecutor(2 * (os.cpu_count() or 1))
        self.waiting, self.faults = [], []

    def add(self, place, check, *given):
        """Lets a check run beside the others; the place is told in front of what it finds."""
        self.waiting.append((place, self.pool.submit(check, *given)))

    def finish(self):
        """Waits for all checks; returns how many there were."""
        for place, it in self.waiting:
            self.faults += ["%s: %s" % (place, fault) for fault in it.result()]
        self.pool.shutdown()
        return len(self.waiting)

    def page(self, page):
        """Checks all that a page shows."""
        folder, kept = Path(tempfile.mkdtemp(prefix=page.path.stem + "-", dir=self.room)), {}
        for fence in page.fences:
            if fence.kind in ("script", "events", "file"):
                self.keep(page, fence, folder, kept)
        for place, fence in enumerate(page.fences):
            self.fence(page, fence, place, folder)
        if any(it.kind in ("shell", "sh") for it in page.fences):
            self.add(page.name, self.commands, page, folder)

    def excerpts(self, page):
        """Checks the excerpts alone that a page shows."""
        for fence in page.fences:
            if fence.kind in reading.EXCERPTS:
                self.add("%s:%d" % (page.name, fence.number), self.excerpt, fence)

    @staticmethod
    def keep(page, fence, folder, kept):
        """Writes a file of the page into its folder."""
        name = fence.words[0] if fence.words else ""
        if not re.fullmatch(r"[\w.-]+", name):
            page.fault(fence.number, "behind '%s' the name of a file is missing" % fence.kind)
            return
        if kept.setdefault(name, fence.lines) != fence.lines:
            page.fault(fence.number, "another file of this page has the name %s" % name)
        (folder / name).write_text("".join(it + "\n" for it in fence.lines))
        if fence.kind == "file" and fence.lines[:1] and fence.lines[0].startswith("#!"):
            (folder / name).chmod(0o755)

    def fence(self, page, fence, place, folder):
        """Adds the check of one fence."""
        where, words, shown = "%s:%d" % (page.name, fence.number), fence.words, shown_of(page.fences, place)
        before = run_before(page.fences, place)
        if fence.kind == "script" and (len(words) < 2 or not words[1].isdigit() or len(words) % 2):
            page.fault(fence.number, "a script has a name, a number of ranks, and options with their values")
        elif fence.kind == "script":
            self.add(where, self.script, words[0], words[1], words[2:], folder, shown)
        elif fence.kind == "events" and words and not shown_behind(page.fences, place, "answers"):
            self.add(where, self.events, words[0], folder, shown)
        elif fence.kind == "answers":
            self.add(where, self.answers, fence, before)
        elif fence.kind in reading.EXCERPTS:
            self.add(where, self.excerpt, fence)
        elif fence.kind == "crates":
            self.add(where, self.crates, fence)
        elif fence.kind in ("output", "errors") and (before is None or before.kind not in ("script", "events", "sh")):
            page.fault(fence.number, "no run stands before this")

    def script(self, file, size, options, folder, shown):
        """Runs a script on so many ranks."""
        return running.faults_of_run(self.runner.ranks(size, options, file, folder), *shown)

    def events(self, file, folder, shown):
        """Runs a file of events."""
        return running.faults_of_run(self.runner.events(file, folder), *shown)

    def answers(self, fence, before):
        """Compares what each beginning of a file of events prints with the answers that are shown."""
        rows, file = rows_of(fence.lines), None
        if fence.words:
            path = self.top / "examples" / "events" / fence.words[0]
            if not path.exists():
                return ["there is no %s" % path]
            file = path.read_text().splitlines()
        elif before is not None and before.kind == "events":
            file = before.lines
        told = [left for left, _ in rows]
        if file is not None and told != statements(file):
            return ["the lines aren't those of the file\n" + running.difference(told, "\n".join(statements(file)))]
        given = list(answered.answered(self.runner.programs["mpisim"], told))
        if len(given) < len(told):
            return ["the line '%s' is faulty" % told[len(given)]]
        texts = [(left, shown, "".join(it + "\n" for it in answers)) for (left, shown), (_, answers) in zip(rows, given)]
        return ["%s\n%s" % (left, running.difference(shown, text)) for left, shown, text in texts if not running.is_text(shown, text)]

    def commands(self, page, folder):
        """Runs the commands of a page one after the other."""
        found, shell = [], self.runner.shell(folder)
        for place, fence in enumerate(page.fences):
            if fence.kind == "shell":
                faults = shell.prompted(fence.lines)
            elif fence.kind == "sh":
                faults = running.faults_of_run(shell.pasted(fence.lines), *shown_of(page.fences, place))
            else:
                continue
            found += ["the commands of line %d: %s" % (fence.number, it) for it in faults]
        return found

    def excerpt(self, fence):
        """Looks whether an excerpt stands in its file as it is."""
        path = self.top / fence.words[0] if fence.words else None
        if path is None or not path.is_file():
            return ["an excerpt of a file that isn't there"]
        lines, at = path.read_text().splitlines(), 0
        for part in "\n".join(fence.lines).split("\n..\n"):
            wanted = part.split("\n")
            at = place_of(wanted, lines, at)
            if at is None:
                return ["these lines don't stand so in %s: %s .." % (fence.words[0], wanted[0].strip())]
        return []

    def crates(self, fence):
        """Looks whether a list of crates names each one of crates.txt, and each once."""
        shown = [it.split()[0] for it in fence.lines if re.match(r"  \S", it)]
        listed = [it.split()[0].rstrip(":") for it in (self.top / "crates.txt").read_text().split("\n") if it and not it.startswith("#")]
        found = ["it lacks %s" % it for it in sorted(set(listed) - set(shown))]
        found += ["crates.txt has no %s" % it for it in sorted(set(shown) - set(listed))]
        return found + ["it names %s twice" % it for it in sorted(set(shown)) if shown.count(it) > 1]

    def example(self, file, kind):
        """Checks an example by the files beside it."""
        name, text, beside = str(file.relative_to(self.top)), file.read_text(), [file.with_suffix(it) for it in (".out", ".err")]
        if not beside[0].exists():
            self.faults.append("%s: there is no %s beside it" % (name, beside[0].name))
            return
        head = re.match(r"(?:[ \t]*#.*\n|[ \t]*\n)*", text)[0]
        status = re.search(r"\bstatus (\d+)", head)
        output, errors = (it.read_text().splitlines() if it.exists() else None for it in beside)
        shown = (output, errors, int(status[1]) if status else 0)
        if kind == "events":
            self.add(name, self.events, file, self.top, shown)
            return
        words = re.search(r"\./run (.*?)%s" % re.escape(name), head)
        options = words[1].split() if words else []
        pairs = dict(zip(options[::2], options[1::2]))
        size = pairs.pop("-n", None) or str(ranks_named(text))
        self.add(name, self.script, file, size, [it for pair in pairs.items() for it in pair], self.top, shown)

    def examples(self):
        """Checks all examples, and that their page has each."""
        listed = (self.top / "examples" / "README.md").read_text()
        for kind in ("scripts", "events"):
            folder = self.top / "examples" / kind
            for file in sorted(folder.glob("*.txt")):
                self.example(file, kind)
                if "(%s/%s)" % (kind, file.name) not in listed:
                    self.faults.append("examples/README.md: it lacks %s/%s" % (kind, file.name))
            alone = [it for it in folder.iterdir() if not it.with_suffix(".txt").exists()]
            self.faults += ["%s: there is no example beside it" % it.relative_to(self.top) for it in sorted(alone)]


def place_of(wanted, lines, at):
    """The place behind these lines in a file, from a place on; all of them may stand further right there by the same margin."""
    for start in range(at, len(lines) - len(wanted) + 1):
        margin = re.match(" *", lines[start])[0]
        if all(line == margin + it or line == it == "" for line, it in zip(lines[start:], wanted)):
            return start + len(wanted)
    return None


def ranks_named(script):
    """How many ranks a script names."""
    numbers = [int(it) for line in re.findall(r"(?m)^ *on (.*)$", script) for it in re.findall(r"(?<![\d.])\d+", line)]
    return max(numbers, default=0) + 1


def statements(lines):
    """The lines of a file that are no comments, with one space between two words."""
    split = (" ".join(it.split()) for it in lines)
    return [it for it in split if it and not it.startswith("#")]


def rows_of(lines):
    """Each line of a file of events with its answers, as `answers` shows them."""
    rows = []
    for line in lines:
        left, arrow, right = re.split(r"\s{2,}# |^# ", line)[0].partition("=>")
        left = " ".join(left.split())
        if left:
            rows.append((left, []))
        if arrow and rows:
            rows[-1][1].append(right.strip())
    return rows


def check(top, paths, programs):
    """Checks these pages, or, without any, all pages and examples; returns how many checks there were, and what they found."""
    run, read = reading.pages_of(top)
    if paths:
        run, read = [Path(it).resolve() for it in paths], []
    pages = [(reading.Page(it, top), it in run) for it in [*run, *read]]
    with tempfile.TemporaryDirectory(prefix="check-pages-") as room:
        checks = Checks(top, running.Runner(programs, top), room)
        for page, are_run in pages:
            page.check_layout(are_run)
            page.check_links()
            if are_run:
                checks.page(page)
            else:
                checks.excerpts(page)
        if not paths:
            checks.examples()
        done = checks.finish()
    return done, [fault for page, _ in pages for fault in beginning(page)] + checks.faults


def beginning(page):
    """A page's faults of form: the first ones, and how many more there are."""
    more = len(page.faults) - MOST_TOLD
    return page.faults if more <= 1 else [*page.faults[:MOST_TOLD], "%s: %d more of this kind" % (page.name, more)]
