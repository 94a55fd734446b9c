"""Plays of scripts by random schedules, with the built program play_schedules."""

import re
import subprocess
import tempfile

CHUNKS = 14
RANDOM_CHUNKS = 6
LIMITS = {"13", "14"}


class Schedule:
    """The moves so far, and which of the datagrams that were emitted by then were delivered."""

    def __init__(self, source, size):
        self.source, self.size = source, size
        self.moves = []
        self.emitted, self.delivered = 0, set()

    def go(self, ranks, times):
        turns = [rank for rank in ranks for _ in range(self.source.randint(1, times))]
        self.source.shuffle(turns)
        self.moves += [f"g{rank}" for rank in turns]

    def deliver(self, numbers):
        self.moves += [f"d{number}" for number in numbers]
        self.delivered.update(numbers)

    def new(self):
        return [number for number in range(self.emitted) if number not in self.delivered]

    def fair(self):
        """All ranks go on, and each datagram that wasn't delivered is."""
        self.go(range(self.size), 4)
        numbers = self.new()
        self.source.shuffle(numbers)
        self.deliver(numbers)
        self.go(range(self.size), 2)

    def unfair(self):
        """Some ranks go on, clocks go on, and datagrams come late, twice or not yet, in any order."""
        kind = self.source.randrange(4)
        if kind == 0:
            self.go(self.source.sample(range(self.size), self.source.randint(1, self.size)), 8)
        elif kind == 1:
            self.moves.append(f"t{self.source.randrange(self.size)}")
        numbers = [number for number in self.new() if self.source.random() < 0.6]
        numbers += self.source.choices(range(self.emitted), k=self.source.randint(0, 4)) if self.emitted else []
        self.source.shuffle(numbers)
        self.deliver(numbers)
        self.go(range(self.size), 2)

    def extend(self, chunk):
        if chunk < RANDOM_CHUNKS and self.source.random() < 0.8:
            self.unfair()
        else:
            self.fair()


def read(output, size):
    """Of each play how many datagrams were emitted, each rank's lines, the numbers of refused calls, and who has ended. What a rank
    prints at once may be several lines."""
    plays, rank = [], 0
    for line in output.splitlines():
        start, shown = re.fullmatch(r"play (\d+)", line), re.fullmatch(r"\[(\d+)\] ?(.*)", line)
        refused, ended = re.fullmatch(r"\d+ refused (\d+)", line), re.fullmatch(r"(\d+) ended", line)
        if start:
            plays.append((int(start[1]), [[] for _ in range(size)], set(), set()))
        elif refused:
            plays[-1][2].add(refused[1])
        elif ended:
            plays[-1][3].add(int(ended[1]))
        else:
            rank = int(shown[1]) if shown else rank
            plays[-1][1][rank].append(shown[2] if shown else line)
    return plays


def fits(found, play):
    """Whether each rank printed a beginning of its lines in the one meaning, and all of them if its script has ended."""
    _, lines, refused, ended = play
    if refused & LIMITS:
        return True
    for rank, (printed, _) in enumerate(found):
        wanted = [line for text in printed for line in text.split("\n")]
        if lines[rank] != wanted[: len(lines[rank])] or (rank in ended and lines[rank] != wanted):
            return False
    return True


def plays_differ(program, text, size, found, source, count):
    """Plays a script by so many random schedules: whether one differs from the one meaning, and how many plays have ended whole."""
    schedules = [Schedule(source, size) for _ in range(count)]
    with tempfile.NamedTemporaryFile("w", suffix=".txt") as script, tempfile.NamedTemporaryFile("w", suffix=".txt") as file:
        script.write(text)
        script.flush()
        plays = []
        for chunk in range(CHUNKS):
            for schedule in schedules:
                schedule.extend(chunk)
            file.seek(0)
            file.truncate()
            file.write("".join(" ".join(it.moves) + "\n" for it in schedules))
            file.flush()
            done = subprocess.run([program, script.name, str(size), file.name], capture_output=True, text=True, timeout=600)
            plays = read(done.stdout, size)
            if done.returncode != 0 or len(plays) != count or not all(fits(found, it) for it in plays):
                return True, 0
            for schedule, play in zip(schedules, plays):
                schedule.emitted = play[0]
            if all(len(it[3]) == size for it in plays):
                break
    return False, sum(len(it[3]) == size for it in plays)
