"""Every order of all that may happen at the ranks of a script, by brute force: each state is kept, and no rule leaves any out."""

from automata import GO, Automata


class TooMany(Exception):
    """There are more states than were allowed."""


class Whole:
    """All ranks of a script. A state is the state of each rank, and the frames that are on their way between each two, in order."""

    def __init__(self, text, size):
        self.size, self.automata = size, Automata(text, size)
        self.opening = self.automata.opening, ((),) * (size * size)

    def moves(self, state):
        """What may happen next: the rank, and from whom its next frame comes, or `GO`."""
        locals_, ways = state
        calls = [(rank, GO) for rank, local in enumerate(locals_) if self.automata.may_go[local]]
        return calls + [(place % self.size, place // self.size) for place, way in enumerate(ways) if way]

    def behind(self, state, move):
        """The state behind a move: the frames that leave the rank are put on their ways."""
        (locals_, ways), (rank, source), size = state, move, self.size
        ways = list(ways)
        if source == GO:
            local, out = self.automata.step(locals_[rank], GO)
        else:
            frame, *left = ways[source * size + rank]
            ways[source * size + rank] = tuple(left)
            local, out = self.automata.step(locals_[rank], source, frame)
        for target, frame in out:
            ways[rank * size + target] = (*ways[rank * size + target], frame)
        return (*locals_[:rank], local, *locals_[rank + 1:]), tuple(ways)

    def ends(self, state):
        """How each rank stands where nothing may happen any more."""
        return tuple(self.automata.end(local) for local in state[0])


class AllOrders:
    """Each outcome of a script, as its `ends`; and how many states there are."""

    def __init__(self, text, size, most):
        whole = Whole(text, size)
        self.ends, seen, stack = set(), {whole.opening}, [whole.opening]
        while stack:
            state = stack.pop()
            moves = whole.moves(state)
            if not moves:
                self.ends.add(whole.ends(state))
            for move in moves:
                behind = whole.behind(state, move)
                if behind not in seen:
                    seen.add(behind)
                    stack.append(behind)
            if len(seen) > most:
                raise TooMany
        self.states = len(seen)


class SomeOrders:
    """The outcomes to which so many random orders of a script come, as their `ends`."""

    def __init__(self, text, size, source, count):
        whole = Whole(text, size)
        self.ends, self.states = set(), 0
        for _ in range(count):
            state = whole.opening
            while moves := whole.moves(state):
                state = whole.behind(state, source.choice(moves))
                self.states += 1
            self.ends.add(whole.ends(state))
