"""Layouts: which places of a buffer data take (MPI 3.1, 4.1.2)."""

from dataclasses import dataclass

MOST_ENTRIES = 2**20
HIGHEST_PLACE = 2**31 - 1


@dataclass
class Layout:
    """Offsets in elements of one basic type, in order (MPI 3.1, 4.1.2)."""

    type: str
    offsets: list

    def extent(self):
        return max(self.offsets) + 1 - min(self.offsets) if self.offsets else 0

    def count(self, copies):
        return copies * len(self.offsets)

    def room(self, copies):
        """How many elements a buffer needs to have all places."""
        return (copies - 1) * self.extent() + max(self.offsets) + 1 if copies and self.offsets else 0

    def places(self, copies):
        return [copy * self.extent() + offset for copy in range(copies if self.offsets else 0) for offset in self.offsets]

    def repeats(self):
        return len(set(self.offsets)) < len(self.offsets)


def blocks_of(event, extent):
    """Where the copies of the old layout begin, by the constructor; or None where there are too many to be told."""
    if event.form == "contiguous":
        blocks = [(event.numbers[0], 0)]
    elif event.form == "vector":
        count, length, stride = event.numbers
        if count * length > MOST_ENTRIES:
            return None
        blocks = [(length, place * stride) for place in range(count if length else 0)]
    else:
        blocks = event.blocks
    if sum(length for length, _ in blocks) > MOST_ENTRIES:
        return None
    return [(displacement + copy) * extent for length, displacement in blocks for copy in range(length)]


def layout_made(event, old):
    """The layout that a line makes of an old one; None where it is above a limit."""
    starts = blocks_of(event, old.extent()) if old.offsets else []
    if starts is None or len(starts) * len(old.offsets) > MOST_ENTRIES:
        return None
    made = Layout(old.type, [start + offset for start in starts for offset in old.offsets])
    if made.offsets and (max(made.offsets) > HIGHEST_PLACE or made.extent() > HIGHEST_PLACE):
        return None
    return made
