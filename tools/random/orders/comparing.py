"""What `mpiexplore` tells of a script beside what comes of it by brute force."""

import collections


def shown(ends):
    """What each rank printed, in whatever order, and how it ended."""
    return tuple((tuple(sorted(line for text in end.printed for line in text.split("\n"))), end.ending) for end in ends)


def finding(outcome):
    """What goes wrong in an outcome: the errors that each rank printed, and how it ended."""
    return tuple((tuple(line for line in printed if line.startswith("error ")), ending) for printed, ending in outcome)


def told_apart(ends):
    """By what two outcomes are two results: what each rank printed in order, how it ended, how its calls were answered, and whose messages
    it took."""
    return tuple((end.printed, end.ending, end.answers, end.taken, end.failed) for end in ends)


def details(ends):
    """What is told of an outcome beside what was printed."""
    return frozenset(collections.Counter(it for end in ends for it in end.details).items())


def once(counted):
    return collections.Counter(set(counted))


class Came:
    """What comes of a script in all orders, or in some: of each result that reads alike how many there are, and with what they are told."""

    def __init__(self, ends, is_all=True):
        self.is_all = is_all
        ends_of = {told_apart(it): it for it in ends}
        self.results = collections.Counter(shown(it) for it in ends_of.values())
        self.findings = once(finding(it) for it in self.results)
        self.with_details = {(shown(it), details(it)) for it in ends}


class Comparison:
    """The outcomes that were missed, and those that were told and come in no order, each with how often; `odd` are results that come, but
    not with what is told beside. Where not every choice was tried, what may be missed is an error or an end that isn't told at all."""

    def __init__(self, came, told):
        results = collections.Counter()
        for it in told.results:
            results[it.shown] += it.count
        wanted = came.results
        if not (told.is_whole and told.is_counted):
            wanted, results = once(wanted), once(results)
        self.missed = wanted - results
        if not told.is_whole:
            self.missed = came.findings - once(finding(it) for it in results) if told.has_findings else collections.Counter()
        self.strange, self.odd = collections.Counter(), []
        if came.is_all:
            self.strange = results - wanted
            self.odd = [it for it in told.results if it.shown in came.results and (it.shown, it.details) not in came.with_details]

    def count_strange(self):
        return self.strange.total() + len(self.odd)

    def is_right(self):
        return not self.missed and not self.count_strange()
