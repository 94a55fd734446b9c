"""Files in which five ranks reduce maps that don't commute, in each order in which they can enter and to each root, while the network
brings what is on its way in a drawn order. All of them have to give the same: the maps in rank order."""

import itertools
import random

import making

MAPS = [(2, 1), (3, 5), (4, 7), (5, 2), (7, 3)]  # x -> a * x + b, by a and b
WHOLE = (840, 1382)  # of the five, the map of rank 0 first: worked out by hand


def number(affine):
    """A map as an element of `uint64`."""
    return affine[0] << 32 | affine[1]


def reductions_to(root):
    """The file of all orders for one root."""
    maker = making.Maker(random.Random(f"reductions to {root}"), "trees", len(MAPS))
    for rank, affine in enumerate(MAPS):
        maker.add(f"{rank} buf a uint64 {number(affine)}")
    for order in itertools.permutations(range(len(MAPS))):
        for rank in order:
            maker.add(f"{rank} reduce world {root} affine a b")
            for _ in range(maker.random.choice([0, 0, 2, 4])):
                maker.deliver_of_any_pair()
        while maker.new:
            maker.deliver_of_any_pair()
    return maker.text()


def rows():
    """The files, one for each root."""
    return [reductions_to(root) for root in range(len(MAPS))]


def wrong_roots(answer):
    """The roots whose file doesn't give each reduction what it has to give, where `answer` says what is printed."""
    orders = len(list(itertools.permutations(MAPS)))
    wrong = []
    for root, text in enumerate(rows()):
        printed = answer(text).decode().splitlines()
        data = [line.removeprefix(f"{root} ") for line in printed if "data" in line]
        if data != [f"data {number(WHOLE)}"] * orders:
            wrong.append(root)
    return wrong
