"""The house setting of an order in each wiring, from document 01's 'The network' and 'The house setting' and document 02's F-6 alone:
ring after ring is walked, where the library goes through its six steps.
"""
import itertools


class Paper:
    """Pair i of k is the places i and k + i, and two associates are values that lie so. Side 0 feeds the top when straight."""

    @staticmethod
    def place(k, pair, side):
        return pair + k * side

    @staticmethod
    def pair_and_side(k, place):
        return place % k, place // k


class Neighbour:
    """Pair i is the places 2i and 2i + 1."""

    @staticmethod
    def place(_k, pair, side):
        return 2 * pair + side

    @staticmethod
    def pair_and_side(_k, place):
        return divmod(place, 2)


def setting(order, wiring=Paper):
    """The bits in their sequence: input switches, top, bottom, output switches. Entry i of the order is where the block at i goes."""
    m = len(order)
    if m < 2:
        return []
    k = (m + 1) // 2
    held = list(order) + [m] * (m % 2)  # for odd m the imagined place m holds the value m
    bits = input_bits(held, k, wiring)
    top = [wiring.pair_and_side(k, held[wiring.place(k, i, bits[i])]) for i in range(k)]
    bottom = [wiring.pair_and_side(k, held[wiring.place(k, i, 1 - bits[i])]) for i in range(m - k)]
    above = {pair for pair, side in top if side}  # where the top ends with the larger of two associates, the output switch exchanges
    outputs = [int(i in above) for i in range(m - k)]
    halves = [setting([pair for pair, _ in half], wiring) for half in (top, bottom)]
    return bits[:k - 1] + halves[0] + halves[1] + outputs


def input_bits(held, k, wiring):
    """The bit of each pair. The last pair comes first, then each ring's lowest, and both have bit 0."""
    def other(x):
        pair, side = wiring.pair_and_side(k, x)
        return wiring.place(k, pair, 1 - side)

    where = {v: place for place, v in enumerate(held)}
    bits = [None] * k
    for first in [k - 1, *range(k - 1)]:
        if bits[first] is not None:
            continue
        bits[first], to_top = 0, wiring.place(k, first, 0)
        while True:
            down = where[other(held[to_top])]  # the associate's place: it must enter the bottom
            pair, side = wiring.pair_and_side(k, down)
            if bits[pair] is not None:
                assert bits[pair] == 1 - side
                break
            bits[pair], to_top = 1 - side, other(down)
    return bits


def entries(m):
    """The setter's log entries."""
    if m < 3:
        return [0, 0, 2][m]
    k = (m + 1) // 2
    return 3 * k + 3 + entries(k) + entries(m - k)


def listing(n):
    """A line for each order of n places, in dictionary order (which is that of itertools): its entries, its setting or -."""
    lines = [(','.join(map(str, order)), ''.join(map(str, setting(order)))) for order in itertools.permutations(range(n))]
    return ''.join(f'{order} {bits or "-"}\n' for order, bits in lines)
