"""Random valid scripts for `bench`: python3 tests/scripts.py SEED

Prints one script, the same for the same seed. It was written from the rules
of the script alone, and not from the code that reads it.
"""

import random
import sys
from itertools import permutations
from math import perm

TOP = 2**64 - 1
LIMIT = 10**12  # readings from here on are turned away
VALUES = 2**32
LONGEST = 10**9
HEADER = 5  # bytes of a frame before its values
LONGEST_FRAME = 10925  # in bytes, of any cluster


def frame(sender, k, values):
    numbers = [value.to_bytes(4, "little") for value in values]
    return bytes([sender]) + (k % 2**32).to_bytes(4, "little") + b"".join(numbers)


class Maker:
    def __init__(self, seed):
        self.random = random.Random(seed)

    def chance(self, part):
        return self.random.random() < part

    def pick(self, **weights):
        return self.random.choices(list(weights), list(weights.values()))[0]

    def between(self, low, high):
        return self.random.randint(low, high)

    def near(self, number, far=3):
        """Close to a number, often the number itself, from 0 to TOP."""
        if self.chance(0.6):
            number += self.between(-far, far)
        return max(0, min(TOP, number))

    def any_size(self, top):
        """From 0 to below top, small ones as likely as large ones."""
        return self.between(0, min(top, 2 ** self.between(0, top.bit_length())) - 1)

    def signed(self, most):
        """Often at the limit, else inside."""
        kind = self.pick(low=3, high=3, inside=4, zero=1)
        if kind == "inside":
            return self.between(-most, most)
        return {"low": -most, "high": most, "zero": 0}[kind]

    # The head: the cluster, its timing and its nodes.

    def small_limit(self):
        """A drift or a jitter."""
        kind = self.pick(zero=4, small=4, wide=2, most=1)
        if kind == "zero":
            return 0
        if kind == "most":
            return 1000
        return self.between(1, 6 if kind == "small" else 1000)

    def cluster(self):
        self.faults = self.between(0, 3)
        fewest = max(4, 3 * self.faults + 1)
        # Three faults make long frames: few large clusters of them.
        most = 11 if self.faults == 3 and self.chance(0.9) else 16
        self.nodes = fewest if self.chance(0.3) else self.between(fewest, most)
        rounds = 12 if self.faults < 3 or self.nodes < 12 else 5
        self.rounds = 0 if self.chance(0.04) else self.between(1, rounds)
        self.drift = self.small_limit()
        self.jitter = self.small_limit()
        self.error = self.jitter + 2 * self.drift
        return (
            f"cluster nodes {self.nodes} faults {self.faults}"
            f" drift {self.drift} jitter {self.jitter}"
        )

    def more(self):
        """How much is added to a limit of the timing."""
        kind = self.pick(none=5, little=3, much=1)
        if kind == "none":
            return 0
        return self.between(1, 200 if kind == "little" else 10**8)

    def timing(self):
        bound = 4 * self.error + 4 * self.drift + 2
        width = bound + 2 * self.drift
        pause = width + self.error + self.drift + self.more()
        message = self.any_size(2**16)
        wire = self.any_size(2**10)
        least = pause + wire + width + message
        self.length = LONGEST if self.chance(0.1) else least + self.more()
        return f"timing length {self.length} pause {pause} message {message} wire {wire}"

    def bad_count(self):
        kind = self.pick(equal=60, fewer=25, more=10, any=5)
        if kind == "equal":
            return self.faults
        if kind == "fewer":
            return self.between(0, self.faults)
        most = self.faults + 2 if kind == "more" else self.nodes
        return self.between(self.faults + 1, most)

    def ahead(self, kind, base):
        if kind == "close":
            return base + self.between(0, 12)
        if kind == "limits":  # as far apart as the errors may bring them
            return base + self.between(0, 4 * self.error + 4 * self.drift + 2)
        if kind == "small":
            return self.between(0, 8)
        if kind == "wide":
            return self.any_size(10**10)
        if kind == "edge":
            return self.near(LIMIT, 10)
        if kind == "later":  # comes to the edge in some later round
            k = self.between(0, max(1, self.rounds))
            return self.near(LIMIT - k * self.nodes * self.length, 10)
        if kind == "past":
            return self.between(LIMIT, TOP)
        return TOP - self.between(0, 2000)

    def good_and_bad(self):
        order = list(range(self.nodes))
        self.random.shuffle(order)
        self.bad = sorted(order[: self.bad_count()])
        self.good = [p for p in range(self.nodes) if p not in self.bad]
        main = self.pick(close=30, limits=25, small=15, wide=15, edge=5, later=7, past=1, top=2)
        odd = self.pick(wide=4, edge=2, past=1, top=1) if self.chance(0.12) else main
        base = self.any_size(10**11)
        self.aheads = {}
        self.given = {b: self.any_size(VALUES) for b in self.bad}  # in this cycle
        lines = []
        if self.chance(0.7):
            order.sort()
        for p in order:
            if p in self.bad:
                lines.append(f"bad {p}")
                continue
            self.aheads[p] = self.ahead(odd if self.chance(0.2) else main, base)
            self.given[p] = self.any_size(VALUES)
            lines.append(f"good {p} value {self.given[p]} ahead {self.aheads[p]}")
        self.next = dict(self.given)  # to be given in the next cycle
        few = [0, 1, VALUES - 1, self.any_size(VALUES)]
        self.liked = few[: self.between(1, 4)] + list(self.given.values())
        return lines

    # The rounds: the clocks that the bad nodes claim to have.

    def far_off(self):
        if self.tame:
            kind = self.pick(zero=3, below=6)
        else:
            kind = self.pick(zero=3, below=6, edge=2, above=2, top=1)
        if kind == "zero":
            return self.near(0)
        if kind == "below":
            return self.any_size(LIMIT // 2)
        if kind == "edge":  # as it is read in this round
            return self.near(LIMIT - self.common, 2)
        if kind == "above":
            return self.between(LIMIT, TOP)
        return self.near(TOP)

    def believable(self):
        """Somewhere among the good clocks as they were at the start."""
        a, b = self.random.choices(list(self.aheads.values()), k=2)
        return self.near(self.random.choice([a, (a + b) // 2]))

    def lies(self, b):
        """What the bad node b says in a round, as pairs of good node and reading."""
        if not self.good or b in self.silent or self.chance(0.15):
            return []
        low, high = min(self.aheads.values()), max(self.aheads.values())
        kind = self.pick(split=5, far=2, same=2, mixed=4, double=1)
        step = self.random.choice([0, 1, self.error, 1000, 10**6])
        side = self.between(0, self.nodes)
        same = self.random.choice([self.believable(), self.far_off()])
        turned = self.chance(0.5)
        quiet = self.random.choice([0, 0, 0.3])
        said = []
        for p in self.good:
            how = self.pick(split=4, far=1, same=2, double=1) if kind == "mixed" else kind
            if self.chance(quiet):
                continue
            if how == "split":
                early = (p < side) != turned
                said.append((p, self.near(low - step if early else high + step)))
            elif how == "far":
                said.append((p, self.far_off()))
            elif how == "same":
                said.append((p, same))
            else:
                times = self.random.choice([2, 2, 2, 3])
                alike = self.chance(0.3)
                said += [(p, same if alike else self.believable()) for _ in range(times)]
        return said

    # The messages that the bad nodes send: right frames with lies in them.

    def count(self, place):
        """How many values a frame has."""
        return perm(self.nodes - 1, place)

    def truth(self, b):
        """The values of a frame by which each node told what the first one gave."""
        if self.place == 0:
            return [self.given[b]]
        others = [q for q in range(self.nodes) if q != b]
        # From its last node to its first: whose value it is stands in front here.
        return [self.given[row[0]] for row in permutations(others, self.place)]

    def some_value(self):
        return self.random.choice(self.liked) if self.chance(0.8) else self.any_size(VALUES)

    def changed(self, values, rate):
        return [self.some_value() if self.chance(rate) else value for value in values]

    def stories(self, b):
        """For each good node the values that b tells it."""
        truth = self.truth(b)
        rate = self.random.choice([0.05, 0.3, 1])
        one, other = self.changed(truth, rate), self.changed(truth, rate)
        if self.chance(0.3):  # the same lie on all paths
            other = [self.some_value()] * len(truth)
        side = self.between(0, self.nodes)
        kind = self.pick(two_faced=4, same=2, each=3, true=1)
        if kind == "two_faced":
            return {p: one if p < side else other for p in self.good}
        if kind == "same":
            return {p: one for p in self.good}
        if kind == "each":
            return {p: self.changed(truth, rate) for p in self.good}
        return {p: truth for p in self.good}

    # And what is no right frame.

    def wrong_count(self, values):
        """One value or more, but mostly not as many as the round asks."""
        kind = self.pick(fewer=2, more=2, few=3, place=2)
        if kind == "fewer":
            return values[: max(1, len(values) - 1)]
        if kind == "more":
            return values + [self.some_value()]
        if kind == "few":
            return [self.some_value() for _ in range(self.between(1, 5))]
        place = self.between(0, self.faults)
        return [self.some_value() for _ in range(self.count(place))]

    def noise(self, least, most):
        return self.random.randbytes(self.between(least, most))

    def wrong_sender(self, b):
        one_off = [max(0, b - 1), b + 1, b + 16, 255]
        return self.random.choice([self.between(0, self.nodes - 1), self.random.choice(one_off)])

    def wrong_round(self, k):
        cycle = self.faults + 1
        near = [k - 1, k + 1, k - cycle, k + cycle, k + 2**8, k + 2**16, k + 2**24]
        return self.random.choice(near) % 2**32

    def some_bytes(self, b, k, values):
        """Near to a right frame, mostly."""
        whole = frame(b, k, values)
        kind = self.pick(
            right=10, cut=20, longer=10, sender=20, round=20, both=10, short=10, noise=10,
            sized=10, huge=1,
        )
        if kind == "cut":
            at = self.random.choice([self.between(1, len(whole)), 1, 4, 5, len(whole) - 1])
            return whole[:at]
        if kind == "longer":
            return whole + self.noise(1, 5)
        if kind == "sender":
            return frame(self.wrong_sender(b), k, values)
        if kind == "round":
            return frame(b, self.wrong_round(k), values)
        if kind == "both":
            return frame(self.wrong_sender(b), self.wrong_round(k), values)
        if kind == "short":  # wrong in more than one way
            return frame(self.wrong_sender(b), self.wrong_round(k), self.wrong_count(values))
        if kind == "noise":
            return self.noise(1, 20)
        if kind == "sized":  # as long as a right one
            return self.noise(len(whole), len(whole))
        if kind == "huge":
            return whole + self.noise(LONGEST_FRAME, LONGEST_FRAME + 100)
        return whole

    def content(self, b, k, values, wrong):
        """How a `says` line ends."""
        if self.chance(wrong):
            if self.chance(0.6):
                return f"bytes {self.some_bytes(b, k, values).hex()}"
            values = self.wrong_count(values)
        return "value " + " ".join(map(str, values))

    def says(self, b, k):
        stories = self.stories(b)
        wrong = self.random.choice([0, 0, 0, 0.1, 0.5, 1])
        lines = []
        for p, reading in self.lies(b):
            content = self.content(b, k, stories[p], wrong)
            lines.append(f"says {b} to {p} reading {reading} {content}")
        return lines

    # All that stands in a round.

    def errors(self):
        """The good clocks' errors in a round."""
        lines = []
        jitters = self.random.choice([0, 0.1, 0.5, 1])
        drifts = self.random.choice([0, 0.3, 1])
        for p in self.good:
            for q in self.good:
                if p != q and self.chance(jitters):
                    lines.append(f"jitter {p} of {q} by {self.signed(self.error)}")
            if self.chance(drifts):
                lines.append(f"drift {p} by {self.signed(self.drift)}")
        return lines

    def next_values(self):
        lines = []
        for p in self.good:
            if self.chance(self.often):
                self.next[p] = self.some_value()
                lines.append(f"value {p} next {self.next[p]}")
        return lines

    def round(self, k):
        self.common = k * self.nodes * self.length
        self.place = k % (self.faults + 1)
        lines = []
        for b in self.bad:
            lines += self.says(b, k)
        lines += self.errors() + self.next_values()
        if self.place == self.faults:
            self.given = dict(self.next)
        if self.chance(0.5):
            self.random.shuffle(lines)
        return ["round"] + lines

    def script(self):
        lines = [self.cluster(), self.timing()]
        lines += self.good_and_bad()
        self.tame = self.chance(0.5)  # no lies that are turned away
        self.silent = [b for b in self.bad if self.chance(0.1)]
        self.often = self.random.choice([0, 0.1, 0.4])  # that a next value is named
        for k in range(self.rounds):
            lines += self.round(k)
        return lines

    # How the lines look.

    def space(self, *kinds):
        return self.random.choice(kinds)

    def comment(self):
        return "#" + self.random.choice(
            ["", "#", " a comment", "round", " round", "\tbad 0 # twice", " drift 0 by 99999"]
            + [" value 0 next 7"]
        )

    def untidy(self, lines):
        rate = self.random.choice([0.05, 0.3])
        out = []
        for line in lines:
            while self.chance(rate):
                out.append(self.space("", "", " ", "\t \t") + self.space("", self.comment()))
            if self.chance(rate):
                words = [word + self.space(" ", " ", "  ", "\t", " \t ") for word in line.split()]
                line = self.space("", " ", "\t") + "".join(words)
                line = line.rstrip() + self.space("", " ", "\t")
            if self.chance(rate):
                line += self.space("", " ") + self.comment()
            out.append(line)
        if self.chance(rate):
            out.append(self.space("", " ", self.comment()))
        return out

    def text(self):
        lines = self.script()
        if self.chance(0.4):
            lines = self.untidy(lines)
        end = "\r\n" if self.chance(0.15) else "\n"
        return end.join(lines) + ("" if self.chance(0.15) else end)


def main():
    # As bytes, so that the line ends stay as they are.
    sys.stdout.buffer.write(Maker(int(sys.argv[1])).text().encode())


if __name__ == "__main__":
    main()
