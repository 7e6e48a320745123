"""A reference model of `bench`: python3 tests/model.py FILE

Prints what `bench FILE` must print for a valid script. It was written from
the rules of the script, of clocks, frames and results alone, and not from
the code it is compared with; it looks for no errors in the script. `Cluster`
plays a round at a time and can be used without a script.
"""

import sys
from collections import Counter
from functools import lru_cache
from itertools import permutations
from struct import pack, unpack

TOP = 2**64 - 1  # clocks and common time stop here, and at 0
LIMIT = 10**12  # a time or a reading this high or higher is turned away
HEADER = 5  # bytes of a frame before its values


def within(number):
    return max(0, min(TOP, number))


# Paths: rows of different nodes. The one that told last stands first, the one
# whose value it is stands last.


@lru_cache(maxsize=None)
def paths(nodes, length, without=None):
    """All paths of so many nodes, rising as read from the last node to the first."""
    others = [q for q in range(nodes) if q != without]
    return [row[::-1] for row in permutations(others, length)]


@lru_cache(maxsize=None)
def paths_told(nodes, sender, place):
    """For each value of a frame the path for which its receiver holds it."""
    return [(sender,) + path for path in paths(nodes, place, without=sender)]


# Frames: a byte for the sender, four for the round, four for each value.


def frame(sender, k, values):
    return pack(f"<BI{len(values)}I", sender, k % 2**32, *values)


def values_in(message):
    count = (len(message) - HEADER) // 4
    return unpack(f"<{count}I", message[HEADER:])


def refusal(message, sender, k, count):
    """By which number and at which place a message is turned away, or None."""
    if len(message) != HEADER + 4 * count:
        return 7, len(message)
    if message[0] != sender:
        return 8, 0
    if int.from_bytes(message[1:HEADER], "little") != k % 2**32:
        return 9, 1
    return None


# What a node makes of what it read and heard.


def midpoint(readings, faults):
    rising = sorted(readings)
    return (rising[faults] + rising[-1 - faults]) // 2


def majority(values):
    """What more than half of the values are, or 0."""
    value, times = Counter(values).most_common(1)[0]
    return value if 2 * times > len(values) else 0


def results(nodes, faults, held):
    """For each node, what is made of the path of it alone."""
    made = held  # of the paths of faults + 1 nodes
    for length in range(faults, 0, -1):
        longer, made = made, {}
        for path in paths(nodes, length):
            told = [longer[(q,) + path] for q in range(nodes) if q not in path]
            made[path] = majority(told)
    return [made[(r,)] for r in range(nodes)]


class Round:
    """What happens in a round, beside what good nodes do."""

    def __init__(self):
        self.messages = {}  # (bad, good): all that is sent, as (reading, bytes)
        self.jitter = {}  # (reader, read): how wrong
        self.drift = {}  # good: how far off it runs
        self.next_values = {}  # good: what it gives in the next cycle


class GoodNode:
    def __init__(self, value, ahead):
        self.value = value  # to be given in the next cycle
        self.time = within(ahead)
        # By path; as a cycle begins, the own value for the path of no nodes.
        self.held = {(): value}
        self.results = None  # of its last whole cycle


class Cluster:
    def __init__(self, nodes, faults, length, good):
        """`good` has for each good node its value and how far ahead it is."""
        self.nodes = nodes
        self.faults = faults
        self.run = nodes * length  # how long a round lasts
        self.k = 0  # which round comes next
        self.good = {p: GoodNode(*good[p]) for p in sorted(good)}

    def place(self):
        """Of the round in its cycle."""
        return self.k % (self.faults + 1)

    def common(self):
        return within(self.k * self.run)

    def play(self, this):
        """Plays a round: the lines to print."""
        sent = self.sent()
        frame_lines, time_lines = [], []
        for p, node in self.good.items():
            if p in sent:
                taken, lines = self.taken(p, this, sent)
                frame_lines += lines
                time_lines += self.set_clock(p, taken)
                self.take_values(p, this, taken)
            else:  # none of its calls is taken: it is not in this round
                time_lines.append(f"refused 3 at {p}: {p}")
            node.time = within(node.time + self.run)
            node.time = within(node.time + this.drift.get(p, 0))
        cycle_over = self.place() == self.faults
        self.k += 1
        lines = frame_lines + time_lines + [self.clocks_line()]
        return lines + self.results_lines() if cycle_over else lines

    def sent(self):
        """The good nodes that are in the round: their times and their frames."""
        sent = {}
        for p, node in self.good.items():
            if node.time < LIMIT:
                told = paths(self.nodes, self.place(), without=p)
                values = [node.held[path] for path in told]
                sent[p] = node.time, frame(p, self.k, values)
        return sent

    def heard(self, p, this, sent):
        """For each node that p hears: a reading and the bytes of its message.

        Its own frame is among them, with its own time as the reading.
        """
        heard = {}
        for q in range(self.nodes):
            if q in sent:
                time, message = sent[q]
                heard[q] = within(time + this.jitter.get((p, q), 0)), message
            elif len(this.messages.get((q, p), [])) == 1:
                reading, message = this.messages[q, p][0]
                heard[q] = within(self.common() + reading), message
        return heard

    def taken(self, p, this, sent):
        """What p hears, without what it turns away; and the lines about that."""
        taken, lines = {}, []
        for q, (reading, message) in self.heard(p, this, sent).items():
            count = len(paths_told(self.nodes, q, self.place()))
            refused = refusal(message, q, self.k, count)
            if refused:
                number, at = refused
                lines.append(f"refused {number} at {at}: {p} from {q}")
            else:
                taken[q] = reading, values_in(message)
        return taken, lines

    def set_clock(self, p, taken):
        node = self.good[p]
        readings = [node.time] * self.nodes  # so, if nothing was taken
        for q, (reading, _) in taken.items():
            readings[q] = reading
        high = [q for q in range(self.nodes) if readings[q] >= LIMIT]
        if high:
            return [f"refused 3 at {high[0]}: {p}"]
        node.time = midpoint(readings, self.faults)
        return []

    def take_values(self, p, this, taken):
        node = self.good[p]
        node.held = {}
        for q in range(self.nodes):
            told = paths_told(self.nodes, q, self.place())
            values = taken[q][1] if q in taken else [0] * len(told)
            node.held.update(zip(told, values))
        node.value = this.next_values.get(p, node.value)
        if self.place() == self.faults:
            node.results = results(self.nodes, self.faults, node.held)
            node.held = {(): node.value}

    def clocks_line(self):
        ahead = [node.time - self.common() for node in self.good.values()]
        return " ".join(["clocks", *map(str, ahead)])

    def results_lines(self):
        lines = []
        for p, node in self.good.items():
            shown = "none" if node.results is None else " ".join(map(str, node.results))
            lines.append(f"results of {p}: {shown}")
        return lines


class Script:
    def __init__(self, text):
        self.good = {}  # for each good node its value and how far ahead it is
        self.rounds = []
        for line in text.split("\n"):
            words = line.split("#")[0].split()
            if words:
                self.take(words)

    def take(self, words):
        kind = words[0]
        if kind == "cluster":
            self.nodes, self.faults = int(words[2]), int(words[4])
        elif kind == "timing":
            self.length = int(words[2])
        elif kind == "good":
            self.good[int(words[1])] = int(words[3]), int(words[5])
        elif kind == "bad":
            pass  # a node that is not good is bad
        elif kind == "round":
            self.rounds.append(Round())
        else:
            self.take_in_round(words, self.rounds[-1])

    def take_in_round(self, words, this):
        kind = words[0]
        if kind == "says":
            pair = int(words[1]), int(words[3])
            said = int(words[5]), self.message(words)
            this.messages.setdefault(pair, []).append(said)
        elif kind == "jitter":
            this.jitter[int(words[1]), int(words[3])] = int(words[5])
        elif kind == "drift":
            this.drift[int(words[1])] = int(words[3])
        elif kind == "value":
            this.next_values[int(words[1])] = int(words[3])
        else:
            raise ValueError("unknown line: " + " ".join(words))

    def message(self, words):
        if words[6] == "bytes":
            return bytes.fromhex(words[7])
        k = len(self.rounds) - 1
        return frame(int(words[1]), k, [int(word) for word in words[7:]])


def play(script):
    """The lines to print."""
    cluster = Cluster(script.nodes, script.faults, script.length, script.good)
    lines = []
    for this in script.rounds:
        lines += cluster.play(this)
    return lines


def main():
    with open(sys.argv[1], encoding="utf-8", newline="") as file:
        script = Script(file.read())
    for line in play(script):
        print(line)


if __name__ == "__main__":
    main()
