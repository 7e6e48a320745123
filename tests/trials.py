"""The twin of the program `trials`: python3 tests/trials.py SEED COUNT

Prints what `trials SEED COUNT` must print. The random clusters are drawn here as the program draws them, number for number;
all that is checked and counted comes from `model.py`, which was written from the rules and not from the program.
"""

import sys

import model

ALL = 2**64 - 1

SHAPES = ["whole", "rubbish", "cut", "long", "twice", "wrong-round", "wrong-sender", "silent"]
HANDS = ["right", "early", "late", "apart", "any", "far"]
TALES = ["true", "two-faced", "slander", "mixed", "noise", "zero"]
MANNERS = ["still", "random", "split", "edges"]
CHECKS = ["bound", "halving", "agreement", "validity", "frames", "setting"]


class Dice:
    """Random numbers (splitmix64)."""

    def __init__(self, seed):
        self.state = seed & ALL

    def next(self):
        self.state = (self.state + 0x9E3779B97F4A7C15) & ALL
        z = self.state
        z = ((z ^ (z >> 30)) * 0xBF58476D1CE4E5B9) & ALL
        z = ((z ^ (z >> 27)) * 0x94D049BB133111EB) & ALL
        return z ^ (z >> 31)

    def below(self, count):
        return self.next() % count

    def up_to(self, most):
        return self.below(most + 1)

    def either_way(self, most):
        return self.up_to(2 * most) - most

    def one_in(self, times):
        return self.below(times) == 0

    def value(self):
        """A node's value: often a small one, so that values meet."""
        return self.below(4) if self.one_in(4) else self.next() >> 32


# A cluster, as it is drawn.


class Liar:
    """What a bad node does."""

    def __init__(self, dice):
        self.hands = HANDS[dice.below(6)]
        self.tale = TALES[dice.below(6)]
        whole = dice.one_in(2)
        shape = SHAPES[dice.below(8)]
        self.shape = "whole" if whole else shape
        self.half = dice.one_in(2)
        self.fickle = dice.one_in(3)


def drawn_ticks(dice):
    return [lambda: 0, lambda: dice.up_to(10), lambda: dice.up_to(1000), lambda: 1000][dice.below(4)]()


def drawn_room(dice):
    return 0 if dice.one_in(2) else dice.up_to(1_000_000)


def drawn_base(dice):
    return [lambda: 0, lambda: dice.up_to(10_000), lambda: 1_000_000 + dice.up_to(1_000_000_000)][dice.below(3)]()


class Trial:
    def __init__(self, dice, one_too_many):
        self.draw_size(dice)
        self.draw_timing(dice)
        self.sides = dice.next()
        self.base = drawn_base(dice)
        self.beyond = dice.one_in(8)
        self.cycles = 1 + dice.below(3)
        self.draw_nodes(dice, one_too_many)
        self.manner = MANNERS[dice.below(4)]
        self.concert = dice.one_in(2)
        shared = Liar(dice)
        self.liars = {b: shared if self.concert else Liar(dice) for b in self.bad}

    def draw_size(self, dice):
        self.faults = dice.below(4)
        least = max(4, 3 * self.faults + 1)
        self.nodes = least + dice.up_to(16 - least)
        if self.faults == 3 and self.nodes >= 12 and not dice.one_in(8):
            self.nodes = 10 + dice.below(2)

    def draw_timing(self, dice):
        self.drift, self.jitter = drawn_ticks(dice), drawn_ticks(dice)
        self.error = self.jitter + 2 * self.drift
        self.bound = 4 * self.error + 4 * self.drift + 2
        width = self.bound + 2 * self.drift
        message, wire = 1 + dice.up_to(1000), dice.up_to(50)
        pause = width + self.error + self.drift + drawn_room(dice)
        self.length = pause + wire + width + message + drawn_room(dice)

    def draw_nodes(self, dice, one_too_many):
        exactly = not dice.one_in(4)
        some = dice.up_to(self.faults)
        left = self.faults + 1 if one_too_many else self.faults if exactly else some
        spread = dice.below(3)
        self.bad, self.good = [], {}
        for p in range(self.nodes):
            if dice.below(self.nodes - p) < left:
                self.bad.append(p)
                left -= 1
            else:
                value = dice.value()
                apart = [lambda: 0, lambda: dice.up_to(self.bound), lambda: self.side(p) * self.bound][spread]()
                self.good[p] = value, self.base + apart

    def side(self, p):
        return self.sides >> p & 1


# Its rounds.


class Story:
    """What is drawn of a trial's rounds, one after the other."""

    def __init__(self, trial, dice):
        self.trial, self.dice = trial, dice
        self.next = {p: value for p, (value, _) in trial.good.items()}

    def round(self, k, counts):
        trial, dice = self.trial, self.dice
        self.place = k % (trial.faults + 1)
        if self.place == 0:
            self.begin_cycle()
        self.k, this = k, model.Round()
        manner = MANNERS[dice.below(4)] if dice.one_in(4) else trial.manner
        for p in trial.good:
            self.give(p, manner, this)
        self.far = [lambda: trial.bound, lambda: dice.up_to(4 * trial.bound), lambda: dice.up_to(1_000_000_000)][dice.below(3)]()
        for b in trial.bad:
            liar = Liar(dice) if trial.liars[b].fickle else trial.liars[b]
            for p in trial.good:
                self.lie(b, p, liar, this, counts)
        return this

    def begin_cycle(self):
        trial, dice = self.trial, self.dice
        self.values = dict(self.next)
        shared = dice.value(), dice.value()
        self.lies = [(dice.value(), dice.value()) for _ in range(trial.nodes)]
        if trial.concert:
            for b in trial.bad:
                self.lies[b] = shared

    def give(self, p, manner, this):
        """What is given of a good node."""
        trial, dice = self.trial, self.dice
        others = [q for q in trial.good if q != p]
        if manner == "random":
            this.drift[p] = dice.either_way(trial.drift)
            for q in others:
                this.jitter[p, q] = dice.either_way(trial.error)
        elif manner == "split":
            self.give_edges(p, others, this, ALL * trial.side(p))
        elif manner == "edges":
            self.give_edges(p, others, this, dice.next())
        if dice.one_in(4):
            self.next[p] = this.next_values[p] = dice.value()

    def give_edges(self, p, others, this, signs):
        """As far off as may be, to the one or the other way by these bits."""
        trial = self.trial
        this.drift[p] = trial.drift if signs >> p & 1 else -trial.drift
        for q in others:
            this.jitter[p, q] = trial.error if signs >> q & 1 else -trial.error

    def lie(self, b, p, liar, this, counts):
        """What a bad node sends a good one."""
        shape = "whole" if liar.half and self.trial.side(p) == 0 else liar.shape
        counts.lie(shape, liar)
        for _ in range({"silent": 0, "twice": 2}.get(shape, 1)):
            reading = self.reading(p, liar)
            message = self.message(b, p, shape, liar)
            this.messages.setdefault((b, p), []).append((reading, message))

    def reading(self, p, liar):
        trial, dice = self.trial, self.dice
        middle = trial.base + trial.bound // 2
        side, hands = trial.side(p), liar.hands
        if hands == "right":
            return middle
        if hands == "early" or hands == "apart" and side == 1:
            return middle + self.far
        if hands in ("late", "apart"):
            return max(0, middle - self.far)
        if hands == "any":
            return dice.up_to(2 * middle)
        return self.far_off() if side == 1 else 0

    def far_off(self):
        """Just below what is turned away; or beyond, in some trials."""
        room = model.LIMIT - self.k * self.trial.nodes * self.trial.length
        if not self.trial.beyond:
            return room - 1
        return model.TOP if self.dice.one_in(2) else room + self.far

    def message(self, b, p, shape, liar):
        dice = self.dice
        if shape == "rubbish":
            return bytes([dice.next() & 255 for _ in range(dice.below(64))])
        sender, k = b, self.k
        if shape == "wrong-round":
            k += [lambda: 1, lambda: 2**32 - 1, lambda: 1 + dice.below(2**32 - 1)][dice.below(3)]()
        if shape == "wrong-sender":
            sender = (b + 1 + dice.below(255)) % 256
        frame = model.frame(sender, k, self.told(b, p, liar.tale))
        if shape == "cut":
            return frame[: dice.below(len(frame))]
        if shape == "long":
            return frame + bytes([0] * (1 + dice.below(8)))
        return frame

    def told(self, b, p, tale):
        """The values of a bad node's frame."""
        trial = self.trial
        noise = self.dice.next() if tale == "noise" else 0
        side = trial.side(p)
        told = []
        for index, path in enumerate(model.paths(trial.nodes, self.place, without=b)):
            origin = path[-1] if path else b
            if tale == "zero":
                told.append(0)
            elif tale == "noise":
                told.append(((noise + index * 0x9E3779B97F4A7C15) & ALL) >> 32)
            elif tale == "mixed":
                told.append(self.lies[origin][(index + p) % 2])
            elif tale == "slander" or tale == "two-faced" and origin in trial.bad:
                told.append(self.lies[origin][side])
            else:
                told.append(self.lies[origin][0] if origin in trial.bad else self.values[origin])
        return told


# What is seen of it.


class Watched(model.Cluster):
    """The model, with what each good node took and heard in the last round."""

    def __init__(self, *args):
        super().__init__(*args)
        self.begin()

    def begin(self):
        self.came = {p: {} for p in self.good}
        if self.place() == 0:
            self.given = {p: node.held[()] for p, node in self.good.items()}

    def play(self, this):
        self.begin()
        return super().play(this)

    def taken(self, p, this, sent):
        taken, lines = super().taken(p, this, sent)
        for q, (reading, _) in taken.items():
            deviation = reading - self.good[p].time
            self.came[p][q] = 1, max(-(2**63), min(2**63 - 1, deviation)) & ALL
        for line in lines:
            _, number, _, at, _, _, q = line.replace(":", "").split()
            self.came[p][int(q)] = 2, int(number), int(at)
        return taken, lines

    def distance(self):
        times = [node.time for node in self.good.values()]
        return max(times) - min(times)

    def result(self, p, q):
        results = self.good[p].results
        return None if results is None else results[q]


class Counts:
    def __init__(self):
        self.clusters = self.rounds = self.cycles = self.beyond = 0
        self.sizes = set()
        self.shapes, self.hands, self.tales = ({name: 0 for name in names} for names in (SHAPES, HANDS, TALES))
        self.came = {name: 0 for name in ("taken", "nothing", "refused-7", "refused-8", "refused-9")}
        self.kept = self.zeros = self.others = self.nearer = self.at_limit = self.widest = 0
        self.broken = {name: 0 for name in CHECKS}
        self.checksum = 0

    def lie(self, shape, liar):
        self.shapes[shape] += 1
        if shape not in ("silent", "rubbish"):
            self.hands[liar.hands] += 1
            self.tales[liar.tale] += 1

    def note(self, word):
        mixed = ((self.checksum ^ word & ALL) * 0x100000001B3) & ALL
        self.checksum = mixed ^ (mixed >> 32)

    def print(self):
        print(f"clusters {self.clusters} of sizes {len(self.sizes)} beyond {self.beyond}")
        print(f"rounds {self.rounds} cycles {self.cycles}")
        print_row("slots of liars:", self.shapes)
        print_row("clocks of liars:", self.hands)
        print_row("values of liars:", self.tales)
        print_row("at good nodes:", self.came)
        print_row("results for liars:", {"zero": self.zeros, "other": self.others})
        clocks = {"halved": self.nearer, "at-limit": self.at_limit, "widest-percent": self.widest, "kept": self.kept}
        print_row("good clocks:", clocks)
        print_row("broken:", self.broken)
        print(f"checksum {self.checksum:016x}")


def print_row(title, counted):
    print(" ".join([title] + [f"{name} {times}" for name, times in counted.items()]))


def kept_clocks(lines):
    """Which clocks were not set, and for which reading."""
    kept = {}
    for line in lines:
        words = line.replace(":", "").split()
        if words[:2] == ["refused", "3"] and len(words) == 5:
            kept[int(words[4])] = int(words[3])
    return kept


def look(trial, cluster, lines, before, counts):
    """Counts what is seen behind a round; the checks that failed."""
    counts.rounds += 1
    after, kept = cluster.distance(), kept_clocks(lines)
    look_at_frames(trial, cluster, kept, counts)
    failed = set()
    counts.kept += len(kept)
    if not trial.beyond:
        if after > trial.bound:
            failed.add("bound")
        limit = before // 2 + 2 * trial.error + 2 * trial.drift + 1
        if after > limit:
            failed.add("halving")
        if kept:
            failed.add("setting")
        counts.nearer += 2 * after < before
        counts.at_limit += after == limit
        counts.widest = max(counts.widest, 100 * after // trial.bound)
    if any(cluster.came[p].get(q, (0,))[0] != 1 for p in trial.good for q in trial.good if q != p):
        failed.add("frames")
    if cluster.place() == 0:
        failed |= look_at_results(trial, cluster, counts)
    return failed


def look_at_frames(trial, cluster, kept, counts):
    for p, node in cluster.good.items():
        counts.note(node.time - cluster.common())
        for q in range(trial.nodes):
            if q != p:
                came = cluster.came[p].get(q, (0,))
                for word in came:
                    counts.note(word)
                if q in trial.bad:
                    counts.came["nothing" if came[0] == 0 else "taken" if came[0] == 1 else f"refused-{came[1]}"] += 1
        for word in (3, kept[p]) if p in kept else (0,):
            counts.note(word)


def look_at_results(trial, cluster, counts):
    counts.cycles += 1
    failed = set()
    first = min(trial.good)
    for q in range(trial.nodes):
        all_results = [cluster.result(p, q) for p in trial.good]
        for result in all_results:
            counts.note(ALL if result is None else result)
        if any(result != all_results[0] for result in all_results):
            failed.add("agreement")
        if q in trial.good and any(result != cluster.given[q] for result in all_results):
            failed.add("validity")
        if q in trial.bad:
            zero = cluster.result(first, q) == 0
            counts.zeros += zero
            counts.others += not zero
    return failed


def play(dice, one_too_many, counts):
    """Plays a trial: the checks that failed in it."""
    trial = Trial(dice, one_too_many)
    counts.clusters += 1
    counts.beyond += trial.beyond
    counts.sizes.add((trial.nodes, trial.faults))
    cluster = Watched(trial.nodes, trial.faults, trial.length, trial.good)
    story = Story(trial, dice)
    failed = set()
    for k in range(trial.cycles * (trial.faults + 1)):
        this = story.round(k, counts)
        before = cluster.distance()
        lines = cluster.play(this)
        failed |= look(trial, cluster, lines, before, counts)
    return failed


def run(title, dice, count, one_too_many):
    """Plays so many trials: whether what must hold did not break."""
    counts = Counts()
    print(title)
    for number in range(count):
        failed = play(Dice(dice.next()), one_too_many, counts)
        for check in CHECKS:
            if check in failed:
                counts.broken[check] += 1
                if not one_too_many:
                    print(f"trial {number}: {check} FAILED")
    counts.print()
    return one_too_many or not any(counts.broken.values())


def main():
    dice, count = Dice(int(sys.argv[1])), int(sys.argv[2])
    good = run("as many liars as faults, or fewer", dice, count, False)
    run("one liar too many", dice, count // 4, True)
    return 0 if good else 1


if __name__ == "__main__":
    sys.exit(main())
