"""Prints a pseudo-random script for the console.

    python3 model/random_scripts.py SEED LINES

The same seed gives the same script on every machine.  The script works on
five drives of 24 blocks.  Most of its numbers are sensible, and some are wild.
What it takes to be configured is only a guess, since it knows no answer.
"""

import sys

DRIVES = 5
CAPACITY = 24
BLOCK = 512
LEAST_MEMBERS = {"none": 1, "copy": 2, "xor": 3}

# Numbers around the limits, and beyond what a number can be.
WILD = (
    [0, 1, 3, 4, 5, 7, 8, 9, 15, 16, 17, 23, 24, 25, 63, 64, 65, 511, 512, 513]
    + [65535, 65536, 65537, 1048576, 1048577, 2**31, 2**32, 2**63 - 1, 2**63]
    + [2**64 - 24, 2**64 - 2, 2**64 - 1, 2**64, 10**30]
    + ["00", "007", "-1", "+1", "1.0", "0x1", "x", ":", "*"]
)

# Lines that are malformed, or all but.
ODD = (
    "", "   ", "# a comment", "nonsense", "BUS 1 1", "bus", "bus 1", "bus 1 1 1",
    "break", "break 0 0", "break 0 1 1", "broken 0", "peek 0 0", "peek 0 0 512 0",
    "poke 0 0", "poke 0 0 512*0", "raw 0", "raw 0 0 0", "group", "group 0 xor",
    "group 0 raid 1 0:0:1", "group 0 none 1 0:0", "group 0 none 1 0:0:1:",
    "group 0 none 1 ::", "volume", "volume 0 0:0:", "delete", "delete group",
    "delete 0", "delete disk 0", "delete volume 0 0", "writes", "writes 0",
    "writes all", "writes 0 maybe", "writes on all", "map 0", "map 0 0 0", "read 0 0",
    "read 0 0 1048577", "write 0 0", "write 0 0 0", "write 0 0 512*", "write 0 0 *00",
    "write 0 0 1048577*00", "write 0 0 1048576*00 00", "write 0 0 512*00 zz",
    "write 0 0 512*000", "write 0 0 1*2*33", "bus 17 1", "bus 1 0", "bus 1 65537",
    "bus 9 1 8 1", "bus 18446744073709551615 18446744073709551615",
    "read\t0\t0\t512#", "\tmap  0 \t 0",
)


class Dice:
    """A linear congruential generator, modulo 2**64."""

    def __init__(self, seed):
        self.state = seed
        for _ in range(4):
            self.below(1)

    def below(self, count):
        """Return a number below `count`, from the better half of the bits."""
        self.state = (self.state * 6364136223846793005 + 1442695040888963407) % 2**64
        return (self.state >> 32) % count

    def between(self, least, most):
        return least + self.below(most - least + 1)

    def chance(self, percent):
        return self.below(100) < percent

    def pick(self, choices):
        return choices[self.below(len(choices))]

    def some(self, choices, count):
        """Return `count` different ones of the choices, in any order."""
        left = list(choices)
        return [left.pop(self.below(len(left))) for _ in range(count)]


def apart(one, others):
    """Return whether a run of blocks shares none with any other."""
    drive, start, count = one
    return not any(
        drive == other and start < begin + length and begin < start + count
        for other, begin, length in others
    )


class Script:
    """A script's lines, and a guess at what they have configured so far."""

    def __init__(self, seed):
        self.dice = Dice(seed)
        self.wild = False  # whether the line has a wild number
        self.forget()

    def forget(self):
        self.groups = {}  # extents and protected blocks
        self.volumes = {}  # runs
        self.told = set()  # the drives that were told to break
        self.met = []  # blocks that were written

    def number(self, sensible):
        """Return the number, or once in a while a wild one."""
        if self.dice.chance(1):
            self.wild = True
            return self.dice.pick(WILD)
        return sensible

    def unused(self, table):
        """Return a number from 0 to 3, mostly one that is free."""
        free = [number for number in range(4) if number not in table]
        return self.dice.pick(free if free and self.dice.chance(90) else range(4))

    def triple(self, numbers):
        return ":".join(str(self.number(number)) for number in numbers)

    def line(self):
        """Return the next line."""
        dice = self.dice
        self.wild = False
        if len(self.told) > 2 and dice.chance(4 if self.volumes else 20):
            return self.bus()
        if not self.groups and dice.chance(80):
            return self.poke() if dice.chance(20) else self.group()
        if not self.volumes and dice.chance(75):
            return self.volume()
        lines = (
            [self.read] * 24 + [self.write] * 30 + [self.map] * 5
            + [self.group] * 6 + [self.volume] * 8
            + [self.delete_group] * 3 + [self.delete_volume] * 3
            + [self.writes] * 4 + [self.tell] * 3
            + [self.broken] * 2 + [self.peek] * 2 + [self.poke] + [self.raw] * 6
            + [self.odd] * 2
        )
        return dice.pick(lines)()

    def bus(self):
        self.forget()
        first = self.dice.below(DRIVES + 1)
        if self.dice.chance(50):
            return f"bus {DRIVES} {CAPACITY}"
        return f"bus {first} {CAPACITY} {DRIVES - first} {CAPACITY}"

    def tell(self):
        drive = self.dice.below(DRIVES)
        self.told.add(drive)
        if self.dice.chance(25):
            return f"break {self.number(drive)}"
        # The first accesses are the most telling ones.
        most = self.dice.pick([2, 4, 8, 40])
        return f"break {self.number(drive)} {self.number(self.dice.between(1, most))}"

    def broken(self):
        return "broken"

    def place(self):
        """Return a drive and a block on it."""
        drive, block = self.dice.below(DRIVES), self.dice.below(CAPACITY)
        return f"{self.number(drive)} {self.number(block)}"

    def peek(self):
        return f"peek {self.place()} {self.number(self.length())}"

    def poke(self):
        return f"poke {self.place()} {self.data()}"

    def raw(self):
        return f"raw {self.place()}"

    def extents(self, method, depth):
        """Return the extents of a group that would fit on empty drives."""
        dice = self.dice
        members = dice.between(LEAST_MEMBERS[method], DRIVES)
        unit = depth * members if method == "xor" else depth
        count = unit * dice.between(1, max(1, dice.pick([6, 12, CAPACITY]) // unit))
        most = max(0, CAPACITY - count)
        drives = dice.some(range(DRIVES), members)
        return [(drive, dice.pick([0, most, dice.between(0, most)]), count) for drive in drives]

    def group(self):
        dice = self.dice
        number = self.unused(self.groups)
        method = dice.pick(["none", "copy", "xor", "xor"])
        depth = dice.pick([1, 1, 2, 2, 3, 4])
        taken = [extent for extents, _ in self.groups.values() for extent in extents]
        doubted = set() if dice.chance(25) else self.told
        for _ in range(12):
            extents = self.extents(method, depth)
            fits = all(apart(extent, taken) for extent in extents)
            if fits and not any(drive in doubted for drive, _, _ in extents):
                break
        else:
            # There is little room left: try all the same, or do without.
            if self.groups and dice.chance(75):
                return self.volume()
            number = 4
        if dice.chance(3):
            extents = extents[: dice.below(3)] if dice.chance(50) else extents * 2
            number = 5
        words = [self.triple(extent) for extent in extents]
        code = self.number(["none", "copy", "xor"].index(method))
        name = method if dice.chance(80) else code
        line = " ".join([f"group {self.number(number)} {name} {self.number(depth)}"] + words)
        if number < 4 and number not in self.groups and not self.wild:
            width = {"none": len(extents), "copy": 1, "xor": len(extents) - 1}[method]
            self.groups[number] = extents, width * extents[0][2]
        return line

    def run(self, taken):
        """Return a run that shares no block with others, if one is found."""
        dice = self.dice
        for _ in range(8):
            group = dice.pick(sorted(self.groups))
            _, blocks = self.groups[group]
            first = dice.pick([0, dice.below(blocks)])
            run = (group, first, dice.between(1, blocks - first))
            if apart(run, taken):
                return run
        return None

    def volume(self):
        dice = self.dice
        if not self.groups:
            return f"volume {dice.below(4)} 0:0:{dice.between(1, 4)}"
        number = self.unused(self.volumes)
        taken = [run for runs in self.volumes.values() for run in runs]
        runs = []
        for _ in range(dice.pick([1, 1, 2, 3])):
            run = self.run(taken + runs)
            if run:
                runs.append(run)
        if not runs and self.volumes and dice.chance(75):
            return self.write()
        if dice.chance(6):
            # Too few runs, too many, or some that are taken.
            runs = dice.pick([[], runs * 5, runs + taken])
            number = 5
        words = [self.triple(run) for run in runs]
        line = " ".join([f"volume {self.number(number)}"] + words)
        if number < 4 and number not in self.volumes and runs and not self.wild:
            self.volumes[number] = runs
        return line

    def delete_group(self):
        used = {run[0] for runs in self.volumes.values() for run in runs}
        unused = sorted(set(self.groups) - used)
        number = self.dice.pick(unused) if unused else self.dice.below(4)
        line = f"delete group {self.number(number)}"
        if number in unused and not self.wild:
            del self.groups[number]
        return line

    def delete_volume(self):
        number = self.dice.pick(sorted(self.volumes) or [0])
        line = f"delete volume {self.number(number)}"
        if not self.wild:
            self.volumes.pop(number, None)
        return line

    def writes(self):
        which = "all" if self.dice.chance(20) else self.number(self.some_volume())
        # More often on, so that most writes are done.
        return f"writes {which} {self.dice.pick(['on', 'on', 'on', 'off'])}"

    def some_volume(self):
        if self.dice.chance(2):
            return self.dice.below(17)
        return self.dice.pick(sorted(self.volumes) or [0])

    def block(self):
        """Return a volume set and a block of it; seldom the one behind."""
        volume = self.some_volume()
        blocks = sum(count for _, _, count in self.volumes.get(volume, []))
        block = self.dice.below(blocks + self.dice.chance(20) or 1)
        return f"{self.number(volume)} {self.number(block)}"

    def block_met(self, percent):
        """Return such a block, at times one that was written before."""
        if self.met and self.dice.chance(percent):
            return self.dice.pick(self.met[-8:])
        return self.block()

    def map(self):
        return f"map {self.block()}"

    def length(self):
        if self.dice.chance(90):
            return BLOCK
        return self.dice.pick([0, 1, 511, 513, 600, 1024])

    def read(self):
        return f"read {self.block_met(70)} {self.number(self.length())}"

    def data(self):
        """Return bytes, mostly of one block, in one of several spellings."""
        dice = self.dice
        one, other = f"{dice.below(256):02x}", f"{dice.below(256):02X}"
        part = dice.below(BLOCK)
        return dice.pick(
            [f"{self.length()}*{one}"] * 3
            + [f"{part}*{one} {BLOCK - part}*{other}"] * 3
            + [f"{one}{other} {BLOCK - 2}*{other}", f"0*00 {one * BLOCK}"]
        )

    def write(self):
        block = self.block_met(30)
        if block not in self.met:
            self.met.append(block)
        return f"write {block} {self.data()}"

    def odd(self):
        return self.dice.pick(ODD)


def main():
    if len(sys.argv) != 3 or not all(word.isdecimal() for word in sys.argv[1:]):
        sys.exit("usage: random_scripts.py SEED LINES")
    seed, lines = map(int, sys.argv[1:])
    script = Script(seed)
    for number in range(lines):
        print(script.bus() if number == 0 else script.line())


if __name__ == "__main__":
    main()
