"""A model of the console: what it prints for a script of calls.

    python3 model/console.py < SCRIPT
    python3 model/console.py --compare EXPECTED < SCRIPT

The first prints the answers; its exit status is 0 if no line was malformed,
else 1.  The second compares them with EXPECTED, the lines that a console
printed for the same script: its exit status is 0 if all agree, else 1, with
a message about the first difference.

How a malformed line's error is worded is not compared, and the fault of a
refusal may name any member that is missing in that row.

The rules leave open which drives a call tries.  The model tries them in the
same order as the program, so that scripts with `break D A` agree as well.
That memory can be wanting is not modelled.
"""

import argparse
import re
import sys
from itertools import combinations, groupby
from typing import NamedTuple

from layouts import OUT_OF_RULE, check_member, place, protected_blocks, refusal

BLOCK = 512
MOST_DRIVES = 16
MOST_BLOCKS = 65536  # of a drive
MOST_GROUPS = 8
MOST_VOLUMES = 16
MOST_RUNS = 4
MOST_BYTES = 1048576  # of a line's buffer
MOST_NUMBER = 2**64 - 1

FRESH = b"\xa5"  # what drives and buffers are filled with at first
METHODS = ("none", "copy", "xor")  # each at its code

# The refusals, in the order in which their questions are asked.
FIELD = 3  # a number is outside its rule
NO_DRIVE = 4
NOT_CONFIGURED = 5  # or not free, where it is to be made
LENGTH = 6  # of a buffer
OUTSIDE = 7
CONFLICT = 8  # assigned already, overlapping, or still in use
BROKEN = 9
WRITES_OFF = 10
LOST = 11


class Malformed(Exception):
    """A line that is not carried out, and why."""


class Refused(Exception):
    """A refused call: its number, and the faults of which it names one.

    The first fault is the one that the model names.
    """

    def __init__(self, number, faults=()):
        super().__init__(number)
        self.number = number
        self.faults = faults

    def seen_from(self, above):
        """Return the same refusal, each fault behind what is known above."""
        return Refused(self.number, [f"{above} {fault}" for fault in self.faults])

    def texts(self):
        """Return the answers that it may be printed as."""
        text = f"refused {self.number}"
        return [f"{text} {fault}" for fault in self.faults] or [text]


def ask(answer, number):
    """Refuse with this number where the answer to a question is no."""
    if not answer:
        raise Refused(number)


# The bus


class Drive:
    """A drive's blocks, and the accesses left where it was told to break."""

    def __init__(self, capacity):
        self.capacity = capacity
        self.written = {}  # the blocks that were written, by number
        self.left = None  # with 0 left the drive is broken

    @property
    def broken(self):
        return self.left == 0

    def block(self, number):
        return self.written.get(number, FRESH * BLOCK)


class Bus:
    """Drives that are reached by reads and writes, and break when told to."""

    def __init__(self, capacities):
        self.drives = [Drive(capacity) for capacity in capacities]

    def drive(self, number):
        ask(number < len(self.drives), NO_DRIVE)
        return self.drives[number]

    def reach(self, number, block, length):
        """Return the drive of a request that finds and leaves it unbroken."""
        drive = self.drive(number)
        ask(length == BLOCK, LENGTH)
        ask(block < drive.capacity, OUTSIDE)
        if drive.left:
            drive.left -= 1
        if drive.broken:
            raise Refused(BROKEN, [f"drive {number} at {block}"])
        return drive

    def read(self, number, block, length):
        return self.reach(number, block, length).block(block)

    def write(self, number, block, data):
        self.reach(number, block, len(data)).written[block] = bytes(data)


# Groups


class Extent(NamedTuple):
    drive: int
    start: int
    count: int


def shared(one, other):
    """Return whether two extents, or two runs, share a block."""
    (drive, start, count), (other_drive, other_start, other_count) = one, other
    if drive != other_drive:
        return False
    return start < other_start + other_count and other_start < start + count


def exclusive_or(blocks):
    """Return the bytewise exclusive-or of blocks."""
    total = 0
    for block in blocks:
        total ^= int.from_bytes(block, "big")
    return total.to_bytes(BLOCK, "big")


class Group:
    """A group of members, of which some may be missing.

    Every member is whole, so it is missing exactly where its drive is broken.
    """

    def __init__(self, number, method, depth, extents):
        self.number = number
        self.method = method
        self.depth = depth
        self.extents = extents
        self.members = len(extents)
        self.tolerated = {"none": 0, "copy": self.members - 1, "xor": 1}[method]
        self.blocks = protected_blocks(method, self.members, extents[0].count)

    def place(self, block):
        """Return the (member, row) that is home to a protected block."""
        return place(self.method, self.members, self.depth, block)

    def checks(self, row):
        """Return the members that hold check blocks in a row."""
        if self.method == "copy":
            return set(range(1, self.members))
        if self.method == "xor":
            return {check_member(self.members, self.depth, row)}
        return set()

    def missing(self, bus):
        """Return the members whose drives are broken."""
        return [m for m, e in enumerate(self.extents) if bus.drives[e.drive].broken]

    def is_lost(self, bus):
        return len(self.missing(bus)) > self.tolerated

    def faults(self, bus, row, named):
        """Return the fault that names a member, and those of others missing."""
        others = [member for member in self.missing(bus) if member != named]
        faults = []
        for member in [named] + others:
            drive, start, _ = self.extents[member]
            where = f"drive {drive} at {start + row}"
            faults.append(f"group {self.number} row {row} member {member} {where}")
        return faults

    def fill(self, bus):
        """Set every row of every member to zeros, extent by extent."""
        for member, (drive, start, count) in enumerate(self.extents):
            for row in range(count):
                try:
                    bus.write(drive, start + row, bytes(BLOCK))
                except Refused:
                    raise Refused(BROKEN, self.faults(bus, row, member)) from None

    def fetch(self, bus, member, row):
        """Return a member's block; None if it is missing, or breaks."""
        drive, start, _ = self.extents[member]
        if bus.drives[drive].broken:
            return None
        try:
            return bus.read(drive, start + row, BLOCK)
        except Refused:
            return None

    def send(self, bus, member, row, block):
        """Write a member's block, unless it is missing or breaks."""
        drive, start, _ = self.extents[member]
        if bus.drives[drive].broken:
            return
        try:
            bus.write(drive, start + row, block)
        except Refused:
            pass

    def gather(self, bus, row):
        """Return all blocks of a row, or None if too few could be read.

        Members are read in order until the others follow from them.
        """
        blocks = {}
        for member in range(self.members):
            if self.members - len(blocks) > self.tolerated:
                block = self.fetch(bus, member, row)
                if block is not None:
                    blocks[member] = block
        if self.members - len(blocks) > self.tolerated:
            return None
        # Copies are the same, and under xor at most one block is left to make.
        if self.method == "copy":
            made = next(iter(blocks.values()))
        else:
            made = exclusive_or(blocks.values())
        return [blocks.get(member, made) for member in range(self.members)]

    def read(self, bus, block):
        """Return a protected block: from its home, or made from the others."""
        home, row = self.place(block)
        found = self.fetch(bus, home, row)
        if found is not None:
            return found
        blocks = self.gather(bus, row)
        if blocks is None:
            raise Refused(LOST, self.faults(bus, row, home))
        return blocks[home]

    def write(self, bus, block, data):
        """Write a protected block, and the check blocks of its row."""
        home, row = self.place(block)
        if self.is_lost(bus):
            raise Refused(LOST, self.faults(bus, row, self.missing(bus)[0]))
        blocks = self.gather(bus, row)
        if blocks is None:
            # The row was lost on the way: the home alone can hold the block.
            self.send(bus, home, row, data)
        else:
            self.spread(bus, home, row, data, blocks)
        if home in self.missing(bus) and self.is_lost(bus):
            raise Refused(LOST, self.faults(bus, row, home))

    def spread(self, bus, home, row, data, blocks):
        """Write the home and the check members, in order."""
        checks = self.checks(row)
        blocks[home] = data
        users = [blocks[m] for m in range(self.members) if m not in checks]
        # The one user block of a copy is its own exclusive-or.
        check = exclusive_or(users)
        for member in range(self.members):
            if member == home:
                self.send(bus, member, row, data)
            elif member in checks:
                self.send(bus, member, row, check)


# Volume sets, and the calls on an array


class Run(NamedTuple):
    group: int
    first: int
    count: int


class Volume:
    """A volume set: its runs, joined in order, and its write control."""

    def __init__(self, runs):
        self.runs = runs
        self.writes = True


class Array:
    """What is configured on a bus, by number."""

    def __init__(self, bus):
        self.bus = bus
        self.groups = {}
        self.volumes = {}

    def make_group(self, number, code, depth, extents):
        ask(code < len(METHODS), FIELD)
        method = METHODS[code]
        rows = extents[0].count if extents else 0
        refused = refusal(method, len(extents), depth, rows)
        # That extents can't be so long is asked later, with their ends.
        ask(refused != OUT_OF_RULE, FIELD)
        ask(all(extent.count == rows for extent in extents), FIELD)
        for extent in extents:
            self.bus.drive(extent.drive)
        ask(number < MOST_GROUPS and number not in self.groups, NOT_CONFIGURED)
        for drive, start, count in extents:
            ask(start + count <= self.bus.drive(drive).capacity, OUTSIDE)
        for group in self.groups.values():
            for extent in extents:
                assigned = any(shared(extent, other) for other in group.extents)
                ask(not assigned, CONFLICT)
        ask(len({extent.drive for extent in extents}) == len(extents), CONFLICT)
        group = Group(number, method, depth, extents)
        group.fill(self.bus)
        self.groups[number] = group

    def delete_group(self, number):
        ask(number in self.groups, NOT_CONFIGURED)
        runs = [run for volume in self.volumes.values() for run in volume.runs]
        ask(all(run.group != number for run in runs), CONFLICT)
        del self.groups[number]

    def make_volume(self, number, runs):
        ask(1 <= len(runs) <= MOST_RUNS, FIELD)
        ask(all(run.count >= 1 for run in runs), FIELD)
        ask(all(run.group in self.groups for run in runs), NOT_CONFIGURED)
        ask(number < MOST_VOLUMES and number not in self.volumes, NOT_CONFIGURED)
        for group, first, count in runs:
            ask(first + count <= self.groups[group].blocks, OUTSIDE)
        for volume in self.volumes.values():
            for run in runs:
                assigned = any(shared(run, other) for other in volume.runs)
                ask(not assigned, CONFLICT)
        ask(not any(shared(*pair) for pair in combinations(runs, 2)), CONFLICT)
        self.volumes[number] = Volume(runs)

    def delete_volume(self, number):
        ask(number in self.volumes, NOT_CONFIGURED)
        del self.volumes[number]

    def control_writes(self, number, enabled):
        """Set the write control of a volume set, or of all for None."""
        if number is not None:
            ask(number in self.volumes, NOT_CONFIGURED)
        for volume in self.volumes:
            if number in (None, volume):
                self.volumes[volume].writes = enabled

    def find(self, number, block):
        """Return the group and protected block of a volume set's block."""
        ask(number in self.volumes, NOT_CONFIGURED)
        for group, first, count in self.volumes[number].runs:
            if block < count:
                return self.groups[group], first + block
            block -= count
        raise Refused(OUTSIDE)

    def map(self, number, block):
        """Return the (drive, block) that is home to a volume set's block."""
        group, protected = self.find(number, block)
        member, row = group.place(protected)
        drive, start, _ = group.extents[member]
        return drive, start + row

    def admit(self, number, block, length):
        """Return where a block lies that a buffer of this length is for."""
        ask(number in self.volumes, NOT_CONFIGURED)
        ask(length >= BLOCK, LENGTH)
        return self.find(number, block)

    def read(self, number, block, length):
        """Return a buffer of this length with the block in its front."""
        group, protected = self.admit(number, block, length)
        try:
            front = group.read(self.bus, protected)
        except Refused as refused:
            raise refused.seen_from(f"volume {number} block {block}") from None
        return front + FRESH * (length - BLOCK)

    def write(self, number, block, data):
        group, protected = self.admit(number, block, len(data))
        ask(self.volumes[number].writes, WRITES_OFF)
        try:
            group.write(self.bus, protected, data[:BLOCK])
        except Refused as refused:
            raise refused.seen_from(f"volume {number} block {block}") from None


# Lines


def split(line):
    """Return the words of a line, without its comment."""
    return [word for word in re.split("[ \t]+", line.partition("#")[0]) if word]


def number_of(word):
    """Return the number that a word stands for."""
    digits = word.lstrip("0")
    if re.fullmatch("[0-9]+", word) and len(digits) <= len(str(MOST_NUMBER)):
        number = int(digits or "0")
        if number <= MOST_NUMBER:
            return number
    raise Malformed(f"not a number from 0 to {MOST_NUMBER}")


class Words:
    """The words of a line that are not read yet."""

    def __init__(self, words):
        self.words = words

    def next(self):
        if not self.words:
            raise Malformed("a word is missing")
        return self.words.pop(0)

    def one_of(self, *choices):
        word = self.next()
        if word not in choices:
            raise Malformed("unknown word")
        return word

    def end(self):
        if self.words:
            raise Malformed("a word too many")

    def number(self):
        return number_of(self.next())

    def numbers(self, count):
        """Return the numbers that end the line."""
        numbers = [self.number() for _ in range(count)]
        self.end()
        return numbers

    def method(self):
        """Return a method's code, given by its name or as a number."""
        word = self.next()
        return METHODS.index(word) if word in METHODS else number_of(word)

    def triples(self):
        """Return the number triples that the rest of the line lists."""
        triples = []
        while self.words:
            parts = self.next().split(":")
            if len(parts) != 3:
                raise Malformed("not three numbers joined by colons")
            triples.append([number_of(part) for part in parts])
        return triples

    def length(self):
        """Return the length of a buffer, which ends the line."""
        length = self.number()
        self.end()
        check_length(length)
        return length

    def data(self):
        """Return the bytes that the rest of the line spells."""
        data = spelled(self.next(), 0)
        while self.words:
            data += spelled(self.next(), len(data))
        return data


def check_length(length):
    if length > MOST_BYTES:
        raise Malformed(f"a buffer is at most {MOST_BYTES} bytes")


def spelled(word, before):
    """Return the bytes of a word that stands behind so many others."""
    count, star, value = word.partition("*")
    form = "[0-9A-Fa-f]{2}" if star else "([0-9A-Fa-f]{2})+"
    unit = value if star else word
    if not re.fullmatch(form, unit):
        raise Malformed("not a byte string")
    times = number_of(count) if star else 1
    check_length(before + times * (len(unit) // 2))
    return bytes.fromhex(unit) * times


def show(data):
    """Return bytes in printed form, as their longest runs."""
    runs = [f"{len(list(run))}*{byte:02x}" for byte, run in groupby(data)]
    return " ".join(runs) or "0"


# The console


class Console:
    """A script's bus and array.

    Each call reads all its words before anything is changed, and returns
    what is printed behind `ok`.
    """

    def __init__(self):
        self.bus = None
        self.array = None

    def answer(self, number, line):
        """Return the texts that may answer a line, the model's own first.

        A line with no word has none.
        """
        words = split(line)
        if not words:
            return []
        try:
            more = self.call(words[0], Words(words[1:]))
        except Malformed as wrong:
            return [f"error: {number}: {wrong}"]
        except Refused as refused:
            return refused.texts()
        return [f"ok {more}" if more else "ok"]

    def call(self, name, words):
        calls = {
            "bus": self.start,
            "break": self.tell,
            "broken": self.broken,
            "peek": self.peek,
            "poke": self.poke,
            "raw": self.raw,
            "group": self.group,
            "volume": self.volume,
            "delete": self.delete,
            "writes": self.writes,
            "map": self.map,
            "read": self.read,
            "write": self.write,
        }
        if name not in calls:
            raise Malformed("unknown word")
        if self.bus is None and name != "bus":
            raise Malformed("there is no bus yet")
        return calls[name](words)

    def start(self, words):
        shelves = [(words.number(), words.number())]
        if words.words:
            shelves.append((words.number(), words.number()))
        words.end()
        ask(sum(count for count, _ in shelves) <= MOST_DRIVES, FIELD)
        ask(all(1 <= capacity <= MOST_BLOCKS for _, capacity in shelves), FIELD)
        self.bus = Bus([capacity for count, capacity in shelves for _ in range(count)])
        self.array = Array(self.bus)

    def tell(self, words):
        number = words.number()
        accesses = 0
        if words.words:
            accesses = words.number()
            words.end()
            if accesses == 0:
                raise Malformed("accesses are counted from 1")
        drive = self.bus.drive(number)
        if not drive.broken:
            drive.left = accesses

    def broken(self, words):
        words.end()
        return " ".join("1" if drive.broken else "0" for drive in self.bus.drives)

    def peek(self, words):
        drive, block, length = words.number(), words.number(), words.length()
        return show(self.bus.read(drive, block, length))

    def poke(self, words):
        drive, block, data = words.number(), words.number(), words.data()
        if self.array.groups:
            raise Malformed("the array has extents")
        self.bus.write(drive, block, data)

    def raw(self, words):
        number, block = words.numbers(2)
        drive = self.bus.drive(number)
        ask(block < drive.capacity, OUTSIDE)
        return show(drive.block(block))

    def group(self, words):
        number, code, depth = words.number(), words.method(), words.number()
        extents = [Extent(*triple) for triple in words.triples()]
        self.array.make_group(number, code, depth, extents)

    def volume(self, words):
        number = words.number()
        runs = [Run(*triple) for triple in words.triples()]
        self.array.make_volume(number, runs)

    def delete(self, words):
        kind = words.one_of("group", "volume")
        (number,) = words.numbers(1)
        if kind == "group":
            self.array.delete_group(number)
        else:
            self.array.delete_volume(number)

    def writes(self, words):
        which = words.next()
        number = None if which == "all" else number_of(which)
        enabled = words.one_of("on", "off") == "on"
        words.end()
        self.array.control_writes(number, enabled)

    def map(self, words):
        number, block = words.numbers(2)
        drive, at = self.array.map(number, block)
        return f"{drive} {at}"

    def read(self, words):
        number, block, length = words.number(), words.number(), words.length()
        return show(self.array.read(number, block, length))

    def write(self, words):
        number, block, data = words.number(), words.number(), words.data()
        self.array.write(number, block, data)


# Printing and comparing


def lines_of(data):
    """Return the lines of a file, which may hold any bytes."""
    lines = data.decode("latin-1").split("\n")
    return lines[:-1] if lines[-1] == "" else lines


def answers_to(script):
    """Yield each line that is answered: its number, itself, its answers."""
    console = Console()
    for number, line in enumerate(script, 1):
        texts = console.answer(number, line)
        if texts:
            yield number, line, texts


def agree(texts, printed):
    """Return whether a printed line is one of the answers a line may get."""
    error = re.match("error: [0-9]+: ", texts[0])
    if error:
        return printed.startswith(error.group())
    return printed in texts


def compare(script, printed):
    """Return a message about the first difference, and None without one."""
    count = 0
    for number, line, texts in answers_to(script):
        if count == len(printed):
            return f"line {number}: {line}\n  no answer\n  model:   {texts[0]}"
        if not agree(texts, printed[count]):
            answers = f"  printed: {printed[count]}\n  model:   {texts[0]}"
            return f"line {number}: {line}\n{answers}"
        count += 1
    if count < len(printed):
        return f"one answer too many: {printed[count]}"
    return None


def main():
    parser = argparse.ArgumentParser(description="A model of the console.")
    parser.add_argument(
        "--compare",
        metavar="EXPECTED",
        type=argparse.FileType("rb"),
        help="compare with what a console printed for the script",
    )
    expected = parser.parse_args().compare
    script = lines_of(sys.stdin.buffer.read())
    if expected:
        printed = lines_of(expected.read())
        difference = compare(script, printed)
        if difference:
            sys.exit(difference)
        print(f"{len(printed)} answers agree")
        return
    malformed = False
    for _, _, texts in answers_to(script):
        malformed |= texts[0].startswith("error:")
        print(texts[0])
    sys.exit(1 if malformed else 0)


if __name__ == "__main__":
    main()
