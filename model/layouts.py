"""A model of where a disk array places its blocks.

A group has `members` members of `rows` rows each, a stripe depth and a
method.  The script prints where protected blocks lie for many groups, and
asserts that each small accepted group lays its blocks out soundly.
"""

OUT_OF_RULE = 3  # the refusal of members, depth or rows that break a rule
OUTSIDE = 7  # the refusal of more rows than an extent can have

LEAST_MEMBERS = {"none": 1, "copy": 2, "xor": 3}  # in the order printed
MOST_MEMBERS = 8
MOST_DEPTH = 64
MOST_ROWS = 65536

LISTED_IN_FULL = 400  # most protected blocks printed one by one
CHECKED = 4000  # most protected blocks checked one by one


def refusal(method, members, depth, rows):
    """Return the number that a group of this shape is refused with, if any."""
    if not LEAST_MEMBERS[method] <= members <= MOST_MEMBERS:
        return OUT_OF_RULE
    if not 1 <= depth <= MOST_DEPTH or rows < 1:
        return OUT_OF_RULE
    # Strips are whole; under xor each member holds the check equally often.
    unit = depth * members if method == "xor" else depth
    if rows % unit != 0:
        return OUT_OF_RULE
    return OUTSIDE if rows > MOST_ROWS else None


def data_members(method, members):
    """Return how many members of a strip hold distinct protected blocks."""
    return {"none": members, "copy": 1, "xor": members - 1}[method]


def protected_blocks(method, members, rows):
    """Return how many protected blocks a group holds."""
    return data_members(method, members) * rows


def check_member(members, depth, row):
    """Return the member holding the check block of a row, under xor."""
    return row // depth % members


def place(method, members, depth, block):
    """Return the (member, row) that is home to a protected block."""
    if method == "copy":
        return 0, block
    strip, within = divmod(block, depth * data_members(method, members))
    position, offset = divmod(within, depth)
    row = strip * depth + offset
    # Under xor, positions from the check member on move up by one to skip it.
    if method == "xor" and position >= check_member(members, depth, row):
        position += 1
    return position, row


def check_group(method, members, depth, rows):
    """Assert that homes are distinct, in the grid, and leave no gap."""
    count = protected_blocks(method, members, rows)
    grid = {(member, row) for member in range(members) for row in range(rows)}
    homes = {place(method, members, depth, block) for block in range(count)}
    assert len(homes) == count, "two protected blocks have one place"
    assert homes <= grid, "a protected block lies outside the grid"
    checks = set()
    if method == "xor":
        checks = {(check_member(members, depth, row), row) for row in range(rows)}
    assert not homes & checks, "a protected block lies on a check block"
    if method != "copy":
        assert homes | checks == grid, "a place in the grid is left unused"


def distinct(values):
    """Return the values without repeats, in order of first occurrence."""
    return list(dict.fromkeys(values))


def describe(method, members, depth, rows):
    """Return the output line for one group."""
    shape = f"{method} {members} {depth} {rows}"
    refused = refusal(method, members, depth, rows)
    if refused is not None:
        return f"{shape} refused {refused}"
    count = protected_blocks(method, members, rows)
    words = [shape, str(count)]
    sampled = count > LISTED_IN_FULL
    if sampled:
        ends = (0, 1, depth - 1, depth, count // 2, count - 2, count - 1)
        blocks = [block for block in distinct(ends) if block >= 0]
    else:
        blocks = range(count)
    for block in blocks:
        member, row = place(method, members, depth, block)
        words.append(f"{block}:{member},{row}" if sampled else f"{member},{row}")
    return " ".join(words)


def shapes():
    """Yield every group shape to print, good and bad, in order."""
    for method in LEAST_MEMBERS:
        for members in range(10):
            for depth in (0, 1, 2, 3, 5, 64, 65):
                turn = depth * members
                for rows in distinct(
                    (0, 1, depth, depth + 1, turn, 2 * turn, 65536, 65537)
                ):
                    yield method, members, depth, rows


def main():
    for shape in shapes():
        method, members, _, rows = shape
        if refusal(*shape) is None and protected_blocks(method, members, rows) <= CHECKED:
            check_group(*shape)
        print(describe(*shape))


if __name__ == "__main__":
    main()
