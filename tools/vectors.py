#!/usr/bin/env python3
"""Writes test cases for the plan file reader, the plan check, the finder and
the plan file writer.

Written from document 01 and request 01 of document 02, apart from the Rust
model.  The stream on standard output holds one case after the other, each
with its kind in front, all numbers little-endian:

    u8 0, for the reader, the check and the finder,
    u32 file length, file, u32 roll length, roll,
    u8 verdict number, u32 verdict index,
    u8 which (0 file, 1 roll), u32 start, u32 length

    u8 1, for the writer,
    104 bytes of a plan with eight slots, u32 length of the buffer lent,
    u8 verdict number, u32 verdict index, u32 length, the bytes written

`vectors.py --count` prints how often each number occurs instead.
"""

import struct
import sys

# --- Document 01: the plan -------------------------------------------------

MOST = 36000


def refusal_of_plan(n, yard, devices):
    """(number, index) for the body's numbers, or (0, 0).

    yard is (W, B, Q); devices is a list of tuples (F, E, R, X, G, S): all
    eight slots, or the n of a file, where n is 2..8 already and no slot above
    it exists, so number 1 cannot come and number 3 only for device N.
    """
    # 1.
    if not 2 <= n <= 8:
        return 1, 0
    wait, base_rest, request = yard
    dev = dict(enumerate(devices, start=1))

    def stay(i):
        return sum(dev[i][1:4])

    span = stay(1)

    # 2, c1: the yard's times have index 0, then device by device.
    for time in (wait, base_rest, request):
        if not 1 <= time <= MOST:
            return 2, 0
    for i in range(1, n + 1):
        times = dev[i] if i < n else dev[i][:4]
        if min(times) < 1 or max(times) > MOST:
            return 2, i
    # 3: G and S of device N, then the slots above it.
    if dev[n][4:] != (0, 0):
        return 3, n
    for i in range(n + 1, len(dev) + 1):
        if any(dev[i]):
            return 3, i
    # 4, c2.
    if span <= n * wait:
        return 4, 0
    # 5, c3: strict on both sides.
    if request <= (n - 1) * wait or request >= span:
        return 5, 0
    # 6, c4: equality is fine.
    for i in range(1, n + 1):
        if (i - 1) * wait + stay(i) > span:
            return 6, i
    # 7, c5.
    for i in range(1, n):
        if dev[i][1] + dev[i][4] >= dev[i + 1][1]:
            return 7, i
    # 8, c6.
    for i in range(1, n):
        if dev[i][1] + dev[i][2] <= wait + stay(i + 1):
            return 8, i
    # 9, c7.
    for i in range(1, n):
        if dev[i][3] <= dev[i][5]:
            return 9, i
    return 0, 0


# --- Document 01: the plan file --------------------------------------------


def read_file(data):
    """((number, index), body's (start, length) or None, n or None)."""
    size = len(data)
    if size < 42 or size > 65536:
        return (14, 0), None, None
    body_len, version, distance, last = struct.unpack("<HHI2s", data[-10:])
    if last != b"\x59\x50":
        return (15, 0), None, None
    if version != 1:
        return (16, 0), None, None
    if body_len not in (32, 44, 56, 68, 80, 92, 104):
        return (17, 0), None, None
    n = (body_len - 8) // 12
    if distance < body_len + 10 or distance > size:
        return (18, 0), None, None
    start = size - distance
    numbers = struct.unpack_from("<%dH" % (body_len // 2), data, start)
    if numbers[0] != n:
        return (19, 0), None, None
    devices = [numbers[4 + 6 * k:10 + 6 * k] for k in range(n)]
    verdict = refusal_of_plan(n, numbers[1:4], devices)
    return verdict, (start, body_len), n


# --- Document 01: the roll and the finder ----------------------------------


def record_is_good(n, record):
    command, flags, willing, lost = record
    return (command in (0, 1, 2)
            and flags < 4
            and willing < 2 ** (n - 1)
            and lost < 2 ** n)


def refusal_of_roll(n, roll):
    if len(roll) % 4:
        return 12, 0
    for number in range(1, len(roll) // 4 + 1):
        if not record_is_good(n, roll[4 * number - 4:4 * number]):
            return 10, number
    return 0, 0


def answer(data, roll):
    """(number, index, which, start, length) for one case."""
    verdict, body, n = read_file(data)
    if verdict[0] >= 14:
        length = min(10, len(data))
        return verdict + (0, len(data) - length, length)
    if verdict[0] != 0:
        return verdict + (0,) + body
    # Only now is the roll looked at.
    verdict = refusal_of_roll(n, roll)
    if verdict[0] == 12:
        whole = len(roll) - len(roll) % 4
        return verdict + (1, whole, len(roll) - whole)
    if verdict[0] == 10:
        return verdict + (1, 4 * (verdict[1] - 1), 4)
    return verdict + (1, len(roll), 0)


# --- Document 02, request 01: the writer -----------------------------------


def write_file(plan, room):
    """((number, index), the bytes written) for 52 numbers, into `room` bytes."""
    n = plan[0]
    slots = [tuple(plan[4 + 6 * k:10 + 6 * k]) for k in range(8)]
    verdict = refusal_of_plan(n, plan[1:4], slots)
    if verdict[0] != 0:
        return verdict, b""
    if room < 18 + 12 * n:
        return (20, 0), b""
    body = struct.pack("<%dH" % (4 + 6 * n), *plan[:4 + 6 * n])
    # The body first and the trailer straight after it: it lies as far back
    # as the file is long.
    trailer = struct.pack("<HHI2s", 8 + 12 * n, 1, 18 + 12 * n, b"\x59\x50")
    return (0, 0), body + trailer


# --- Random numbers: our own, so that every Python gives the same bytes -----


class Dice:
    """A 64-bit linear congruential generator; the high bits are used."""

    def __init__(self, seed):
        self.state = seed

    def upto(self, high):
        """0..high-1."""
        self.state = (self.state * 6364136223846793005 + 1442695040888963407) % 2 ** 64
        return (self.state >> 32) * high >> 32

    def between(self, low, high):
        return low + self.upto(high - low + 1)

    def one_in(self, count):
        return self.upto(count) == 0

    def pick(self, choices):
        return choices[self.upto(len(choices))]

    def noise(self, length):
        return bytes(self.upto(256) for _ in range(length))


# --- Making plans ----------------------------------------------------------
#
# A plan here is a list of its numbers in the body's order: N, W, B, Q, then
# F, E, R, X, G, S for each device.


def spot(i, name):
    """Where device i's number `name` stands in the list."""
    return 4 + 6 * (i - 1) + "FERXGS".index(name)


def good_plan(dice, n=None):
    """Numbers that meet c1 to c7, from device N out to device 1."""
    while True:
        count = n or dice.between(2, 8)
        scale = dice.pick([2, 5, 30, 500, 3000])
        wait = dice.between(1, scale)
        enter = 2 * count - 1 + dice.upto(2 * scale)
        inner = [dice.between(1, scale), enter, dice.between(1, scale),
                 dice.between(1, scale), 0, 0]
        chain = [inner]
        for i in range(count - 1, 0, -1):
            enter = dice.between(2 * i - 1, inner[1] - 2)
            gap = inner[1] - enter - 1
            gap = gap if dice.one_in(2) else dice.between(1, gap)
            need = wait + sum(inner[1:4]) - enter + 1
            spacing = dice.between(1, scale)
            inner = [dice.between(1, scale), enter,
                     need + (0 if dice.one_in(2) else dice.upto(scale)),
                     spacing + 1 + (0 if dice.one_in(2) else dice.upto(scale)),
                     gap, spacing]
            chain.insert(0, inner)
        span = sum(chain[0][1:4])
        if span <= count * wait:
            chain[0][2] += count * wait + 1 - span
            span = count * wait + 1
        low, high = (count - 1) * wait + 1, min(span - 1, MOST)
        if low > high:
            continue
        request = dice.pick([low, high, dice.between(low, high)])
        plan = [count, wait, dice.between(1, scale), request] + sum(chain, [])
        if max(plan) <= MOST:
            return plan


def off_by_condition(dice, plan):
    """One number moved to, or next to, the edge of one condition."""
    n, wait, _, request = plan[:4]
    span = sum(plan[spot(1, "E"):spot(1, "X") + 1])
    i = dice.between(1, n - 1)

    def of(device, name):
        return plan[spot(device, name)]

    inner_stay = of(i + 1, "E") + of(i + 1, "R") + of(i + 1, "X")
    edges = [
        (1, span // n),                                               # c2
        (1, request // (n - 1)),                                      # c3
        (3, (n - 1) * wait),                                          # c3
        (3, span),                                                    # c3
        (spot(i + 1, "X"), span - i * wait - of(i + 1, "E") - of(i + 1, "R")),  # c4
        (spot(i + 1, "R"), span - i * wait - of(i + 1, "E") - of(i + 1, "X")),  # c4
        (spot(i, "E"), of(i + 1, "E") - of(i, "G")),                  # c5
        (spot(i, "G"), of(i + 1, "E") - of(i, "E")),                  # c5
        (spot(i, "R"), wait + inner_stay - of(i, "E")),               # c6
        (spot(i + 1, "X"), of(i, "E") + of(i, "R") - wait
         - of(i + 1, "E") - of(i + 1, "R")),                          # c6
        (spot(i, "X"), of(i, "S")),                                   # c7
        (spot(i, "S"), of(i, "X")),                                   # c7
    ]
    at, edge = dice.pick(edges)
    plan[at] = min(max(edge + dice.between(-1, 1), 0), 65535)


def off_by_number(dice, plan):
    """One number (not N) moved a little, or to a limit of c1, or anywhere."""
    at = dice.between(1, len(plan) - 1)
    plan[at] = dice.pick([max(plan[at] - 1, 0), plan[at] + 1, 0, 1, MOST,
                          MOST + 1, 65535, dice.upto(65536)])


def off_by_last_pair(dice, plan):
    """G or S of device N is not zero."""
    plan[spot(plan[0], dice.pick("GS"))] = dice.pick([1, 2, MOST, MOST + 1, 65535])


def any_numbers(dice, plan):
    for at in range(1, len(plan)):
        plan[at] = dice.pick([dice.upto(12), dice.between(1, 40), dice.upto(65536)])


# --- Making files ----------------------------------------------------------


def notes(dice):
    if dice.one_in(2):
        return b""
    if dice.one_in(3):
        # Notes that look like a trailer, to lead a reader astray.
        return dice.noise(dice.upto(9)) + b"\x20\x00\x01\x00\x2a\x00\x00\x00\x59\x50"
    return dice.noise(dice.upto(50))


def make_file(plan, before=b"", after=b"", **wrong):
    """The file for a plan; `wrong` names trailer fields to set otherwise."""
    body = struct.pack("<%dH" % len(plan), *plan)
    trailer = {
        "body_len": len(body),
        "version": 1,
        "distance": len(body) + len(after) + 10,
        "last": b"\x59\x50",
    }
    trailer.update(wrong)
    return before + body + after + struct.pack(
        "<HHI2s", trailer["body_len"], trailer["version"], trailer["distance"],
        trailer["last"])


def with_notes(dice, plan, **wrong):
    return make_file(plan, notes(dice), notes(dice), **wrong)


def wrong_length(dice):
    """The end of a good file, too short; the trailer is whole in most."""
    data = with_notes(dice, good_plan(dice))
    return data[len(data) - dice.pick([0, 1, 2, 8, 9, 10, 11, 30, 40, 41]):]


def wrong_last(dice):
    last = dice.pick([b"\x50\x59", b"\x59\x51", b"\x58\x50", b"\x00\x00", b"\xff\x50"])
    return with_notes(dice, good_plan(dice), last=last)


def wrong_version(dice):
    return with_notes(dice, good_plan(dice), version=dice.pick([0, 2, 256, 257, 65535]))


def wrong_body_len(dice):
    plan = good_plan(dice)
    right = 2 * len(plan)
    length = dice.pick([right - 1, right + 1, right - 2, 0, 8, 20, 116, 128, 65535,
                        right + 6, right * 256 % 65536])
    return with_notes(dice, plan, body_len=length)


def other_body_len(dice):
    """A body length that is a good one, but for another n: 18, 19 or worse."""
    return with_notes(dice, good_plan(dice), body_len=8 + 12 * dice.between(2, 8))


def wrong_distance(dice):
    plan = good_plan(dice)
    before, after = notes(dice), notes(dice)
    size = len(before) + 2 * len(plan) + len(after) + 10
    distance = dice.pick([2 * len(plan) + 9, size + 1, 0, 10, 2 ** 32 - 1, 2 ** 31,
                          65536 + size, dice.upto(2 ** 32), 2 * len(plan)])
    return make_file(plan, before, after, distance=distance)


def shifted_distance(dice):
    """A distance within the limits that points somewhere else."""
    plan = good_plan(dice)
    before, after = dice.noise(dice.upto(40)), dice.noise(dice.upto(40))
    least = 2 * len(plan) + 10
    most = len(before) + least + len(after)
    return make_file(plan, before, after, distance=dice.between(least, most))


def wrong_n(dice):
    plan = good_plan(dice)
    plan[0] = dice.pick([0, 1, 2, 3, 4, 5, 6, 7, 8, 9, plan[0] + 256, plan[0] - 1,
                         plan[0] + 1, 65535])
    return with_notes(dice, plan)


def two_wrongs(dice):
    """Two things off at once: the order decides."""
    plan = good_plan(dice)
    if dice.one_in(2):
        off_by_condition(dice, plan)
    if dice.one_in(3):
        plan[0] = dice.upto(10)
    choices = {
        "last": b"\x59\x59",
        "version": 3,
        "body_len": dice.pick([31, 116, 2 * len(plan) + 12]),
        "distance": dice.pick([9, 70000]),
    }
    wrong = {name: value for name, value in choices.items() if dice.one_in(3)}
    return with_notes(dice, plan, **wrong)


def wrong_plan(dice):
    plan = good_plan(dice)
    kinds = [off_by_condition] * 5 + [off_by_number] * 2 + [off_by_last_pair, any_numbers]
    for _ in range(1 if dice.upto(4) else 2):
        dice.pick(kinds)(dice, plan)
    return with_notes(dice, plan)


def right(dice):
    return with_notes(dice, good_plan(dice))


def noisy(dice):
    """A good file with a byte or two changed anywhere."""
    data = bytearray(right(dice))
    for _ in range(dice.between(1, 2)):
        data[dice.upto(len(data))] = dice.upto(256)
    return bytes(data)


# --- Making rolls ----------------------------------------------------------


def good_record(dice, n):
    return bytes([dice.upto(3), dice.upto(4), dice.upto(2 ** (n - 1)), dice.upto(2 ** n)])


def bad_record(dice, n):
    record = bytearray(good_record(dice, n))
    at = dice.upto(4)
    limit = [3, 4, 2 ** (n - 1), 2 ** n][at]
    if limit > 255:
        at, limit = 0, 3
    record[at] = dice.pick([limit, 255, dice.between(limit, 255)])
    return bytes(record)


def some_roll(dice, n):
    """Empty, good, bad in one place, bad in many, or with leftover bytes."""
    kind = dice.upto(10)
    if kind == 0:
        return b""
    count = dice.between(1, 9)
    records = [good_record(dice, n) for _ in range(count)]
    if kind in (1, 2, 3):
        records[dice.upto(count)] = bad_record(dice, n)
    if kind == 4:
        records = [bad_record(dice, n) for _ in range(count)]
    roll = b"".join(records)
    if kind in (5, 6):
        roll += dice.noise(dice.between(1, 3))
    if kind == 7:
        roll = dice.noise(dice.between(1, 11))
    return roll


# --- Making plans to be written --------------------------------------------


def eight_slots(plan):
    """The list with zeros for the slots above N."""
    return plan + [0] * (52 - len(plan))


def some_room(dice, n):
    """Within a byte of what the file takes, or anywhere around it."""
    whole = 18 + 12 * n
    return dice.pick([whole - 1, whole, whole + 1, dice.upto(whole),
                      whole + dice.upto(40)])


def good_write(dice):
    return eight_slots(good_plan(dice))


def wrong_write(dice):
    plan = good_plan(dice)
    kinds = [off_by_condition] * 5 + [off_by_number] * 2 + [off_by_last_pair, any_numbers]
    dice.pick(kinds)(dice, plan)
    return eight_slots(plan)


def slot_above(dice):
    """A number in a slot above N, or any N over the same slots."""
    plan = eight_slots(good_plan(dice, dice.between(2, 7)))
    if dice.one_in(2):
        plan[0] = dice.between(2, 8)
    else:
        plan[dice.between(4 + 6 * plan[0], 51)] = dice.pick([1, 256, MOST, 65535])
    return plan


def wrong_count(dice):
    plan = good_write(dice)
    plan[0] = dice.pick([0, 1, 9, 256, plan[0] + 256, 65535])
    return plan


# --- The cases -------------------------------------------------------------


def filled(dice, size):
    """A good file of `size` bytes, notes on both sides of the body."""
    plan = good_plan(dice)
    room = size - 2 * len(plan) - 10
    before = dice.upto(room + 1)
    return make_file(plan, b"\x59" * before, b"\x50" * (room - before))


def limit_cases(dice):
    """Files of 41, 42, 65,536 and 65,537 bytes, and a few long rolls."""
    smallest = make_file(good_plan(dice, 2))
    broken = good_plan(dice, 2)
    broken[3] = broken[1]
    yield smallest, b""
    yield smallest, b"\0\1\1\0" * 3
    yield smallest[1:], b""
    yield smallest[:41], b"\0" * 4
    yield make_file(broken), b"\0" * 3
    for size in (65535, 65536, 65536, 65537, 65537):
        yield filled(dice, size), b"\1\1\1\0"
    # The body at the very start of the largest file, refused by c3.
    room = 65536 - 2 * len(broken) - 10
    yield make_file(broken, b"", bytes(room)), b""
    # The same, one byte further than the file reaches.
    yield make_file(broken, b"", bytes(room), distance=65537), b""
    # Longer than the program looks; the finder looks at it all.
    yield smallest, b"\0\1\1\0" * 10002 + b"\3\0\0\0"
    yield smallest, b"\0\1\1\0" * 10000 + b"\3\0"


KINDS = [
    (right, 1000),
    (wrong_plan, 1700),
    (wrong_length, 120),
    (wrong_last, 100),
    (wrong_version, 100),
    (wrong_body_len, 120),
    (other_body_len, 140),
    (wrong_distance, 140),
    (shifted_distance, 150),
    (wrong_n, 160),
    (two_wrongs, 200),
    (noisy, 200),
]


def cases():
    dice = Dice(20240101)
    yield from limit_cases(dice)
    for kind, count in KINDS:
        for _ in range(count):
            data = kind(dice)
            # The roll is made for the file's n where there is one, else any.
            n = read_file(data)[2] or dice.between(2, 8)
            yield data, some_roll(dice, n)


def room_edges(dice):
    """Every n with no room, a byte short, just enough, a byte over, and with
    the room that one device fewer or more takes; then a plan that is refused."""
    for n in range(2, 9):
        whole = 18 + 12 * n
        for room in (0, 1, whole - 12, whole - 1, whole, whole + 1, whole + 12, 1000):
            for _ in range(4):
                yield eight_slots(good_plan(dice, n)), room
            refused = eight_slots(good_plan(dice, n))
            refused[2] = 0
            yield refused, room


WRITES = [
    (good_write, 400),
    (wrong_write, 700),
    (slot_above, 100),
    (wrong_count, 60),
]


def worked_writes():
    """Plan P and the laser's of document 01, with just enough room and a byte less."""
    plan_p = [2, 1, 1, 3, 1, 1, 7, 2, 1, 1, 1, 3, 2, 1, 0, 0]
    laser = [2, 30, 130, 50, 1, 30, 350, 60, 30, 15, 1, 100, 200, 15, 0, 0]
    for plan in (plan_p, laser):
        yield eight_slots(plan), 42
        yield eight_slots(plan), 41


def writes():
    # Dice of their own: the other cases stay as they are.
    dice = Dice(20240201)
    yield from worked_writes()
    yield from room_edges(dice)
    for kind, count in WRITES:
        for _ in range(count):
            plan = kind(dice)
            yield plan, some_room(dice, min(plan[0], 8))


def stream():
    for data, roll in cases():
        yield b"".join([
            b"\0",
            struct.pack("<I", len(data)), data,
            struct.pack("<I", len(roll)), roll,
            struct.pack("<BIBII", *answer(data, roll)),
        ])
    for plan, room in writes():
        (number, index), written = write_file(plan, room)
        yield b"".join([
            b"\1",
            struct.pack("<52H", *plan), struct.pack("<I", room),
            struct.pack("<BII", number, index, len(written)), written,
        ])


def tally(table, key):
    table[key] = table.get(key, 0) + 1


def count_reads():
    numbers, pieces = {}, {}
    for data, roll in cases():
        number, _, which, _, length = answer(data, roll)
        tally(numbers, number)
        tally(pieces, "%s, %s" % (("file", "roll")[which], "a piece" if length else "empty"))
    for number in sorted(numbers):
        print(number, numbers[number])
    for name in sorted(pieces):
        print("finder: %s: %d" % (name, pieces[name]))
    return sum(numbers.values())


def room_of(n, room):
    beside = room - (18 + 12 * n)
    if beside in (-1, 0, 1):
        return "%d + 12 N" % (18 + beside)
    return "less" if beside < 0 else "more"


def count_writes():
    numbers, rooms = {}, {}
    for plan, room in writes():
        (number, _), _ = write_file(plan, room)
        tally(numbers, number)
        if number in (0, 20):
            tally(rooms, (plan[0], room_of(plan[0], room), number))
    for number in sorted(numbers):
        print("writer: %d %d" % (number, numbers[number]))
    for n, room, number in sorted(rooms):
        print("writer: N %d, room %s: %d, %d" % (n, room, number, rooms[n, room, number]))
    return sum(numbers.values())


def count():
    print("cases:", count_reads() + count_writes())


def main():
    if sys.argv[1:] == ["--count"]:
        count()
    elif sys.argv[1:]:
        sys.exit("usage: vectors.py [--count]")
    else:
        for piece in stream():
            sys.stdout.buffer.write(piece)


if __name__ == "__main__":
    main()
