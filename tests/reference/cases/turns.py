"""Cases for the table of fair turns (acts 81 to 87). Runs of calls are held to W-213 as they are made."""
import random
from functools import cache

from acts import TURNS
from cases.making import pattern
from encoding import CALL, table_bytes
from turns import HIGHEST, SLOTS, new, with_slot

ADD, REMOVE, MARK, CLEAR, TURN = 82, 83, 84, 85, 86
ALL = range(1, SLOTS + 1)
WIDEST_ADDRESS = 2 ** 32 - 1
WIDEST = 2 ** 64 - 1


def table(held, due=(), last=32):
    """Held is {slot: address}, due are slots."""
    return tuple(held.get(slot, 0) for slot in ALL), tuple(slot in due for slot in ALL), last


def asked(table, *argument):
    """A call of a table: its last asked slot and what the call takes; the slots."""
    return [table[2], *argument], [b"", table_bytes(table)]


def meters(slots=ALL, begin=12_345_600, step=7):
    return {slot: begin + step * slot for slot in slots}


EMPTY = (3, 9, 20, 30)
METERS = meters()
NEW_ADDRESS = 77_777_777
SOME = table({slot: METERS[slot] for slot in ALL if slot not in EMPTY}, due=(4, 6, 13, 31), last=7)
FULL = table(METERS, due=(4, 6, 13, 31), last=7)
IDLE = table({slot: METERS[slot] for slot in ALL if slot not in EMPTY}, last=7)


# 20: each reason beside the nearest table that has it not. A reason is a function of a table.

def asked_last(last):
    return lambda t: (t[0], t[1], last)


def holding(slot, address):
    return lambda t: (with_slot(t[0], slot, address), t[1], t[2])


def holding_as(slot, other, more=0):
    return lambda t: (with_slot(t[0], slot, t[0][other - 1] + more), t[1], t[2])


def emptied(slot, due):
    return lambda t: (with_slot(t[0], slot, 0), with_slot(t[1], slot, due), t[2])


# a last asked slot that is outside, and one that it would be in 5, 8, 16 or 32 bits, or that is the nearest
LASTS = [(0, 1), (33, 32), (33, 1), (32 + 31, 31), (256, 1), (256 + 7, 7), (2 ** 16 + 32, 32), (2 ** 32, 1), (2 ** 32 + 1, 1), (2 ** 32 + 32, 32), (2 ** 63 + 31, 31),
         (WIDEST, 31)]
ADDRESSES = [(HIGHEST + 1, HIGHEST), (WIDEST_ADDRESS, 1)]
PAIRS = [(1, 2), (1, 32), (31, 32), (5, 17)]
APART = [1, 256, 65_536, 256]
UNFIT = [
    *[(asked_last(bad), asked_last(good)) for bad, good in LASTS],
    *[(holding(slot, bad), holding(slot, good)) for slot in (1, 17, 32) for bad, good in ADDRESSES],
    *[(holding_as(slot, other), holding_as(slot, other, more)) for (other, slot), more in zip(PAIRS, APART)],
    *[(emptied(slot, True), emptied(slot, False)) for slot in (1, 17, 32)],
]

# (number, table, what the call takes): the call by itself, and each other number that 20 comes before
SITUATIONS = {
    ADD: [(0, SOME, [NEW_ADDRESS]), (100, SOME, [0]), (100, FULL, [HIGHEST + 1]), (103, SOME, [METERS[4]]), (103, FULL, [METERS[4]]), (104, FULL, [NEW_ADDRESS])],
    TURN: [(0, SOME, []), (105, IDLE, [])],
    **{act: [(0, SOME, [4]), (101, SOME, [0]), (101, SOME, [33]), (102, SOME, [9])] for act in (REMOVE, MARK, CLEAR)},
}


def unfit(act):
    for number, plain, argument in SITUATIONS[act]:
        yield *asked(plain, *argument), number
        for bad, good in UNFIT:
            yield *asked(bad(plain), *argument), 20
            # a slot that is emptied leaves no full table
            due = 0 if number == 104 and 0 in good(plain)[0] else number
            yield *asked(good(plain), *argument), due
    # two reasons at once
    for one, _ in UNFIT[::3]:
        for other, _ in UNFIT[1::5]:
            yield *asked(one(other(SOME)), *SITUATIONS[act][0][2]), 20


def of_one_byte():
    """(20 or 0, a table, an address that it has not): many or all addresses with the same last byte, 00 among them, with no two the same, and with two or three."""
    for begin, step in ((0x41, 256), (256, 256), (0x41, 65_536), (65_536, 65_536), (99_000_000, 1)):
        for slots in (ALL, [slot for slot in ALL if slot not in EMPTY], [1, 2, 5, 17, 31, 32]):
            held, other = meters(slots, begin, step), begin + 40 * step
            yield 0, table(held, due=(2, 17), last=17), other
            for one, another in PAIRS:
                yield 20, table({**held, another: held[one]}, due=(2, 17), last=17), other
            yield 20, table({**held, 17: held[5], 31: held[5]}, due=(2, 17), last=17), other
    # the same two low bytes, or the low 24 bits, in some; the last byte again far on
    for step in (65_536, 2 ** 24):
        yield 0, table({1: 5, 2: 5 + step, 31: 5 + 2 * step, 32: 5 + 3 * step}, due=(2, 31)), 5 + 4 * step
    for at in (2, 16, 32):
        yield 0, table({**METERS, at: METERS[1] + 256}, due=(2, 31)), METERS[1] + 512
        yield 20, table({**METERS, at: METERS[1]}, due=(2, 31)), METERS[1] + 512


def last_bytes(act):
    for number, one, other in of_one_byte():
        if act == ADD:
            yield *asked(one, other), number or (0 if 0 in one[0] else 104)
            yield *asked(one, one[0][30]), number or 103
        else:
            yield *asked(one, *([] if act == TURN else [31])), number


# The calls by themselves

def add(rng):
    for plain in (new(), SOME, FULL, table({1: 1}), table({32: HIGHEST}), table({1: HIGHEST, 2: 1}, last=1), table(meters(range(1, 32)))):
        for address in (0, 1, 2, HIGHEST - 1, HIGHEST, HIGHEST + 1, 2 ** 27, 2 ** 31, 2 ** 31 + 1, WIDEST_ADDRESS):
            outside = not 1 <= address <= HIGHEST
            yield *asked(plain, address), 100 if outside else 103 if address in plain[0] else 104 if 0 not in plain[0] else 0
    for slot in ALL:
        before, others = meters(range(1, slot)), [other for other in ALL if other != slot]
        # the only empty slot; the first of all that follow; the lowest of three, with last asked on each side
        yield *asked(table(meters(others), due=others[::2], last=slot), NEW_ADDRESS), 0
        yield *asked(table(before, due=list(before)[::3], last=33 - slot), NEW_ADDRESS), 0
        empty = [slot, (slot + 5) % 32 + 1, (slot + 20) % 32 + 1]
        for last in (min(empty), max(empty)):
            yield *asked(table(meters(other for other in ALL if other not in empty), last=last), NEW_ADDRESS), 0
        # present, and beside what is present
        for plain in (FULL, table({**METERS, slot % 32 + 1: 0})):
            yield *asked(plain, METERS[slot]), 103
            yield *asked(plain, METERS[slot] + rng.choice((1, -1, 256, -256, 65_536))), 0 if 0 in plain[0] else 104
    yield *asked(SOME, METERS[3]), 0
    yield *asked(table({32: NEW_ADDRESS}), NEW_ADDRESS), 103
    for more in (256, 65_536, 2 ** 24):
        yield *asked(table({32: NEW_ADDRESS}), NEW_ADDRESS + more), 0


def of_a_slot(act):
    for plain in (new(), SOME, FULL, table({1: 1}, due=[1]), table({32: 1}, due=[32], last=1)):
        for slot in (0, 1, 2, 31, 32, 33, 34, 63, 64, 65, 255, 256, 257, 2 ** 16 + 1, 2 ** 32, 2 ** 32 + 1, 2 ** 32 + 32, 2 ** 63 + 1, WIDEST - 31, WIDEST - 1, WIDEST):
            yield *asked(plain, slot), 101 if not 1 <= slot <= 32 else 102 if plain[0][slot - 1] == 0 else 0
    for slot in ALL:
        others = [other for other in ALL if other != slot]
        # not due and due, among others of which none is due, or some, or all; last asked or not
        for due, last in (([], slot), (others[::2], 33 - slot), ([slot, *others[1::2]], slot), (ALL, 33 - slot)):
            yield *asked(table(METERS, due, last), slot), 0
        # the only empty slot, and the only one that is held
        yield *asked(table(meters(others), due=others[::2], last=slot), slot), 102
        yield *asked(table({slot: METERS[slot]}, due=[slot]), slot), 0


def turn(rng):
    for last in ALL:
        # one due
        for slot in ALL:
            yield *asked(table(METERS, [slot], last)), 0
        # all, none, all but the last asked one; those beside it, with and without it
        before, after = (last - 2) % 32 + 1, last % 32 + 1
        for due in (ALL, [slot for slot in ALL if slot != last], [before, after], [before, last], [last, after], [before, last, after]):
            yield *asked(table(METERS, due, last)), 0
        yield *asked(table(METERS, [], last)), 105
        # the last asked slot is empty, and so are all that are not due
        held = [slot for slot in ALL if slot != last]
        some = rng.sample(held, 3)
        yield *asked(table(meters(held), some, last)), 0
        yield *asked(table(meters(some), some, last)), 0
        yield *asked(table(meters(some), [], last)), 105
        for _ in range(3):
            yield *asked(table(METERS, rng.sample(ALL, rng.randint(2, 31)), last)), 0
    for last in (1, 31, 32):
        yield *asked(table({}, last=last)), 105
        for address in (1, HIGHEST):
            for slot in (1, 2, 31, 32):
                yield *asked(table({slot: address}, [slot], last)), 0
                yield *asked(table({slot: address}, [], last)), 105


# Runs of calls. A call is (act, what it takes).

class Run:
    """Makes calls of the reference one after another, and holds it to W-213."""

    def __init__(self, table):
        self.table, self.waiting, self.longest = table, {}, 0

    def call(self, act, *argument):
        """The number. The slots that are due are known by how many turns they were not given on."""
        before = self.table
        number, values, self.table = TURNS[act](before, *argument)
        assert number != 20
        assert number == 0 or self.table == before
        if act == TURN:
            assert (number == 105) == (not any(before[1]))
            for slot in ALL:
                if before[1][slot - 1]:
                    self.waiting[slot] = self.waiting.get(slot, 0) + 1
            if number == 0:
                self.longest = max(self.longest, self.waiting.pop(values[0]))
            assert self.longest <= SLOTS and all(turns < SLOTS for turns in self.waiting.values())
        # what a call speaks not of stays
        assert number == 0 and act == TURN or self.table[2] == before[2]
        touched = [] if number else [values[0]] if act in (ADD, TURN) else argument
        for slot in ALL:
            assert slot in touched or [column[slot - 1] for column in before[:2]] == [column[slot - 1] for column in self.table[:2]]
        self.waiting = {slot: turns for slot, turns in self.waiting.items() if self.table[1][slot - 1]}
        return number


POOL = [1, 2, HIGHEST, HIGHEST - 1, *(256 * k for k in range(1, 17)), *(0x41 + 65_536 * k for k in range(16)), *range(50_000_001, 50_000_021)]
OUTSIDE = [0, 33, 2 ** 32 + 1, WIDEST]
# how often each call comes: while a table fills, is asked, empties
MOODS = [{ADD: 24, REMOVE: 1, MARK: 3, CLEAR: 1, TURN: 2}, {ADD: 2, REMOVE: 2, MARK: 12, CLEAR: 3, TURN: 14}, {ADD: 2, REMOVE: 12, MARK: 3, CLEAR: 2, TURN: 3}]


def some_call(rng, mood):
    act = rng.choices(list(mood), list(mood.values()))[0]
    if act == TURN:
        return act,
    if act == ADD:
        return act, rng.choice(POOL) if rng.randrange(15) else rng.choice((0, HIGHEST + 1, WIDEST_ADDRESS))
    return act, rng.randint(1, 32) if rng.randrange(15) else rng.choice(OUTSIDE)


def some_calls(rng, count):
    moods = [mood for mood in rng.sample(MOODS, 3) for _ in range(2)] if rng.randrange(2) else [MOODS[0], MOODS[0], MOODS[1], MOODS[1], MOODS[2], MOODS[1]]
    return [some_call(rng, moods[6 * at // count]) for at in range(count)]


def some_table(rng):
    slots = rng.sample(ALL, rng.choice((0, 1, rng.randint(2, 31), 31, 32)))
    return table(dict(zip(slots, rng.sample(POOL, len(slots)))), [slot for slot in slots if rng.randrange(2)], rng.randint(1, 32))


def filled(count=32):
    return [(ADD, METERS[slot]) for slot in range(1, count + 1)]


def all_round(slot):
    """Of a table that is all due, with that slot the last asked: it is given on the 32nd turn, though each slot that is given is due again."""
    calls = []
    for given in [*range(slot + 1, 33), *range(1, slot)]:
        calls += [(TURN,), (MARK, given)]
    return [*calls, (TURN,), (TURN,)]


# from a new table on
COURSES = [
    [],
    [(TURN,)],
    [(ADD, NEW_ADDRESS)],
    [(REMOVE, 1), (MARK, 1), (CLEAR, 1), (MARK, 0), (CLEAR, 33), (REMOVE, WIDEST), (ADD, 0), (ADD, WIDEST_ADDRESS)],
    # an added slot is not due; marked twice, given once
    [(ADD, 1), (TURN,), (MARK, 1), (MARK, 1), (TURN,), (TURN,), (CLEAR, 1), (MARK, 1), (CLEAR, 1), (TURN,)],
    # the last asked one is removed, and then comes a turn
    [*filled(5), (MARK, 2), (MARK, 3), (TURN,), (REMOVE, 2), (MARK, 1), (TURN,), (TURN,), (TURN,)],
    [*filled(5), (MARK, 5), (TURN,), (REMOVE, 5), (MARK, 4), (MARK, 1), (TURN,), (TURN,), (TURN,)],
    # removed while due and added again, to the same slot: not due; the lowest empty first
    [*filled(4), (MARK, 2), (MARK, 4), (REMOVE, 2), (ADD, NEW_ADDRESS), (TURN,), (TURN,), (ADD, METERS[2]), (ADD, METERS[4])],
    [*filled(32), (REMOVE, 30), (REMOVE, 3), (REMOVE, 17), (ADD, METERS[17]), (ADD, METERS[3]), (ADD, METERS[3]), (ADD, METERS[30]), (ADD, NEW_ADDRESS)],
    # a removed address may come again, elsewhere too; the last asked slot is used again
    [*filled(3), (MARK, 3), (TURN,), (REMOVE, 1), (REMOVE, 3), (ADD, METERS[3]), (ADD, METERS[1]), (MARK, 3), (MARK, 1), (TURN,), (TURN,)],
    # full: 103, 104, 100
    [*filled(32), (ADD, METERS[32]), (ADD, METERS[1]), (ADD, NEW_ADDRESS), (ADD, 0), (ADD, HIGHEST + 1), (REMOVE, 32), (ADD, NEW_ADDRESS), (ADD, METERS[32])],
    # all due, once round
    [*filled(32), *[(MARK, slot) for slot in ALL], *[(TURN,)] * 33],
    # exactly 32 turns
    [*filled(32), *[(MARK, slot) for slot in ALL], (TURN,), (MARK, 1), *all_round(1)],
    # marked behind and before the last asked one
    [*filled(6), (MARK, 3), (TURN,), (MARK, 2), (MARK, 4), (TURN,), (MARK, 5), (MARK, 3), (TURN,), (TURN,), (TURN,), (TURN,)],
]


def made(begun, calls):
    """The cases of a run, each with its act: each call is given the table that the one before it left."""
    run, cases = Run(begun), []
    for act, *argument in calls:
        case = asked(run.table, *argument)
        cases.append((act, (*case, run.call(act, *argument))))
    return run, cases


@cache
def runs():
    """The courses call by call; slots that are given on the 32nd turn; a thousand random calls."""
    rng = random.Random(213)
    cases = [case for calls in COURSES for case in made(new(), calls)[1]]
    for slot in (1, 2, 17, 31, 32):
        run, more = made(table(METERS, ALL, slot), all_round(slot))
        # the turn before the last gives the slot itself
        assert run.longest == SLOTS and more[-2][1][2] == 0 and more[-1][1][0] == [slot]
        cases += more
    for begun in (new(), new(), some_table(rng), some_table(rng)):
        cases += made(begun, some_calls(rng, 250))[1]
    for _ in range(30):
        cases += made(some_table(rng), some_calls(rng, 10))[1]
    return cases


def of_runs(act):
    return [case for of, case in runs() if of == act]


def as_course(calls):
    given = b"".join(CALL.pack(act, *([0, 0] if act == TURN else [0, *argument] if act == ADD else [*argument, 0])) for act, *argument in calls)
    return [], [given, pattern(SLOTS * 5 + len(given), 0x31)], 0


def course(rng):
    for calls in COURSES:
        yield as_course(calls)
    seen = set()
    for count in [1, 2, 5, 10, 20, 40, 80, *[110] * 16, 145]:
        calls = (filled(rng.choice((0, 20, 31, 32))) if count == 110 else []) + some_calls(rng, count)
        seen |= {number for _, (_, _, number) in made(new(), calls)[1]}
        yield as_course(calls)
    assert seen == {0, 100, 101, 102, 103, 104, 105}


def new_table(rng):
    for output in (bytes(160), b"\xFF" * 160, pattern(160, 0x31)):
        yield [], [b"", output], 0


def of_act(act, own):
    """The cases of a call: 20, the last bytes of the addresses, its own, and the runs."""
    def cases(rng):
        yield from unfit(act)
        yield from last_bytes(act)
        yield from own(rng)
        yield from of_runs(act)
    return cases


CASES = {
    81: new_table,
    ADD: of_act(ADD, add),
    **{act: of_act(act, lambda rng, act=act: of_a_slot(act)) for act in (REMOVE, MARK, CLEAR)},
    TURN: of_act(TURN, turn),
    87: course,
}
