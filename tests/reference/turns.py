"""02, W-213: fair turns on one line. A table is (addresses, due, last asked): 32 slots, counted from 1, of which an empty one has address 0."""
from refusals import first

SLOTS = 32
HIGHEST = 99_999_999


def new():
    return (0,) * SLOTS, (False,) * SLOTS, 32


def is_twice(addresses):
    """Whether two slots hold the same address; empty slots hold none."""
    held = [address for address in addresses if address != 0]
    return any(held.count(address) > 1 for address in held)


def unfit(table):
    """20, before all else."""
    addresses, due, last = table
    return [(20, lambda: not 1 <= last <= SLOTS
             or any(address > HIGHEST for address in addresses)
             or is_twice(addresses)
             or any(address == 0 and is_due for address, is_due in zip(addresses, due)))]


def with_slot(column, slot, value):
    return column[:slot - 1] + (value,) + column[slot:]


def answered(table, rules, done):
    """(0, the values, the table after the call), or (the number, none, the table as it was given)."""
    refusal = first(unfit(table) + rules)
    return (refusal, (), table) if refusal else (0, *done())


def add(table, address):
    """Answers the slot."""
    addresses, due, last = table

    def done():
        slot = addresses.index(0) + 1
        return (slot,), (with_slot(addresses, slot, address), with_slot(due, slot, False), last)
    return answered(table, [
        (100, lambda: not 1 <= address <= HIGHEST),
        (103, lambda: address in addresses),
        (104, lambda: 0 not in addresses),
    ], done)


def change(table, slot, changed):
    addresses, _, _ = table
    return answered(table, [
        (101, lambda: not 1 <= slot <= SLOTS),
        (102, lambda: addresses[slot - 1] == 0),
    ], lambda: ((), changed()))


def remove(table, slot):
    """The last asked slot stays."""
    addresses, due, last = table
    return change(table, slot, lambda: (with_slot(addresses, slot, 0), with_slot(due, slot, False), last))


def mark(table, slot):
    addresses, due, last = table
    return change(table, slot, lambda: (addresses, with_slot(due, slot, True), last))


def clear(table, slot):
    addresses, due, last = table
    return change(table, slot, lambda: (addresses, with_slot(due, slot, False), last))


def turn(table):
    """Answers the slot and its address. The last asked slot is looked at last."""
    addresses, due, last = table

    def done():
        in_turn = [*range(last + 1, SLOTS + 1), *range(1, last + 1)]
        slot = next(slot for slot in in_turn if due[slot - 1])
        return (slot, addresses[slot - 1]), (addresses, with_slot(due, slot, False), slot)
    return answered(table, [(105, lambda: not any(due))], done)
