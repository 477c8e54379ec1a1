"""01, Bodies: what an archive holds, by its number; and 02, W-210: which archive a card came from, 0 for none. A number without a kind stands for the last one."""

KINDS = {1: "hourly", 2: "daily", 3: "monthly", 4: "half-hourly"}
CURRENT = "current"


def type_from(number):
    return KINDS.get(number, "half-hourly")


def type_number(kind):
    return {name: number for number, name in KINDS.items()}[kind]


def source_from(number):
    return CURRENT if number == 0 else type_from(number)


def source_number(source):
    return 0 if source == CURRENT else type_number(source)
