"""Cases for the text files of an SM160 (acts 100 to 105). Most hold the reference, as they are made, to the line and column of a refusal or to what texts mean."""
from itertools import accumulate, combinations, product
from os.path import commonprefix

from cases.making import changed, pattern
from printed import ARCHIVE_FILE, ARCHIVE_FORM, DEVICE_FILE, DEVICE_FORM, SENT_FILE
from text_files import ARCHIVE, DEVICES, copy_devices, meaning, next_line, read_all

RECORD, DEVICE = 100, 101
FORMS = {RECORD: ARCHIVE, DEVICE: DEVICES}
# the letters of a line: all in their order, and those that one may have
LETTERS = {RECORD: "RSNVECT", DEVICE: "DKS"}
ORDERS = {RECORD: ["RSNVECT", "SNVEC", "SNVET", "RSNVE", "SNVECT", "RSNVEC", "RSNVET", "SNVE"], DEVICE: ["DKS"]}
# the longest and the shortest line, of which more is tried
ENTIRE = ["RSNVECT", "SNVE", "DKS"]
TEXTS = {"R": b"10", "S": b"2", "N": b"n\\\xC0", "V": b"3", "E": b"-4", "C": b"5", "T": b"6", "D": b"d$", "K": b"78"}
# no places of a file, though some would be in fewer bits
FAR = [2 ** 16, 2 ** 32, 2 ** 32 + 1, 2 ** 63, 2 ** 64 - 2, 2 ** 64 - 1]


# Lines

def line(letters, texts=TEXTS):
    """Of any letters, with the texts that are given and otherwise those of TEXTS."""
    texts = {**TEXTS, **texts}
    return b"<r" + b"".join(b" " + letter.encode() + b'="' + texts.get(letter, b"9") + b'"' for letter in letters) + b" />\n"


def means(act, letters, texts=TEXTS):
    there = {letter: {**TEXTS, **texts}[letter] for letter in letters}
    return [there.get(letter, there["S"] if letter == "R" else b"0") for letter in LETTERS[act]]


# good lines of several lengths
LINES = {
    RECORD: [line("SNVE", {"N": b"a"}), line("SNVET", {"S": b""}), line("RSNVECT")],
    DEVICE: [line("DKS", {"K": b""}), line("DKS", {"S": b"310879"}), line("DKS", {"D": b"self"})],
}


def taken(act, letters, texts=TEXTS, before=b"", after=b""):
    """A line that is read, from its place between some bytes."""
    made, form = line(letters, texts), FORMS[act]
    file = before + made + after
    refusal, (place, found) = next_line(form, file, len(before))
    assert (refusal, place, meaning(form, file, found)) == (0, len(before + made), means(act, letters, texts))
    return [len(before)], [file], 0


def refused(act, due, at, wrong, before=b""):
    """What comes after some bytes, at the byte at a place in it, counted from 0."""
    *lines, last = (before + wrong[:at]).split(b"\n")
    assert next_line(FORMS[act], before + wrong, len(before)) == (due, (len(lines) + 1, len(last) + 1))
    return [len(before)], [before + wrong], due


def good(act, count):
    return b"".join(LINES[act][:count])


# One and two bytes at fault

# Of a byte of a line: it is of a text, it closes one, or an attribute or a slash may stand there; of any other the number that is due where it is not there.
TEXT, CLOSING, SLASH = range(3)


def marks(letters):
    found = [90, 90]
    for letter in letters:
        found += [*((93, SLASH) if letter in "CT" else (91, 91)), 91, 92, *[TEXT] * len(TEXTS[letter]), CLOSING]
    return [*found, 93, SLASH, 93, 93]


def due_at(letters, wrong):
    """(Number, place), by the first byte in which a line is another than the good one; (None, None) where a text is good still, goes on or ends, or for a slash."""
    at = len(commonprefix([line(letters), wrong]))
    mark, byte = marks(letters)[at], wrong[at:at + 1]
    if mark in (TEXT, CLOSING) and byte in (b"", b"\n"):
        return 92, at
    if mark in (TEXT, CLOSING) or mark == SLASH and byte == b"/":
        return None, None
    return (91 if byte.isalpha() else 93) if mark == SLASH else mark, at


KINDS = [b" ", b'"', b"\n", b"\r", b"\t", b"/", b"X", b"x", b"=", b"\x00", b"\xFF"]


def one_byte(letters):
    """Each byte replaced by each kind, one of a text by three; left out, and doubled."""
    made = line(letters)
    for at, mark in enumerate(marks(letters)):
        yield from (changed(made, at, byte) for byte in (KINDS[:3] if mark == TEXT else KINDS))
        yield made[:at] + made[at + 1:]
        yield made[:at] + made[at:at + 1] + made[at:]


def two_bytes(letters):
    """Each two that are not of texts, replaced by kinds that go round."""
    made = line(letters)
    for number, (at, later) in enumerate(combinations([at for at, mark in enumerate(marks(letters)) if mark != TEXT], 2)):
        yield changed(changed(made, at, KINDS[number % 11]), later, KINDS[number // 11 % 11])


def damaged(act):
    """All or some of these, without and with good lines before and after."""
    for letters in ORDERS[act]:
        ones, twos = (1, 9) if letters in ENTIRE else (10, 41)
        for number, wrong in enumerate([*one_byte(letters)][::ones] + [*two_bytes(letters)][::twos]):
            if not wrong.startswith(line(letters)):
                before, after = good(act, number % 3 * (number // 3 % 2)), good(act, number // 6 % 2)
                due, at = due_at(letters, wrong)
                yield ([len(before)], [before + wrong + after], None) if due is None else refused(act, due, at, wrong + after, before)


def cut(act):
    """Files that end at each place of a line."""
    for letters in ORDERS[act]:
        for at in range(1, len(line(letters))):
            for count in (0, 2):
                yield refused(act, *due_at(letters, line(letters)[:at]), line(letters)[:at], good(act, count))


# Parts at fault, by number and place. The letter that must come is put in for $.

def flat(parts):
    """(number, place, bytes)."""
    return [(*key, some) for key, each in parts.items() for some in each]


# at the start of a line
STARTS = flat({
    (90, 0): [b"\n", b"\n\n", b"\r\n", b' <r $="2"', b'r $="2"', b"\x00", b'\xEF\xBB\xBF<r $="2"', b"\n<r", b"$"],
    (90, 1): [b"<", b"<\n", b'<<r $="2"', b'<R $="2"', b'< r $="2"', b"</r>\n", b'<?xml version="1.0"?>\n', b"<body>\n", b'<$="2"', b'< $="2"', b'<\xF0 $="2"'],
    (91, 2): [b"<r", b"<r\n", b'<rr $="2"', b'<r$="2"', b'<r\t$="2"', b'<r\r$="2"', b'<r\xA0$="2"', b"<r/>\n", b"<r>\n", b'<row $="2"', b'<r="2"', b'<r"2"'],
    (91, 3): [b"<r ", b"<r \n", b'<r  $="2"', b"<r />\n", b'<r ="2"', b'<r "2"', b'<r x$="2"', b'<r \t$="2"', b'<r [$="2"]', b'<r \x00="2"', b'<r \xD1="2"'],
    (91, 4): [b"<r $", b"<r $\n", b'<r $ ="2"', b'<r $"2"', b'<r $2"', b'<r $x="2"', b'<r $$="2"', b"<r $ />\n", b"<r $>\n"],
    (92, 5): [b"<r $=", b"<r $=\n", b'<r $= "2"', b'<r $=="2"', b"<r $='2'", b"<r $=2 ", b"<r $=\xAB2\xBB", b"<r $= />\n"],
    (92, 6): [b'<r $="', b'<r $="\n', b'<r $="\n"'],
    (92, 7): [b'<r $="2', b'<r $="2\n" ', b'<r $="\r', b'<r $="\r\n'],
    (92, 9): [b'<r $="2/>\n'],
    (92, 10): [b'<r $="2 />\n"'],
})
# after an attribute, where another one must come
BETWEEN = flat({
    (91, 0): [b"", b"\n", b"\r\n", b"/>\n", b'"', b'""', b"\t", b"x", b'$="2"', b',$="2"', b'="2"'],
    (91, 1): [b" ", b" \n", b" />\n", b' "2"', b'  $="2"', b" X", b" =", b" \xD1="],
})
# after an attribute that may be the last; among them Cyrillic letters, of one byte and of two
ENDS = flat({
    (93, 0): [b"", b"\n", b"\r\n", b"/>\n", b">\n", b'"', b'" />\n', b"\t/>\n", b"\xA0/>\n", b'X="1" />\n', b'T="0" />\n', b'C="1" />\n', b"x />\n"],
    (93, 1): [b" ", b" \n", b" \r\n", b"  />\n", b" >\n", b" \\>\n", b" ?>\n", b' "', b' ="1" />\n', b' [C="1"] />\n', b' \xD1="1" />\n', b' \xD2="1" />\n',
              b' \xD0\xA1="1" />\n', b' \xE0="1" />\n'],
    (91, 1): [b' X="1" />\n', b" X", b" x />\n", b' c="1" />\n', b' t="1" />\n', b' S="1" />\n', b' R="1" />\n', b" r"],
    (93, 2): [b" /", b" /\n", b" / >\n", b" //>\n", b" /\r>\n", b" /X>\n", b' /"'],
    (93, 3): [b" />", b" />\r\n", b" />\r", b" /> \n", b" />>\n", b" />.\n", b" />\x00\n", b" />\x0B\n", b" />x", b" /></r>\n", b" /><r"],
})


def parts(act):
    for due, at, some in STARTS:
        wrong = some.replace(b"$", b"S" if act == RECORD else b"D")
        for count in range(2):
            after = good(act, (count + at) % 2) if at < len(wrong) else b""
            yield refused(act, due, at, wrong + after, good(act, count))
    for letters in ORDERS[act]:
        for count in range(1, len(letters) + 1):
            front, may_end = line(letters[:count])[:-4], letters[:count] in ORDERS[act]
            if letters in ENTIRE or may_end:
                for due, at, some in (ENDS if letters in ENTIRE else ENDS[count % 3::3]) if may_end else BETWEEN:
                    wrong = some.replace(b"$", letters[count:count + 1].encode())
                    yield refused(act, due, len(front) + at, front + wrong, good(act, at % 2))


def any_byte(act):
    """Where a slash must be. C and T are attributes where they may come."""
    for byte in range(256):
        letters = ORDERS[act][byte % len(ORDERS[act])]
        made, one = line(letters), bytes([byte])
        if one != b"/":
            attribute = any(order.startswith(letters + chr(byte)) for order in ORDERS[act])
            yield refused(act, 91 if one.isalpha() else 93, len(made) - 3 + attribute, changed(made, len(made) - 3, one))


# Attributes

def misplaced(letters):
    """An attribute left out, doubled, in lower case, and with an unknown one before it and for it; each two the other way round."""
    for at, letter in enumerate(letters):
        yield from (letters[:at] + some + letters[at + 1:] for some in ("", letter * 2, letter.lower(), "X" + letter, "X"))
        for other in range(at + 1, len(letters)):
            yield letters[:at] + letters[other] + letters[at + 1:other] + letter + letters[other + 1:]


def moved(letters):
    """Each attribute at each place."""
    for letter, at in product(letters, range(len(letters))):
        others = letters.replace(letter, "")
        yield others[:at] + letter + others[at:]


# beside those that are made so
OTHERS = ["", "X", "R", "S", "D", "RS", "RT", "SN", "SNV", "DK", "DS", "KS", "DKSX", "DKST", "DKSC", "DKSR", "DKSS", "RDKS", "SNVER", "RSNVER", "SNVETC", "RSNVETC",
          "SNVECTC", "SNVECTR", "SNVETR", "CSNVE", "TSNVE", "RCSNVE", "SNVEX", "SNVECX", "SNVETX", "SNVECTX", "rsnvect", "dks", "TCEVNSR"]


def attributes(rng, act):
    """The first one that is not at its place decides; so does a slash in the place of one."""
    orders = ORDERS[act]
    some = {*OTHERS, *ORDERS[RECORD], *ORDERS[DEVICE], *moved(LETTERS[act]), *(each for letters in orders for each in misplaced(letters))}
    some |= {"".join(rng.choices(LETTERS[act] + "X", k=rng.randint(1, 8))) for _ in range(30)}
    for number, letters in enumerate(sorted(some)):
        if letters in orders:
            yield taken(act, letters, before=good(act, 1), after=good(act, 2))
        else:
            count = max(len(commonprefix([letters, order])) for order in orders)
            yield refused(act, 91, len(line(letters[:count])) - 3, line(letters), good(act, number % 2))


# Texts

# what a text may have: all bytes but two
ANY = bytes(byte for byte in range(256) if byte not in b'"\n')
SOME_TEXTS = [b"", b" ", b"0", b"<", b">", b"/", b"=", b"/>", b" />", b"<r", b"<r S=", b" N=", b" C=", b"\r", b"\r\r", b"\t", b"\x00", b"\xFF", b"'", b"&quot;",
              b"\\", b"\xD1\xF7\xB8\xF2\xF7\xE8\xEA", b"20130111240000000000", b"-23.456", b"a" * 256, ANY]


def contents(act):
    """Each attribute with each text, and all with one; each line with what may come after it."""
    orders = ORDERS[act]
    for at, text in enumerate(SOME_TEXTS):
        for number, letter in enumerate(LETTERS[act]):
            having = [letters for letters in orders if letter in letters]
            yield taken(act, having[(at + number) % len(having)], {letter: text}, before=good(act, at % 2))
        yield taken(act, orders[at % len(orders)], dict.fromkeys(LETTERS[act], text))
    for letters in orders:
        for text in (b"", b"0"):
            yield taken(act, letters, dict.fromkeys(letters, text))
        for after in (b"", b"\n", b"<", b"\r", b"\x00", good(act, 1)):
            yield taken(act, letters, after=after)


# Places

def places(act, file):
    """Each one of a file that has no < in its texts; its end, and beyond it."""
    begins = [0, *accumulate(map(len, file.splitlines(True)))]
    for place in range(len(file)):
        yield ([place], [file], 0) if place in begins else refused(act, 90, 0, file[place:], file[:place])
    for place in (len(file), len(file) + 1, len(file) + 2, *FAR):
        yield [place], [file], 0


def inside(act):
    """From within a line what stands before is counted, and not looked at."""
    first, second = LINES[act][:2]
    letter = LETTERS[act][:1].encode()
    for before in (b"x", b"xx", b"<", b"<r", b"<r ", b'<r %b="' % letter, b"\n", b"\n\n", b"x\n", b"\nx", b"\r\n", b"x" * 300,
                   first[:-1], first[:9], first + b"x", first * 2 + b"xyz", first + second[:-1]):
        yield taken(act, ORDERS[act][0], before=before, after=second)
        for due, at, wrong in ((90, 1, b"<x"), (91, 3, b"<r X"), (92, 6, b'<r %b="\n' % letter), (93, len(first) - 1, first[:-1])):
            yield refused(act, due, at, wrong, before)
    # a tag within a text; the closing quote of one is the opening one of another
    for due, at, text in ((90, 1, b"<x"), (91, 2, b"<r"), (91, 3, b"<r "), (91, 4, b"<r %b" % letter), (91, 10, b"<r %b=" % letter), (91, 4, b"<r %b x" % letter)):
        made = line(ORDERS[act][0], {letter.decode(): text})
        yield refused(act, due, at, made[6:], made[:6])


def counted(act):
    """Lines and columns beside 256 and 65,536."""
    front = b'<r %b="' % LETTERS[act][:1].encode()
    for lines in (254, 255, 256, *([65_534] if act == RECORD else [])):
        yield refused(act, 90, 0, b"\n", b"\n" * lines)
    for at in (254, 255, 256, *([65_535] if act == DEVICE else [])):
        yield refused(act, 92, at, front.ljust(at, b"a"))
    for at in (254, 255, 256):
        yield refused(act, 92, at, front.ljust(at, b"a") + b"\n", good(act, 1))


# Printed files

# files that each act reads, and that it does not; the line that a device list is described by is one of it, that of an archive is none
PRINTED = {RECORD: [SENT_FILE, ARCHIVE_FILE], DEVICE: [DEVICE_FILE, DEVICE_FILE + DEVICE_FORM]}
NOT_PRINTED = {RECORD: [ARCHIVE_FORM, DEVICE_FORM, DEVICE_FILE], DEVICE: [ARCHIVE_FORM, ARCHIVE_FILE, SENT_FILE]}


def as_printed(act):
    """Each line, with a blank and with a carriage return after it; a file from each line on."""
    for each in b"".join(PRINTED[act]).splitlines(True):
        yield [0], [each], 0
        for after in (b" \n", b"\r\n"):
            yield refused(act, 93, len(each) - 1, each[:-1] + after)
    for place in accumulate(map(len, PRINTED[act][0].splitlines(True)), initial=0):
        yield [place], [PRINTED[act][0]], 0
    for other in NOT_PRINTED[act]:
        yield refused(act, 91, 3, other.splitlines(True)[0])


# Any files

def some_record(rng, act):
    """Letters and texts."""
    letters, pool = rng.choice(ORDERS[act]), rng.choice((ANY, b"<r>/= SNVECT", b"0123456789."))
    return letters, {letter: bytes(rng.choices(pool, k=rng.choice((0, 1, 2, 3, 9)))) for letter in letters}


def some_file(rng, act):
    """Its lines, of which up to two are cut, or have a byte replaced, left out or put in."""
    lines = [line(*some_record(rng, act)) for _ in range(rng.randint(1, 6))]
    for number in rng.sample(range(len(lines)), min(rng.choice((0, 1, 1, 2)), len(lines))):
        made, byte = lines[number], rng.choice(KINDS)
        at = rng.randrange(len(made))
        lines[number] = rng.choice((changed(made, at, byte), made[:at] + made[at + 1:], made[:at] + byte + made[at:], made[:at]))
    return lines


def some_places(rng, act):
    for _ in range(60):
        lines = some_file(rng, act)
        file = b"".join(lines)
        place = rng.choice([*accumulate(map(len, lines), initial=0), rng.randint(0, len(file))])
        yield [place], [file], None


def next_lines(act):
    def cases(rng):
        for some in (damaged, cut, parts, any_byte, contents, inside, counted, as_printed):
            yield from some(act)
        yield from attributes(rng, act)
        yield from places(act, good(act, 3) if act == RECORD else DEVICE_FILE)
        yield from some_places(rng, act)
        for place in (0, 1, *FAR):
            yield [place], [b""], 0
    return cases


# The writer

DEV_1 = [b"dev$1", b"24", b"310879"]


def asked(texts, more=0):
    """Into so many bytes more than it needs."""
    return [len(texts[0]), len(texts[1])], [b"".join(texts), pattern(max(0, 21 + len(b"".join(texts)) + more), 0x31)]


def put(text, texts=DEV_1):
    """In the place of each of the texts."""
    return [[*texts[:at], text, *texts[at + 1:]] for at in range(3)]


def write_device(rng):
    for more in range(-34, 4):
        yield *asked(DEV_1, more), 16 if more < 0 else 0
    # a byte at fault or not, first, within, last and alone, beside no room
    for byte, text, more in product((b'"', b"\n", b"\r", b"\x0B", b"'", b"\x00"), (b"$bc", b"a$c", b"ab$", b"$"), (-1000, -1, 0)):
        for texts in put(text.replace(b"$", byte)):
            yield *asked(texts, more), 92 if byte in b'"\n' else 16 if more < 0 else 0
    for first, second, more in product((b'"', b"\n", b'1"'), (b'"', b"\n", b"\n1"), (-1, 0)):
        for texts in put(first, [second] * 3):
            yield *asked(texts, more), 92
    for byte in range(256):
        yield *asked(put(bytes([byte]))[byte % 3]), 92 if byte in b'"\n' else 0
    for at, text in enumerate(SOME_TEXTS):
        yield *asked(put(text)[at % 3]), 0
    for texts, more in product(product((b"", b"7"), repeat=3), (-1, 0, 1)):
        yield *asked(texts, more), 16 if more < 0 else 0
    # one string of bytes in three texts
    for first, second in combinations(range(8), 2):
        for whole, due in ((b"abcdef", 0), (b'abc"ef', 92)):
            yield *asked([whole[:first], whole[first:second - 1], whole[second - 1:]]), due
    for texts in [*put(b"a" * 255), *put(b"a" * 256), *put(b"a" * 1000), [b"a" * 600, b"b" * 600, b"c" * 600], DEVICE_FORM.split(b'"')[1::2]]:
        for more in (-1, 0, 1):
            yield *asked(texts, more), 16 if more < 0 else 0
    for _ in range(60):
        _, texts = some_record(rng, DEVICE)
        more = rng.choice((-2, -1, 0, 0, 1, 9))
        yield *asked(list(texts.values()), more), 16 if more < 0 else 0


# Whole files

def whole(act, records, wrong=(0, None, b"")):
    """Good records and then what is refused, as (number, place, bytes)."""
    due, at, after = wrong
    file = b"".join(line(*each) for each in records) + after
    where = (len(records) + 1, at + 1) if due else None
    assert read_all(FORMS[act], file) == (due, where, len(file) - len(after), [means(act, *each) for each in records])
    return [], [file], due


def wrongs(act):
    """Some of the parts at fault, an empty line before another, and a line without its line feed or with a carriage return before it."""
    made = line(ORDERS[act][0])
    for due, at, some in [*STARTS[::5], (90, 0, b"\n" + made)]:
        yield due, at, some.replace(b"$", b"S" if act == RECORD else b"D")
    for due, at, some in ENDS[::9]:
        yield due, len(made) - 4 + at, made[:-4] + some
    yield 93, len(made) - 1, made[:-1]
    yield 93, len(made) - 1, made[:-1] + b"\r\n" + made


def all_lines(act):
    def cases(rng):
        records = [(letters, {"S": b"%d" % number}) for number, letters in enumerate((ORDERS[act] * 9)[:9])]
        for count in (0, 1, 2, 3, 9):
            yield whole(act, records[:count])
        for length in (255, 256, 3000):
            yield whole(act, [(letters, {"S": b"a" * length}) for letters in ORDERS[act][:2]])
        for wrong, count in product(wrongs(act), (0, 1, 2, 5)):
            yield whole(act, records[:count], wrong)
        thousand = [(ORDERS[act][-1], {**dict.fromkeys(LETTERS[act], b""), "S": b"%d" % number}) for number in range(1000)]
        lines = [line(*each) for each in thousand]
        yield whole(act, thousand)
        yield whole(act, thousand[:999], (93, len(lines[-1]) - 1, lines[-1][:-1]))
        yield whole(act, thousand[:500], (91, 2, b"<r\n" + b"".join(lines[501:])))
        for _ in range(100):
            yield whole(act, [some_record(rng, act) for _ in range(rng.randint(0, 8))])
            yield [], [b"".join(some_file(rng, act))], None
        for file in PRINTED[act]:
            yield [], [file], 0
        for file in NOT_PRINTED[act]:
            yield [], [file], 91
    return cases


# Copies

def copied(records, room, wrong=(0, None, b"")):
    """Good records and then what is refused, into so many bytes."""
    due, at, after = wrong
    lines, output = [line(*each) for each in records], pattern(room, 0x31)
    fit = sum(end <= room for end in accumulate(map(len, lines)))
    due = due if fit == len(lines) else 16
    where = (len(lines) + 1, at + 1) if due not in (0, 16) else ()
    assert copy_devices(b"".join(lines) + after, output) == (due, where, fit, changed(output, 0, b"".join(lines[:fit])))
    return [], [b"".join(lines) + after, output], due


def copy(rng):
    records = [("DKS", {"D": b"dev$%d" % number, "S": b"310879"[:number]}) for number in range(6)]
    for count in range(5):
        ends = [*accumulate((len(line(*each)) for each in records[:count]), initial=0)]
        for end, more in product(ends, (-1, 0, 1, 20)):
            yield copied(records[:count], max(0, end + more))
            yield copied(records[:count], max(0, end + more), (90, 0, b"\n"))
        for wrong in wrongs(DEVICE):
            yield copied(records[:count], ends[-1] + count % 2, wrong)
    for room in (0, 33, 34, 69, 70, len(DEVICE_FILE) - 1, len(DEVICE_FILE), 300):
        yield [], [DEVICE_FILE, pattern(room, 0x31)], 16 if room < len(DEVICE_FILE) else 0
    for _ in range(60):
        some = [some_record(rng, DEVICE) for _ in range(rng.randint(0, 8))]
        yield copied(some, rng.randint(0, 250))
        yield [], [b"".join(some_file(rng, DEVICE)), pattern(rng.randint(0, 250), 0x31)], None


CASES = {RECORD: next_lines(RECORD), DEVICE: next_lines(DEVICE), 102: write_device, 103: all_lines(RECORD), 104: all_lines(DEVICE), 105: copy}
