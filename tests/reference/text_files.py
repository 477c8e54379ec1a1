"""02, W-209, and 001, 3.2: the text files of an SM160, an archive and the list of its devices; one record a line.

A line: the tag <r; the attributes in their order, each a blank, its letter, an equals sign and a text in quotes; a blank, a slash, a bracket and a line feed.
A text is any bytes but quote and line feed. A place is counted from 0, line and column from 1.
"""
from typing import NamedTuple

from refusals import written


class Form(NamedTuple):
    letters: list
    optional: list


ARCHIVE = Form(b"R S N V E C T".split(), b"R C T".split())
DEVICES = Form(b"D K S".split(), [])


class Refused(Exception):
    """A number, and the place of the first character that is not the expected one."""


def character(file, at):
    """Nothing where the file ends."""
    return file[at:at + 1]


def take(file, at, number, expected):
    """The place after what is expected."""
    for each in expected:
        if character(file, at) != bytes([each]):
            raise Refused(number, at)
        at += 1
    return at


def text_end(file, at):
    """Where the first quote or line feed stands from a place on, or the file ends."""
    while character(file, at) not in (b'"', b"\n", b""):
        at += 1
    return at


def read_attribute(file, at, letter):
    """The places of its text, the first byte's and that after the last; and the place after it."""
    begin = take(file, take(file, at, 91, b" " + letter + b"="), 92, b'"')
    end = text_end(file, begin)
    return (begin, end), take(file, end, 92, b'"')


def read_end(file, at):
    at = take(file, at, 93, b" ")
    # another attribute, which is unknown, out of order or there already
    number = 91 if character(file, at).isalpha() else 93
    return take(file, take(file, at, number, b"/"), 93, b">\n")


def read_line(form, file, at):
    """The place after it, and the places of each text, None for an absent one."""
    at, texts = take(file, at, 90, b"<r"), []
    for letter in form.letters:
        places = None
        if letter not in form.optional or file[at:at + 2] == b" " + letter:
            places, at = read_attribute(file, at, letter)
        texts.append(places)
    return read_end(file, at), texts


def line_and_column(file, at):
    return file[:at].count(b"\n") + 1, at - file.rfind(b"\n", 0, at)


def next_line(form, file, place):
    """(0, what read_line gives), (0, None) at the end, or (number, (line, column))."""
    if place >= len(file):
        return 0, None
    try:
        return 0, read_line(form, file, place)
    except Refused as refused:
        number, at = refused.args
        return number, line_and_column(file, at)


def meaning(form, file, texts):
    """The texts at their places; an absent C or T means 0, and an absent R what S means."""
    there = {letter: file[slice(*places)] for letter, places in zip(form.letters, texts) if places is not None}
    means = {b"R": there[b"S"], b"C": b"0", b"T": b"0", **there}
    return [means[letter] for letter in form.letters]


def read_all(form, file):
    """(number, line and column or None, the place where it ended, the meaning of each record before that)."""
    place, records = 0, []
    while True:
        refusal, told = next_line(form, file, place)
        if refusal or told is None:
            return refusal, told, place, records
        place, texts = told
        records.append(meaning(form, file, texts))


def line_bytes(form, texts):
    """A text that is None is absent."""
    attributes = (b" " + letter + b'="' + text + b'"' for letter, text in zip(form.letters, texts) if text is not None)
    return b"<r" + b"".join(attributes) + b" />\n"


def write_device(texts, output):
    line = line_bytes(DEVICES, texts)
    return written([
        (92, lambda: any(b'"' in text or b"\n" in text for text in texts)),
        (16, lambda: len(output) < len(line)),
    ], lambda: line, output)


def copy_devices(file, output):
    """(number, line and column of a reader's, how many are written, output): each record that is read is written into what is left of the output."""
    front, place, count = b"", 0, 0
    while True:
        refusal, told = next_line(DEVICES, file, place)
        if refusal or told is None:
            return refusal, told or (), count, front + output
        place, texts = told
        refusal, length, output = write_device(meaning(DEVICES, file, texts), output)
        if refusal:
            return refusal, (), count, front + output
        front, output, count = front + output[:length], output[length:], count + 1
