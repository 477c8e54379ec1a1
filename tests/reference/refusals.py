"""The order of refusals: a list of (number, condition) in the paper's order, of which the first that holds is the answer.

A condition is a function of no arguments, so that it may rest on the earlier ones not holding.
"""


def first(rules):
    """The number of the first rule whose condition holds, 0 where none does."""
    for number, condition in rules:
        if condition():
            return number
    return 0


def read(rules, fields):
    """(0, the fields), or (the number, None)."""
    refusal = first(rules)
    return (refusal, None) if refusal else (0, fields())


def written(rules, made, output):
    """(number, length, the whole output afterwards). Bytes after what is written stay; a refusal leaves every byte."""
    refusal = first(rules)
    if refusal:
        return refusal, None, output
    front = made()
    return 0, len(front), front + output[len(front):]
