#!/usr/bin/env python3
"""Counts the places of src/ that docs/DESIGN-PASS.md speaks of: python3 tools/places.py [-v] [ROOT]

-v lists them. ROOT is the top of a checkout, this one where none is given. Unfinished crates, below "# Not done" in crates.txt, count too.
"""
import collections
import glob
import os
import re
import sys

KIND = re.compile(r"^\s+(Refused|RefusedAt|Refuse|Nothing|Unknown|Missing|Absent)\b")
NUMBER = re.compile(r"ensures .*result ≡ (first \(|frame_fault|datagram_fault|fault_of)")
ZERO = re.compile(r"\b(n|no|fault|early|refusal|number|by_itself|of_file|unknown)\b (!=|==) 0\b")
LOOP = re.compile(r"^\s*('\w+: )?(while\b|loop\b)")
BY_HAND = re.compile(r"^(pub )?fn ((kind|type|source|function|contents|form)_from|number_of|(type|source|function|contents)_number|re(quest|ply)_function|is_same|is_no_date)\(")
PAIR = re.compile(r"^\s+(pub )?(\w+): (\[[^\]]*; ?\d+\]),")
STEP = re.compile(r"\bdyn |\bfn\(\w|impl Fn|F: Fn")


def functions(text):
    """(name, signature, body) of each function."""
    for m in re.finditer(r"^[ ]*(?:pub(?:\(crate\))? )?(?:const )?fn (\w+)", text, re.M):
        i = text.index("(", m.start())
        depth, j = 0, i
        while True:
            depth += {"(": 1, ")": -1}.get(text[j], 0)
            j += 1
            if depth == 0:
                break
        k = text.find("\n{", j)
        b = text.find(" {\n", j)
        start = min(x for x in (k, b, len(text)) if x >= 0)
        if ";" in text[j:start]:
            continue  # a trait's, without a body
        indent = re.match(r"[ ]*", text[m.start():]).group()
        end = re.compile("^" + indent + r"\}", re.M).search(text, start + 2)
        yield m.group(1), text[i:j], text[start: end.end() if end else len(text)], text[j:start]


def parameters(signature):
    inner = re.sub(r"\s+", " ", signature[1:-1])
    parts, depth, word = [], 0, ""
    for c in inner:
        depth += {"<": 1, "[": 1, "(": 1, ">": -1, "]": -1, ")": -1}.get(c, 0)
        if c == "," and depth == 0:
            parts.append(word.strip())
            word = ""
        else:
            word += c
    return tuple(p.strip() for p in parts + [word] if p.strip())


def twin(body):
    """A body with its numbers, types of numbers and widths in names taken out."""
    body = re.sub(r"//.*", "", body)
    body = re.sub(r"\b\d[\w.]*", "#", body)
    body = re.sub(r"(_[a-z]+_)?(?<=[a-zA-Z_])(16|32|64)\b", "#", body)
    body = re.sub(r"\b[ufi](8|16|32|64)\b|\busize\b", "T", body)
    return re.sub(r"\s+", " ", body)


def main(arguments):
    listing = "-v" in arguments
    root = ([a for a in arguments if a != "-v"] or [os.path.join(os.path.dirname(os.path.abspath(__file__)), "..")])[0]
    found = collections.OrderedDict((k, []) for k in (
        "1 kinds of an own enum that say refused, none, missing or unknown",
        "1 functions that answer a refusal by its number",
        "1 tests of such a number against 0",
        "2 functions that are like another of their crate but for numbers and types",
        "2 structs and enums that are like another of their crate but for numbers and types",
        "3 loops that are no for",
        "4 conversions and comparisons by functions of their own",
        "5 groups of functions of a crate, three or more, that have three parameters or more together",
        "5 facts that stand in the requires of three functions of a crate or more",
        "6 arrays of a fixed length in a struct",
        "7 functions passed or boxed",
    ))
    keys = list(found)
    for path in sorted(glob.glob(os.path.join(root, "crates/*/src/**/*.rt"), recursive=True)):
        name = os.path.relpath(path, root)
        for i, line in enumerate(open(path, encoding="utf-8"), 1):
            for key, pattern in ((0, KIND), (1, NUMBER), (2, ZERO), (5, LOOP), (6, BY_HAND), (9, PAIR), (10, STEP)):
                if pattern.search(line) and not line.strip().startswith("//"):
                    found[keys[key]].append(f"{name}:{i}: {line.strip()}")
    for crate in sorted(glob.glob(os.path.join(root, "crates/*/src"))):
        same, together, facts = collections.defaultdict(list), collections.defaultdict(list), collections.defaultdict(list)
        types = collections.defaultdict(list)
        for path in sorted(glob.glob(crate + "/**/*.rt", recursive=True)):
            name = os.path.relpath(path, root)
            text = open(path, encoding="utf-8").read()
            for m in re.finditer(r"^pub (struct|enum) (\w+)[^{;]*\{(.*?)^\}", text, re.M | re.S):
                types[m.group(1) + twin(re.sub(r"\b[A-Z]\w+(?=[,;)\]])", "N", m.group(3)) if m.group(1) == "struct" else m.group(3))].append(f"{name}: {m.group(2)}")
            for fn, signature, body, clauses in functions(text):
                if body.count("\n") > 3:
                    same[twin(body)].append(f"{name}: {fn}")
                names = parameters(signature)
                for a in range(len(names)):
                    for b in range(a + 1, len(names)):
                        for c in range(b + 1, len(names)):
                            together[(names[a], names[b], names[c])].append(f"{name}: {fn}")
                for fact in re.findall(r"requires(?: \w+)? \{(.*)\}", clauses):
                    for part in re.split(r" × ", fact):
                        facts[part.strip(" ()")].append(f"{name}: {fn}")
        for group in same.values():
            if len(group) > 1:
                found[keys[3]].extend(g + "  (of " + ", ".join(group) + ")" for g in group)
        sets = collections.OrderedDict()
        for group in types.values():
            if len(group) > 1:
                found[keys[4]].extend(g + "  (of " + ", ".join(group) + ")" for g in group)
        for three, group in together.items():
            if len(group) > 2:
                sets.setdefault(tuple(group), collections.OrderedDict()).update((p, None) for p in three)
        for group, names in sets.items():
            found[keys[7]].append(f"{', '.join(names)}: {', '.join(group)}")
        for fact, group in facts.items():
            if len(group) > 2:
                found[keys[8]].append(f"{fact}: {', '.join(group)}")
    for key, places in found.items():
        print(f"{len(places):4} {key}")
        if listing:
            for place in places:
                print("       ", place)


main(sys.argv[1:])
