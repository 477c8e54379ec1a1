#!/usr/bin/env python3
"""Respells this repository's own definitions and lemmas as the guides of today's Rattle spell names: words in snake case,
an underscore between them. Run once, at the top of the checkout, after the kit's port.py.

usage: python3 tools/respell.py          rewrites crates/ in place
       python3 tools/respell.py pages    rewrites README.md and docs/, once crates/ has the new names
       python3 tools/respell.py --list   prints old and new name of each, and changes nothing

What is respelled: names that specs/*.antt and proofs/*.antt declare, wherever they stand: in .antt files, in clauses, in must-fail edits,
and between backticks in pages. What keeps its name: functions of src/, what a file proofs/F/Proof.antt declares for itself, names of the
kit's library, strings.
"""
import os
import re
import sys

DECLARED = re.compile(
    r"^\s*(?:(?:pub|abbrev|unfoldable|opaque|data)\s+)*"
    r"([^\s:{}()\[\],;.λ]+)(?:\s+(?:\{[^{}]*\}|\([^()]*\)))*\s*:(?:\s|$)"
)
TOKEN = re.compile(r"[^\s(){}\[\],;.:\"«»@#|`]+")
USE = re.compile(r"\buse\s+([\w.]+?)\.\{([^}]*)\}", re.S)
STRING = re.compile(r'b?"(?:[^"\\\n]|\\.)*"')
FN = re.compile(r"\bfn\s+([a-z_0-9]+)")
HUMP = re.compile(r"(?<=[a-z0-9])([A-Z])")

# A lemma that would have its function's name gets `_lem`: those whose function port.py respelled already, and a local fact with a field's name.
APART = {name: name.replace("-", "_") + "_lem" for name in ("value-of", "at-place", "under-way")}
# The same of two lemmas that port.py respelled, each in its own file.
APART_IN = {
    "modbus_ascii/proofs/Pairs.antt": {"is_digit": "is_digit_lem"},
    "sm160_text/proofs/Walking.antt": {"comes_of": "comes_of_lem"},
}


def files(top, *ends):
    for folder, dirs, names in os.walk(top):
        dirs[:] = sorted(d for d in dirs if d not in ("out", ".git"))
        for name in sorted(names):
            if name.endswith(ends):
                yield os.path.join(folder, name)


def text(path):
    with open(path, encoding="utf-8") as f:
        return f.read()


def is_lemma_file(path):
    """specs/X.antt or proofs/X.antt, not what belongs to one function."""
    return os.path.basename(os.path.dirname(path)) in ("specs", "proofs") and os.path.dirname(os.path.dirname(os.path.dirname(path))).endswith("crates")


def humps(word):
    """ofLe: of_le; crc32From: crc32_from; inF32: in_f32."""
    return HUMP.sub(r"_\1", word).lower()


def names_of(top):
    declared, functions, library = set(), set(), set()
    for path in files(top, ".antt"):
        t = text(path)
        for module, items in USE.findall(t):
            if not re.match(r"Rattle\.(?!std\b|core\b)", module):
                library |= {i.strip().split(" as ")[0] for i in items.split(",")}
        if is_lemma_file(path):
            for line in t.splitlines():
                m = DECLARED.match(line)
                if m and not line.lstrip().startswith(("--", "use ", "let ")):
                    declared.add(m.group(1))
    for path in files(top, ".rt"):
        t = text(path)
        functions |= set(FN.findall(t))
        for module, items in USE.findall(t):
            if not re.match(r"Rattle\.(?!std\b|core\b)", module):
                library |= {i.strip().split(" as ")[0] for i in items.split(",")}
    return declared, functions, library


def spelled(name):
    return "_".join(humps(p) if p[:1].islower() else p for p in name.split("-"))


def mapping(top):
    declared, functions, library = names_of(top)
    out = {}
    for name in sorted(declared - library):
        if not name[:1].isalpha() or not re.fullmatch(r"[\w'-]+", name):
            continue
        new = APART.get(name, spelled(name))
        if new != name:
            out[name] = new
    news = [*out.values()]
    for name, new in out.items():
        if "-" in name and news.count(new) > 1:
            out[name] = new + "_lem"
    return out, library, functions


def renamed(t, names):
    return TOKEN.sub(lambda m: names.get(m.group(0), m.group(0)), t)


def outside_strings(t, names):
    out, at = [], 0
    for m in STRING.finditer(t):
        out += [renamed(t[at:m.start()], names), m.group(0)]
        at = m.end()
    return "".join(out + [renamed(t[at:], names)])


def clashes(top, names, library, functions):
    """Files in which a new name stood already, as another name."""
    for path in files(top, ".antt", ".rt"):
        tokens = set(TOKEN.findall(text(path)))
        for old in sorted(tokens & names.keys()):
            if names[old] in tokens:
                yield path, old, names[old]
    taken = {}
    for old, new in names.items():
        if new in taken:
            yield "two old names", old + " and " + taken[new], new
        taken[new] = old
        if new in library:
            yield "a library's name", old, new


def in_page(t, declared):
    """A page's names between backticks, once crates/ has the new ones."""
    def now(token):
        if token in declared or not re.fullmatch(r"[A-Za-z][\w'-]*", token) or "-" not in token and not HUMP.search(token):
            return token
        parts = [humps(p) if p[:1].islower() else p for p in token.split("-")]
        plain = "_".join(parts)
        return next((n for n in (plain + "_lem" if "-" in token else plain, plain, token.replace("-", "_")) if n in declared), token)

    return re.sub(r"`[^`\n]+`", lambda m: "`" + TOKEN.sub(lambda k: now(k.group(0)), m.group(0)[1:-1]) + "`", t)


def pages():
    declared = names_of("crates")[0]
    for path in ["README.md", *files("docs", ".md")]:
        was = text(path)
        now = in_page(was, declared)
        if now != was:
            with open(path, "w", encoding="utf-8") as f:
                f.write(now)


def main():
    if sys.argv[1:] == ["pages"]:
        return pages()
    names, library, functions = mapping("crates")
    if sys.argv[1:] == ["--list"]:
        for old, new in names.items():
            print(old, new)
        for found in clashes("crates", names, library, functions):
            print("falls together:", *found)
        return
    for path in files("crates", ".antt", ".rt", ".edit"):
        was = text(path)
        own = next((own for end, own in APART_IN.items() if path.endswith(end)), {})
        now = outside_strings(was, names) if path.endswith(".rt") else renamed(renamed(was, own), names)
        if now != was:
            with open(path, "w", encoding="utf-8") as f:
                f.write(now)


if __name__ == "__main__":
    main()
