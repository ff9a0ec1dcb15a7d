#!/usr/bin/env python3
"""Respells the repository's own definitions, fields, constructors and lemmas from `entry-ops` to `entry_ops`.

usage: python3 tools/respell.py [--check]      at the top of the repository, once, right after the kit's port.py

A name turns if a file of specs/, or a file of lemmas right in proofs/, declares it with a dash. It turns in the code of every .antt
file, in the clauses and `ghost use` items of every .rt file, and in the code spans of comments. Names that Rattle makes (of goals, of
steps and of what a loop leaves) are not declared there and stay; where one has a Rust name in it, as `add-each-requires` has `add_each`,
that part gets the Rust name's spelling back, in the proof files of functions alone. Functions, strings, inputs and outputs stay.
The library's `All` of the older kit is `AllByRecursion` today, and another definition has the name: it goes by its own.
A name that one file gives to an import, as `card as ask-card`, turns within that file.
It stops, and writes nothing, where two names would fall together. Run again it finds nothing more to turn.
"""
import collections
import os
import re
import sys

NAME = r"[^\s(){}.;,@\"«»⌜⌝\[\]`]+"
DECLARED = re.compile(r"\s*(?:(?:pub|abbrev|unfoldable|abstract|data|record|mutual|opaque)\s+)*(" + NAME + r")\s*(?:\{[^}]*\}\s*)?(?:\([^)]*\)\s*)*:\s")
TOKEN = re.compile(r"[^\s(){}.;,@\"«»⌜⌝\[\]`]+")
LEMMAS = re.compile(r"/(?:specs/.*|proofs/[^/]*)\.antt$")
MADE = re.compile(r"/proofs/.*/(?:Answers|Invariants)\.antt$")
IMPORT = re.compile(r"use (Rattle\.(?:std|core|io|os|libc|anyhow)[^{;\n]*|(?!Rattle)\w[^{;\n]*)\.\{([^}]*)\}")
# words of Rattle's own that stand in such names
MADE_WORDS = """
in_ok in_err in_default type_inv invariant_of way_told yielded_by slice_bounds offset_bounds enum_known shape_of far_end same_long
overflow_add overflow_sub overflow_mul overflow_step overflow_cast overflow_shl overflow_shr nonzero_div nonzero_rem
split_at is_some is_none is_ok is_err as_slice as_mut_slice push_str copy_from_slice saturating_add saturating_sub iter_mut get_mut
""".split()
RUST = re.compile(r'//[^\n]*|"(?:\\.|[^"\\])*"|\'(?:\\.|[^\'\\])\'', re.S)


def files():
    for folder, dirs, names in os.walk("crates"):
        dirs[:] = sorted(d for d in dirs if d != "out")
        for name in sorted(names):
            if name.endswith((".rt", ".antt")):
                yield os.path.join(folder, name)


def code_of(line):
    """The code of an .antt line, and its comment."""
    at = re.search(r"(?<!\S)--(?=\s|$)", line)
    return (line, "") if at is None else (line[: at.start()], line[at.start():])


def snake(name):
    """`entry-ops` as `entry_ops`; the older kit's words `getD` and `putMid` in a lemma's name as today's."""
    name = re.sub(r"(?<=\w)-(?=\w)", "_", name)
    return name.replace("getD", "get_or").replace("putMid", "put_mid")


def declared(texts):
    own, every = set(), set()
    for path, text in texts.items():
        if not path.endswith(".antt"):
            continue
        for line in text.split("\n"):
            m = DECLARED.match(code_of(line)[0] + " ")
            if m:
                every.add(m.group(1))
                if LEMMAS.search(path):
                    own.add(m.group(1))
    return own, every


def imported(texts):
    names = set()
    for text in texts.values():
        for m in IMPORT.finditer(text):
            for item in m.group(2).split(","):
                names.update(word.strip("« »\n") for word in item.split(" as "))
    return names


def aliases(text):
    """The names with a dash that a file gives to its imports; port.py writes `Taken-of` for `taken-of`."""
    names = {}
    for line in text.split("\n"):
        if re.match(r"(?:ghost )?(?:pub )?use ", line):
            for name in re.findall(r" as ([A-Za-z][\w-]*)(?=[,}])", line):
                names[name] = snake(name).replace("Taken_of", "taken_of")
    return names


def local_lemmas(path, text):
    """The lemmas that a function's proof file has for itself; those of type `goal.x` are answers, and Rattle names them."""
    names = {}
    if MADE.search(path):
        for line in text.split("\n"):
            m = re.match(r"(?:pub )?([A-Za-z][\w'₀-₉-]*)\s*(?:\{[^}]*\}\s*)?(?:\([^)]*\)\s*)*: (?!goal\.)", line)
            if m:
                names[m.group(1)] = snake(m.group(1))
    return names


def all_by_recursion(text):
    """`AllByRecursion as All`, as port.py leaves it, by its own name."""
    if "AllByRecursion as All" not in text:
        return text
    text = text.replace("AllByRecursion as All", "AllByRecursion")
    return "\n".join(re.sub(r"(?<![\w.'-])All(?![\w'-])", "AllByRecursion", code) + comment for code, comment in map(code_of, text.split("\n")))


def turned(code, table):
    return TOKEN.sub(lambda m: table.get(m.group(0), m.group(0)), code)


def spans(comment, table):
    return re.sub(r"`[^`]*`", lambda m: turned(m.group(0), table), comment)


def antt(text, table):
    lines = []
    for line in text.split("\n"):
        code, comment = code_of(line)
        parts = re.split(r'("(?:\\.|[^"\\])*")', code)
        lines.append("".join(p if p.startswith('"') else turned(p, table) for p in parts) + spans(comment, table))
    return "\n".join(lines)


def rust(text, table):
    at, out = 0, []
    for m in RUST.finditer(text):
        out.append(turned(text[at: m.start()], table))
        out.append(spans(m.group(0), table) if m.group(0).startswith("//") else m.group(0))
        at = m.end()
    out.append(turned(text[at:], table))
    return "".join(out)


def sources(texts):
    """The Rust names that have an underscore, of the repository's sources, longest first, by their parts."""
    names = set()
    for path, text in texts.items():
        if path.endswith(".rt"):
            names.update(n for n in re.findall(r"\b[a-z_][a-z0-9_]*\b|\b[A-Z][A-Z0-9_]*\b", RUST.sub(" ", text)) if "_" in n.strip("_"))
    names.update(MADE_WORDS)
    return sorted((tuple(n.split("_")) for n in names), key=len, reverse=True)


def made(text, names, keep):
    """Names that Rattle makes get the Rust spelling of the Rust names in them."""

    def one(m):
        word = m.group(0)
        # `index-list-at` is of the element `list[at]`
        if word in keep or "-" not in word or word == "index-list-at":
            return word
        parts = re.split(r"(-|\+)", re.sub(r"·(?=\d)", "-", word))
        for name in names:
            n = 2 * len(name) - 1
            want = [x for part in name for x in (part, "-")][:-1]
            at = 0
            while at + n <= len(parts):
                if parts[at: at + n] == want:
                    parts[at: at + n] = ["_".join(name)]
                at += 1
        return "".join(parts)

    lines = []
    for line in text.split("\n"):
        code, comment = code_of(line)
        lines.append((TOKEN.sub(one, code) if not code.startswith("use ") or ".Goals" in code or ".Given" in code else code) + comment)
    return "\n".join(lines)


def main():
    texts = {}
    for path in files():
        with open(path, encoding="utf-8") as f:
            texts[path] = f.read()
    own, every = declared(texts)
    foreign = imported(texts)
    table = {n: snake(n) for n in own if snake(n) != n and n not in foreign}
    both = collections.Counter(table.values())
    clash = sorted(n for n, to in table.items() if both[to] > 1 or to in every or to in foreign)
    if clash:
        sys.exit("respell: these names would fall together with others: " + ", ".join(clash))
    words = sources(texts)
    count = 0
    for path, text in texts.items():
        new = (antt if path.endswith(".antt") else rust)(text, {**table, **aliases(text), **local_lemmas(path, text)})
        if MADE.search(path):
            new = made(new, words, foreign)
        new = all_by_recursion(new)
        if new != text:
            count += 1
            if "--check" not in sys.argv:
                with open(path, "w", encoding="utf-8") as f:
                    f.write(new)
    print(f"respell: {len(table)} names, {count} files")


main()
