#!/usr/bin/env python3
"""Counts the places of the design pass (docs/DESIGN-PASS.md): tools/places.py [-v] [COMMIT]

It reads crates/*/src (for the last point crates/*/proofs) of a commit, or of the work tree where none is named, and prints a line for each
kind of place: the point, a letter, how many there are, and what is counted. With -v each place follows, as file:line.
A line that is found is a place to look at and no verdict: docs/DESIGN-PASS.md says which are kept, and why."""
import re
import subprocess
import sys
from collections import defaultdict

LINES = [
    ("1a", "a number as the error of a Result", r"Result<.*, (usize|u8)>"),
    ("1b", "a number for a kind, a tag, a level", r"\b(kind|tag|number|level): (u8|usize)\b"),
    ("1c", "a function that turns cases into numbers, or numbers into cases, arm by arm", r"^ +[0-9]+ => |=> [0-9]+,$|\b(tag|kind) == [0-9]"),
    ("1d", "a flag in a struct", r"^    (pub(\(crate\))? )?[a-z_]+: bool,$"),
    ("1e", "a number that stands for none", r"== 255|\{ 255 \}|=> 255\b|unwrap_or\(255\)"),
    ("1f", "a match that `?`, `map`, `map_err` or a test writes", r"Err\((e|_)\) => (Err\(|None|return)|None => (return )?None\b|None => return Err|Ok\((\(\)|lens|len|_)\) => Ok\((\(\)|lens|len)\)|Some\((k|d|n)\) => (return )?Some|Some\(\(at, _\)\) => Some|None => \{\}|Some\(_\) => \{\}"),
    ("1g", "an own enum of the shape of Result or of a number", r"enum (Answer|Wide)\b"),
    ("3a", "a loop over a range of numbers", r"^ *for [a-z_]+ in .*\.\."),
    ("3b", "a loop by while", r"^ *while "),
    ("4", "comparing, converting or spelling written by hand", r"fn (is_same|is_equal|tell|tell_[a-z]+|table_place|number|level|place|kind|end|width|spell|spell_number|mark_word|refused|tag|entered|previewed|done|shown|no_row|unused_row)\b"),
    ("6a", "an array of lengths beside the rows", r"\b(lens|ends): (&(mut )?)?\[usize"),
    ("6b", "rows lent together with how many of them count", r"answers how many"),
    ("7", "a switch on which step is meant", r"enum Pick\b|match pick\b|match form\b"),
]

TOGETHER = [
    ("5b", "shelf, index, cards", r"\bshelf: &", r"\bindex: &", r"\bcards: &"),
    ("5c", "index, cards", r"\bindex: &", r"\bcards: &"),
    ("5d", "lists, lens", r"\blists: &", r"\blens: &"),
    ("5e", "card or results, ends", r"\b(card|results|gathered): &", r"\bends: &"),
    ("5f", "working rows: gathered or acc, joined or src or reduced", r"\b(gathered|acc): &", r"\b(joined|src|reduced): &"),
    ("5g", "net, beneath", r"\bnet: &", r"\bbeneath: &"),
    ("5h", "marks, order", r"\bmarks: &", r"\border: &"),
    ("5i", "heap, text", r"\bheap: Global", r"\btext: &mut String"),
    ("5j", "bytes, width", r"\b(bytes|content|sheet): &('a )?\[u8\]", r"\bwidth: Width"),
]


def files(commit, pattern):
    if commit:
        names = subprocess.run(["git", "ls-tree", "-r", "--name-only", commit, "crates"], capture_output=True, text=True, check=True).stdout
    else:
        names = subprocess.run(["git", "ls-files", "-co", "--exclude-standard", "crates"], capture_output=True, text=True, check=True).stdout
    for name in sorted(set(names.split("\n"))):
        if re.fullmatch(pattern, name):
            if commit:
                yield name, subprocess.run(["git", "show", f"{commit}:{name}"], capture_output=True, text=True, check=True).stdout
            else:
                try:
                    yield name, open(name, encoding="utf8").read()
                except FileNotFoundError:
                    pass


def functions(text):
    """Each function's line and head: from `fn` to the line that opens its body, or to the `;` of a trait's."""
    lines = text.split("\n")
    for i, line in enumerate(lines):
        if re.match(r" *(pub(\(crate\))? )?fn ", line):
            head = []
            for more in lines[i:]:
                head.append(more)
                if more.rstrip().endswith(" {") and "requires" not in more and "ensures" not in more or more.strip() == "{" or more.rstrip().endswith(";") or more.rstrip().endswith("{}"):
                    break
            yield i + 1, "\n".join(head)


def main():
    words = [w for w in sys.argv[1:] if w != "-v"]
    verbose = "-v" in sys.argv[1:]
    commit = words[0] if words else None
    sources = list(files(commit, r"crates/[^/]+/src/[^/]+\.rt"))
    found = defaultdict(list)
    said = {}
    for key, what, pattern in LINES:
        said[key] = what
        for name, text in sources:
            function = ""
            for i, line in enumerate(text.split("\n")):
                head = re.match(r" *(?:pub(?:\(crate\))? )?fn ([a-z_0-9]+)", line)
                if head:
                    function = head.group(1)
                if line.lstrip().startswith("//") != (key == "6b"):
                    continue
                if re.search(pattern, line):
                    if key != "1c":
                        found[key].append(f"{name}:{i + 1}: {line.strip()}")
                    elif f"{name}: {function}" not in found[key]:
                        found[key].append(f"{name}: {function}")
    said["2a"] = "a function's name that stands in several files (methods of a trait's impls left out)"
    names = defaultdict(list)
    for name, text in sources:
        for line, head in functions(text):
            indent = len(head) - len(head.lstrip())
            if indent == 0 or "impl " not in text:
                names[re.search(r"fn ([a-z_0-9]+)", head).group(1)].append(f"{name}:{line}")
    for word, where in sorted(names.items()):
        if len(where) > 1 and word not in ("main",):
            found["2a"].append(f"{word}: {', '.join(where)}")
    said["5a"] = "a `requires` that stands in three functions of a crate or more"
    clauses = defaultdict(list)
    for name, text in sources:
        for line, head in functions(text):
            for clause in re.findall(r"requires (?:[a-z_]+ )?\{ (.*) \}$", head, re.M):
                clauses[name.split("/")[1], clause].append(f"{name}:{line}")
    for (crate, clause), where in sorted(clauses.items()):
        if len(where) > 2:
            found["5a"].append(f"{crate}: {clause} ({len(where)} times: {', '.join(where)})")
    for key, what, *patterns in TOGETHER:
        said[key] = "parameters that travel together: " + what
        for name, text in sources:
            for line, head in functions(text):
                if all(re.search(p, head) for p in patterns):
                    found[key].append(f"{name}:{line}")
    for key in sorted(said):
        print(f"{key:3} {len(found[key]):4}  {said[key]}")
        if verbose:
            for place in found[key]:
                print("        ", place)
    answers = [(n, t) for n, t in files(commit, r"crates/[^/]+/proofs/.+/[^/]+\.antt")]
    lemmas = [(n, t) for n, t in files(commit, r"crates/[^/]+/proofs/[^/]+\.antt")]
    print(f"8   {sum(len(re.findall('^pub ', t, re.M)) for n, t in answers if n.endswith('Answers.antt')):4}  answers, in {sum(t.count(chr(10)) for n, t in answers)} lines of functions' proof files; "
          f"{sum(len(re.findall('^(?:pub )?[^ ]+ :', t, re.M)) for n, t in lemmas)} lemmas, in {sum(t.count(chr(10)) for n, t in lemmas)} lines")


main()
