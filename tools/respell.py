#!/usr/bin/env python3
"""Brings the repository's own names in specs/, proofs/ and clauses to today's spelling.

usage: python3 tools/respell.py [--list]      at the top of the repository; --list prints the names and writes nothing

A word is in snake case and a type, a fact or a module in upper camel case: all-pins becomes all_pins, Made-is-idle MadeIsIdle.
A name is the repository's own if a file of specs/ or proofs/ declares it, binds it as a variable or has it as a field.
Names of goals, of steps of a proof and of the library stay. In docs/ and README.md only what stands between back quotes is turned.
docs/PORT.md, which tells the old names, is left alone. Two names that would fall together stop the script, before anything is written.
A second run changes nothing.
"""

import os
import re
import sys

# A name is made of anything but white space and brackets; a dash inside it joins words.
NAME = r"[^\W\d][\w'₀-₉]*(?:-[\w'₀-₉]+)+"
TOKEN = re.compile(r"(?<![\w'₀-₉·◌-])" + NAME + r"(?![\w'₀-₉·◌])")
DECLARED = re.compile(r"^\s*(?:abbrev |unfoldable )?(?:pub )?(?:abbrev |unfoldable )?(?:record |data )?(?:pub )?(" + NAME + r")(?:\s+[({].*?)?\s*:(?!:)")
BOUND = re.compile(r"[({]((?:[^\W\d][\w'₀-₉-]*\s+)*)([^\W\d][\w'₀-₉-]*)\s+:\s")
LET = re.compile(r"\blet\s+(" + NAME + r")\b")
CLAUSE = re.compile(r"^\s*([^\W\d][\w'₀-₉-]*)((?:\s+[\w'₀-₉\[\]().,∷{}=-]+)+)\s=\s")
IMPORT = re.compile(r"^\s*(?:pub )?(?:ghost )?use ([\w.+'-]+)\.\{([^}]*)\}", re.M)
# A lemma that would have the name of the function that names it gets another ending, as in the library.
LEMMAS = {n: n.replace("-", "_") + "_lem" for n in ("one-reading", "one-verdict", "one-wiring", "rules-in-order", "texts-are-short")}
# A name that stands already as the folder of a method's proof, and nowhere as a name.
FOLDERS = {"comes-on"}
# A record whose name the kit's scripts took for a word, as a name of the library was spelled like it.
RECORDS = {"Goes-on": "GoesOn", "Goes_on": "GoesOn"}
# Goals and steps that the check names, and the parts of their names.
MADE = re.compile(r"^(?:returns|loop|in|if|then|else|overflow|nonzero|bounds|slice_bounds|invariant|decreases|ghost|the|from|index|match|copy|extend)(?:_\w+?)?-|-(?:requires|init|preserved|smaller|index|item|test|law)$")


def files(root, endings):
    for folder, dirs, names in os.walk(root):
        dirs[:] = sorted(d for d in dirs if d not in ("out", ".git"))
        for n in sorted(names):
            if n.endswith(endings):
                yield os.path.join(folder, n)


def read(path):
    with open(path, encoding="utf-8") as f:
        return f.read()


def code(line):
    return re.split(r"(?:^|\s)--(?:\s|$)", line)[0]


def own_names(texts):
    """The names with a dash that the repository's .antt files declare or bind."""
    own, library = set(), set()
    for path, text in texts.items():
        for module, items in IMPORT.findall(text):
            if not re.match(r"Rattle\.(?!std\b)", module):
                library |= {i.split(" as ")[0].strip() for i in items.split(",")}
    for path, text in texts.items():
        if not path.endswith(".antt"):
            continue
        answers = os.path.basename(path) in ("Answers.antt", "Invariants.antt")
        for line in text.split("\n"):
            line = code(line)
            if IMPORT.match(line):
                continue
            found = DECLARED.match(line)
            names = {found[1]} if found else set()
            for words, last in BOUND.findall(line):
                names |= {w for w in words.split() + [last] if "-" in w}
            names |= set(LET.findall(line))
            clause = CLAUSE.match(line)
            if clause and not answers:
                names |= {w for w in re.findall(NAME, clause[2])}
            own |= {n for n in names if not (answers and MADE.search(n))}
    return {n for n in own - library if re.fullmatch(NAME, n)}


def spelled(name):
    if name in LEMMAS:
        return LEMMAS[name]
    if name[0].isupper():
        return "".join(w[:1].upper() + w[1:] for w in name.split("-"))
    return name.replace("-", "_")


def turned(text, names):
    text = re.sub(r"\bGoes_on\b", RECORDS["Goes_on"], text)
    return TOKEN.sub(lambda m: names.get(m[0], m[0]), text)


def quoted(text, names):
    """Turns what stands between back quotes."""
    return re.sub(r"`[^`\n]+`", lambda m: turned(m[0], names), text)


def turned_file(path, text, names):
    if path.endswith(".md"):
        return quoted(text, names)
    if path.endswith(".antt"):
        lines = []
        for line in text.split("\n"):
            head = code(line)
            lines.append(turned(head, names) + quoted(line[len(head) :], names))
        return "\n".join(lines)
    return turned(text, names)


def fallen_together(names, texts):
    taken = set()
    for path, text in texts.items():
        if path.endswith(".antt"):
            taken |= set(re.findall(r"[^\W\d][\w'₀-₉]*", "\n".join(code(l) for l in text.split("\n"))))
    seen, bad = {}, []
    for old in sorted(names):
        new = names[old]
        if old in RECORDS:
            continue
        if new in seen:
            bad.append(f"{old} and {seen[new]} would both be {new}")
        if new in taken and old not in FOLDERS:
            bad.append(f"{old} would be {new}, which stands already")
        seen[new] = old
    return bad


def main(argv):
    texts = {p: read(p) for p in files("crates", (".antt", ".rt", ".edit"))}
    names = {n: spelled(n) for n in own_names(texts)} | RECORDS
    bad = fallen_together(names, texts)
    if argv == ["--list"]:
        for old in sorted(names):
            print(old, names[old])
        print("\n".join(bad))
        return 0
    if bad:
        print("\n".join(bad))
        return 1
    pages = [p for p in files("docs", (".md",)) if os.path.basename(p) != "PORT.md"]
    texts |= {p: read(p) for p in pages + ["README.md"]}
    for path, text in texts.items():
        new = turned_file(path, text, names)
        if new != text:
            with open(path, "w", encoding="utf-8") as f:
                f.write(new)
    print(f"{len(names) - len(RECORDS)} names, and {RECORDS['Goes-on']}")
    return 0


if __name__ == "__main__":
    raise SystemExit(main(sys.argv[1:]))
