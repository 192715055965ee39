#!/usr/bin/env python3
"""Respells the repository's own definitions and lemmas: words in snake case, facts in camel case.

    respell.py            from the top of the checkout, once, after the port's own script
    respell.py --dry      only tell what would change, and which names would fall together
"""

import collections
import glob
import os
import re
import sys

WORD = r"[A-Za-z_ℕℤ][A-Za-z0-9_ℕℤ⊎']*"
DASHED = WORD + r"(?:-[A-Za-z0-9_ℕℤ⊎'+*]+)+"
TOKEN = re.compile(WORD.replace("']*", "'·]*") + r"(?:-[A-Za-z0-9_ℕℤ⊎'·]+)*(?:-[+*]+)?")
FOLDER_FILES = ("Answers.antt", "Invariants.antt", "Proof.antt")
KEYWORDS = r"(?:(?:abbrev|unfoldable|pub|data|record|mutual)\s+)*"

# Words that today's language keeps for tactics.
TACTICS = {"first_of": "first_or", "last_of": "last_or"}
TACTIC_PLACES = ("planning/", "planner/", "meaning/proofs/BackLinks", "meaning/proofs/Rising", "meaning/proofs/Told",
                 "meaning/proofs/BacksNeeded", "meaning/proofs/BacksWhole")
LEMMA_PLACE = "meaning/proofs/Turns"


def antt_files():
    found = glob.glob("crates/*/specs/**/*.antt", recursive=True)
    return sorted(found + glob.glob("crates/*/proofs/**/*.antt", recursive=True))


def is_code(line):
    return not line.lstrip().startswith("--")


def bare(text):
    """The text without comment lines and strings."""
    text = "\n".join(line if is_code(line) else "" for line in text.split("\n"))
    return re.sub(r'"(\\.|[^"\\])*"', '""', text)


def imported(text):
    """Names that a file takes from the library."""
    names = set()
    for part in re.findall(r"^(?:ghost )?use (?:Rattle\.std|Prim|mathlib|lib|native)\S*\.\{([^}]*)\}", text, re.M):
        for item in re.split(r",\s*", part):
            names.update(piece.strip() for piece in item.split(" as "))
    return names


def own_names(files):
    """Dashed names that the repository defines."""
    names, library = collections.defaultdict(set), set()
    for path in files:
        text = open(path).read()
        library |= imported(text)
        code = bare(text)
        if os.path.basename(path) in FOLDER_FILES:
            found = re.findall(r"^\s*" + KEYWORDS + "(" + DASHED + r") : (?!goal\.)", code, re.M)
        else:
            found = re.findall(r"^\s*" + KEYWORDS + "(" + DASHED + r")\s*(?::|\(|=|\s[a-z_(])", code, re.M)
            found += re.findall(r"(?:let |λ |[({λ][^(){}λ]*?)(" + DASHED + r")\s*(?::|=|\.)", code)
        for name in found:
            names[name].add(path)
    return {name: names[name] for name in names if name not in library}


def respelled(name):
    if name[0].isupper():
        first, *rest = name.split("-")
        return first + "".join(part[:1].upper() + part[1:] for part in rest)
    return name.replace("-", "_").replace("_++", "-++")


def changed_line(line, names, path):
    in_folder = os.path.basename(path) in FOLDER_FILES
    out, at, quoted = [], 0, False
    for match in TOKEN.finditer(line):
        before = line[:match.start()]
        word = match.group(0)
        if before.count('"') % 2:
            continue
        if in_folder and re.search(r"\b[cw]\.$", before) and re.match(r"(if|in|loop|then|else)-", word):
            continue
        if in_folder and before.endswith("goal."):
            continue
        new = names.get(word, word)
        if new == "ground" and path.endswith(".antt") and not re.search(r"[.:]$", before):
            new = "plan_ground"
        if word in TACTICS and any(place in path for place in TACTIC_PLACES):
            new = TACTICS[word]
        if word == "first_of" and LEMMA_PLACE in path:
            new = "first_at"
        out.append(line[at:match.start()] + new)
        at = match.end()
    return "".join(out) + line[at:]


def changed_antt(text, names, path):
    return "\n".join(changed_line(line, names, path) if is_code(line) else line for line in text.split("\n"))


def changed_source(text, names, path):
    """A .rt file: only its ghost lines and clauses."""
    lines, depth = [], 0
    for line in text.split("\n"):
        ghost = re.match(r"\s*(ghost |requires|ensures)", line) or depth > 0
        if ghost and not line.lstrip().startswith("//"):
            depth = max(0, depth + line.count("{") - line.count("}"))
            line = changed_line(line, names, path)
        lines.append(line)
    return "\n".join(lines)


def changed_page(text, names):
    """A page: only what stands in back quotes."""
    def turn(match):
        return TOKEN.sub(lambda m: names.get(m.group(0), m.group(0)), match.group(0))
    return re.sub(r"`[^`\n]+`", turn, text)


def main(dry):
    files = antt_files()
    own = own_names(files)
    names = {name: respelled(name) for name in own if respelled(name) != name}
    sources = sorted(glob.glob("crates/*/src/**/*.rt", recursive=True))
    seen = collections.defaultdict(set)
    for path in files + sources:
        for word in TOKEN.findall(bare(open(path).read())):
            seen[word].add(path)
    targets = collections.defaultdict(list)
    for name, new in names.items():
        targets[new].append(name)
    for new, olds in sorted(targets.items()):
        if len(olds) > 1 or new in seen:
            print("together:", new, olds, sorted(seen.get(new, []))[:6])
    print(len(names), "names")
    if dry:
        return
    for path in files:
        rewrite(path, lambda text: changed_antt(text, names, path))
    for path in sources:
        rewrite(path, lambda text: changed_source(text, names, path))
    for path in ["README.md"] + sorted(glob.glob("docs/*.md")):
        if not path.startswith("docs/PORT"):
            rewrite(path, lambda text: changed_page(text, names))


def rewrite(path, change):
    with open(path) as file:
        old = file.read()
    new = change(old)
    if new != old:
        with open(path, "w") as file:
            file.write(new)


if __name__ == "__main__":
    main("--dry" in sys.argv[1:])
