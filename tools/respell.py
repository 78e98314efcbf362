#!/usr/bin/env python3
"""Gives the definitions and lemmas of this repository the spelling of the kit's: words in snake case. Run it once, at the top, right after port.py.

    wellFormed -> well_formed      there-found -> there_found      map-append stays: it joins two names

A name that would fall together with another gets `_lem`, as the kit does it. It turns specs/, proofs/, clauses and imports of src/, must-fail edits, and what stands
in backticks in the pages. Names of functions, goals, strings and whatever is in capitals stay. It prints each name that it turned.
"""

import glob
import re

WORD = r"[^\s(){}.;,@\"«»\[\]\\]+"
TOKEN = re.compile(r"--[^\n]*|//[^\n]*|\"(?:[^\"\\]|\\.)*\"|«[^»]*»|" + WORD)
DECLARED = re.compile(r"(?m)^\s*(?:(?:pub|abbrev|unfoldable|record|data|ruleset) )*([^\s:(){}.;,\"«»]+)(?= [^\n]*?: | :|$)")
# Rattle's own names in proofs, and the words that begin a line of a proof.
MADE = re.compile(r"^(returns|loop|invariant|decreases|overflow|ensures|requires)(-|$)|-(requires|spec)$|^(use|mod|pub|where|let|in|elim|open|module|unfolding)$")
# What a lemma of lists is named after, beside the repository's own definitions.
PARTS = set("map append length take drop concat get_or set sets all find keep has filter reverse replicate sum min max".split())


def read(path):
    with open(path, encoding="utf-8") as f:
        return f.read()


def write(path, text):
    with open(path, "w", encoding="utf-8") as f:
        f.write(text)


def snake(word):
    return re.sub(r"(?<=[a-z0-9])(?=[A-Z])", "_", word).lower()


def is_ours(name):
    return bool(re.match(r"^[a-z][\w'′₀-₉-]*$", name)) and not MADE.search(name)


def files(*ends):
    return sorted(p for e in ends for p in glob.glob(f"crates/*/{e}", recursive=True))


def declared(paths):
    found = set()
    for path in paths:
        for name in DECLARED.findall(re.sub(r"--[^\n]*", "", read(path))):
            if is_ours(name):
                found.add(name)
    return found


def bare_words(text):
    """The words of a text of antt that stand for themselves, behind no dot and in no path."""
    text = re.sub(r"--[^\n]*|\"(?:[^\"\\]|\\.)*\"", " ", text)
    return set(re.findall(r"(?<![\w.'-])" + WORD, text))


def turned(paths):
    proofs = [p for p in paths if "/proofs/" in p]
    specs = [p for p in paths if "/specs/" in p]
    names = declared([p for p in paths if not p.endswith("Proof.antt")])
    parts = PARTS | {snake(n) for n in declared(specs) if "-" not in n}
    # A name that comes from the kit stays.
    for path in paths + files("src/**/*.rt"):
        for line in read(path).split("\n"):
            m = re.match(r"\s*(?:ghost |pub )*use (?!Rattle\.(?!std\b))[\w.']+\.\{([^}]*)\}", line)
            if m:
                names -= {w.strip() for w in m[1].split(",")}
    taken = set()
    for path in proofs + specs:
        taken |= bare_words(read(path))
    new_of = {}
    for name in sorted(names):
        words = [snake(w) for w in name.split("-")]
        new = words[0]
        for before, word in zip(words, words[1:]):
            new += ("-" if before in parts and word in parts else "_") + word
        if new != name:
            new_of[name] = new
    # Definitions choose first, since contracts and pages name them; what would still fall together keeps its name.
    used = set(taken)
    for name in sorted(new_of, key=lambda n: (n == n.lower(), n)):
        new = new_of[name] if new_of[name] not in used else new_of[name] + "_lem"
        if new in used:
            del new_of[name]
        else:
            new_of[name] = new
            used.add(new)
    return new_of


def respell(text, new_of, comments=True):
    def one(m):
        word = m[0]
        if word.startswith(('"', "«")):
            return word
        if word.startswith(("--", "//")):
            return re.sub(r"(?<![\w'-])[a-z]+[a-z0-9]*[A-Z]\w*(?![\w'-])", lambda w: new_of.get(w[0], w[0]), word) if comments else word
        return new_of.get(word, word)

    return TOKEN.sub(one, text)


def clauses(text, new_of):
    """As respell, of the imports, the clauses and the comments of a source."""
    out, depth, inside = [], 0, False
    for line in text.split("\n"):
        starts = re.match(r"\s*(ghost|requires|ensures)\b", line)
        if starts and not inside:
            inside, depth = True, 0
        if inside:
            out.append(respell(line, new_of))
            depth += line.count("{") - line.count("}")
            if depth <= 0 and ("}" in line or line.rstrip().endswith(";")):
                inside = False
        else:
            out.append(re.sub(r"//[^\n]*", lambda m: respell(m[0], new_of), line))
    return "\n".join(out)


def main():
    paths = files("specs/**/*.antt", "proofs/**/*.antt")
    new_of = turned(paths)
    for path in paths:
        write(path, respell(read(path), new_of))
    for path in files("src/**/*.rt"):
        write(path, clauses(read(path), new_of))
    named = declared(paths)
    camel = {k: v for k, v in new_of.items() if k != k.lower()}
    for path in files("must-fail/*.edit"):
        text = read(path)
        whole = new_of if re.search(r"(?m)^file: (specs|proofs)/", text) else camel
        write(path, "\n".join(respell(l, whole) if l.startswith(("old:", "new:")) else l for l in text.split("\n")))
    for path in glob.glob("*.md") + glob.glob("docs/**/*.md", recursive=True):
        # port.py has turned the names that the kit has too, and no page.
        now = lambda word: new_of.get(word) or (snake(word) if is_ours(word) and snake(word) in named else word)
        write(path, re.sub(r"`[^`\n]+`", lambda m: TOKEN.sub(lambda w: now(w[0]), m[0][1:-1]).join("``"), read(path)))
    for name in sorted(new_of):
        print(name, new_of[name])


main()
