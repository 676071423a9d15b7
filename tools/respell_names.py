#!/usr/bin/env python3
"""Respells the names of this repository's own definitions and lemmas: words in snake case, facts in upper camel case.

usage: tools/respell_names.py [--dry]        at the top of the repository, once, after the kit's own script has run

A name is respelled where specs/ or proofs/ of a crate declare it, or where a proof file names a field or step that has its name from src/. Names of
functions, fields and constants in src/, exported names, strings, inputs and outputs keep theirs.
"""

import collections
import os
import re
import sys

WORD = re.compile(r"[^\s(){}\[\],;.:=→λ×⊎«»\"|↦?&`]+")
CAMEL = re.compile(r"[a-z][A-Za-z0-9]*[A-Z][A-Za-z0-9']*")
DASHED = re.compile(r"[A-Za-z][\w'₀-₉]*(?:-[\w'₀-₉]+)+")
HEAD = re.compile(r"^(\s*)(?:(?:pub|abbrev|unfoldable|data|record|private)\s+)*([^\s(){}:;,]+(?:\s+[^\s(){}:;,=]+)*)\s*(?:[({].*)?:(?:\s|$)")
USE = re.compile(r"(?m)^\s*(?:ghost )?use (\S+?)\.\{([^}]*)\}")


def texts(root, ends):
    for folder, dirs, names in os.walk(root):
        dirs[:] = sorted(d for d in dirs if d not in ("out", ".git"))
        for name in sorted(names):
            if name.endswith(ends):
                path = os.path.join(folder, name)
                with open(path, encoding="utf-8") as f:
                    yield path, f.read()


def code_of(text):
    return re.sub(r"(?m)(?<!\S)--(?!-*>).*$", "", text)


def snake(name):
    return re.sub(r"(?<=[a-z0-9'])([A-Z])", lambda m: "_" + m.group(1), name).lower()


def declared(crates):
    """The names that specs/ and proofs/ declare, each with the type that stands beside it on its line."""
    found = {}
    for path, text in texts(crates, ".antt"):
        for line in code_of(text).splitlines():
            if re.match(r"\s*(use|open|unfolding|infix\w*|module)\b", line):
                continue
            m = HEAD.match(line)
            if m:
                for name in m.group(2).split():
                    found.setdefault(name, line[m.end():])
            for inner in re.findall(r"[({]([^(){}:=]+) :", line) + re.findall(r"\blet ([^\s:=(){}]+) [:=]", line) + re.findall(r"λ ((?:[^\s.(){}]+ ?)+)\.", line):
                for name in inner.split():
                    found.setdefault(name, "")
    return found


def imported(crates):
    """The names that come from the library."""
    own = set(os.listdir(crates))
    found = set()
    for _, text in texts(crates, (".antt", ".rt")):
        for m in USE.finditer(text):
            parts = m.group(1).split(".")
            if parts[0] != "Rattle" or parts[1] not in own:
                found |= {word.strip().split(" as ")[0] for word in m.group(2).split(",")}
    return found


def source_words(crates):
    found = set()
    for _, text in texts(crates, ".rt"):
        found |= set(re.findall(r"[a-z][a-z0-9_]*", re.sub(r"(?m)//.*$", "", text)))
    return found


def spelling(crates):
    names, library, source = declared(crates), imported(crates), source_words(crates)
    squashed = {}
    for word in source:
        squashed.setdefault(word.replace("_", ""), word)
    new = {}
    for name, of in names.items():
        if name in library:
            continue
        if CAMEL.fullmatch(name):
            if re.search(r"(^|→ )Type 0\s*$", of):
                new[name] = name[0].upper() + name[1:]
            else:
                new[name] = snake(name)
                if new[name] not in source:
                    new[name] = squashed.get(new[name].replace("_", ""), new[name])
        elif DASHED.fullmatch(name):
            new[name] = name.replace("-", "_")
    for _, text in texts(crates, ".antt"):
        for word in WORD.findall(code_of(text)):
            if word not in new and word not in library and DASHED.fullmatch(word) and word.replace("-", "_") in source:
                new[word] = word.replace("-", "_")
    apart(crates, names, library, source, new)
    return new


def together(crates):
    """For each file, the names in it, and those that it declares."""
    for _, text in texts(crates, (".antt", ".rt")):
        lines = code_of(text).splitlines()
        heads = [m.group(2).split() for m in map(HEAD.match, lines) if m]
        yield set(WORD.findall("\n".join(lines))), {name for names in heads for name in names}


def apart(crates, names, library, source, new):
    """A lemma that would have its definition's name, or a library's, in a file that has both gets _lem."""
    files = list(together(crates))
    olds = collections.defaultdict(set)
    for name, chosen in new.items():
        if name in names:
            olds[chosen].add(name)
    for chosen, before in sorted(olds.items()):
        kept = {chosen} if chosen in names and chosen not in new else set()
        if len(before | kept) < 2 and chosen not in library:
            continue
        for name in sorted(before | kept):
            others = (before | kept | {chosen}) - {name}
            if CAMEL.fullmatch(name) or name in kept and (name in source or any(DASHED.fullmatch(n) for n in before)):
                continue
            if chosen in source:
                others = {n for n in others if CAMEL.fullmatch(n)}
            if any(name in (heads if chosen in source else words) and words & others for words, heads in files):
                new[name] = chosen + "_lem"
        print(f"together: {', '.join(sorted(before | kept))}: " + ", ".join(sorted({new.get(n, n) for n in before | kept})))


def respelled(text, new):
    """A name behind a dot that has the spelling of one in src/ is a field or a step, and no lemma."""

    def one(m):
        chosen = new.get(m.group(), m.group())
        behind = m.start() > 0 and text[m.start() - 1] == "."
        return m.group().replace("-", "_") if behind and chosen.endswith("_lem") and DASHED.fullmatch(m.group()) else chosen

    return WORD.sub(one, text)


def in_comments(text, new):
    """Only names in camel case: a word with a dash may be an English one."""
    camel = {name: chosen for name, chosen in new.items() if CAMEL.fullmatch(name)}
    return WORD.sub(lambda m: camel.get(m.group(), m.group()), text)


def turned(path, text, new):
    if path.endswith(".antt"):
        lines = []
        for line in text.split("\n"):
            m = re.search(r"(?<!\S)--(?!-*>).*$", line)
            at = m.start() if m else len(line)
            lines.append(respelled(line[:at], new) + in_comments(line[at:], new))
        return "\n".join(lines)
    return in_comments(text, new)


def main(argv):
    crates = "crates"
    new = spelling(crates)
    if "--dry" in argv:
        for name, chosen in sorted(new.items()):
            print(f"{name} {chosen}")
        return
    ends = (".antt", ".rt", ".edit")
    every = list(texts(crates, ends)) + [(p, t) for p, t in texts(".", ".md") if not p.startswith("./crates")]
    for path, text in every:
        changed = turned(path, text, new)
        if changed != text:
            with open(path, "w", encoding="utf-8") as f:
                f.write(changed)


if __name__ == "__main__":
    main(sys.argv[1:])
