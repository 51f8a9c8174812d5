#!/usr/bin/env python3
"""Respells the repository's own definitions and lemmas as today's Rattle spells names: words in snake case, types in camel case.

usage: tools/respell.py [--check]     at the top of the repository, once, after port.py; --check writes nothing

A name is respelled where a signature line in specs/ or proofs/ gives it: 'plusProduct' and 'adding-afresh' become 'plus_product' and 'adding_afresh'.
Left as they are: functions of src/, exported C names, strings, names that Rattle makes (goals and their tie), and std's names.
Where two names would fall together, the lemma's ends in '_lem'. RENAMED has the names that need a word of their own.
Turned are .antt and .rt files, the must-fail edits, and code spans in comments and in pages.
"""

import collections
import os
import re
import subprocess
import sys

WORD = re.compile(r"[^\s(){}.;,@\"«»\x60]+")
SIGNATURE = re.compile(r"^\s*(?:(?:abbrev|unfoldable|pattern|pub|data|record|ruleset) +)*([^\s:(){}.,]+)(?: \{[^}]*\})? :(?: (.*))?$")
QUOTED = re.compile(r"\"(?:[^\"\\\n]|\\.)*\"|b?'(?:[^'\\\n]|\\.)'")
SPAN = re.compile(r"\x60[^\x60\n]+\x60")

# Names that would have a meaning of Rattle's own, or fall together with another name of the same scope.
RENAMED = {"first_of": "first_holding"}


def tracked(*patterns):
    out = subprocess.run(["git", "ls-files", *patterns], capture_output=True, text=True, check=True).stdout
    return [f for f in out.split("\n") if f and os.path.isfile(f) and not os.path.islink(f)]


def read(path):
    with open(path, encoding="utf-8") as f:
        return f.read()


def snake(name):
    name = name.replace("-", "_")
    return re.sub(r"(?<=[a-z0-9])([A-Z])", lambda m: "_" + m.group(1).lower(), name)


def made_by_rattle(path, name, kind):
    """A goal's answer, or the end of a function's whole proof."""
    kind = kind or ""
    inside = re.search(r"/proofs/.+/[^/]+\.antt$", path)
    return bool(inside) and (kind.startswith("tie.") or "statement M" in kind or name.endswith("-spec") or name.startswith(("invariant-", "decreases-")))


def defined():
    names, places = {}, collections.defaultdict(list)
    for path in tracked("*.antt"):
        for line in read(path).split("\n"):
            m = SIGNATURE.match(line)
            if not m or made_by_rattle(path, m.group(1), m.group(2)):
                continue
            name = m.group(1)
            places[name].append(path)
            if name[0].islower() and re.fullmatch(r"[A-Za-z0-9_'-]+", name):
                names[name] = snake(name)
    return names, places


def words(path):
    """The words of a file's code, its comments left out."""
    return set(WORD.findall(re.sub(r"(?m)(?:^|(?<=\s))(?:--|//)(?=\s).*$", "", read(path))))


def table(tokens):
    """Old name to new. Where two names of one new spelling stand in one file, the lemma's ends in '_lem'."""
    names, places = defined()
    by_new = collections.defaultdict(list)
    for old in names:
        by_new[RENAMED.get(old, names[old])].append(old)
    rows, together = {}, []
    for new, olds in by_new.items():
        olds.sort(key=lambda o: (is_lemma(o, places), "-" in o, o))
        taken = []
        for old in olds:
            meets = any(tokens[old] & tokens[t] for t in taken)
            if meets:
                together.append((old, new + "_lem"))
            to = new + "_lem" if meets else new
            taken.append(old)
            if to != old:
                rows[old] = to
    return rows, together, {rows.get(n, n) for n in names} | set(RENAMED)


def is_lemma(name, places):
    return not any("/specs/" in p for p in places[name])


def turn_code(text, rows, now):
    """Code, with its strings as they are; in a comment only code spans."""
    out = []
    for line in text.split("\n"):
        m = re.search(r"(?:^|\s)(--|//)(?=\s|$)", line)
        code, comment = (line[: m.start(1)], line[m.start(1) :]) if m else (line, "")
        parts, at = [], 0
        for q in QUOTED.finditer(code):
            parts += [WORD.sub(lambda w: rows.get(w.group(), w.group()), code[at : q.start()]), q.group()]
            at = q.end()
        parts.append(WORD.sub(lambda w: rows.get(w.group(), w.group()), code[at:]))
        out.append("".join(parts) + turn_spans(comment, rows, now))
    return "\n".join(out)


def turn_spans(text, rows, now):
    """Code spans alone; there a name may also stand as it was before port.py."""
    def turned(w):
        w = w.group()
        early = snake(w)
        return rows.get(w) or (rows.get(early, early) if w != early and w[0].islower() and early in now else w)

    return SPAN.sub(lambda s: WORD.sub(turned, s.group()), text)


TYPE = re.compile(r"^\s*(?:(?:abbrev|unfoldable|pub) +)*([a-z][^\s:(){}.,]*) : (?:.*→ )?Type [01]$", re.M)


def camel(name):
    return "".join(part.capitalize() for part in re.split(r"[-_]", name))


def turn_types(texts):
    """A definition into Type gets a type's spelling, in its own file and where it is imported: at signatures, imports, 'unfolding' lines and uses as a type."""
    own = {path: [m for m in TYPE.findall(text) if not made_by_rattle(path, m, None)] for path, text in texts.items()}
    whole = {path: re.sub(r"^.*crates/(\w+)/(specs|proofs)/(.*)\.antt$", r"Rattle.\1.\2.\3", path).replace("/", ".") for path in own}
    of_module = {whole[path]: set(names) for path, names in own.items() if names}
    for path, text in texts.items():
        rows = {n: camel(n) for n in own[path]}
        for line in re.findall(r"^use .*$", text, re.M):
            module, _, items = line[4:].partition(".{")
            for item in items.rstrip("}").split(", "):
                parts = item.split(" as ")
                if parts[0] in of_module.get(module, ()):
                    rows.update({part: camel(part) for part in parts})
        if not rows:
            continue
        lines = text.split("\n")
        for k, line in enumerate(lines):
            if not re.search(r"^\s*--|record \{|\blet ", line):
                lines[k] = WORD.sub(lambda w: rows[w.group()] if w.group() in rows and not line[: w.start()].endswith(".") else w.group(), line)
        texts[path] = "\n".join(lines)


def main(argv):
    files = tracked("*.antt", "*.rt", "crates/*/must-fail/*.edit")
    tokens = collections.defaultdict(set)
    for path in files:
        for w in words(path):
            tokens[w].add(path)
    rows, together, now = table(tokens)
    clash = 0
    for old, new in sorted(rows.items()):
        for path in sorted(tokens[old] & tokens.get(new, set())):
            print(f"look: {path}: '{new}' stands there already, beside '{old}'")
            clash += 1
    turned = 0
    for path in files + tracked("*.md"):
        text = read(path)
        new = turn_spans(text, rows, now) if path.endswith(".md") else turn_code(text, rows, now)
        if new != text:
            turned += 1
            if "--check" not in argv:
                with open(path, "w", encoding="utf-8") as f:
                    f.write(new)
    if "--check" not in argv:
        texts = {path: read(path) for path in tracked("*.antt")}
        before = dict(texts)
        turn_types(texts)
        for path in texts:
            if texts[path] != before[path]:
                with open(path, "w", encoding="utf-8") as f:
                    f.write(texts[path])
    for o, n in sorted(together):
        print(f"fell together: {o} is now {n}")
    print(f"respell: {len(rows)} names, {turned} files, {clash} places to look at")
    return 0


if __name__ == "__main__":
    raise SystemExit(main(sys.argv[1:]))
