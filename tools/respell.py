#!/usr/bin/env python3
"""Brings the repository's own definitions and lemmas to the language's spelling, once, after the toolchain's port script.

usage: python3 tools/respell.py [--dry]   at the top of the repository

Words are in snake case; a dash stays where it joins two names of definitions in the name of a lemma; facts keep their capital. Only names
that the repository declares itself in specs/ or proofs/ are turned, in crates/ (sources, specs, proofs, must-fail edits) and, inside
back quotes, in comments and in the pages of docs/, README.md and tests/. Names of functions, exports, strings and inputs stay.
It stops, before it writes anything, where two names of a file would fall together.
"""
import os
import re
import sys

NAME = r"[A-Za-zα-ωΑ-Ω+◌_][A-Za-zα-ωΑ-Ω0-9_'?→₀-₉+◌-]*"
TOKEN = re.compile(r"(?<![A-Za-z0-9_'-])" + NAME)
# What a rule would name as something else is named.
NAMED = {
    # These words are parameters of functions, which would hide the definitions in their clauses.
    "point-count": "count_of_points",
    "row-count": "count_of_rows",
    # Another definition has the name that the rule would give.
    "mayEnd": "may_end_in",
    "lastTick": "last_tick_of",
    "mostRows": "most_rows_of",
    # A type within one proof.
    "turning": "Turning",
}
MODIFIERS = r"(?:(?:pub|abbrev|unfoldable|private|instance) )*"


def texts(ends, top="crates"):
    for folder, dirs, files in os.walk(top):
        dirs[:] = sorted(d for d in dirs if d not in ("out", ".git", "target"))
        for f in sorted(files):
            if f.endswith(ends):
                yield os.path.join(folder, f)


def read(path):
    with open(path, encoding="utf-8") as f:
        return f.read()


def snake(word):
    if word[0].isupper():
        return word
    word = word.replace("getD", "get_or")
    return re.sub(r"(?<=[a-z0-9])([A-Z])(?=[a-z]|$|-|_|')", lambda m: "_" + m.group(1).lower(), word)


def declared():
    """The names that the files declare, with those of specs/ apart, and the names that come from the library."""
    own, words, library = set(), set(), set()
    for path in texts(".antt"):
        for line in read(path).split("\n"):
            m = re.match(r"\s*(?:data )?" + MODIFIERS + r"(?:data |record )?(" + NAME + r") :(?: |$)", line)
            if m:
                own.add(m.group(1))
                if "/specs/" in path or "abbrev" in line.split(":")[0]:
                    words.add(m.group(1))
            for m in re.finditer(r"\blet (" + NAME + r") (?:=|:)", line):
                own.add(m.group(1))
            for m in re.finditer(r"λ ((?:" + NAME + r" )*" + NAME + r")\.", line):
                own.update(m.group(1).split())
            for m in re.finditer(r"\(((?:" + NAME + r" )+): ", line):
                own.update(m.group(1).split())
            for m in re.finditer(r"\{((?:" + NAME + r" )+): ", line):
                own.update(m.group(1).split())
            m = re.match(r"use ([\w.+'·-]+)\.\{(.*)\}", line)
            if m and not m.group(1).startswith("Rattle."):
                library.update(re.findall(NAME, m.group(2)))
            if m and (m.group(1).startswith("Rattle.std") or re.search(r"\.(Tie|Statement|Lts|Reads)$", m.group(1))):
                library.update(re.findall(NAME, m.group(2)))
    return own, words, library


def turned(name, words, library):
    """The new spelling of a name."""
    if name in NAMED:
        return NAMED[name]
    parts = name.split("-")
    if len(parts) == 1:
        return snake(name)
    parts = [snake(p) for p in parts if p] if all(parts) else [name]
    if name in words or len(parts) == 1:
        return "_".join(parts)
    known = {snake(w.replace("-", "_")) for w in words | library}
    # The longest names first, as a dash joins whole names of definitions; at a capital the fact keeps it.
    groups, i = [], 0
    while i < len(parts):
        for j in range(len(parts), i, -1):
            if "_".join(parts[i:j]) in known:
                groups.append("_".join(parts[i:j]))
                i = j
                break
        else:
            return "_".join(parts)
    return "-".join(groups)


def comment_start(line, mark):
    at = line.find(mark)
    return len(line) if at < 0 else at


def in_quotes(text, put):
    return re.sub(r"`([^`\n]+)`", lambda m: "`" + put(m.group(1)) + "`", text)


def harmless(path, text, name):
    """Whether a name of the file is a function's, which stands apart from definitions: only a parameter or a variable would hide one."""
    if path.endswith(".rt"):
        return not re.search(r"(?<![.\w])" + name + r": |let (?:mut )?" + name + r"\b", text)
    plain = "\n".join(line[:comment_start(line, "--")] for line in text.split("\n"))
    plain = re.sub(r"\." + name + r"(?![\w'-])", "", plain)
    return not re.search(r"(?<![\w'-])" + name + r"(?![\w'-])", plain)


def main():
    own, words, library = declared()
    names = {}
    taken = {turned(w, words, library) for w in words} | {n for n in own if turned(n, words, library) == n}
    for n in sorted(own - library):
        t = turned(n, words, library)
        if t != n:
            names[n] = t + "_lem" if n not in words and t in taken else t

    def put(text):
        return TOKEN.sub(lambda m: names.get(m.group(0), m.group(0)), text)

    def code(text, mark):
        out = []
        for line in text.split("\n"):
            at = comment_start(line, mark)
            out.append(put(line[:at]) + in_quotes(line[at:], put))
        return "\n".join(out)

    files, clash = {}, []
    for path in list(texts(".antt")) + list(texts(".rt")) + list(texts(".edit")):
        t = read(path)
        mark = "--" if path.endswith(".antt") else "//" if path.endswith(".rt") else "#"
        tokens = set(TOKEN.findall(t))
        for n in tokens & names.keys():
            if names[n] in tokens and not path.endswith(".edit") and not harmless(path, t, names[n]):
                clash.append(f"{path}: {n} would fall together with {names[n]}")
        back = {}
        for n in tokens & names.keys():
            if names[n] in back:
                clash.append(f"{path}: {n} and {back[names[n]]} would both be {names[n]}")
            back[names[n]] = n
        files[path] = code(t, mark)
    for path in list(texts(".md", "docs")) + list(texts((".md", ".rs"), "tests")) + ["README.md"]:
        files[path] = in_quotes(read(path), put)
    for line in clash:
        print("clash:", line)
    print(f"{len(names)} names, {len(clash)} clashes")
    if "--dry" in sys.argv or clash:
        for n in sorted(names):
            print(n, "->", names[n])
        return 1 if clash else 0
    changed = 0
    for path, t in files.items():
        if t != read(path):
            with open(path, "w", encoding="utf-8") as f:
                f.write(t)
            changed += 1
    print(f"{changed} files")
    return 0


sys.exit(main())
