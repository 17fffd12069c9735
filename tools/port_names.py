#!/usr/bin/env python3
"""Turns this repository's own names to the spelling of today's Rattle: words and lemmas in snake case.

usage: python3 tools/port_names.py      at the top, once, right after the toolchain's port.py

- `camelCase` definitions, fields and constructors become `snake_case`, `dash-joined` lemmas of the lemma files `dash_joined`.
- The crate `log` becomes `score_log`, since the toolchain has a library of that name.
- crates.txt loses io and libc, which today's std has within it.

Names of Rust items, exported names, strings, characters, and the goals that a proof folder answers stay. A dash name that a file
imports from the toolchain's own library stays there too. Where two names would fall together, RENAMED says what is written instead.
"""
import glob
import os
import re
import subprocess

# what would fall together with another name, and what it becomes
RENAMED = {
    "fresh-state": "fresh_state_lem",
    "in-turn": "in_turn_lem",
    "number-at": "number_at_lem",
    "reduced-sides": "reduced_sides_lem",
    "blocks-in": "blocks_in_lem",
    "cost-most": "cost_most_lem",
    "entries-of": "entries_of_lem",
    "fast-again": "fast_again_lem",
    "mean-to": "mean_to_lem",
    "none-at": "none_at_lem",
    "numbers-long": "numbers_long_lem",
    "pattern-at": "pattern_at_lem",
    "record-long": "record_long_lem",
    "room-long": "room_long_lem",
    "row-large": "row_large_lem",
    "score-long": "score_long_lem",
    "scores-long": "scores_long_lem",
    "settings-long": "settings_long_lem",
    "standard-again": "standard_again_lem",
    "totals-most": "totals_most_lem",
    "wrong-length": "wrong_length_lem",
    "same_Reads": "SameReads",
}
CAMEL = re.compile(r"^[a-z][a-z0-9_]*[A-Z][\w'-]*$")
WORD = re.compile(r"[A-Za-z_\u2115\u2124][\w'\u2262\u2261\u2264\u2115\u2124+*]*(?:-[\w'\u2262\u2261\u2264\u2115\u2124+*]+)*")
DECLARED = re.compile(r"^\s*(?:pub |abbrev |unfoldable |private )*([A-Za-z_][\w']*(?:-[\w']+)*)\s*:(?!=)")
PROOF_FILES = ("Proof.antt", "Answers.antt", "Invariants.antt")


def read(path):
    with open(path, encoding="utf-8") as f:
        return f.read()


def write(path, text):
    with open(path, "w", encoding="utf-8") as f:
        f.write(text)


def files(end):
    return sorted(p for p in glob.glob("crates/**/*" + end, recursive=True) if "/out/" not in p)


def snake(name):
    name = re.sub(r"(?<=[a-z0-9])([A-Z])", lambda m: "_" + m.group(1).lower(), name)
    return name.replace("-", "_")


def bare(line):
    return re.sub(r"--.*$", "", line)


def own_names():
    """Every name that this repository declares and that today's spelling writes otherwise."""
    names = {}
    for path in files(".antt"):
        goals = os.path.basename(path) in PROOF_FILES
        for line in read(path).splitlines():
            line = bare(line)
            for word in WORD.findall(line):
                if CAMEL.match(word) and (not goals or "-" not in word):
                    names[word] = RENAMED.get(word, snake(word))
            m = DECLARED.match(line)
            if m and "-" in m.group(1) and not goals:
                names[m.group(1)] = RENAMED.get(m.group(1), snake(m.group(1)))
    names["same_Reads"] = RENAMED["same_Reads"]
    return names


def kit_imports(text):
    """The dash names that a file takes from the toolchain's library, by no alias."""
    found = set()
    for m in re.finditer(r"^\s*(?:ghost )?use ([\w.\u2115\u2124]+)\.\{([^}]*)\}", text, re.M):
        own = re.match(r"Rattle\.(\w+)\.", m.group(1) + ".")
        if not own or own.group(1) in ("std", "core", "std_alloc", "std_collections", "std_heap", "std_io"):
            for item in m.group(2).split(","):
                found.add(item.split(" as ")[-1].strip())
    return found


def turned(text, names, rust):
    stay = kit_imports(text)
    goal_aliases = set(re.findall(r"use [\w.]+\.(?:Goals|Given|Tie|Statement|Reads|Kinds) as (\w+)", text))
    out, at = [], 0
    literals = re.compile(r'"(?:[^"\\]|\\.)*"|b?\'(?:[^\'\\]|\\.)\'') if rust else None
    spans = [m.span() for m in literals.finditer(text)] if rust else []

    def in_literal(i):
        return any(a <= i < b for a, b in spans)

    for m in WORD.finditer(text):
        word = m.group(0)
        if word not in names or word in stay or in_literal(m.start()):
            continue
        dashed = "-" in word
        if dashed and m.start() and text[m.start() - 1] == ".":
            before = re.search(r"([\w']+)\.$", text[: m.start()])
            if not before or before.group(1) in goal_aliases or not re.search(r"use [\w.]+ as " + re.escape(before.group(1)) + r"\b", text):
                continue
        out.append(text[at : m.start()])
        out.append(names[word])
        at = m.end()
    out.append(text[at:])
    return "".join(out)


def main():
    names = own_names()
    for path in files(".antt") + files(".rt"):
        text = read(path)
        new = turned(text, names, path.endswith(".rt"))
        new = new.replace("\u25ccorElse\u25cc", "\u25ccor_else\u25cc")
        new = re.sub(r"\bRattle\.log\.", "Rattle.score_log.", new)
        if path.endswith(".rt"):
            new = re.sub(r"(?<![\w:.])log::", "score_log::", new)
        if new != text:
            write(path, new)
    if os.path.isdir("crates/log"):
        subprocess.run(["git", "mv", "crates/log", "crates/score_log"], check=True)
    lines = []
    for line in read("crates.txt").splitlines():
        if not line.startswith("#"):
            line = re.sub(r" (io|libc)(?= |$)", "", line)
            line = re.sub(r"\blog\b", "score_log", line)
        lines.append(line)
    write("crates.txt", "\n".join(lines) + "\n")
    for old, new in sorted(names.items()):
        print(old, new)


main()
