#!/usr/bin/env python3
"""Respells this repository's own definitions and lemmas, once, after /opt/rattle/port/port.py: usage: python3 tools/respell.py, at the top.

Rattle's own words are in snake case now, and types and facts in camel case; ours had dashes (slot-size, Reads-back).
Each name with a dash becomes slot_size or ReadsBack. Left as they are: names of the library, which our files import;
names that Rattle makes of a function's code, as goals and steps (they follow c, g, l, w or goal, or are imported from
Goals or Given); everything in src/ but ghost lines; comments, but for names in backquotes.
It says which new names fall together with a name that a file had already.
"""
import os
import re

OWN = {line.split(":")[0].strip() for line in open("crates.txt", encoding="utf-8") if not line.startswith("#") and ":" in line}
PART = r"[0-9A-Za-zℕℤ_'*]+"
NAME = re.compile(r"(?<![0-9A-Za-zℕℤ_'.-])(?:[A-Za-z_][0-9A-Za-z_']*\.)*[A-Za-z]" + r"[0-9A-Za-zℕℤ_']*(?:-" + PART + r")+(?:\." + PART + r"(?:-" + PART + r")*)*")
USE = re.compile(r"\s*(?:ghost )?use ([^{}]*)\.\{(.*)\}")
MADE = ("c", "l", "w", "goal", "g")


def respelled(name):
    parts = name.split("-")
    if name[0].isupper():
        return parts[0] + "".join(p[0].upper() + p[1:] for p in parts[1:])
    return "_".join(parts)


def own_module(path):
    steps = path.strip().split(".")
    return steps[0] == "Rattle" and len(steps) > 1 and steps[1] in OWN and steps[-1] not in ("Goals", "Given")


def foreign(text):
    """The names of a file that are not ours: imported from the library, or made by Rattle of a function's code."""
    names = set()
    for line in text.split("\n"):
        use = USE.match(line)
        if use and not own_module(use[1]):
            names.update(re.findall(r"[^\s,{}]+", use[2]))
        goal = re.match(r"(?:abbrev )?pub (\S+) : goal\.", line)
        if goal:
            names.add(goal[1])
    return names


def turned(code, keep):
    def one(match):
        steps = match[0].split(".")
        if steps[0] in MADE and len(steps) > 1:
            # a path into what Rattle made: only the fields of our records behind it are ours, and none has a dash
            return match[0]
        return ".".join(s if s in keep or "-" not in s else respelled(s) for s in steps)

    return NAME.sub(one, code)


def antt(text):
    keep, lines = foreign(text), []
    for line in text.split("\n"):
        at = line.find("--")
        code, comment = (line, "") if at < 0 else (line[:at], line[at:])
        use = USE.match(code)
        if not (use and not own_module(use[1])):
            code = turned(code, keep)
        comment = re.sub(r"`[^`]*`", lambda m: turned(m[0], keep), comment)
        lines.append(code + comment)
    return "\n".join(lines)


def source(text):
    keep, lines = foreign(text), []
    for line in text.split("\n"):
        use = USE.match(line)
        ghost = re.match(r"\s*(ghost|requires|ensures)\b", line) and not (use and not own_module(use[1]))
        lines.append(turned(line, keep) if ghost else line)
    return "\n".join(lines)


def words(text):
    return set(re.findall(r"(?<![0-9A-Za-zℕℤ_'-])[A-Za-z][0-9A-Za-zℕℤ_']*(?:-" + PART + r")*", text))


def main():
    for folder, dirs, files in os.walk("crates"):
        dirs[:] = sorted(d for d in dirs if d not in ("out", "must-fail"))
        for name in sorted(files):
            path = os.path.join(folder, name)
            if not name.endswith((".antt", ".rt")):
                continue
            with open(path, encoding="utf-8") as f:
                old = f.read()
            new = antt(old) if name.endswith(".antt") else source(old)
            if new == old:
                continue
            had = words(old)
            for word in sorted(had):
                if "-" in word and respelled(word) in had and word not in words(new):
                    print(f"{path}: {word} and {respelled(word)} fall together")
            with open(path, "w", encoding="utf-8") as f:
                f.write(new)


main()
