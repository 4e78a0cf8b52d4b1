#!/usr/bin/env python3
"""Respells the names of this repository's own definitions, lemmas, fields and local variables.

Words are in snake case, types in camel case: `first-fault` becomes `first_fault`, `Read-as` becomes `ReadAs`.
Names of the library and names that Rattle makes keep their dashes. Run once, at the top of the checkout.
"""

import os
import re
import sys

NAME = r"[^\s(){}\[\].,;:«»⌜⌝\"`|]+"
# where the new name would be that of a function that stands in the same module
OTHER = {"coding-of": "dif_coding", "digit-or-any": "digit_or_wildcard", "meaning-in": "row_meaning"}


def files(*endings):
    for folder in ("crates", "compare/planted"):
        for d, ds, fs in os.walk(folder):
            ds[:] = sorted(x for x in ds if x not in ("out", "target"))
            for f in sorted(fs):
                if f.endswith(endings):
                    yield os.path.join(d, f)


def read(p):
    with open(p, encoding="utf-8") as f:
        return f.read()


def respelled(name):
    if name in OTHER:
        return OTHER[name]
    if name[0].isupper():
        return "".join(part[0].upper() + part[1:] for part in name.split("-"))
    return name.replace("-", "_")


def is_own(name):
    return "-" in name and re.fullmatch(r"[A-Za-z≺ℕ][\w'≺ℕ]*(-[\w'≺ℕ]+)+", name)


def own_names():
    found, foreign = set(), set()
    crates = set(os.listdir("crates"))
    for p in files(".antt"):
        t = re.sub(r"--.*", "", read(p))
        for m in re.finditer(r"^ *(?:(?:abbrev|unfoldable|pub|record|data)\s+)*(" + NAME + r")((?:\s*\{[^}]*\}|\s*\([^)]*\))*)\s*:\s*(\S*)", t, re.M):
            if not m.group(3).startswith("goal."):
                found.add(m.group(1))
        for m in re.finditer(r"^ *(?:(?:abbrev|unfoldable|pub|record|data)\s+)+(" + NAME + ")", t, re.M):
            if ": goal." not in t[m.end() : m.end() + 20]:
                found.add(m.group(1))
        for m in re.finditer(r"^ +(?:pub )?(" + NAME + r") :", t, re.M):
            found.add(m.group(1))
        for m in re.finditer(r"\blet (" + NAME + r") [:=]", t):
            found.add(m.group(1))
        for m in re.finditer(r"λ ([^.]*)\.", t):
            found.update(re.findall(NAME, m.group(1)))
        for m in re.finditer(r"\(((?:" + NAME + r" )+): ", t):
            found.update(m.group(1).split())
        for m in re.finditer(r"^use .* as (" + NAME + ")$", t, re.M):
            found.add(m.group(1))
        for m in re.finditer(r"^ *" + NAME + r"((?: " + NAME + r"| \([^()]*\))+) =$|^ *" + NAME + r"((?: " + NAME + r"| \([^()]*\))+) = ", t, re.M):
            if not m.group(0).lstrip().startswith(("let ", "use ")):
                found.update(re.findall(NAME, (m.group(1) or m.group(2)).replace("=", "")))
        for m in re.finditer(r"^use ([^\s{]+)\.\{([^}]*)\}", t, re.M):
            parts = m.group(1).split(".")
            own = parts[0] == "Rattle" and parts[1] in crates and parts[-1] not in ("Goals", "Given")
            if not own:
                foreign.update(re.findall(NAME, m.group(2)))
    names = {n for n in found if is_own(n)}
    for n in sorted(names & foreign):
        print("left, since the library or Rattle has it too:", n)
    return names - foreign


def turn_text(text, table):
    return re.sub(NAME, lambda m: table.get(m.group(0), m.group(0)), text)


def turn_ticks(text, table):
    return re.sub(r"`[^`\n]*`", lambda m: turn_text(m.group(0), table), text)


def turn_line(line, mark, table):
    """All of a line but its comment and its strings, and what stands between backticks in the comment."""
    at = re.search(r"(?<!\S)" + mark, line)
    code, note = (line[: at.start()], line[at.start() :]) if at else (line, "")
    parts = re.split(r'("(?:[^"\\]|\\.)*")', code)
    code = "".join(x if i % 2 else turn_text(x, table) for i, x in enumerate(parts))
    return code + turn_ticks(note, table)


def main():
    table = {n: respelled(n) for n in own_names()}
    back = {}
    for old, new in table.items():
        back.setdefault(new, []).append(old)
    for new, olds in back.items():
        if len(olds) > 1:
            print("fall together:", new, olds)
    words = set()
    for p in files(".antt", ".rt", ".edit"):
        words.update(re.findall(NAME, read(p)))
    for new in sorted(set(back) & words):
        print("stands already:", back[new][0], "->", new)
    for p in list(files(".antt", ".rt", ".edit")) + pages():
        t = read(p)
        if p.endswith(".md"):
            u = turn_ticks(t, table)
        else:
            mark = "--" if p.endswith(".antt") else "//"
            u = "\n".join(turn_line(x, mark, table) for x in t.split("\n"))
        if u != t:
            with open(p, "w", encoding="utf-8") as f:
                f.write(u)
    print(len(table), "names")


def pages():
    return [p for p in ["README.md"] + ["docs/" + f for f in sorted(os.listdir("docs"))] if p.endswith(".md")]


if __name__ == "__main__":
    sys.exit(main())
