#!/usr/bin/env python3
"""Gives the repository's own words of specs/ and proofs/ the spelling of today's Rattle: snake case in place of dashes.

usage: python3 tools/respell.py [--list]     at the top of the repository, once, right after the kit's port.py

A name is the repository's own where a file of specs/ or proofs/ declares it (as a definition, a lemma, a field, a constructor, a parameter or a
local name) and no `use` line brings the same name in from the kit. Names that the check makes (goals, steps, places) keep their dashes, and so do
functions, strings and files. In comments and pages only what stands in backticks is respelled.
"""

import collections
import os
import re
import sys

TOKEN = re.compile(r"[^\s(){}\[\];,.:\"«»⌜⌝`@]+")
DASHED = re.compile(r"^(?=.*[A-Za-z0-9'₀-₉]-[A-Za-z0-9'₀-₉])[A-Za-zα-ωΑ-Ω𝓐-𝔃][^\s]*$")
MADE = re.compile(r"^(Need|After|Then|Else|In|At|Joined|InvT|MeasureT|Lts|Goes|Stays)-|^(invariant|decreases)-loop")
PAGES = ("README.md", "docs")


def antt_files():
    for folder, dirs, files in os.walk("crates"):
        dirs[:] = sorted(d for d in dirs if d != "out")
        for f in sorted(files):
            if f.endswith(".antt"):
                yield os.path.join(folder, f)


def read(path):
    with open(path, encoding="utf-8") as f:
        return f.read()


def code(line, mark):
    """A line without its comment."""
    if line.lstrip().startswith(mark):
        return ""
    i = line.find(" " + mark + " ")
    return line if i < 0 else line[:i]


def crates():
    return {c for c in os.listdir("crates") if os.path.isdir(os.path.join("crates", c, "src"))}


USE = re.compile(r"^(?:\s*)(?:pub )?(?:ghost )?use ([^{;\s]+?)(?:\.\{([^}]*)\}|(?: as \S+))?;?\s*$", re.M)


def imported(text, own):
    """The names that the `use` lines of a file bring in from the kit."""
    found = set()
    for m in USE.finditer(text):
        path = m.group(1)
        part = path.split(".")
        if part[0] == "Rattle" and len(part) > 1 and part[1] in own:
            continue
        for item in (m.group(2) or "").split(","):
            found.update(item.split()[:1])
    return found


def goals(text):
    """Names declared as the answer to a goal: the check's own words."""
    return set(re.findall(r"^(?:pub )?(\S+) : tie\.", text, re.M))


def declared(text):
    found = set()
    for line in text.split("\n"):
        s = code(line, "--")
        m = re.match(r"\s*(?:(?:abbrev|unfoldable|pub|opaque|record|data|ruleset|module) )*([^\s(){}:,]+)\s*(?::|=|\()", s)
        if m:
            found.add(m.group(1))
        m = re.match(r"\s*(?:pub )?(?:record|data|ruleset|module) (?:pub )?([^\s(){}:]+)", s)
        if m:
            found.add(m.group(1))
        found.update(re.findall(r"\blet ([^\s(){}:]+)", s))
        for binder in re.findall(r"[({]([^(){}:;,]*) :", s):
            found.update(binder.split())
        for binder in re.findall(r"λ ([^.]*)\.", s):
            found.update(binder.replace("(", " ").split())
        m = re.match(r"(\S+)((?: [^\s(){}]+)*) =(?:\s|$)", s.lstrip())
        if m:
            found.update(m.group(2).split())
        m = re.match(r"\s*(?:pub )?use .* as (\S+)\s*$", s)
        if m:
            found.add(m.group(1))
        for item in re.findall(r"[ {,](?:\S+) as ([^\s,}]+)[,}]", s):
            found.add(item)
    return found


def names():
    own = crates()
    mine, kit, answers = set(), set(), set()
    for path in antt_files():
        text = read(path)
        kit |= imported(text, own)
        answers |= goals(text)
        mine |= declared(text)
    for folder, dirs, files in os.walk("crates"):
        dirs[:] = [d for d in dirs if d != "out"]
        for f in files:
            if f.endswith(".rt"):
                text = read(os.path.join(folder, f))
                kit |= imported(text, own)
                for m in re.finditer(r"\S+ as ([^\s,}]+)[,}]", "\n".join(l for l in text.split("\n") if "ghost use" in l)):
                    mine.add(m.group(1))
    mine = {n for n in mine if DASHED.match(n) and TOKEN.fullmatch(n) and not MADE.match(n)}
    return mine, kit, answers


# The kit has a `bit_and` and a `bit_or` of its own; the other two are a parameter and a field, to which port.py gave a type's capital.
OTHERS = {"bit-and": "bit_of_and", "bit-or": "bit_of_or", "Laid-as": "laid_as", "Has-both": "has_both"}


def spelled(name):
    if name in OTHERS:
        return OTHERS[name]
    if name[0].isupper():
        return "".join(part[0].upper() + part[1:] for part in name.split("-"))
    return name.replace("-", "_")


def main(argv):
    mine, kit, answers = names()
    chosen = {n: spelled(n) for n in mine - kit - answers}
    taken = collections.defaultdict(set)
    for n in chosen:
        taken[chosen[n]].add(n)
    if "--list" in argv:
        for n in sorted(chosen):
            print(n, chosen[n])
        print("both the repository's and the kit's:", sorted(mine & kit), file=sys.stderr)
        print("both a word and a goal:", sorted((mine & answers) - kit), file=sys.stderr)
        print("fall together:", {k: sorted(v) for k, v in taken.items() if len(v) > 1}, file=sys.stderr)
        return 0

    def turn(text):
        return TOKEN.sub(lambda m: chosen.get(m.group(0), m.group(0)), text)

    def quoted(text):
        return re.sub(r"`[^`\n]+`", lambda m: turn(m.group(0)), text)

    def turn_file(path, mark, whole):
        out = []
        for line in read(path).split("\n"):
            body = code(line, mark)
            rest = line[len(body):]
            out.append((turn(body) if whole(body) else body) + quoted(rest))
        with open(path, "w", encoding="utf-8") as f:
            f.write("\n".join(out))

    for path in antt_files():
        turn_file(path, "--", lambda body: True)
    for folder, dirs, files in os.walk("crates"):
        dirs[:] = [d for d in dirs if d != "out"]
        for f in files:
            # In .rt files a dash inside a word stands only in clauses and `ghost use` lines, and in strings, which TOKEN doesn't cross.
            if f.endswith(".rt"):
                turn_file(os.path.join(folder, f), "//", lambda body: '"' not in body)
    for page in PAGES:
        found = [page] if page.endswith(".md") else [os.path.join(page, f) for f in os.listdir(page)] + [os.path.join(page, "requests", f) for f in os.listdir(os.path.join(page, "requests"))]
        for path in found:
            if path.endswith(".md"):
                text = quoted(read(path))
                with open(path, "w", encoding="utf-8") as f:
                    f.write(text)
    return 0


if __name__ == "__main__":
    raise SystemExit(main(sys.argv[1:]))
