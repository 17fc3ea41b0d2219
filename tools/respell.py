#!/usr/bin/env python3
"""Brings the repository's own names in specs/ and proofs/ from the spelling of rattle-kit-8b to that of rattle-kit-13f. It was run once,
after the kit's port.py (docs/PORT.md):
words, lemmas, fields and constructors in snake case (`ring-of` becomes `ring_of`), facts and types in camel case
(`Ring-of` becomes `RingOf`), files of specs/ and proofs/ in camel case (`Good_lists` becomes `GoodLists`).
Names that Rattle makes (goals, steps, invariants), names of src/ and names of the library stay.

    python3 tools/respell.py [--list]

Run it at the top of the checkout. `--list` prints what would be renamed and changes nothing."""
import re
import subprocess
import sys
from pathlib import Path

ROOT = Path(".")
IDENT = r"[^\s(){}\[\],;.:`\"«»⌜⌝]+"
TOKEN = re.compile(IDENT)
# how a line of antt begins a definition, a field or a constructor: its names, up to the colon or its arguments
HEAD = re.compile(r"^\s*(?:abbrev |unfoldable )?(?:pub )?(?:(?:record|data|ruleset|module) )?(?:pub )?(" + IDENT + r"(?: " + IDENT + r")*)\s*(?::|\(.*:|\{.*:|where)")
WORDS = {"abbrev", "unfoldable", "pub", "record", "data", "ruleset", "module", "where", "let", "in", "use", "mod", "open", "elim", "unfolding", "_", "=", "→", "λ", "×", "⊎"}
IMPORT = re.compile(r"^\s*(?:ghost )?use (?:Rattle\.)?([^.{;]+)[^{]*\{([^}]*)\}")
GOAL = re.compile(r"^\s*(?:abbrev )?pub (" + IDENT + r") : (?:goal|need|given|Goals|Given)\.")


def listed():
    got = subprocess.run(["git", "ls-files", "-co", "--exclude-standard"], cwd=ROOT, capture_output=True, text=True).stdout
    return [Path(f) for f in got.splitlines() if (ROOT / f).is_file()]


def camel(name):
    return "".join(p[:1].upper() + p[1:] for p in re.split(r"[-_]", name) if p)


def new_name(name):
    return camel(name) if name[:1].isupper() else name.replace("-", "_")


def without_comment(line):
    return re.sub(r"(^|\s)--(\s.*)?$", "", line)


def names(files):
    """the names with a dash that specs/ and proofs/ define"""
    own = {f.parts[1] for f in files if f.parts[0] == "crates"}
    found, goals = set(), set()
    for f in files:
        if f.suffix != ".antt":
            continue
        for line in (ROOT / f).read_text().splitlines():
            line = without_comment(line)
            m = IMPORT.match(line)
            if m:
                if m[1] not in own:
                    goals.update(w for part in m[2].split(",") for w in part.split(" as "))
                continue
            m = GOAL.match(line)
            if m:
                goals.add(m[1])
                continue
            m = HEAD.match(line)
            if m:
                found.update(w for w in m[1].split(" ") if w not in WORDS)
    goals = {g.strip() for g in goals}
    keep = {n for n in found if "-" in n and re.fullmatch(r"[A-Za-z0-9'][A-Za-z0-9'-]*-[A-Za-z0-9'-]+", n)}
    return {n: new_name(n) for n in keep - goals}


def modules(files):
    """files of specs/ and proofs/ whose names are not in camel case"""
    out = {}
    for f in files:
        p = f.parts
        if f.suffix == ".antt" and len(p) == 4 and p[0] == "crates" and p[2] in ("specs", "proofs"):
            if "_" in f.stem and f.stem[:1].isupper():
                out[f.stem] = camel(f.stem)
    return out


def turned(text, table, only_quoted=False):
    if only_quoted:
        return re.sub(r"`[^`\n]*`", lambda m: turned(m[0], table), text)
    return TOKEN.sub(lambda m: table.get(m[0], m[0]), text)


def main():
    files = listed()
    table = names(files)
    moved = modules(files)
    taken = set()
    for f in files:
        if f.suffix in (".antt", ".rt"):
            taken.update(TOKEN.findall((ROOT / f).read_text()))
    clash = sorted((a, b) for a, b in table.items() if b in taken) + sorted((a, b) for a, b in moved.items() if b in taken)
    if "--list" in sys.argv:
        for a, b in sorted({**table, **moved}.items()):
            print(a, b, "TAKEN" if (a, b) in clash else "")
        return
    for a, b in clash:
        print(f"the new name stands already: {a} -> {b}", file=sys.stderr)
    both = {**table, **moved}
    for f in files:
        text = (ROOT / f).read_text(errors="surrogateescape") if f.suffix in (".antt", ".rt", ".md", ".bugs") else None
        if text is None:
            continue
        if f.suffix == ".antt":
            lines = []
            for line in text.split("\n"):
                code = without_comment(line)
                lines.append(turned(code, both) + turned(line[len(code):], both, only_quoted=True))
            new = "\n".join(lines)
        elif f.suffix == ".rt":
            lines = []
            for line in text.split("\n"):
                m = re.match(r"^(\s*//.*)$", line)
                lines.append(turned(line, both, only_quoted=True) if m else turned(line, both))
            new = "\n".join(lines)
        else:
            new = turned(text, both, only_quoted=True)
        if new != text:
            (ROOT / f).write_text(new, errors="surrogateescape")
    for f in files:
        if f.suffix == ".antt" and f.stem in moved and len(f.parts) == 4:
            subprocess.run(["git", "mv", str(f), str(f.with_name(moved[f.stem] + ".antt"))], cwd=ROOT, check=True)


if __name__ == "__main__":
    main()
