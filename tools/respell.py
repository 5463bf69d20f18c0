#!/usr/bin/env python3
"""Respells the repository's own definitions, lemmas and record fields: words in snake case, types in camel case, no primes.

usage: python3 tools/respell.py          at the top of the repository, after the language's own script has run

A name is respelled where a file declares it or imports it from a module of this repository, and, if it is a field of a record of
this repository, wherever it stands behind a dot or before '='. Names that the check itself makes (goals, steps) and names of the
language's library stay. Nothing is written if two names of a file would fall together.
"""

import glob
import re
import subprocess
import sys

STOP = r"\s(){}\[\];.,⌜⌝@\""
DECLARED = re.compile(r"^[ ]*(?:(?:unfoldable|abbrev|pub|data|record|ruleset) +)*([^" + STOP + r":=λ]+)(?= +[:({]| *$)", re.M)
FIELD = re.compile(r"^ +(?:pub +)?([^" + STOP + r":=λ]+) *:", re.M)
LET = re.compile(r"\blet +([^" + STOP + r":=λ]+) *[:=]")
BOUND = re.compile(r"[({λ] *((?:[^" + STOP + r":=λ]+ +)*[^" + STOP + r":=λ]+) *:(?= )")
LAMBDA = re.compile(r"λ +((?:[^" + STOP + r":=λ]+ *)+)\.")
GOAL = re.compile(r"^(?:abbrev +)?(?:pub +)?([^" + STOP + r":]+) *: *(?:goal|given)\.", re.M)
IMPORT = re.compile(r"\buse +Rattle\.(\w+)\.(?:specs|proofs)\.([\w.]+)\.\{([^}]*)\}")

# lemmas that would fall together with the definition that they are about
TOLD_APART = {
    "crates/commands/proofs/Readings.antt": {
        "the-opening": "is_opening",
        "the-closing": "is_closing",
        "the-gap": "is_gap",
        "the_number": "is_number",
        "the-bytes": "is_bytes",
        "the_word": "is_word",
    },
}


def new_name(name):
    parts = re.split("-", name.replace("getD", "get_or").replace("putMid", "put_mid").replace("′", "'"))
    if name[0].isupper():
        return "".join(p[:1].upper() + p[1:] for p in parts)
    return re.sub(r"(?<=[a-z0-9])[A-Z]", lambda m: "_" + m.group(0).lower(), "_".join(parts))


def old_style(name):
    return bool(re.fullmatch(r"[A-Za-z][\w'′-]*", name)) and ("-" in name or "′" in name or bool(re.match("[a-z]+[A-Z]", name)))


def replaced(text, names, before="", after=""):
    for old in sorted(names, key=len, reverse=True):
        pattern = before + "(?<![^" + STOP + r"=|])" + re.escape(old) + "(?![^" + STOP + "=|])" + after
        text = re.sub(pattern, new_name(old), text)
    return text


def own_crates():
    return {p.split("/")[1] for p in glob.glob("crates/*/src")}


def main():
    own = own_crates()
    files = sorted(glob.glob("crates/*/specs/**/*.antt", recursive=True) + glob.glob("crates/*/proofs/**/*.antt", recursive=True) + glob.glob("crates/*/src/**/*.rt", recursive=True))
    texts = {f: open(f, encoding="utf-8").read() for f in files}
    for f, others in TOLD_APART.items():
        for old, new in others.items():
            texts[f] = re.sub("(?<![\\w'-])" + re.escape(old) + "(?![\\w'-])", new, texts[f])
    before = {f: open(f, encoding="utf-8").read() for f in files}
    fields = set()
    for f, t in texts.items():
        if f.endswith(".antt"):
            for block in re.findall(r"^(?:pub )?record .*?where\n((?: +.*\n?)+)", t, re.M):
                fields |= {n for n in FIELD.findall(block) if old_style(n)}
    bad = False
    written = {}
    for f, t in texts.items():
        names = set()
        if f.endswith(".antt"):
            goals = set(GOAL.findall(t))
            names |= {n for n in DECLARED.findall(t) if old_style(n)} - goals
            names |= {n for n in LET.findall(t) if old_style(n)}
            for group in BOUND.findall(t) + LAMBDA.findall(t):
                names |= {n for n in group.split() if old_style(n)}
        for crate, module, items in IMPORT.findall(t):
            if crate in own and not module.endswith(("Goals", "Given")) and ".declared" not in "." + module:
                names |= {n.strip() for n in re.split(r",| as ", items) if old_style(n.strip())}
        out = replaced(t, names)
        out = replaced(out, fields, r"(?<=[^\s]\.)")
        out = replaced(out, fields, "", r"(?= *[=:] )")
        # a part of a path, and a function of the code, may have the name of a definition
        plain = re.sub(r"\w+\.(?=\w)", "", t)
        if f.endswith(".rt"):
            plain = re.sub(r"\w+(?=[(<])|mod \w+|use crate.*;|//.*|::\{?[\w:, ]+", "", plain)
        tokens = set(re.split("[" + STOP + "=|]+", plain))
        for n in names:
            if new_name(n) in tokens:
                print(f"{f}: {n} falls together with {new_name(n)}")
                bad = True
        together = {}
        for n in names:
            together.setdefault(new_name(n), set()).add(n)
        for n, olds in together.items():
            if len(olds) > 1:
                print(f"{f}: {sorted(olds)} fall together as {n}")
                bad = True
        written[f] = out
    if bad:
        return 1
    count = 0
    for f, t in written.items():
        if t != before[f]:
            open(f, "w", encoding="utf-8").write(t)
            count += 1
    for crate in sorted(own):
        subprocess.run(["rt", "fmt"], cwd="crates/" + crate, stdout=subprocess.DEVNULL, stderr=subprocess.DEVNULL)
    print(f"{count} of {len(files)} files respelled")
    return 0


if __name__ == "__main__":
    sys.exit(main())
