#!/usr/bin/env python3
"""Brings the names of definitions and lemmas to today's spelling, once, behind the kit's own script: words in snake case.

Run: tools/port/names.py, at the top of the repository. It goes over .antt files and must-fail edits whole, and over the
clauses and `ghost` lines of .rt files; code keeps its names. A new name that stands somewhere already stops it.
The crate `bytes` has the name of a library of the kit, and is called `little_endian` from here on."""
import glob, os, re, subprocess, sys

DEFINED = re.compile(r"^\s*(?:unfoldable |abbrev )?(?:pub )?(?:record |data )?([^\s:{(]+)\s*(?=[:{(])")
WORD = r"[^\s(){}\[\]@;,.\"«»]"           # what a name of antt is made of


def snake(word):
    word = re.sub(r"(?<=[a-z0-9])(?=[A-Z])", "_", word)
    return "_".join(p if p.isupper() and len(p) > 1 else p.lower() for p in word.split("_"))


def antt_files():
    return sorted(glob.glob("crates/*/specs/**/*.antt", recursive=True) + glob.glob("crates/*/proofs/**/*.antt", recursive=True))


def code_names():
    """Names that the Rust-like code uses, which keep their spelling: fields, parameters, functions."""
    names = set()
    for f in glob.glob("crates/*/src/*.rt"):
        for line in open(f):
            if not re.match(r"\s*(ghost|requires|ensures|//)", line):
                names |= set(re.findall(r"[A-Za-z_][A-Za-z0-9_]*", line))
    return names


def renames():
    kept = code_names()
    named = {}
    for f in antt_files():
        claims = f.endswith("proofs/Claims.antt")
        for line in open(f):
            m = DEFINED.match(line)
            if not m:
                continue
            old = m.group(1)
            if old in ("use", "pub", "module", "unfolding", "infixl", "infixr", "infix"):
                continue
            parts = old.split("-")
            if old[0].isupper() and not (old.startswith("A-") or old == "Refused-by"):
                continue
            new = "-".join(p if p in kept else snake(p) if re.search(r"[a-z0-9][A-Z]", p) else p for p in parts)
            if "/specs/" in f and "-" in new.strip("-◌") and "◌" not in new:
                new = re.sub(r"[-/]", "_", new)
            if claims and re.match(r"\s*pub ", line):
                new = new.replace("-", "_")
            if old == "Refused-by":
                new = "RefusedBy"
            if new != old:
                named[old] = new
    for old, new in list(named.items()):     # what the source names keeps that spelling
        dashed = old.replace("-", "_")
        if dashed in kept:
            named[old] = dashed
    return named


def turned(text, named):
    pattern = "|".join(re.escape(n) for n in sorted(named, key=len, reverse=True))
    return re.sub(rf"(?<!{WORD})({pattern})(?!{WORD})", lambda m: named[m.group(1)], text)


def main():
    for f in glob.glob("crates/distance/proofs/**/*.antt", recursive=True):
        text = open(f).read()
        if turned(text, FIRST) != text:
            open(f, "w").write(turned(text, FIRST))
    named = renames()
    extra = {"toZ-cong": "to_ℤ-cong", "ofZ-cong": "of_ℤ-cong", "sectionX": "section_x"}
    named.update({o: n for o, n in extra.items() if o in named})
    news = list(named.values())
    twice = {n for n in news if news.count(n) > 1}
    standing = set()
    for f in antt_files():
        standing |= set(re.findall(rf"{WORD}+", open(f).read()))
    fall = sorted(n for n in news if n in twice or (n in standing and n not in ALLOWED))
    if fall and "--anyway" not in sys.argv:
        sys.exit("fall together: " + " ".join(fall))
    for f in antt_files() + sorted(glob.glob("crates/*/must-fail/*.edit")):
        text = open(f).read()
        out = turned(text, named)
        if out != text:
            open(f, "w").write(out)
    for f in sorted(glob.glob("crates/*/src/*.rt")):
        out, clause = [], False
        for line in open(f):
            starts = re.match(r"\s*(pub )?(ghost|requires|ensures)\b", line)
            if starts:
                depth = 0
                clause = True
            if clause:
                depth += line.count("{") - line.count("}")
                out.append(turned(line, named))
                clause = depth > 0
            else:
                out.append(line)
        if "".join(out) != open(f).read():
            open(f, "w").write("".join(out))
    for old, new in sorted(named.items()):
        print(old, new)
    crate("bytes", "little_endian")


def crate(old, new):
    if not os.path.isdir(f"crates/{old}"):
        return
    subprocess.run(["git", "mv", f"crates/{old}", f"crates/{new}"], check=True)
    for f in antt_files() + glob.glob("crates/*/src/*.rt") + glob.glob("crates/*/must-fail/*.edit"):
        text = open(f).read()
        out = re.sub(rf"\bRattle\.{old}\.", f"Rattle.{new}.", text)
        out = re.sub(rf"\buse {old}(?=::|;| as )", f"use {new}", out)
        out = re.sub(rf"(?<![\w.:]){old}::", f"{new}::", out) if f.endswith(".rt") else out
        if out != text:
            open(f, "w").write(out)
    text = open("crates.txt").read()
    out = "\n".join(re.sub(rf"\b{old}\b", new, line) if not line.startswith("#") else line for line in text.split("\n"))
    open("crates.txt", "w").write(out)


# These stand already as functions of the source, or as modules of proofs, which a definition's name does not meet.
ALLOWED = {"direction_in", "direction_of", "down_1_2", "down_1_3", "down_1_4", "down_1_6", "down_2_3", "down_3_4", "down_fir",
           "half_row", "iir_fir", "khz_in", "left_over", "rate_id", "record_in", "words_at"}
# Two laws of `distance` had the names, but for a dash, of two definitions.
FIRST = {"row_out": "row_out-near", "row_next": "row_next-near"}

if __name__ == "__main__":
    main()
