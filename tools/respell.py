#!/usr/bin/env python3
"""Brings names of definitions and lemmas to the spelling of today's Rattle, once, after port.py: run at the top of the repository.

A word in lower camel case becomes snake case (`callCheck` is `call_check`), also as a part of a name (`applyAll-add` is `apply_all-add`) and of an
operator (`◌orElse◌` is `◌or_else◌`); types and modules keep their camel case. A lemma that would have the name of a definition ends in `_lem`.
Structs and enums are plain values here: each derives Clone and Copy in place of Drop. Each crate's root has the line #![tactic(auto)].
Strings of the sources keep their text.
"""
import glob
import os
import re
import sys

WORD = re.compile(r"(?<![A-Za-z0-9_'\"])[a-z][a-z0-9]*(?:[A-Z][a-z0-9]*)+(?![A-Za-z_])")


def snake(word):
    return re.sub(r"[A-Z]", lambda m: "_" + m.group(0).lower(), word)


def is_hex(match):
    return match.group(0).startswith("0x")


def respell(text):
    return WORD.sub(lambda m: m.group(0) if is_hex(m) else snake(m.group(0)), text)


def antt_files():
    return sorted(glob.glob("crates/*/specs/**/*.antt", recursive=True) + glob.glob("crates/*/proofs/**/*.antt", recursive=True))


def read(path):
    with open(path, encoding="utf-8") as f:
        return f.read()


def write(path, text):
    with open(path, "w", encoding="utf-8") as f:
        f.write(text)


def lemma_names(files):
    """Names declared in snake case already, that a definition in camel case would take too: (module path, name)."""
    camel = set()
    for f in files:
        camel.update(snake(m.group(0)) for m in re.finditer(WORD.pattern + r"(?![-'])", read(f)) if not is_hex(m))
    found = []
    for f in files:
        if f.endswith("/Proof.antt"):
            continue
        for m in re.finditer(r"^\s*(?:(?:pub|abbrev|unfoldable) )*([a-z]\w*) :", read(f), re.M):
            if "_" in m.group(1) and m.group(1) in camel:
                found.append((f, m.group(1)))
    return found


def module_of(path):
    parts = path[: -len(".antt")].split("/")
    return "Rattle." + ".".join(parts[1:])


def with_suffix(text, name):
    return re.sub(r"(?<![\w.'-])" + name + r"(?![\w.'-])", name + "_lem", text)


def main():
    files = antt_files()
    clashes = lemma_names(files)
    texts = {f: read(f) for f in files}
    for f, name in clashes:
        # a field of a record and a function's own module keep their name
        module = module_of(f)
        if re.search(r"^\s+pub " + name + r" :", texts[f], re.M) and "pub record" in texts[f]:
            print("field, kept:", f, name)
            continue
        print("lemma:", f, name)
        for g in files:
            imports = re.search(r"^\s*use " + re.escape(module) + r"\.\{[^}]*(?<![\w'-])" + name + r"(?![\w'-])[^}]*\}", texts[g], re.M)
            if g == f or imports:
                texts[g] = with_suffix(texts[g], name)
    for f in files:
        write(f, respell(texts[f]))
    for f in sorted(glob.glob("crates/*/src/**/*.rt", recursive=True)):
        text = read(f)
        parts = re.split(r'("(?:[^"\\\n]|\\.)*")', text)
        text = "".join(p if p.startswith('"') else respell(p) for p in parts)
        text = text.replace("#[derive(Drop)]", "#[derive(Clone, Copy)]")
        if os.path.basename(f) in ("lib.rt", "main.rt") and "#![tactic(" not in text:
            head = re.match(r"(?://[^\n]*\n)*", text).group(0)
            text = head + "#![tactic(auto)]\n" + text[len(head):]
        write(f, text)
    for f in sorted(glob.glob("crates/*/must-fail/*.edit") + glob.glob("docs/**/*.md", recursive=True) + ["README.md"]):
        write(f, respell(read(f)))


if __name__ == "__main__":
    sys.exit(main())
