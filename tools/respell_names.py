#!/usr/bin/env python3
"""Spells the names that this repository declares in specs/ and proofs/ as the library spells its own.

usage: tools/respell_names.py          at the top of the repository, once, after port.py and before any edit by hand
       tools/respell_names.py --map    prints each old name and its new one, and writes nothing

A definition, a lemma, a field, a constructor or a variable in camel or kebab case gets snake case: `isWriter` is `is_writer`, and
`request-handed` is `request_handed`. What begins with a capital stays, and so does a name of a library or of the code. Where a name in
kebab case would meet another name, it gets `_lem` behind it. MANUAL has the few names in camel case that would meet another.
"""

import collections
import glob
import os
import re
import sys

# Names in camel case whose snake case another name has, in the same file or in a field of the code.
MANUAL = {
    "goesOn": "carries_on",
    "lastNonce": "latest_nonce",
    "writtenAt": "written_in_place",
    "oneEach": "one_verdict_each",
    "noneWritten": "nothing_written",
    "entryCount": "entries_counted",
    "allSame": "are_all_same",
}
# A variable that has the new name of a definition that its file imports.
IN_FILE = {("crates/wire/proofs/ProofBytes.antt", "from_bytes"): "from_its_bytes"}

TOKEN = re.compile(r"[^\s(){}.;,@\"«»\[\]\\λ:→×≡]+")
USE = re.compile(r"use ([^\s;{]+)\.\{([^}]*)\}", re.S)
HEAD = re.compile(r"(?m)^ *(?:\w+ )*?([^\s(){}.;,:]+)(?: \{[^{}\n]*\}| \([^()\n]*\))* :")
BINDER = re.compile(r"[({]([^(){}:;,.\n]+) :")
LAMBDA = re.compile(r"λ ([^.\n]+)\.")
LET = re.compile(r"let ([^\s(:=]+)")
LET_TUPLE = re.compile(r"let \(([^)]*)\)")
CLAUSE = re.compile(r"(?m)^ *([^\s].*?) =(?: |$)")
CAMEL = re.compile(r"[a-z_][A-Za-z0-9_']*[a-z0-9][A-Z]")
KEBAB = re.compile(r"[a-z][A-Za-z0-9_'ℕ]*-[A-Za-z0-9_'ℕ-]*$")
# Comments, texts and quoted words are passed over.
SKIPPED = {"antt": re.compile(r'--[^\n]*|"(?:[^"\\]|\\.)*"'), "rt": re.compile(r'//[^\n]*|"(?:[^"\\]|\\.)*"')}


def snake(name):
    return re.sub(r"(?<=[a-z0-9])[A-Z]", lambda m: "_" + m[0].lower(), name).replace("-", "_")


def kind(path):
    return path.rsplit(".", 1)[1]


def sources():
    found = glob.glob("crates/**/*.antt", recursive=True) + glob.glob("crates/**/*.rt", recursive=True)
    return sorted(f for f in found if "/out/" not in f)


def without_skipped(path, text):
    return SKIPPED[kind(path)].sub("", text)


def names_of(texts):
    """What is declared here, and what is imported from a library."""
    crates = {os.path.basename(c) for c in glob.glob("crates/*")}
    declared, imported = set(), set()
    for path, text in texts.items():
        text = without_skipped(path, text)
        for module, items in USE.findall(text):
            parts = module.split(".")
            ours = parts[0] == "Rattle" and parts[1] in crates
            for item in filter(None, map(str.strip, items.split(","))):
                name, *local = item.split(" as ")
                declared.update(local)
                if not ours:
                    imported.add(name)
        if kind(path) != "antt":
            continue
        declared.update(HEAD.findall(text))
        for form in (BINDER, LAMBDA, LET_TUPLE, CLAUSE):
            for words in form.findall(text):
                declared.update(TOKEN.findall(words))
        declared.update(LET.findall(text))
    return declared, imported


def new_names(texts):
    declared, imported = names_of(texts)
    taken = collections.defaultdict(set)
    for name in declared | imported:
        if not KEBAB.match(name):
            taken[MANUAL.get(name) or (snake(name) if CAMEL.match(name) and name not in imported else name)].add(name)
    new = {}
    for name in declared - imported:
        if KEBAB.match(name):
            new[name] = snake(name) + ("_lem" if snake(name) in taken else "")
        elif CAMEL.match(name):
            new[name] = MANUAL.get(name) or snake(name)
    return new


def respelled(path, text, new):
    def word(m):
        return IN_FILE.get((path, m[0])) or new.get(m[0], m[0])

    def comment(said):
        return TOKEN.sub(lambda m: new[m[0]] if m[0] in new and CAMEL.match(m[0]) else m[0], said)

    out, at = [], 0
    for m in SKIPPED[kind(path)].finditer(text):
        out.append(TOKEN.sub(word, text[at : m.start()]))
        out.append(m[0] if m[0][0] == '"' else comment(m[0]))
        at = m.end()
    out.append(TOKEN.sub(word, text[at:]))
    return "".join(out)


def main(words):
    texts = {}
    for path in sources():
        with open(path, encoding="utf-8") as f:
            texts[path] = f.read()
    new = new_names(texts)
    if words == ["--map"]:
        for old in sorted(new):
            print(old, new[old])
        return
    for path, text in texts.items():
        turned = respelled(path, text, new)
        if turned != text:
            with open(path, "w", encoding="utf-8") as f:
                f.write(turned)


main(sys.argv[1:])
