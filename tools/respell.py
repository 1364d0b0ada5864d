#!/usr/bin/env python3
"""Brings this repository's own names to the spelling of today's Rattle.

usage: respell.py [FOLDER]     the repository that port.py has turned; this one where no folder is given

Definitions, lemmas, fields and constructors of specs/ and proofs/ are written in snake case: bytesOf and
bytes-of become bytes_of. A lemma that would get its definition's name gets _lem. Types, modules, and names
that begin with a capital stay; so do functions of src/, strings, inputs and outputs, and the answers of
Proof.antt, which are named by Rattle. A name is told by the module that declares or imports it.
"""
import collections
import os
import re
import sys

TOKEN = re.compile(r"[^\s(){}.;,@\"«»\[\]\\`]+")
USE = re.compile(r"(?:ghost )?use (Rattle\.[\w.+'-]+)\.\{([^}]*)\}")
DECLARED = re.compile(r"^\s*(?:(?:unfoldable|abbrev|pub)\s+)*([^\s:(){}=]+)\s+:\s+(.*)")
# port.py gave these names to a definition and to a lemma alike.
MERGED = ("placed_at", "word_bytes")
# Two names of specs/ that would fall together with a definition's.
GIVEN = {("Rattle.rules.specs.Waits", "is-late"): "gone_late", ("Rattle.runs.specs.Further", "usual-borders"): "usual_borders_run"}
HEAD = re.compile(r"^\s*(?:pub\s+)?(?:record|data|ruleset)\s+([^\s:(){}=]+)")


def snake(name):
    if not re.match(r"[a-z]", name):
        return name
    name = re.sub(r"([A-Z]+)", lambda m: "_" + m.group(1).lower(), name)
    return re.sub("_+", "_", name.replace("-", "_"))


def files(root):
    for folder, dirs, names in os.walk(os.path.join(root, "crates")):
        dirs[:] = sorted(d for d in dirs if d not in ("out", "must-fail", "data"))
        for name in sorted(names):
            if name.endswith((".antt", ".rt")):
                yield os.path.join(folder, name)


def module(root, path):
    parts = os.path.relpath(path, os.path.join(root, "crates"))[: -len(".antt")].split(os.sep)
    return "Rattle." + ".".join(parts)


def read(path):
    with open(path, encoding="utf-8", newline="") as f:
        return f.read()


def declared(text, answers):
    """The names that a file declares, its fields and constructors too. Rattle names the answers of a Proof.antt."""
    found = set()
    for line in text.splitlines():
        if line.lstrip().startswith("--"):
            continue
        m = HEAD.match(line)
        if m:
            found.add(m.group(1))
            continue
        m = DECLARED.match(line)
        if m and not line.lstrip().startswith(("let ", "λ", "∙", "|", "→", "use ", "module ")):
            if not (answers and re.match(r"(tie\.|\{M : Type 1\} → statement)", m.group(2))):
                found.add(m.group(1))
    return found


def is_lemma_beside(name, new, spellings, at):
    """The name is a lemma's, and a definition has it in another spelling."""
    if new in MERGED:
        return ".proofs." in at
    if len(spellings) < 2:
        return False
    if any(re.search("[A-Z]", it) for it in spellings):
        return not re.search("[A-Z]", name)
    return "-" in name


def table(root):
    """For each module its names that change, with the new ones; and the fields by name alone."""
    names = {}
    for path in files(root):
        if path.endswith(".antt"):
            names[module(root, path)] = declared(read(path), path.endswith("/Proof.antt"))
    spellings = collections.defaultdict(set)
    for found in names.values():
        for name in found:
            spellings[snake(name)].add(name)
    turned = {at: {} for at in names}
    for at, found in names.items():
        for name in found:
            new = snake(name)
            if (at, name) in GIVEN:
                new = GIVEN[at, name]
            elif is_lemma_beside(name, new, spellings[new], at):
                new += "_lem"
            if new != name:
                turned[at][name] = new
    return turned


def scope(turned, at, text):
    here = dict(turned.get(at, {}))
    for where, what in USE.findall(text):
        for item in what.split(","):
            name = item.strip().split(" as ")[0]
            if name in turned.get(where, {}):
                here[name] = turned[where][name]
    return here


def main(root):
    turned = table(root)
    everywhere = collections.defaultdict(set)
    for changes in turned.values():
        for old, new in changes.items():
            everywhere[old].add(new)
    single = {old: min(new) for old, new in everywhere.items() if len(new) == 1 and re.search("[A-Z]|-", old)}
    for path in files(root):
        text = read(path)
        here = scope(turned, module(root, path) if path.endswith(".antt") else "", text)

        def turn(m):
            word, before = m.group(0), text[: m.start()]
            if before.endswith("."):
                return single.get(word, word) if not re.search(r"(^|[\s(])(tie|goal|lts|reads)\.$", before[-12:]) else word
            if word in here:
                return here[word]
            line = before[before.rfind("\n") + 1 :]
            if re.match(r" = |\s*=$", text[m.end() : m.end() + 3]) and re.search(r"([{;]\s*|^\s+)$", line or " "):
                return single.get(word, word)
            if "--" in line or "//" in line:
                return single.get(word, word)
            return word

        new = TOKEN.sub(turn, text)
        if new != text:
            with open(path, "w", encoding="utf-8", newline="") as f:
                f.write(new)


if __name__ == "__main__":
    main(sys.argv[1] if len(sys.argv) > 1 else os.path.dirname(os.path.dirname(os.path.realpath(__file__))))
