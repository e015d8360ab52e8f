#!/usr/bin/env python3
"""Brings this repository's own definitions and lemmas to Rattle's spelling: words in snake case, types in camel case.

usage: tools/respell.py          at the top of the repository, once, after the kit's own script for older repositories

It goes over specs/ and proofs/ of every crate, and over the contracts and `ghost use` lines of src/. Functions of src/, names that
Rattle makes (goals, loops, branches), comments and strings keep their spelling. It says where two names fall together.
"""
import collections
import glob
import re
import sys

TOKEN = re.compile(r'"(?:[^"\\]|\\.)*"|(?:--|//)[^\n]*|[^\s(){}\[\].,;"]+|.', re.S)


# Names that would fall together with another one of the same files.
OTHER = {"mark-of": "mark_of_cell", "recordOf": "meant_of", "heldIn": "option_held_of"}


def antt_files():
    return sorted(glob.glob("crates/*/specs/**/*.antt", recursive=True) + glob.glob("crates/*/proofs/**/*.antt", recursive=True))


def rt_files():
    return sorted(glob.glob("crates/*/src/**/*.rt", recursive=True))


def respelled(name):
    if re.match(r"[A-Z]", name):
        return "".join(part[:1].upper() + part[1:] for part in re.split(r"[-_]", name))
    name = re.sub(r"(?<=[a-z])([A-Z])", lambda m: "_" + m.group(1).lower(), name)
    return name.lower().replace("-", "_").replace("′", "'")


def own_names():
    """The names that specs/ and proofs/ define, and the other names that `as` gives: name → where."""
    found = collections.defaultdict(set)
    for path in antt_files() + rt_files():
        for line in open(path, encoding="utf-8"):
            code = re.split(r"(?:^|\s)(?:--|//)", line)[0]
            for alias in re.findall(r"[\w'?-]+ as ([\w'?-]+)", code if "use " in code else ""):
                found[alias].add(path)
            if not path.endswith(".antt"):
                continue
            head = re.match(r"\s*(?:(?:abbrev|pub|unfoldable|record|data|ruleset)\s+)*([^\s(){}:.,;]+)\s*(?:[({].*)?(?:\s:\s|$)", code)
            if not head or " : goal." in code or re.match(r"\s*(use|mod|unfolding|pub mod)\b", code):
                continue
            name = head.group(1)
            if ":" in code and re.search(r"(^|\s)" + re.escape(name) + r"(\s|\s.*\s):\s", " " + code):
                found[name].add(path)
    return found


def respell(path, names):
    text = open(path, encoding="utf-8").read()
    out = []
    for token in TOKEN.findall(text):
        if token in names and not token.startswith(('"', "--", "//")):
            token = names[token]
        out.append(token)
    new = "".join(out)
    if new != text:
        open(path, "w", encoding="utf-8").write(new)
    return new != text


def fallen_together(names, found):
    new = collections.defaultdict(set)
    for old, spelled in names.items():
        new[spelled].add(old)
    for path in antt_files() + rt_files():
        text = open(path, encoding="utf-8").read()
        tokens = set(TOKEN.findall(text))
        for spelled, olds in new.items():
            here = (olds | {spelled}) & tokens
            if len(here) > 1:
                print(f"fall together: {path}: {', '.join(sorted(here))}")


def main():
    found = own_names()
    names = {n: OTHER.get(n, respelled(n)) for n in found if respelled(n) != n and re.match(r"[A-Za-z]", n)}
    if "--list" in sys.argv:
        for old, new in sorted(names.items()):
            print(f"{old}\t{new}\t{', '.join(sorted(found[old])[:3])}")
        return
    fallen_together(names, found)
    changed = [p for p in antt_files() + rt_files() if respell(p, names)]
    print(f"{len(names)} names, {len(changed)} files")


main()
