#!/usr/bin/env python3
"""Respells the repository's own names as the toolchain's style asks: run once, at the top, after the toolchain's own port script.

Definitions, lemmas, fields and constructors of specs/ and of the lemma files of proofs/ go from camel case to snake case. In a name with dashes, a dash
stays where what stands left of it is itself the name of a definition or a type, as in `eval-alike`; elsewhere it becomes `_`, as in `and_true`.
Names of functions in src/, strings and what Rattle makes keep their spelling. One file is renamed: rules/specs/Contracts, whose name Rattle now takes.
Two names that would fall together are an error, and nothing is written."""
import os
import re
import sys

WORD = r"[^\s(){}\[\]:.,;=λ\"'`|↦&@!<>+*/^~\\#$%?-][^\s(){}\[\]:.,;=λ\"`|↦&@!<>+*/^~\\#$%?]*"
HEAD = re.compile(r"^[ \t]*((?:(?:unfoldable|abbrev|pub|data|record)\s+)*)(" + WORD + r"(?:\s+" + WORD + r")*)\s*((?:[({][^=\n]*?)?):\s", re.M)
NAME = re.compile(r"[A-Za-z_][\w'-]*[\w']|[A-Za-z_]")


def texts(endings, tops):
    for top in tops:
        for folder, dirs, files in os.walk(top):
            dirs[:] = sorted(d for d in dirs if d not in ("out", "target", ".git"))
            for name in sorted(files):
                if name.endswith(endings):
                    yield os.path.join(folder, name)


def is_lemma_file(path):
    parts = path.split(os.sep)
    return path.endswith(".antt") and ("specs" in parts or ("proofs" in parts and parts.index("proofs") == len(parts) - 2))


def read(path):
    with open(path, encoding="utf-8") as f:
        return f.read()


def snake(word):
    word = word.replace("LValue", "Lvalue") if word[0].islower() else word
    return re.sub(r"(?<=[a-z0-9])[A-Z]", lambda m: "_" + m[0].lower(), word) if word[0].islower() else word


def respelled(name, defined):
    pieces, done = [snake(p) for p in name.split("-")], []
    while pieces:
        n = next((n for n in range(len(pieces), 0, -1) if "_".join(pieces[:n]) in defined), len(pieces))
        done.append("_".join(pieces[:n]))
        pieces = pieces[n:]
    return "-".join(done)


def main():
    defined, owned = set(), set()
    for path in texts((".antt",), ["crates"]):
        if not is_lemma_file(path):
            continue
        for kinds, names, _ in HEAD.findall(read(path)):
            for name in names.split():
                owned.add(name)
                if set(kinds.split()) - {"pub"} and "-" not in name:
                    defined.add(name)
    words = {snake(name) for name in defined}
    spelling = {}
    for name in owned:
        if re.match(r"[A-Za-z]", name) and (re.search(r"[a-z0-9][A-Z]", name) or "-" in name):
            new = respelled(name, words)
            if new != name:
                spelling[name] = new
    # A lemma that would have its function's name gets `_lem`.
    for name in sorted(owned):
        new = spelling.get(name, name)
        function = [other for other in spelling if other != name and spelling[other] == new and other in defined]
        if function and name not in defined and name not in APART:
            spelling[name] = new + "_lem"
    clash = {}
    for name in owned - APART:
        clash.setdefault(spelling.get(name, name), []).append(name)
    bad = {new: old for new, old in clash.items() if len(old) > 1}
    if bad:
        sys.exit(f"these fall together: {bad}")
    if "--list" in sys.argv:
        for name in sorted(spelling):
            print(name, spelling[name])
        return
    def turned(text):
        return NAME.sub(lambda m: spelling.get(m[0], m[0]), text)
    for path in texts((".antt", ".rt", ".edit", ".py"), ["crates", "tests"]):
        text = read(path)
        new = turned(text)
        new = re.sub(r"(?<=rules\.specs\.)Contracts\b", "Promised", new)
        if path == os.path.join("crates", "rules", "specs", "Lib.antt"):
            new = new.replace("mod Contracts", "mod Promised")
        if new != text:
            with open(path, "w", encoding="utf-8") as f:
                f.write(new)
    old = os.path.join("crates", "rules", "specs", "Contracts.antt")
    if os.path.exists(old):
        os.rename(old, os.path.join("crates", "rules", "specs", "Promised.antt"))


# a field and a local name that agree with a function's name, and stand where that one is not used
APART = {"stands_at", "one_more"}

main()
