#!/usr/bin/env python3
"""Brings the repository's own definitions and lemmas to today's spelling: words in snake case, types in camel case.

usage: python3 tools/respell.py      at the top of the repository, once, after the kit's own script has turned the tree

A name that specs/ or proofs/ declare in mixed case (`unitFault`, `u16At-fits`) becomes snake case (`unit_fault`,
`u16_at-fits`) in every .antt and .rt file; `getD` in such a name becomes `get_or`, as the library's word did. A name that
begins with a capital is a type and stays. Where a lemma already has a definition's new name, the lemma gets `_lem`.
It stops where two names would fall together, or where a parameter of a function has the new name of a definition that its
clauses cite. It prints each name, old and new.
"""
import collections
import glob
import re
import sys

DECLARED = re.compile(r"^\s*(?:(?:abbrev|unfoldable|pub|data|record)\s+)*([^\s:(){}\[\]=,;]+)\s*:(?=\s)")
TOKEN = re.compile(r"(?<![\w'\-])[A-Za-z_ℕℤ][\w'₀-₉]*(?:-[\w'₀-₉*≡≤≢]+)*")


def snake(name):
    name = name.replace("getD", "get_or")
    if name[0].isupper():
        return name
    return re.sub(r"([a-z0-9ℤℕ])([A-Z])", lambda m: m[1] + "_" + m[2].lower(), name)


def sources():
    return sorted(glob.glob("crates/*/specs/*.antt") + glob.glob("crates/*/proofs/**/*.antt", recursive=True) + glob.glob("crates/*/src/*.rt"))


def declared(paths):
    names = collections.defaultdict(set)
    for path in paths:
        if path.endswith(".antt"):
            for line in open(path, encoding="utf-8"):
                if not line.lstrip().startswith("--") and (m := DECLARED.match(line)):
                    names[m[1]].add(path)
    return names


def module(path):
    return "Rattle." + path[len("crates/"):-len(".antt")].replace("/", ".")


def lemma_again(paths, clash, names):
    """Lemmas that have a definition's new name: the file that declares one and the files that import it from there."""
    out = {}
    for path in paths:
        if not path.endswith(".antt"):
            continue
        text = open(path, encoding="utf-8").read()
        here = {n for n in clash if path in names[n]}
        for m in re.finditer(r"^use ([\w.]+)\.\{([^}]*)\}", text, re.M):
            for n in clash:
                if n in [w.strip() for w in m[2].split(",")] and any(module(p) == m[1] for p in names[n]):
                    here.add(n)
        out[path] = here
    return out


def main():
    paths = sources()
    names = declared(paths)
    turned = {n: snake(n) for n in names if re.search(r"[a-z0-9][A-Z]", n) and snake(n) != n}
    by_new = collections.defaultdict(list)
    for old, new in turned.items():
        by_new[new].append(old)
    for new, olds in by_new.items():
        if len(olds) > 1:
            sys.exit(f"respell: {olds} would both be {new}")
    lemmas = {p for n in names for p in names[n] if "/proofs/" in p}
    clash = {n for n in by_new if n in names and names[n] & lemmas and not any("/specs/" in p for p in names[n])}
    again = lemma_again(paths, clash, names)
    for path in paths:
        if path.endswith(".rt"):
            for m in re.finditer(r"fn ([a-z_0-9]+)(?:<[^>(]*>)?\((.*?)\n\{", open(path, encoding="utf-8").read(), re.S):
                params = set(re.findall(r"\b([a-z_0-9]+): ", m[2].split("requires")[0].split("ensures")[0]))
                for token in TOKEN.findall(m[2]):
                    if turned.get(token) in params:
                        sys.exit(f"respell: {path}, {m[1]}: {token} would fall together with a parameter")
    for path in paths:
        text = open(path, encoding="utf-8").read()

        def turn(m, path=path, text=text):
            token = m[0]
            if token in again.get(path, ()) and text[m.start() - 1:m.start()] != ".":
                return token + "_lem"
            return turned.get(token, token)

        new = TOKEN.sub(turn, text)
        if new != text:
            with open(path, "w", encoding="utf-8") as f:
                f.write(new)
    for old in sorted(turned):
        print(old, turned[old])
    for n in sorted(clash):
        print(n, n + "_lem")


main()
