#!/usr/bin/env python3
"""Brings the repository's own definitions and lemmas to today's spelling: words in snake case, and a dash where a lemma's name joins two names.

usage: respell.py ROOT     once, after the toolchain's port.py, with the top of the repository

A word in camel case turns everywhere: neither the library nor the code has such names. Beside it, respell.tsv has a row for each lemma that port.py turned only because
the library has a name of the same letters, as or-comm, and which so fell together with other names or apart from its neighbours: the file that declares it, the name as
port.py leaves it, and the name that it had. These turn in the file that declares them and in those that import them from there.
"""
import os
import re
import sys

WORD = re.compile(r"(?<![\w'-])[a-z_«][\w'«»-]*")
IMPORT = re.compile(r"(?m)^\s*(?:pub )?(?:ghost )?use Rattle\.(\w+)\.((?:specs|proofs)(?:\.[\w+]+)*)\.\{([^}]*)\}")


def snake(word):
    word = re.sub(r"([A-Z]+)([A-Z][a-z])", r"\1_\2", word)
    return re.sub(r"([a-z0-9])([A-Z])", r"\1_\2", word).lower()


def camel(part):
    # a word of the toolchain's own, as uint_Makes, has a line before its capital
    return re.match(r"[a-z]", part) and re.search(r"[a-z0-9][A-Z]", part) and "_" not in part


def rows(path):
    others = {}
    for line in open(path, encoding="utf-8"):
        module, turned, name = line.rstrip("\n").split("\t")
        others.setdefault(module, {})[turned] = name
    return others


def module_of(path, crates):
    return re.sub(r"__\w+$", "", os.path.splitext(os.path.relpath(path, crates))[0])


def local_names(text, own, others):
    found = dict(own)
    for crate, path, items in IMPORT.findall(text):
        module = "/".join([crate, *path.split(".")])
        for item in items.split(","):
            name = item.split(" as ")[0].strip().strip("«»")
            if name in others.get(module, {}):
                new = others[module][name]
                if found.get(name, new) != new:
                    print(f"look: two names fall together as {name}: {found[name]}, {new}")
                found[name] = new
    return found


def turned(text, local):
    def one(m):
        word = m.group(0)
        bare = word.strip("«»")
        if bare in local and text[max(0, m.start() - 1) : m.start()] != ".":
            return local[bare]
        if re.search(r"[a-z0-9][A-Z]", bare):
            return "-".join(snake(p) if camel(p) else p for p in bare.split("-"))
        return word

    return WORD.sub(one, text)


def main(root):
    others = rows(os.path.join(os.path.dirname(os.path.realpath(__file__)), "respell.tsv"))
    crates = os.path.join(root, "crates")
    for folder, dirs, files in os.walk(crates):
        dirs[:] = [d for d in dirs if d not in ("out", ".git")]
        for f in files:
            if not f.endswith((".rt", ".antt")):
                continue
            path = os.path.join(folder, f)
            text = open(path, encoding="utf-8").read()
            new = turned(text, local_names(text, others.get(module_of(path, crates), {}), others))
            if new != text:
                with open(path, "w", encoding="utf-8") as out:
                    out.write(new)


if __name__ == "__main__":
    main(sys.argv[1] if len(sys.argv) > 1 else ".")
