#!/usr/bin/env python3
"""Spells the repository's own definitions, laws, fields and local names in snake case, after port.py.

usage: python3 tools/respell.py [FOLDER]     FOLDER is the top of the repository, by default the current folder

It reads crates/*/{specs,proofs,src} and the comments of must-fail edits, and writes the names that it turns to
tools/respelled.tsv, old and new. maskBelow and mask-below become mask_below, and a prime becomes an apostrophe. Types and
modules stay, and so do the functions and strings of src/. If a definition in camel case and a law with hyphens would get one
name, the law's name ends in _law. A name that a file imports from the library stays in that file, and so does a name that the
prover makes of the source, as c.mul-mod2 in a Proof.antt.
"""

import collections
import os
import re
import sys

NAME = r'[^\s(){}.;,@"«»]+'
WORD = re.compile(NAME)
COMMENT = re.compile(r'(?<![^\s(){}.;,@"«»])--[^\n]*|"(?:[^"\\\n]|\\.)*"')
USE = re.compile(r"\buse ([^\s;{]+?)\.\{([^}]*)\}", re.S)
DECLARED = re.compile(r"(?m)^[ ]*(?:\w+ )*?((?:[^\s():]+ )+?)(?:\{[^{}\n]*\} )*: (?!tie\.|statement)")
MADE = re.compile(rf'(?<![^\s(){{}};,@«»])(?:c|w|at-\w+|before|tie)(?:\.{NAME})*$')
CLAUSE = re.compile(r"\b(?:requires|ensures)\s*\*?\s*(?:\w+\s*)?\{|\bghost\s+(?!use\b)(?:\w+\s*[:=]?\s*)?\{")
GHOST_USE = re.compile(r"ghost\s+use\b[^;]*;")


def turned(word):
    word = re.sub(r"(?<=[a-z0-9])[A-Z]+(?![a-z])", lambda m: "_" + m[0].lower(), word)
    word = re.sub(r"(?<=[a-z0-9])[A-Z]", lambda m: "_" + m[0].lower(), word)
    return word.replace("-", "_").replace("′", "'")


def turns(word):
    return re.match(r"[a-z]", word) and turned(word) != word


def texts(root, *endings):
    for folder, dirs, files in os.walk(os.path.join(root, "crates")):
        dirs[:] = sorted(d for d in dirs if d != "out")
        for name in sorted(files):
            if name.endswith(endings):
                yield os.path.join(folder, name)


def read(path):
    with open(path, encoding="utf-8") as f:
        return f.read()


def code(text):
    """The text with comments and strings blanked."""
    return COMMENT.sub(lambda m: " " * len(m[0]), text)


def closing(text, i):
    deep = 0
    for k in range(i, len(text)):
        deep += (text[k] == "{") - (text[k] == "}")
        if not deep:
            return k + 1
    return len(text)


class Names:
    def __init__(self, root):
        own = {c for c in os.listdir(os.path.join(root, "crates"))}
        self.own = own
        self.declared = set()
        for path in texts(root, ".antt"):
            for m in DECLARED.finditer(code(read(path))):
                self.declared.update(w for w in m[1].split() if turns(w))
        shapes = collections.defaultdict(set)
        for word in self.declared:
            shapes[turned(word)].add(word)
        plain = set()
        for path in texts(root, ".antt"):
            if not path.endswith("/Proof.antt"):
                for m in DECLARED.finditer(code(read(path))):
                    plain.update(m[1].split())
        self.new = {}
        for new, words in shapes.items():
            hyphens = {w for w in words if "-" in w}
            clash = (words - hyphens) or new in plain
            for word in words:
                self.new[word] = new + "_law" if clash and word in hyphens else new

    def of_library(self, text):
        """The names that a file imports from the library."""
        found = set()
        for m in USE.finditer(text):
            steps = m[1].split(".")
            if not (steps[0] == "Rattle" and len(steps) > 1 and steps[1] in self.own):
                found.update(w.strip() for w in m[2].split(","))
        return found

    def turn(self, text, at, end, stay, proof):
        """The code of text between at and end, with its names turned."""

        def one(m):
            word, before = m[0], text[at : at + m.start()]
            if not turns(word) or word in stay:
                return word
            if before.endswith("."):
                if word not in self.declared:
                    return word
                chain = re.search(rf"(?:{NAME}\.)+$", before)
                if proof and "-" in word and chain and self.made(chain[0]):
                    return word
                return self.new[word]
            if proof and word not in self.declared:
                return word
            return self.new.get(word, turned(word))

        return WORD.sub(one, text[at:end])

    @staticmethod
    def made(chain):
        """Whether the name behind the chain is one that the prover makes: behind c, w and the steps before."""
        steps = chain.rstrip(".").split(".")
        return steps[-1] in ("c", "tie", "before") or re.fullmatch(r"[w-z]\d*|\d+", steps[-1]) is not None

    def comment(self, text):
        def one(m):
            return self.new[m[0]] if m[0] in self.new else m[0]

        return re.sub(r"[a-z][A-Za-z0-9_'′-]*[A-Za-z0-9_'′]", one, text)

    def antt(self, path, text):
        stay, proof = self.of_library(text), path.endswith("/Proof.antt")
        out, at = [], 0
        for m in COMMENT.finditer(text):
            out.append(self.turn(text, at, m.start(), stay, proof))
            out.append(self.comment(m[0]) if m[0].startswith("--") else m[0])
            at = m.end()
        out.append(self.turn(text, at, len(text), stay, proof))
        return "".join(out)

    def rt(self, text):
        stay = self.of_library("\n".join(m[0].replace("ghost ", "") for m in GHOST_USE.finditer(text)))
        spans = [(m.start(), m.end()) for m in GHOST_USE.finditer(text)]
        spans += [(m.end() - 1, closing(text, m.end() - 1)) for m in CLAUSE.finditer(text)]
        comments = [(m.start(), m.end()) for m in re.finditer(r"//[^\n]*", text)]
        out, at = [], 0
        for start, end in sorted(spans + comments):
            if start < at:
                continue
            out.append(text[at:start])
            out.append(self.comment(text[start:end]) if (start, end) in comments else self.turn(text, start, end, stay, False))
            at = end
        out.append(text[at:])
        return "".join(out)

    def edit(self, text):
        return re.sub(r"(?m)^#[^\n]*", lambda m: self.comment(m[0]), text)


def main():
    root = sys.argv[1] if len(sys.argv) > 1 else "."
    names = Names(root)
    count = 0
    for path in texts(root, ".antt", ".rt", ".edit"):
        text = read(path)
        new = names.antt(path, text) if path.endswith(".antt") else names.rt(text) if path.endswith(".rt") else names.edit(text)
        if new != text:
            with open(path, "w", encoding="utf-8") as f:
                f.write(new)
            count += 1
    rows = "".join(f"{old}\t{new}\n" for old, new in sorted(names.new.items()))
    with open(os.path.join(root, "tools", "respelled.tsv"), "w", encoding="utf-8") as f:
        f.write(rows)
    print(f"respell: {count} files changed, {len(names.new)} declared names turned")


main()
