#!/usr/bin/env python3
"""tools/respell.py [--list]: brings the repository's own words of specs and proofs to snake case.

Run once, after the kit's port.py, at a tree where nothing else was edited. A word is a definition, a lemma, a record's field, a constructor or
a bound name; types and modules keep their camel case, and what is generated from src/ or imported from the kit its spelling. Papers follow
for the words of specs/. With --list it prints each word with its new spelling and writes nothing.
"""
import os
import re
import sys

ROOT = os.path.dirname(os.path.dirname(os.path.abspath(__file__)))
NAME = r"[a-z][^\s(){}\[\].,;:\"`|]*"
CUT = re.compile(r"([\s(){}\[\].,;:\"`|]+)")
DECLARED = re.compile(rf"^\s*(?:where\s+|let\s+|in\s+)*(?:(?:abbrev|unfoldable|pub|private|let)\s+)*({NAME}(?:\s+{NAME})*)\s*(?:\{{[^}}]*\}}\s*|\([^)]*\)\s*)*:(?!=)")
LOCAL = re.compile(rf"\blet\s+({NAME})\s*[:=]")
BOUND = re.compile(rf"[({{]((?:{NAME}\s+)*{NAME})\s*:\s")
IMPORT = re.compile(r"^\s*(?:ghost )?use\s+(\S+?)\.\{([^}]*)\}")
KEYWORDS = {"abbrev", "unfoldable", "pub", "private", "let", "where", "in", "record", "data", "module", "use", "unfolding"}
# A lemma that would get the spelling of a definition in the same file.
SAME = {"in-range": "in_range_law", "slot-at": "slot_at_law", "fourBytes": "four_bytes_of", "bit-or": "bit_or_at"}


def files(ends, top="crates"):
    for folder, dirs, names in os.walk(os.path.join(ROOT, top)):
        dirs[:] = sorted(d for d in dirs if d != "out")
        for name in sorted(names):
            if name.endswith(ends):
                yield os.path.join(folder, name)


def lines(path):
    with open(path, encoding="utf-8") as f:
        return f.read().split("\n")


def bare(line):
    """A line of antt without its comment."""
    return re.sub(r"(^|\s)--(\s.*|$)", "", line)


def changes(word):
    return word not in KEYWORDS and re.search(r"[A-Z]|-|\u2032", word)


def snake(word):
    word = re.sub(r"(?<=[a-z0-9'])([A-Z])", lambda m: "_" + m.group(1), word)
    return word.replace("-", "_").replace("\u2032", "'").lower()


class Words:
    def __init__(self):
        self.specs, self.found, self.fields, taken = set(), set(), set(), set()
        for path in files((".antt",)):
            record = None
            for line in lines(path):
                text = bare(line)
                indent = len(text) - len(text.lstrip())
                if text.strip() and record is not None and indent <= record:
                    record = None
                names = set(LOCAL.findall(text))
                for many in BOUND.findall(text):
                    names |= set(many.split())
                m = DECLARED.match(text)
                if m:
                    names |= set(m.group(1).split())
                    if record is not None and not path.endswith("Proof.antt"):
                        self.fields |= set(m.group(1).split())
                if re.match(r"^\s*(?:(?:abbrev|unfoldable|pub)\s+)*record\s", text):
                    record = indent
                m = IMPORT.match(text)
                if m and not re.match(r"Rattle\.(?!std)\w+\.(specs|proofs)\.(?!declared)", m.group(1)):
                    taken |= {it.split(" as ")[0].strip() for it in m.group(2).split(",")}
                self.found |= names
                if "/specs/" in path:
                    self.specs |= names
        self.found = {w for w in self.found - taken if changes(w)}
        self.to = {w: SAME.get(w, snake(w)) for w in self.found}
        self.apart()

    def apart(self):
        """A hyphenated lemma beside a definition in camel case of the same words is the definition's law."""
        by = {}
        for w in sorted(self.to):
            by.setdefault(self.to[w], []).append(w)
        for new, old in by.items():
            if len(old) > 1:
                for w in old:
                    if "-" in w:
                        self.to[w] = new + "_law"

    def turn(self, text, hyphens):
        parts = CUT.split(text)
        for i in range(0, len(parts), 2):
            w = parts[i]
            if w in self.to and (hyphens or "-" not in w):
                before = parts[i - 1] if i else ""
                if before == "." and "-" in w and w not in self.fields and not re.match(r"[A-Z]", parts[i - 2]):
                    continue
                parts[i] = self.to[w]
        return "".join(parts)


def write(path, new):
    text = "\n".join(new)
    if text != "\n".join(lines(path)):
        with open(path, "w", encoding="utf-8") as f:
            f.write(text)


def turn_antt(words, path):
    new = []
    for line in lines(path):
        text = bare(line)
        new.append(words.turn(text, True) + words.turn(line[len(text):], False))
    write(path, new)


def turn_rt(words, path):
    new = []
    for line in lines(path):
        text, mark, comment = line.partition("//")
        parts = re.split(r'("(?:[^"\\]|\\.)*")', text)
        parts[::2] = [words.turn(p, True) for p in parts[::2]]
        new.append("".join(parts) + mark + words.turn(comment, False))
    write(path, new)


def turn_paper(words, path):
    def word(m):
        return "`" + "".join(words.to[p] if p in words.specs and p in words.to and "-" not in p else p for p in CUT.split(m.group(1))) + "`"

    write(path, [re.sub(r"`([^`]+)`", word, line) for line in lines(path)])


def main():
    words = Words()
    if "--list" in sys.argv:
        for w in sorted(words.to):
            print(w, words.to[w])
        return
    for path in files((".antt",)):
        turn_antt(words, path)
    for path in files((".rt",)):
        turn_rt(words, path)
    papers = [os.path.join(ROOT, p) for p in ("README.md", "crates.txt")]
    for path in papers + list(files((".md",), "docs")):
        turn_paper(words, path)


if __name__ == "__main__":
    main()
