#!/usr/bin/env python3
"""tools/choose.py: takes the choice by a test, if◌then◌else◌, from the library's Prelude in place of a definition of types' Base (crates/).

It may be run again: a file that has it from the library stays as it is.
"""
import os
import re

ROOT = os.path.dirname(os.path.dirname(os.path.abspath(__file__)))
WORD = "if◌then◌else◌"
OWN = re.compile(r"^((?:ghost |pub )?use )Rattle\.types\.specs\.Base\.\{([^}]*)\}(;?)\n", re.M)
PRELUDE = re.compile(r"^((?:ghost |pub )?use )Rattle\.std\.specs\.Prelude\.\{([^}]*)\}(;?)\n", re.M)


def turn(text):
    it = OWN.search(text)
    names = [n.strip() for n in it.group(2).split(",") if n.strip()] if it else []
    if WORD not in names:
        return text
    names.remove(WORD)
    end = it.group(3)
    kept = f"{it.group(1)}Rattle.types.specs.Base.{{{', '.join(names)}}}{end}\n" if names else ""
    has = PRELUDE.search(text)
    if not has:
        return text[: it.start()] + f"{it.group(1)}Rattle.std.specs.Prelude.{{{WORD}}}{end}\n" + kept + text[it.end() :]
    text = text[: it.start()] + kept + text[it.end() :]
    has = PRELUDE.search(text)
    got = [n.strip() for n in has.group(2).split(",") if n.strip()]
    return text[: has.start()] + f"{has.group(1)}Rattle.std.specs.Prelude.{{{', '.join([*got, WORD])}}}{has.group(3)}\n" + text[has.end() :]


def main():
    for folder, dirs, files in os.walk(os.path.join(ROOT, "crates")):
        dirs[:] = [d for d in dirs if d != "out"]
        for name in files:
            if not name.endswith((".rt", ".antt")):
                continue
            path = os.path.join(folder, name)
            with open(path, encoding="utf-8") as f:
                text = f.read()
            new = turn(text)
            if new != text:
                with open(path, "w", encoding="utf-8") as f:
                    f.write(new)


if __name__ == "__main__":
    main()
