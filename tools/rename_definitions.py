#!/usr/bin/env python3
"""Gives the definitions and lemmas of crates/ the spelling of today's library.

usage: python3 tools/rename_definitions.py      at the top of the repository, once, after the toolchain's port.py

Words are joined by `_` and no longer by `-` (`flash-state` is `flash_state`), a type is in camel case (`Reads-at` is `ReadsAt`), and the
library's word for an element or a value beside the end, once `getD`, is `get_or`. Names that are made from the source, as `loop-x-preserved`, are
not defined here and keep their dashes. Functions, strings, inputs and outputs keep their names. It stops where two names would become one.
"""

import os
import re
import sys

SIGNATURE = re.compile(r"^\s*((?:abbrev |unfoldable |pub )*)([^\s:(){}=,]+) :(?: |$)(.*)")
TYPE = re.compile(r"^\s*(?:pub )?(?:record|data|module) ([^\s:(){}]+)")
ALIAS = re.compile(r" as ([^\s,}]+)")
# A name ends at a space, a bracket, a dot and the like.
WORD = re.compile(r"[^\s(){}\[\].,;:=λ`\"]+")
STRING = re.compile(r'"(?:[^"\\]|\\.)*"')
COMMENT = re.compile(r"^(.*?)((?:--|//)(?:\s.*)?)$")
QUOTED = re.compile(r"`[^`]+`")


def files(kinds):
    for folder, dirs, names in os.walk("crates"):
        dirs[:] = sorted(d for d in dirs if d != "out")
        for name in sorted(names):
            if name.endswith(kinds):
                yield os.path.join(folder, name)


def spelled(name):
    if name[0].isupper():
        head, *rest = name.split("-")
        return head + "".join(word[:1].upper() + word[1:] for word in rest)
    return name.replace("getD", "get_or").replace("-", "_")


def own_names():
    names = set()
    for path in files((".antt", ".rt")):
        with open(path, encoding="utf-8") as f:
            for line in f:
                if path.endswith(".antt"):
                    signature, kind = SIGNATURE.match(line), TYPE.match(line)
                    if signature and not signature.group(3).startswith("goal."):
                        names.add(signature.group(2))
                    if kind:
                        names.add(kind.group(1))
                if line.lstrip().startswith(("use ", "ghost use ")):
                    names.update(ALIAS.findall(line))
    return names


def main():
    if not os.path.isdir("crates"):
        sys.exit("rename_definitions: run it at the top of the repository")
    names = own_names()
    new = {n: spelled(n) for n in names if spelled(n) != n}
    taken = {}
    for n in names:
        taken.setdefault(new.get(n, n), set()).add(n)
    same = sorted(sorted(v) for v in taken.values() if len(v) > 1)
    if same:
        sys.exit(f"rename_definitions: these would become one name: {same}")

    def words(text):
        return WORD.sub(lambda m: new.get(m.group(0), m.group(0)), text)

    def code(text):
        # What stands in quotes stays.
        parts, at = [], 0
        for quote in STRING.finditer(text):
            parts += [words(text[at : quote.start()]), quote.group(0)]
            at = quote.end()
        return "".join(parts) + words(text[at:])

    def turned(line):
        # A comment is prose, but for names in backquotes.
        comment = COMMENT.match(line)
        if not comment:
            return code(line)
        return code(comment.group(1)) + QUOTED.sub(lambda m: words(m.group(0)), comment.group(2))

    changed = 0
    for path in files((".antt", ".rt", ".edit")):
        with open(path, encoding="utf-8") as f:
            text = f.read()
        result = "\n".join(turned(line) for line in text.split("\n"))
        if result != text:
            changed += 1
            with open(path, "w", encoding="utf-8") as f:
                f.write(result)
    print(f"rename_definitions: {len(new)} names in {changed} files")


if __name__ == "__main__":
    main()
