#!/usr/bin/env python3
"""Brings the repository's own definitions and lemmas to the kit's spelling: words in snake case, types and modules in camel case.
Run once at the top of the repository, after the kit's port.py. A name that would fall together with another one gets `_lem`."""
import collections
import os
import re

TOKEN = re.compile(r"(\.?)(?<![\w'-])([^\W\d][\w'-]*)")
FIELD = re.compile(r"^\s+(?:pub\s+)?([^\W\d][\w'-]*)\s*:(?=\s)")
DECLARED = re.compile(r"^\s*(?:(?:pub|abbrev|unfoldable)\s+)*([^\W\d][\w'-]*(?:\s+[^\W\d][\w'-]*)*)\s*:(?=\s)")
DEFINED = re.compile(r"^\s*(?:abbrev|unfoldable)\s+pub\s")
# words of the language's library that a lemma of ours would take in snake case
TAKEN = {"bit_and", "bit_or", "bit_not", "bit_xor"}


def snake(name):
    if not name[0].islower():
        return name
    return re.sub(r"([a-z0-9])([A-Z])", lambda m: m.group(1) + "_" + m.group(2).lower(), name).replace("-", "_")


def in_function(path):
    """Is it in the folder of one function's proof, whose names Rattle makes?"""
    parts = path.split(os.sep)
    return "proofs" in parts and len(parts) > parts.index("proofs") + 2


def files(ending):
    for folder, dirs, names in os.walk("crates"):
        dirs[:] = sorted(d for d in dirs if d != "out")
        yield from (os.path.join(folder, n) for n in sorted(names) if n.endswith(ending))


def spellings():
    """What each name is respelled to, and which of the names are fields of records."""
    own, defined, fields = set(), set(), set()
    for path in files(".antt"):
        if in_function(path):
            continue
        record = False
        for line in open(path, encoding="utf-8"):
            if line.strip() and not line[0].isspace():
                record = re.match(r"(?:pub )?record ", line) is not None
            if record and FIELD.match(line):
                fields.add(FIELD.match(line).group(1))
            found = DECLARED.match(line)
            if found and not line.lstrip().startswith(("--", "let ", "in ", "use ", "record ", "data ")):
                names = found.group(1).split()
                own.update(names)
                if DEFINED.match(line):
                    defined.update(names)
    alike = collections.defaultdict(set)
    for name in own:
        alike[snake(name)].add(name)
    respelled = {}
    for to, names in alike.items():
        first = sorted(names, key=lambda n: (n not in defined or "-" in n, n != to, "-" in n, n))[0]
        for name in names:
            spelled = to if name == first and to not in TAKEN else to + "_lem"
            if spelled != name and (name != to or to in TAKEN):
                respelled[name] = spelled
            elif name == to and name != first:
                respelled[name] = to + "_lem"
    return respelled, fields


def turned(text, respelled, fields, comment):
    """The text with each own name respelled; in a comment only between backticks, or a word in camel case."""

    def word(m):
        dot, name = m.groups()
        to = respelled.get(name, name)
        # what stands behind a dot and is no field is a step of a proof: a function's name
        return dot + (snake(name) if dot and name not in fields and to.endswith("_lem") else to)

    def said(m):
        return word(m) if re.search("[a-z][A-Z]", m.group()) else m.group()

    lines = []
    for line in text.split("\n"):
        at = line.find(comment)
        code, rest = (line, "") if at < 0 else (line[:at], line[at:])
        code = TOKEN.sub(word, code)
        parts = rest.split("`")
        rest = "`".join(TOKEN.sub(word if i % 2 else said, part) for i, part in enumerate(parts))
        lines.append(code + rest)
    return "\n".join(lines)


def main():
    respelled, fields = spellings()
    # functions of src/ keep their names: in code only what is in camel case is a name of a definition
    camel = {name: to for name, to in respelled.items() if name != name.lower() and "-" not in name}
    for ending, comment, names in ((".antt", "--", respelled), (".rt", "//", camel)):
        for path in files(ending):
            with open(path, encoding="utf-8") as file:
                text = file.read()
            new = turned(text, names, fields, comment)
            if new != text:
                with open(path, "w", encoding="utf-8") as file:
                    file.write(new)
    for name in sorted(respelled):
        print(name, respelled[name])


if __name__ == "__main__":
    main()
