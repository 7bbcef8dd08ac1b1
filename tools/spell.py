#!/usr/bin/env python3
"""Brings the names of definitions and lemmas to today's spelling: words in snake case, types, modules and facts in camel case.

usage: python3 tools/spell.py            at the top of the repository, once, after the kit's port.py

A name in camel case that begins small, and a name with dashes between words, gets underscores. A dash stays before an operator
(`nat_abs-*ℤ`). Names that the toolchain makes for a function's proof, and names of the code, stay. A lemma that would fall together
with a definition gets `_lem` at its end. The program says which names would fall together otherwise, and then writes nothing.
"""

import os
import re
import sys

TOKEN = re.compile(r'"(?:[^"\\]|\\.)*"|[^\s(){}.;,@"«»\[\]\\`]+')
DECLARED = re.compile(r"^\s*(?:abbrev |unfoldable |opaque )*(?:pub )?((?:[^\s(){}.;,:]+ )+): ?")
WORDS = {"pub", "abbrev", "unfoldable", "data", "record", "unfolding", "let", "in", "use", "module", "ruleset"}
OWN_WORDS = {"getD": "get_or"}
# A definition whose name in snake case is a parameter's, and a lemma whose name is the library's.
BY_HAND = {"byWidth": "is_by_width", "in-float": "in_float_lem"}


def files(*ends):
    for top in ("crates", "README.md", "docs"):
        for folder, dirs, names in [(os.path.dirname(top), [], [top])] if os.path.isfile(top) else os.walk(top):
            dirs[:] = sorted(d for d in dirs if d != "out")
            for name in sorted(names):
                path = os.path.join(folder, os.path.basename(name))
                if path.endswith(ends):
                    yield path


def read(path):
    with open(path, encoding="utf-8") as f:
        return f.read()


def snake(name):
    if name in BY_HAND:
        return BY_HAND[name]
    for old, new in OWN_WORDS.items():
        name = re.sub(rf"(?<![A-Za-z]){old}(?![a-z])", new, name)
    if not re.match(r"[a-z]", name) and "-" not in name:
        return name
    if re.match(r"[A-Z]", name):
        return name
    name = re.sub(r"(?<=[a-z0-9])(?=[A-Zℤℕ])", "_", name)
    name = re.sub(r"(?<=[\w'?₀-₉])-(?=\w)", "_", name)
    return re.sub(r"[A-Z]", lambda it: it[0].lower(), name)


def declared():
    """Each declared name with whether it is a definition of specs/, and the names of fields of records."""
    names, fields = {}, set()
    for path in files(".antt"):
        in_record = False
        for line in read(path).splitlines():
            if line.lstrip().startswith("--"):
                continue
            if re.match(r"\s*(pub )?record\b.*where$", line):
                in_record = True
            elif line and not line.startswith(" "):
                in_record = False
            it = DECLARED.match(line)
            if not it or re.search(r": (tie|goal)\.(Need|invariant|decreases)", line):
                continue
            for name in it[1].split():
                if name in WORDS:
                    continue
                names[name] = names.get(name, False) or "/specs/" in path
                if in_record:
                    fields.add(name)
    return names, fields


def turns():
    names, fields = declared()
    new = {}
    for name, is_defined in names.items():
        it = snake(name)
        if it != name:
            new[name] = it
    taken = {}
    for name in names:
        taken.setdefault(new.get(name, name), []).append(name)
    bad = []
    for it, olds in taken.items():
        if len(olds) > 1:
            lemmas = [o for o in olds if "-" in o or (o == it and not names[o])]
            keep = [o for o in olds if o not in lemmas]
            if len(keep) <= 1 and len(lemmas) == 1 and keep:
                new[lemmas[0]] = it + "_lem"
            elif len(keep) == 0 and len(lemmas) == 2:
                dashed = [o for o in lemmas if "-" in o]
                new[dashed[0]] = it + "_lem"
            else:
                bad.append((it, olds))
    return new, fields, bad, names


def turned_antt(text, new, fields):
    aliases = {a for p, a in re.findall(r"(?m)^(?:pub )?use (Rattle\S*) as (\S+)$", text) if not re.search(r"\.(Tie|Lts|Statement|Goals|Given|Code|Met|Reads)$", p)}

    def line_turned(line):
        code, dash, said = line.partition("--") if re.match(r"\s*--|.*\s--\s", line) else (line, "", "")

        def one(found):
            word = found[0]
            if word not in new or word.startswith('"'):
                return word
            before = code[: found.start()]
            if before.endswith(".") and not before.endswith(" .") and not re.search(r"(λ|→|\. )[^.]*\.$", before[-1:]):
                path = re.search(r"([^\s(){};,]*)\.$", before)
                head = path[1].split(".")[0] if path else ""
                if head == "Rattle" or head in aliases or word in fields:
                    return new[word]
                return word
            return new[word]

        def spoken(found):
            return new[found[0]] if found[0] in new and re.search(r"[A-Z]", found[0]) else found[0]

        def quoted(found):
            return "`" + TOKEN.sub(lambda it: new.get(it[0], it[0]), found[1]) + "`"

        said = re.sub(r"`([^`]*)`", quoted, said)
        return TOKEN.sub(one, code) + dash + TOKEN.sub(spoken, said)

    return "\n".join(line_turned(line) for line in text.split("\n"))


def turned_words(text, new, of_antt):
    """In code and pages only names in camel case turn; in an edit of an .antt file, all of them."""

    def one(found):
        word = found[0]
        if word not in new or word.startswith('"'):
            return word
        return new[word] if of_antt or re.search(r"[a-z][A-Zℤℕ]", word) else word

    def line_turned(line):
        if of_antt and not line.startswith(("old:", "new:")):
            return re.sub(r"`([^`]*)`", lambda it: "`" + TOKEN.sub(one, it[1]) + "`", line)
        return TOKEN.sub(one, line)

    return "\n".join(line_turned(line) for line in text.split("\n"))


def main():
    new, fields, bad, names = turns()
    for it, olds in bad:
        print(f"would fall together: {it}: {' '.join(olds)}")
    if bad and "--anyway" not in sys.argv:
        return 1
    if "--list" in sys.argv:
        for old, it in sorted(new.items()):
            print(old, it)
        return 0
    for path in files(".antt", ".rt", ".edit", ".md"):
        text = read(path)
        if path.endswith(".antt"):
            out = turned_antt(text, new, fields)
        else:
            is_antt = path.endswith(".edit") and re.search(r"(?m)^file: .*\.antt$", text)
            out = turned_words(text, new, bool(is_antt))
        if out != text:
            with open(path, "w", encoding="utf-8") as f:
                f.write(out)
    return 0


if __name__ == "__main__":
    sys.exit(main())
