#!/usr/bin/env python3
"""Turns the names of this repository's own definitions and lemmas to snake case, and those of its types and facts to camel case.

usage: python3 tools/respell.py            at the top of the repository: rewrites crates/ and the pages in place and prints each name that was turned
       python3 tools/respell.py --dry      prints only

A name is turned where it is defined in specs/ or in proofs/ (a definition, a lemma, a record's field, a constructor), or is a variable of
such a file: `first-fit` becomes `first_fit`, `Line-laws` becomes `LineLaws`. Names of the library and names that the checker makes for
goals and steps keep their dashes. Comments, strings and the functions of src/ are left alone.
"""

import os
import re
import sys

# (a type whose name begins with a capital and has an underscore, as a name of two words that an earlier script joined so, is turned too)
NAME = r"[A-Z][A-Za-z0-9']*_[A-Za-z0-9_']+|[A-Za-z0-9_'\u00b2-\u00b9\u2080-\u209f]+(?:-[A-Za-z0-9_'\u2080-\u209f]+)+"
# a name with a dash that stands alone: not a part of a longer name, not after a letter, a dash or a colon
TOKEN = re.compile(r"(?<![\w'\u00b7-])(?:" + NAME + r")(?![\w'-])")
# the snake-case form of this one is a word of the library: a bit of a bit_or, named by its calls
APART = {"bit-or": "bit-bit_or"}
LIBRARY = ("Rattle.std.", "mathlib.", "Prim.", "native.", "lib.", "Rattle.io.", "Rattle.libc.", "Rattle.os.")


def files(top, *ends):
    for folder, dirs, names in os.walk(os.path.join(top, "crates")):
        dirs[:] = sorted(d for d in dirs if d != "out")
        for n in sorted(names):
            if n.endswith(ends):
                yield os.path.join(folder, n)


def uncommented(text, mark):
    return "\n".join(line.split(mark)[0] for line in text.split("\n"))


def is_lemma_file(path):
    """A file of specs/, or one that lies right in proofs/: the others answer goals of a function."""
    parts = path.split(os.sep)
    return parts[-2] in ("specs", "proofs")


def library_names(text):
    found = set()
    for path, names in re.findall(r"^\s*(?:ghost )?use ([\w.\u00b7+-]+)\.\{([^}]*)\}", text, re.M):
        if path.startswith(LIBRARY) or path.endswith((".Goals", ".Given")):
            found.update(n.strip().split(" as ")[0] for n in names.split(","))
    return found


def defined_names(text):
    """The names that a file gives, but for the answers to goals."""
    found = set()
    for name, what in re.findall(r"^(?:abbrev |unfoldable |ruleset )*(?:pub )?(?:abbrev |unfoldable |ruleset |record |data )*(" + NAME + r")\s(.*)", text, re.M):
        if what.lstrip().startswith((":", "(", "{")) and not what.lstrip().startswith(": goal."):
            found.add(name)
    for name in re.findall(r"^\s+(?:pub )?(" + NAME + r") :", text, re.M):
        found.add(name)
    return found


def turned(name):
    if name in APART:
        return APART[name]
    if name[0].isupper():
        return "".join(part[0].upper() + part[1:] for part in re.split("[-_]", name))
    return name.replace("-", "_")


def spans(path, text):
    """The parts of a text in which names may stand: no comments and no strings, and of a page only what stands between backquotes."""
    if path.endswith(".md"):
        at = 0
        for m in re.finditer(r"`[^`\n]*`", text):
            yield text[at:m.start()], False
            yield m.group(), True
            at = m.end()
        yield text[at:], False
        return
    if path.endswith(".antt"):
        pattern = r"--(?![A-Za-z0-9]).*|\"[^\"\n]*\""
    elif path.endswith(".rt"):
        pattern = r"//.*|b?\"(?:[^\"\\\n]|\\.)*\""
    else:
        pattern = r"b?\"(?:[^\"\\\n]|\\.)*\"|^file:.*"
    at = 0
    for m in re.finditer(pattern, text, re.M):
        yield text[at:m.start()], True
        yield m.group(), False
        at = m.end()
    yield text[at:], True


def main(argv):
    top = os.getcwd()
    own, library, local = set(), set(), set()
    for path in files(top, ".antt", ".rt"):
        with open(path, encoding="utf-8") as f:
            text = f.read()
        bare = uncommented(text, "--" if path.endswith(".antt") else "//")
        library |= library_names(bare)
        if path.endswith(".antt"):
            own |= defined_names(bare)
            if is_lemma_file(path):
                local |= {m.group() for m in TOKEN.finditer(bare)}
    # a step of the code, as c.step-x, is the checker's name
    made = set()
    for path in files(top, ".antt"):
        with open(path, encoding="utf-8") as f:
            text = f.read()
        if not is_lemma_file(path):
            made |= set(re.findall(r"\b[cwlgt]\.(" + NAME + r")", text)) | set(re.findall(r"goal\.(" + NAME + r")", text))
    names = {n for n in own | local if n not in library and n not in made and n not in APART.values()}
    clash = {}
    for n in names:
        clash.setdefault(turned(n), set()).add(n)
    for to, many in sorted(clash.items()):
        if len(many) > 1:
            print("falls together: " + to + " from " + ", ".join(sorted(many)))
    changed = 0
    pages = [os.path.join(top, "README.md")] + [os.path.join(top, "docs", p) for p in sorted(os.listdir(os.path.join(top, "docs"))) if p != "PORT.md"]
    for path in [*files(top, ".antt", ".rt", ".edit"), *pages]:
        with open(path, encoding="utf-8") as f:
            text = f.read()
        out, here = [], set()
        for part, free in spans(path, text):
            def one(m):
                if m.group() in names:
                    here.add(m.group())
                    return turned(m.group())
                return m.group()
            out.append(TOKEN.sub(one, part) if free else part)
        bare = "".join(part for part, free in spans(path, text) if free)
        for n in sorted(here):
            if re.search(r"(?<![\w'.-])" + re.escape(turned(n)) + r"(?![\w'-])", bare):
                print(f"look: {path}: {turned(n)} stood there beside {n}")
        new = "".join(out)
        if new != text:
            changed += 1
            if "--dry" not in argv:
                with open(path, "w", encoding="utf-8") as f:
                    f.write(new)
    for n in sorted(names):
        print(f"{n} -> {turned(n)}")
    print(f"{len(names)} names, {changed} files")
    return 0


if __name__ == "__main__":
    raise SystemExit(main(sys.argv[1:]))
