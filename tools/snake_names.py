#!/usr/bin/env python3
"""Spells the repository's own definitions and lemmas in snake case, as today's Rattle has them.

usage: python3 tools/snake_names.py [LIST]     at the top of a checkout in which port.py has run

Functions of src/, exported names, strings, inputs and outputs keep their names; so do types, modules and what is imported from the kit. A lemma whose
name would fall together with a definition's gets `_lem` after it. The renamed names are written to the file LIST, old and new.
"""
import os
import re
import sys

WORD = r"[A-Za-z_◌][^\s(){}\[\],;.`\"]*"
TOKEN = re.compile(r'"(?:[^"\\]|\\.)*"|--[^\n]*|' + WORD)
DECLARED = re.compile(r"^\s*(?:abbrev |unfoldable )?(?:pub )?(?:record |data )?([A-Za-z_][^\s(){}\[\],;.`\"]*) :(?!:)", re.M)
BINDERS = re.compile(r"[({]((?:[A-Za-z_][^\s(){}\[\],;.`\"]* )+):")
LOCALS = re.compile(r"\blet ([A-Za-z_][^\s(){}\[\],;.`\"]*)\s*[:=]|\bλ ((?:[A-Za-z_][^\s(){}\[\],;.`\"]* ?)+)\.")
LEMMA = re.compile(r"^\s*(?:pub )?([a-z][^\s(){}\[\],;.`\"]*) :(?!:)", re.M)
IMPORT = re.compile(r"^use ([^\s{]+?)\.\{([^}]*)\}", re.M)
OWN_MODULE = re.compile(r"Rattle\.(?!std\b)")


def texts(endings):
    for folder, folders, files in os.walk("crates"):
        folders[:] = sorted(f for f in folders if f != "out")
        for name in sorted(files):
            if name.endswith(endings):
                yield os.path.join(folder, name)


def read(path):
    with open(path, encoding="utf-8") as file:
        return file.read()


def snake(name):
    if name[0].islower():
        name = re.sub(r"([A-Z])([A-Z][a-z])", r"\1_\2", name)
        name = re.sub(r"(?<=[a-z0-9])([A-Z])", r"_\1", name)
        name = name.lower()
    return re.sub(r"(?<=[\w'])-(?=\w)", "_", name)


def is_odd(name):
    return bool(re.search(r"[\w']-\w", name)) or bool(re.match(r"[a-z]", name) and re.search(r"[a-z0-9][A-Z]", name))


def names():
    """Own names whose spelling changes, old to new; and those of the kit, which stay."""
    own, foreign = set(), set()
    for path in texts(".antt"):
        text = read(path)
        for module, listed in IMPORT.findall(text):
            if not OWN_MODULE.match(module):
                foreign |= {name.strip() for name in listed.split(",")}
        if path.endswith("/Proof.antt"):
            continue
        own |= set(DECLARED.findall(text))
        for group in BINDERS.findall(text):
            own |= set(group.split())
        for one, many in LOCALS.findall(text):
            own |= {one} | set(many.split())
    own = {name for name in own if name and is_odd(name) and name not in foreign}
    definitions = {snake(name) for name in own if "-" not in name}
    renamed = {}
    for name in sorted(own):
        new = snake(name)
        if "-" in name and new in definitions:
            new += "_lem"
        renamed[name] = new
    return renamed


def shadowed(renamed):
    """Lemmas in snake case already, whose names a definition takes that was in camel case; by file, where declared and where imported."""
    taken = {new for old, new in renamed.items() if "-" not in old}
    declared = {}
    for path in texts(".antt"):
        if "/specs/" not in path:
            for name in LEMMA.findall(read(path)):
                if name in taken:
                    declared.setdefault(path, set()).add(name)
    modules = {re.sub(r"^crates/(.*)\.antt$", r"Rattle/\1", path).replace("/", "."): lemmas for path, lemmas in declared.items()}
    for path in texts(".antt"):
        for module, listed in IMPORT.findall(read(path)):
            found = modules.get(module, set()) & {name.strip() for name in listed.split(",")}
            if found:
                declared.setdefault(path, set()).update(found)
    return declared


def respell(text, renamed):
    def one(found):
        token = found.group(0)
        if token.startswith('"'):
            return token
        if token.startswith("--"):
            return comment(token, renamed)
        return renamed.get(token, token)

    return TOKEN.sub(one, text)


def comment(text, renamed):
    def quoted(found):
        return "`" + TOKEN.sub(lambda f: renamed.get(f.group(0), f.group(0)), found.group(1)) + "`"

    text = re.sub(r"`([^`\n]*)`", quoted, text)
    return re.sub(r"\b[a-z]\w*[A-Z]\w*\b", lambda f: renamed.get(f.group(0), f.group(0)), text)


def source(text, renamed):
    """A file of src/: camel case stands in clauses, and in the fields of a row of the reconciliation file, which are renamed in both; comments as elsewhere."""
    camel = {old: new for old, new in renamed.items() if "-" not in old}

    def one(found):
        token = found.group(0)
        if token.startswith('"'):
            return token
        if token.startswith("//"):
            return comment(token, renamed)
        return camel.get(token, token)

    return re.sub(r'"(?:[^"\\]|\\.)*"|//[^\n]*|[A-Za-z_][\w\'-]*', one, text)


def edit(text, renamed, also, path):
    """A must-fail edit: its texts as the file that each stands in."""
    crate = os.path.dirname(os.path.dirname(path))
    lines, of = [], None
    for line in text.splitlines(keepends=True):
        word = line.partition(":")[0]
        if word == "file":
            of = line.partition(":")[2].strip()
        elif word in ("old", "new") and of:
            lemmas = {name: name + "_lem" for name in also.get(os.path.join(crate, of), ())}
            body = line[4:]
            line = line[:4] + (source(body, renamed) if of.endswith(".rt") else respell(body, renamed | lemmas))
        elif line.startswith("#"):
            line = comment(line, renamed)
        lines.append(line)
    return "".join(lines)


def imported_own(text):
    """In a proof that walks the code, names that Rattle made stand beside own ones: what the file imports from own modules is renamed."""
    found = set()
    for module, listed in IMPORT.findall(text):
        if OWN_MODULE.match(module):
            found |= {name.strip() for name in listed.split(",")}
    return found


def main(argv):
    renamed = names()
    also = shadowed(renamed)
    camel = {name for name in renamed if "-" not in name}
    for path in texts((".antt", ".rt")):
        text = read(path)
        lemmas = {name: name + "_lem" for name in also.get(path, ())}
        if path.endswith(".rt"):
            new = source(text, renamed)
        elif path.endswith("/Proof.antt"):
            here = imported_own(text) | camel
            new = respell(text, {old: new for old, new in renamed.items() if old in here} | lemmas)
        else:
            new = respell(text, renamed | lemmas)
        if new != text:
            with open(path, "w", encoding="utf-8") as file:
                file.write(new)
    for path in texts(".edit"):
        text = read(path)
        new = edit(text, renamed, also, path)
        if new != text:
            with open(path, "w", encoding="utf-8") as file:
                file.write(new)
    pages = [os.path.join(f, n) for f, ds, ns in os.walk(".") if "/target" not in f and "/out" not in f and "/.git" not in f for n in ns if n.endswith(".md")]
    for path in sorted(pages):
        if os.path.basename(path) == "PORT.md":
            continue
        text = read(path)
        new = re.sub(r"`([^`\n]*)`", lambda f: comment(f.group(0), renamed), text)
        if new != text:
            with open(path, "w", encoding="utf-8") as file:
                file.write(new)
    if argv:
        with open(argv[0], "w", encoding="utf-8") as file:
            file.writelines(f"{old} {new}\n" for old, new in sorted(renamed.items()))
    print(f"{len(renamed)} names are spelled anew")


if __name__ == "__main__":
    main(sys.argv[1:])
