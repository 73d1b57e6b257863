#!/usr/bin/env python3
"""Spells this repository's own definitions and lemmas as today's Rattle does: words in snake case, types and modules as
they are. To be run once, at the top, after port.py, on what port.py left.

A name is respelled everywhere where a file of specs/ or of lemmas in proofs/ declares it: in .antt files, in the clauses and
`ghost use` lines of .rt files, in must-fail edits, and between backticks in the documents. Names of src/ stay. Generated
proofs by hand (Proof.antt) get the new names of what they cite; their own labels stay.
A lemma that would get the name of a definition gets `_lem` after it; each such name is printed.
"""

import os
import re
import subprocess
import sys

TOKEN = re.compile(r"[^\s(){}\[\],;.@\"«»λ⌜⌝`]+")
DECLARES = re.compile(r"^\s*(?:(?:abbrev|unfoldable|pub|axiom)\s+)*([^\s(){}\[\],;.@\"λ:]+)(?:\s+\{[^{}\n]*\})*\s+:(?:\s|$)", re.M)
LETS = re.compile(r"\blet\s+([^\s(){}\[\],;.@\"λ:=]+)\s*[:=]")
IMPORTS = re.compile(r"\buse\s+([A-Za-z_][\w.·']*)\.\{([^}]*)\}")


def snake(name):
    words = re.sub(r"(?<=[a-z0-9])([A-Z])", lambda m: "_" + m.group(1).lower(), name)
    return words.replace("-", "_")


def is_plain(name):
    """A word that a person wrote: it begins small, and has a dash or a capital to be respelled."""
    return re.fullmatch(r"[a-z][A-Za-z0-9'-]*", name) is not None and snake(name) != name


def read(path):
    with open(path, encoding="utf-8") as f:
        return f.read()


def files(ends):
    for folder, dirs, names in os.walk("crates"):
        dirs[:] = sorted(d for d in dirs if d != "out")
        for name in sorted(names):
            if name.endswith(ends):
                yield os.path.join(folder, name)


def no_comments(text):
    return re.sub(r"--.*", "", text)


def is_walk(path):
    return path.endswith("/Proof.antt")


def crates():
    return set(os.listdir("crates"))


def library_names():
    """What any file imports from a library: such a name keeps its spelling."""
    found = set()
    for path in files((".antt", ".rt")):
        for module, items in IMPORTS.findall(read(path)):
            parts = module.split(".")
            if parts[0] == "Rattle" and len(parts) > 1 and parts[1] in crates():
                continue
            found |= {word for item in items.split(",") for word in item.split()}
    return found


def declared_names():
    found = set()
    for path in files(".antt"):
        if not is_walk(path):
            text = no_comments(read(path))
            found |= set(DECLARES.findall(text))
    return found


def local_names(text, known):
    """The other words of a lemma file: variables, and what a `let` or a `where` binds."""
    words = set()
    for line in no_comments(text).splitlines():
        if not re.match(r"\s*(pub )?use ", line):
            words |= set(TOKEN.findall(line))
    return {w for w in words if is_plain(w) and w not in known}


def turned(text, names):
    return TOKEN.sub(lambda m: names.get(m.group(0), m.group(0)), text)


def turn_code(code, names, aliases):
    """A module's path keeps its parts; behind a dot only what an alias of a module leads to is a name of ours, in a walk."""
    use = re.match(r"(\s*(?:pub )?use )([\w.·'+-]+?)(\.\{.*|\s+as\s.*|\s*)$", code)
    if use:
        return use.group(1) + use.group(2) + turned(use.group(3), names)
    if aliases is None:
        return turned(code, names)

    def word(m):
        before = code[: m.start()]
        if before.endswith(".") and not any(re.search(rf"(?<![\w.'-]){re.escape(a)}\.$", before) for a in aliases):
            return m.group(0)
        return names.get(m.group(0), m.group(0))

    return TOKEN.sub(word, code)


def turn_antt(text, names, walk):
    aliases = {a for m, a in re.findall(r"use (\S+) as (\S+)", text) if not m.endswith(".Tie")} if walk else None
    out = []
    for line in text.split("\n"):
        code, dashes, comment = line.partition("--")
        # a comment names definitions between backticks
        comment = re.sub(r"`[^`]*`", lambda m: turned(m.group(0), names), comment)
        out.append(turn_code(code, names, aliases) + dashes + comment)
    return "\n".join(out)


def turn_rt(text, names):
    """The clauses and the imports for them; code keeps its names."""
    text = re.sub(r"ghost use [^;]*;", lambda m: turned(m.group(0), names), text)
    out, depth, clause = [], 0, False
    for line in text.split("\n"):
        code = line.split("//")[0]
        if not clause and re.match(r"\s*(pub )?(requires|ensures|ghost)\b(?! use)", code):
            clause, depth = True, 0
        if clause:
            out.append(turned(line, names))
            depth += code.count("{") - code.count("}")
            if depth <= 0 and "{" in "".join(out[-1:]) + code:
                clause = False
        else:
            out.append(re.sub(r"//.*", lambda m: re.sub(r"`[^`]*`", lambda w: turned(w.group(0), {n: names[n] for n in names if is_plain(n)}), m.group(0)), line))
    return "\n".join(out)


def tight(text):
    """Projections as port.py writes them: p.f, and no parentheses round one that stands alone."""
    text = re.sub(r"(?<=[\w)']) \.(?=[a-z0-9])", ".", text)
    return re.sub(r"(?<=[ (])\(((?:\w|')+(?:\.\w+)+)\)", r"\1", text)


def turn_edit(text, names, own):
    spec = re.search(r"^file: (specs|proofs)/", text, re.M)
    out = []
    for line in text.split("\n"):
        head, colon, rest = line.partition(":")
        if spec and head in ("old", "new"):
            rest = tight(rest)
            for old, new in (("getD", "get_or"), ("leb", "nat_le"), ("ltb", "nat_lt")):
                rest = re.sub(rf"(?<![\w-]){old}(?![\w-])", new, rest)
            rest = TOKEN.sub(lambda m: snake(m.group(0)) if is_plain(m.group(0)) and snake(m.group(0)) in own else names.get(m.group(0), m.group(0)), rest)
        out.append(head + colon + rest)
    return "\n".join(out)


def turn_doc(text, names, own):
    def word(m):
        it = m.group(0)
        if not is_plain(it):
            return it
        return names.get(it) or (snake(it) if snake(it) in own else it)

    return re.sub(r"`[^`\n]*`", lambda m: m.group(0) if "/" in m.group(0) and " " not in m.group(0) else TOKEN.sub(word, m.group(0)), text)


def main(check):
    library = library_names()
    declared = declared_names()
    plain = {n for n in declared if is_plain(n) and n not in library}
    definitions = {snake(n) for n in plain if "-" not in n}
    names = {n: snake(n) for n in plain}
    for lemma in sorted(n for n in declared if n not in library and snake(n) in definitions and ("-" in n or n == snake(n))):
        names[lemma] = snake(lemma) + "_lem"
        print(f"falls together: {lemma} -> {names[lemma]}")
    for new in sorted(definitions & library):
        print(f"falls together with a library's: {new}")
    own = set(names.values()) | declared
    for path in list(files((".antt", ".rt", ".edit"))):
        text = read(path)
        if path.endswith(".antt"):
            here = dict(names)
            if not is_walk(path):
                local = local_names(text, library | set(names))
                here.update({n: snake(n) for n in local})
                words = set(TOKEN.findall(no_comments(text)))
                for n in sorted(local):
                    if snake(n) in words or snake(n) in names.values() and snake(n) in {names.get(w, w) for w in words}:
                        print(f"{path}: local {n} meets {snake(n)}")
            new = turn_antt(text, here, is_walk(path))
        elif path.endswith(".rt"):
            new = turn_rt(text, names)
        else:
            new = turn_edit(text, names, own)
        if new != text and not check:
            with open(path, "w", encoding="utf-8") as f:
                f.write(new)
    for folder in (".", "docs"):
        for name in sorted(os.listdir(folder)):
            if name.endswith(".md"):
                path = os.path.join(folder, name)
                text = read(path)
                new = turn_doc(text, names, own)
                if new != text and not check:
                    with open(path, "w", encoding="utf-8") as f:
                        f.write(new)
    print(f"respell: {len(names)} names")


if __name__ == "__main__":
    os.chdir(os.path.join(os.path.dirname(os.path.realpath(__file__)), ".."))
    main("--check" in sys.argv)
