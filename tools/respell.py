#!/usr/bin/env python3
"""Respells the repository's own words in snake case: `treeAt` becomes `tree_at`, `kindAt-column` `kind_at-column`.

usage: tools/respell.py [--check] [ROOT]

Run once, at the top, behind the toolchain's own port.py. It turns the definitions, lemmas, fields and constructors that the
.antt files below crates/ declare, wherever an .antt file, a clause or a `ghost use` item of an .rt file names them, and moves
the modules that a name of the toolchain's own would hide (MODULES). Names of types and modules, dashes between the parts of a
lemma's name, Rust code, strings, inputs and outputs stay. --check writes nothing and prints the table.
"""
import os
import re
import sys

WORD = re.compile(r"--[^\n]*|\"(?:[^\"\\]|\\.)*\"|[^\s(){}.;,@\"«»\[\]\\]+")
NAME = r"[^\s(){}.;,@\"«»\[\]\\:]+"
SIGNATURE = re.compile(r"(?m)^ *(?:(?:unfoldable|abbrev|pub) )*(" + NAME + r"(?: " + NAME + r")*) :(?=\s)")
CAMEL = re.compile(r"(?<=[a-z0-9'₀-₉])[A-Z]")
CLAUSE = re.compile(r"(?:requires|ensures)\*?\s*(?:\w+\s*)?\{|ghost\s+\w+\s*:\s*\{|ghost\s+use\b")
# rt makes a module `specs.contracts` of its own.
MODULES = {"Contracts": "Terms"}
# A lemma that would have the name of the word that it is about.
LEMMA = "_lem"


def texts(root, end):
    for folder, below, files in os.walk(os.path.join(root, "crates")):
        below[:] = sorted(d for d in below if d != "out")
        for f in sorted(files):
            if f.endswith(end):
                yield os.path.join(folder, f)


def read(path):
    with open(path, encoding="utf-8") as f:
        return f.read()


def snake(word):
    return CAMEL.sub(lambda m: "_" + m[0].lower(), word)


def declared(root):
    """The words that the repository declares."""
    own = set()
    for path in texts(root, ".antt"):
        for m in SIGNATURE.finditer(re.sub(r"--[^\n]*", "", read(path))):
            own.update(m[1].split())
    return own


def foreign(root):
    """The words that files take from the toolchain's own libraries: they have its spelling already."""
    out = set()
    for path in list(texts(root, ".antt")) + list(texts(root, ".rt")):
        for m in re.finditer(r"\buse ([\w.+-]+)\.\{([^}]*)\}", read(path)):
            crate = m[1].split(".")[1] if m[1].startswith("Rattle.") else ""
            if not os.path.isdir(os.path.join(root, "crates", crate)) or not crate:
                out.update(it.split(" as ")[0].strip() for it in m[2].split(","))
    return out


def table(root):
    own = declared(root)
    taken = foreign(root)
    turned = {w: snake(w) for w in sorted(own - taken) if not w[0].isupper() and CAMEL.search(w)}
    lemmas = {n: n + LEMMA for n in sorted(turned.values()) if n in own}
    names = [n for w, n in turned.items()] + list(lemmas.values())
    clash = sorted({n for n in names if n in taken or names.count(n) > 1} | {n for n in lemmas.values() if n in own})
    return turned, lemmas, clash


def antt(text, turned, lemmas):
    """The text of an .antt file or of a clause, each of its words by the tables. A lemma is never named behind a dot."""
    def one(m):
        word = m[0]
        if word.startswith("--"):
            return comment(word, turned)
        if word.startswith('"'):
            return word
        if word in lemmas and not text[: m.start()].endswith("."):
            return lemmas[word]
        return turned.get(word, word)

    return WORD.sub(one, text)


def comment(text, turned):
    """In a comment's prose the words whose spelling shows that they are meant."""
    return re.sub(r"[A-Za-z0-9'-]+", lambda m: turned.get(m[0], m[0]), text)


def rust(text, turned, lemmas):
    """The text of an .rt file: its clauses, its `ghost` items and its comments."""
    out, at = [], 0
    for m in CLAUSE.finditer(text):
        if m.start() < at:
            continue
        end = text.index(";", m.start()) if "use" in m[0] else closed(text, m.end() - 1)
        out += [comments(text[at:m.end()], turned), antt(text[m.end():end], turned, lemmas)]
        at = end
    return "".join(out) + comments(text[at:], turned)


def comments(text, turned):
    return re.sub(r"//[^\n]*", lambda m: comment(m[0], turned), text)


def closed(text, at):
    depth = 0
    for i in range(at, len(text)):
        depth += {"{": 1, "}": -1}.get(text[i], 0)
        if depth == 0:
            return i
    raise SystemExit("a clause without an end")


def moved(text, crates):
    """The paths of the modules that get another name."""
    for old, new in MODULES.items():
        for crate in crates[old]:
            text = text.replace(f"Rattle.{crate}.specs.{old}.", f"Rattle.{crate}.specs.{new}.")
    return text


def main(argv):
    check = "--check" in argv
    argv = [a for a in argv if a != "--check"]
    root = argv[0] if argv else "."
    turned, lemmas, clash = table(root)
    if check:
        for word, name in list(turned.items()) + list(lemmas.items()):
            print(word, name, "falls together" if name in clash else "")
        return 1 if clash else 0
    if clash:
        raise SystemExit("words that fall together: " + ", ".join(clash))
    crates = {old: [] for old in MODULES}
    for old, new in MODULES.items():
        for crate in sorted(os.listdir(os.path.join(root, "crates"))):
            specs = os.path.join(root, "crates", crate, "specs")
            if os.path.exists(os.path.join(specs, old + ".antt")):
                crates[old].append(crate)
                os.rename(os.path.join(specs, old + ".antt"), os.path.join(specs, new + ".antt"))
                lib = os.path.join(specs, "Lib.antt")
                text = re.sub(rf"(?m)mod {old}$", f"mod {new}", read(lib))
                with open(lib, "w", encoding="utf-8") as f:
                    f.write(text)
    files = 0
    for end, by in ((".antt", antt), (".rt", rust)):
        for path in texts(root, end):
            old = read(path)
            new = moved(by(old, turned, lemmas), crates)
            if new != old:
                files += 1
                with open(path, "w", encoding="utf-8") as f:
                    f.write(new)
    print(f"{len(turned) + len(lemmas)} words, {files} files")
    return 0


if __name__ == "__main__":
    raise SystemExit(main(sys.argv[1:]))
