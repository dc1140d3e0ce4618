#!/usr/bin/env python3
"""Brings the project's own definitions and lemmas to the spelling of the language, once, after the port's script.

    tools/respell.py [--names]    right after the port's script: rewrites crates/ with its must-fail edits, tells what is left and, asked, the names

Words are in snake case: fooBar becomes foo_bar, in definitions, fields and constructors. In a lemma dashes stay where they join names alone, and
become underscores where one of the parts is a plain word. A lemma that would take the name of a definition gets _lem. Functions of src/, exported names,
strings, inputs and outputs keep their names. In an edit the text is respelled too; an edit whose old text then does not stand once in its file
is named, for a reader to bring over by hand.
"""
import glob
import os
import re
import sys

os.chdir(os.path.join(os.path.dirname(os.path.abspath(__file__)), ".."))

# Names that the rules below do not give: `first_of` is a tactic now, get_or was getD, and four lemmas would meet a definition that is respelled.
OTHERWISE = {
    "first_of": "first_refusal",
    "getD-tab": "get_or-tab",
    "tab-getD": "tab-get_or",
    "kept_from": "kept_from_lem",
    "none_of": "none_of_lem",
    "by_code": "by_code_lem",
    "held_then": "held_then_lem",
}
# Fields that may have the name of a lemma.
FIELDS = {"byItself"}
# Words of the library after which or before which a dash joins two names.
LIBRARY = {"length", "append", "take", "drop", "set", "sets", "get_or", "map", "sum", "min", "max", "add", "mul", "mod", "none", "some", "zero"}

TOKEN = r"(?<![\w'\-])%s(?![\w'\-])"
WORD = re.compile(r"(?<![\w'\-])[A-Za-z_][\w']*(?:-[\w']+)*(?![\w'\-])")
DECLARES = re.compile(r"^ *(?:abbrev |unfoldable |pub |record |data )*([A-Za-z_][\w'\-]*) *:")


def snake(name):
    return re.sub(r"([a-z0-9])([A-Z])", lambda m: m[1] + "_" + m[2].lower(), name)


def is_camel(name):
    return name[0].islower() and re.search("[a-z0-9][A-Z]", name) is not None


def own_names():
    """What the files of specs/ and the lemma files of proofs/ declare."""
    names = set()
    for path in glob.glob("crates/*/specs/*.antt") + glob.glob("crates/*/proofs/*.antt"):
        with open(path) as f:
            for line in f:
                declared = DECLARES.match(line)
                if declared and not re.match(r" *(use|mod|pub mod|open|let|unfolding|where)\b", line):
                    names.add(declared[1])
    return names


def renamings(names):
    to = {n: snake(n) for n in names if is_camel(n)}
    to.update({n: OTHERWISE[n] for n in OTHERWISE if n in names or n in ("first_of", "by_code", "held_then")})
    words = {to.get(n, n) for n in names if "-" not in n} | LIBRARY
    taken = set(words)
    for name in sorted(n for n in names if "-" in n and n not in to):
        parts = [snake(p) for p in name.split("-")]
        new = "-".join(parts) if all(p in words for p in parts) else "_".join(parts)
        if new != name and new in taken:
            new += "_lem"
        taken.add(new)
        if new != name:
            to[name] = new
    fallen = {}
    for old, new in to.items():
        fallen.setdefault(new, []).append(old)
    for new, olds in fallen.items():
        if len(olds) > 1 or (new in names and new not in to and not FIELDS & set(olds)):
            sys.exit(f"{' and '.join(olds)} would both be {new}")
    return to


def respelled(text, to):
    return WORD.sub(lambda m: to.get(m[0], m[0]), text)


# In a source only the ghost lines and the clauses name definitions.
GHOST = re.compile(r"^\s*(pub )?(ghost|requires|ensures)\b")


def source(text, to):
    lines, open_braces, inside = [], 0, False
    for line in text.split("\n"):
        if not inside and GHOST.match(line):
            inside, open_braces = True, 0
        if inside:
            open_braces += line.count("{") - line.count("}")
            line = respelled(line, to)
            inside = open_braces > 0
        lines.append(line)
    return "\n".join(lines)


def edit_text(text, to):
    """The older spelling of a line of antt, in this one's."""
    text = text.replace("′", "'").replace("⌜ ", "").replace(" ⌝", "")
    text = re.sub(r"\.«(\w+)»", r".\1", text)
    text = re.sub(r"«(ticks_per_byte|\w+_\w+)»", r"\1", text)
    text = re.sub(r"\(now \((\w+) \.entry\)\)", r"\1.old", text)
    text = re.sub(r"\(([\w']+(?: \.[\w']+)+)\)", lambda m: m[1].replace(" ", ""), text)
    text = re.sub(r"(?<=[\w']) \.(?=[\w'])", ".", text)
    text = re.sub(r"(?<![\w'\-])[a-z][a-z0-9]*[A-Z]\w*", lambda m: snake(m[0]), text)
    return respelled(text, to)


def main():
    to = renamings(own_names())
    for path in sorted(glob.glob("crates/*/specs/*.antt") + glob.glob("crates/*/proofs/**/*.antt", recursive=True) + glob.glob("crates/*/src/*.rt")):
        with open(path) as f:
            old = f.read()
        new = source(old, to) if path.endswith(".rt") else respelled(old, to)
        if new != old:
            with open(path, "w") as f:
                f.write(new)
    left = 0
    for path in sorted(glob.glob("crates/*/must-fail/*.edit")):
        crate = path.split("/must-fail/")[0]
        with open(path) as f:
            lines = f.read().split("\n")
        stands = ""
        for i, line in enumerate(lines):
            kind, colon, words = line.partition(": ")
            if kind == "file":
                with open(os.path.join(crate, words.strip())) as f:
                    stands = f.read()
            elif kind in ("old", "new"):
                # A line of code that stands as it is keeps its words.
                if not (kind == "old" and stands.count(words) == 1) and not (kind == "new" and lines[i - 1].startswith("old: ") and as_code):
                    lines[i] = kind + colon + edit_text(words, to)
                if kind == "old":
                    as_code = lines[i] == line
                    words = lines[i][5:]
                    if stands.count(words) != 1:
                        print(f"by hand: {path}: its old text stands {stands.count(words)} times: {words}")
                        left += 1
                else:
                    stands = stands.replace(lines[i - 1][5:], lines[i][5:], 1)
        with open(path, "w") as f:
            f.write("\n".join(lines))
    print(f"{len(to)} names respelled, {left} edits left by hand")
    if "--names" in sys.argv:
        print("\n".join(f"{a} {b}" for a, b in sorted(to.items())))


if __name__ == "__main__":
    main()
