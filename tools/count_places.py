#!/usr/bin/env python3
"""Lists the places in src/ that docs/DESIGN-PASS.md counts, for one of its points 1 to 8: `tools/count_places.py POINT`.

With no argument it prints how many lines each point lists. A line is a candidate: crate:line, the name of the function or type, and what was
found there. The page says which candidates are no places.
"""
import collections
import glob
import itertools
import os
import re
import sys

os.chdir(os.path.join(os.path.dirname(os.path.abspath(__file__)), ".."))

ITEM = re.compile(r'\s*(?:pub )?(?:extern "C" )?(?:unsafe )?(fn|struct|enum|trait|type|const|static|impl)\b\s*(\w*)')
Item = collections.namedtuple("Item", "crate line kind name derives head clauses code")


def items():
    """Each item of each source: its first lines up to the body, its clauses, and its lines of code, with their numbers and without comments."""
    for path in sorted(glob.glob("crates/*/src/*.rt")):
        found, derives = None, ""
        for number, line in enumerate(open(path), 1):
            line = re.sub(r"//.*", "", line).rstrip()
            start = ITEM.match(line)
            if start and not line.startswith("ghost"):
                if found:
                    yield Item(*found)
                found, derives = [path.split("/")[1], number, start[1], start[2], derives, "", [], []], ""
            if re.match(r"#\[derive", line):
                derives = line
            elif not found or re.match(r"\s*#!?\[|ghost |\s*$", line):
                continue
            elif re.match(r"\s*(requires|ensures)\b", line):
                found[6].append(line.strip())
            else:
                found[7].append((number, line))
                if not found[6] and "{" not in found[5]:
                    found[5] += " " + line.strip()
        if found:
            yield Item(*found)


ITEMS = list(items())
FUNCTIONS = [i for i in ITEMS if i.kind == "fn"]


def parameters(item):
    inside = re.search(r"\((.*?)\)\s*(->.*|\{.*|where.*)?$", item.head)
    return re.findall(r"(\w+)\s*:\s*([^,]+)", inside[1]) if inside else []


def result(item):
    match = re.search(r"->\s*([^{]+)", item.head)
    return match[1].strip() if match else ""


def lines_with(pattern, which=ITEMS):
    for item in which:
        for number, line in item.code:
            if re.search(pattern, line):
                yield item.crate, number, item.name, line.strip()


def of_code(item):
    return "\n".join(line for _, line in item.code)


def first_of(pattern, which):
    for item in which:
        match = re.search(pattern, of_code(item))
        if match:
            yield item.crate, item.line, item.name, " ".join(match[0].split())


def point1():
    """Enums; functions of refusals; numbers for kinds and refusals; tests of a refusal against 0; numbers below 0."""
    numbers = r"\b(number: u8|(refusal|kind|kinds|code): &?(mut )?\[?u\d+|marked: u32|(number|refusal): \d|refused\(\d)"
    tests = r"\b(\w*refus\w*\([^;{]*\)|refusal|refused|number|first|second|third|result) (==|!=|<) 0\b|kind (==|<) \d|\d < [\w.]*kind\b"
    for item in ITEMS:
        match = re.search(r"\benum \w+|\bfn \w*refus\w*|kind: \d|-> i64|" + numbers + "|" + tests, of_code(item))
        if match:
            yield item.crate, item.line, item.name, " ".join(match[0].split())


def shape(item):
    """The item's code with each name and each number replaced by its first place among those of the item."""
    seen = {}
    text = re.sub(r"^\s*pub ", "", of_code(item))
    return " ".join(str(seen.setdefault(w, len(seen))) if re.match(r"\w", w) else w for w in re.findall(r"\w+|[^\w\s]", text))


def stem(name):
    return re.sub(r"_?(\d+|none|one|two|three|four|five|eight|least|short|middle|long|most|unmarked|marked|head|first|any|in|at|small)$|^(un)?marked_", "", name)


def point2():
    """Functions or types of one shape, or of names that differ in a size or a marking; constants and long literals that stand twice."""
    for title, key in ("shape", shape), ("name", lambda i: (i.kind, stem(i.name))):
        groups = collections.defaultdict(list)
        for item in ITEMS:
            if item.kind in ("fn", "struct", "enum") and item.name != "main":
                groups[key(item)].append(item)
        for group in groups.values():
            if len(group) > 1:
                rest = ", ".join(f"{i.crate}:{i.line} {i.name}" for i in group[1:])
                yield group[0].crate, group[0].line, group[0].name, f"same {title}: {rest}"
    values = collections.defaultdict(list)
    for crate, number, name, line in lines_with(r"\d"):
        for literal in re.findall(r"(?<![\w.])(\d[\d_]*)(?:u\d+|usize)?\b", line):
            if int(literal.replace("_", "")) in (16, 31, 64, 512, 1984) or len(literal.replace("_", "")) > 4:
                values[int(literal.replace("_", ""))].append((crate, number, name))
    for value, places in sorted(values.items()):
        if len({(c, n) for c, _, n in places}) > 1:
            rest = ", ".join(f"{c}:{l} {n}" for c, l, n in places[1:])
            yield *places[0], f"{value} also in {rest}"


def point3():
    """Loops with a test; choices between two values by a comparison; a quotient rounded up by hand."""
    yield from lines_with(r"\b(while|loop)\b")
    choice = r"if [^{};]* (<|<=) [^{};]* \{\s*(return )?[^{};]+;?\s*\}(\s*else)?\s*\{?\s*[^{};]+\s*\}"
    yield from first_of(choice, [i for i in FUNCTIONS if "bool" not in result(i) and not re.search(r"refus", i.name)])
    yield from lines_with(r"\(\w+ \+ \d+\) / \d+")


def point4():
    """Functions of one value that give a value of another type or the same; equality; matches with a truth value; comparisons of numbers of types;
    types with no PartialEq; printing."""
    for item in FUNCTIONS:
        given, gives = parameters(item), result(item)
        if len(given) == 1 and "&" not in given[0][1] and gives not in ("", "bool") and item.name != "main" and "refus" not in stem(item.name).split("_"):
            yield item.crate, item.line, item.name, f"{given[0][1].strip()} -> {gives}"
        if re.match(r"(same|equal)_", item.name) or len(given) > 1 and re.match(r"(join|low|high)", item.name):
            yield item.crate, item.line, item.name, "by its name"
        if re.match(r"tell|put_decimal|hex_digit", item.name) or re.search(r"\bprint(ln)?!\(", of_code(item)):
            yield item.crate, item.line, item.name, "prints"
    yield from lines_with(r"=> (true|false),")
    yield from lines_with(r"\w\.0 (<|<=|==|!=) |(<|<=|==|!=) [\w.]+\.0\b")
    for item in ITEMS:
        if item.kind in ("struct", "enum") and "PartialEq" not in item.derives:
            yield item.crate, item.line, item.name, "no PartialEq"


def fact(part):
    """A part of a clause, with predicates by their name alone, and without the names before a field."""
    part = re.sub(r"^\((.*)\)$", r"\1", re.sub(r"\.(now|old)\b", "", part.strip()))
    part = re.sub(r"\b[a-z_]+\.(?=[a-z])", "", part)
    part = re.sub(r"^([A-Z]\w+) .*", r"\1", part)
    part = re.sub(r"^at \+ .* ≤ length \w+$", "at + _ ≤ length _", part)
    part = re.sub(r"^k( \+ 1)? < kept_words$", "k + _ < kept_words", part)
    return re.sub(r"^(at|next) < 2 \^ \d+$", "at < 2 ^ _", part)


def point5():
    """Parts of `requires` clauses that stand in three or more functions, and parameters that always come together in three or more."""
    facts = collections.defaultdict(list)
    for item in FUNCTIONS:
        clauses = [c[c.index("{") + 1:c.rindex("}")] for c in item.clauses if c.startswith("requires")]
        for part in sorted({fact(p) for c in clauses for p in c.split(" × ")}):
            facts[part].append(item)
    sets = {i: frozenset(n for n, _ in parameters(f) if n != "rt") for i, f in enumerate(FUNCTIONS)}
    groups = {}
    for names in sets.values():
        for pair in itertools.combinations(sorted(names), 2):
            who = [i for i in sets if sets[i] >= set(pair)]
            if len(who) > 2:
                groups[frozenset.intersection(*(sets[i] for i in who))] = [FUNCTIONS[i] for i in who]
    listed = [(f"fact {part}", who) for part, who in sorted(facts.items()) if len(who) > 2]
    listed += sorted((f"parameters {', '.join(n for n, _ in parameters(who[0]) if n in group)}", who) for group, who in groups.items())
    for words, who in listed:
        yield who[0].crate, who[0].line, who[0].name, f"{words}: {len(who)}" + "".join(f", {i.crate}:{i.line} {i.name}" for i in who[1:])


def point6():
    """Functions of two slices or of a slice with a place or a count; arrays with a count beside; types and tables that are arrays."""
    for item in FUNCTIONS:
        given = parameters(item)
        slices = [n for n, t in given if "[" in t]
        beside = [n for n, t in given if t.strip() in ("usize", "u32") and n in ("at", "n", "k", "b", "count", "end", "next", "from", "blocks", "events", "more")]
        if len(slices) > 1 or slices and beside or len(given) > 2 and len([n for n, _ in given if n.endswith("s")]) > 2:
            yield item.crate, item.line, item.name, ", ".join(slices + beside)
        elif re.search(r"= \[\d+u8; (?!LINE)\w+\]", of_code(item)) and item.crate not in ("case_blocks", "run"):
            yield item.crate, item.line, item.name, "a local buffer"
    for item in ITEMS:
        if item.kind == "struct" and re.search(r"\[\w+; ", of_code(item)) or item.kind in ("type", "const") and re.search(r": \[|= \[", of_code(item)):
            yield item.crate, item.line, item.name, "an array"


def point7():
    """Matches, tests of a number for a kind, arguments that say what to do, functions as values."""
    yield from lines_with(r"\bmatch\b|\bkind (==|!=|<) \d|\bdyn\b|impl Fn|: fn\(")
    for item in FUNCTIONS:
        if sum(i.crate == item.crate and stem(i.name) == stem(item.name) for i in FUNCTIONS) > 1 and re.search(r"answer|view|changed|torn", item.name):
            yield item.crate, item.line, item.name, "one of a pair that does a step before or after"


def point8():
    """For each crate with proofs: files of invariants, files of answers, answers in them, other files, lemmas in those."""
    for folder in sorted(glob.glob("crates/*/proofs")):
        counts = collections.Counter()
        for path in glob.glob(folder + "/**/*.antt", recursive=True):
            name = os.path.basename(path)
            kind = name if name in ("Answers.antt", "Invariants.antt") and os.path.dirname(path) != folder else "other"
            counts[kind] += 1
            text = open(path).read()
            indent = "(?:  )?" if re.search(r"(?m)^(pub )?module ", text) else ""
            counts["in " + kind] += len(re.findall(r"(?m)^" + indent + r"(?:abbrev |unfoldable )?(?:pub )?[^\s:(){}-][^\s:(){}]* :(?:\s|$)", text))
        yield (folder.split("/")[1], 0, "", f"{counts['Invariants.antt']} Invariants, {counts['Answers.antt']} Answers with {counts['in Answers.antt']} answers, "
               f"{counts['other']} other files with {counts['in other']} lemmas")


POINTS = {str(n): globals()[f"point{n}"] for n in range(1, 9)}

if len(sys.argv) > 1:
    for crate, line, name, words in POINTS[sys.argv[1]]():
        print(f"{crate}:{line} {name}: {words}" if line else f"{crate}: {words}")
else:
    for number, list_places in POINTS.items():
        print(number, len(list(list_places())))
