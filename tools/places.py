#!/usr/bin/env python3
"""Lists places of src/ that older forms of the language left (docs/DESIGN-PASS.md, points 1 to 8), and counts them.

    python3 tools/places.py           the counts of each point
    python3 tools/places.py 3         the places of point 3, one to a line
"""

import collections
import pathlib
import re
import sys

TOP = pathlib.Path(__file__).resolve().parent.parent / "crates"
# A table of 1,308 numbers.
LEFT_OUT = {"primes/src/words.rt"}


def sources():
    for path in sorted(TOP.glob("*/src/*.rt")):
        name = str(path.relative_to(TOP))
        if name not in LEFT_OUT:
            yield name, path.read_text()


def code(text):
    """The text without comments."""
    return re.sub(r"//[^\n]*", "", text)


def functions(text):
    """Each function with a body: its line, its name, parameters, result, clauses and body."""
    for match in re.finditer(r"^([ \t]*)(?:pub )?(?:extern \"C\" )?fn (\w+)", text, re.M):
        start = match.start()
        indent = match.group(1)
        end = re.search(r"^%s\}" % indent, text[start:], re.M)
        if not end:
            continue
        whole = text[start : start + end.end()]
        opening = re.search(r"^%s\{\n|\{\n" % indent, whole, re.M)
        if not opening:
            continue
        head, body = whole[: opening.start()], whole[opening.end() :]
        clauses = re.findall(r"\b(requires|ensures)\b\s*(\w*)\s*\{(.*?)\}(?=\s*(?:requires|ensures|$))", head, re.S)
        signature = re.split(r"\b(?:requires|ensures)\b", head)[0]
        result = signature.rpartition("->")[2].strip() if "->" in signature else ""
        inside = signature[signature.index("(") + 1 : signature.rindex(")")] if "(" in signature else ""
        line = text.count("\n", 0, start) + 1
        yield line, match.group(2), re.sub(r"\s+", " ", inside), result, clauses, body


def records():
    """The structs with a refusal's number in a field."""
    found = set()
    for _, text in sources():
        for struct in re.finditer(r"struct (\w+)[^{;]*\{([^}]*)\}", code(text)):
            if "refusal: u32" in struct.group(2):
                found.add(struct.group(1))
    return found


def point_1():
    """Own enums like Option or Result, flags beside a value, numbers for kinds, states or refusals, and functions that answer them."""
    field = re.compile(r"\b(refusal|kind|phase|kept|accepted|same|side|version|barred|back)\b: u32\b|\b\w*Refused\(u32\)|enum Divisor\b")
    answered = records()
    for name, text in sources():
        for line, function, _, result, _, _ in functions(code(text)):
            if result in answered and not name.startswith("dimkhoros/"):
                yield f"{name}:{line}: {function} -> {result}"
        for line, row in enumerate(code(text).split("\n"), 1):
            for found in field.finditer(row):
                yield f"{name}:{line}: {found.group(0)}"
        for line, function, _, result, clauses, _ in functions(code(text)):
            said = " ".join(c[2] for c in clauses if c[0] == "ensures")
            if result == "u32" and re.search(r"lowest|number_of|lower_of|check_round|load sheet.now\)?.refusal", said):
                yield f"{name}:{line}: {function} -> u32"


def shape(body):
    """The tokens of a body with its names and numbers numbered in the order in which they first stand."""
    kept = {"if", "else", "for", "in", "while", "let", "mut", "return", "match", "true", "false", "as", "usize", "u32", "u64", "u8"}
    seen = {}
    out = []
    for token in re.findall(r"\w+|[^\s\w]", body):
        if re.match(r"\w", token) and token not in kept:
            token = f"n{seen.setdefault(token, len(seen))}"
        out.append(token)
    return tuple(out)


def point_2():
    """Functions of which another has the same body but for names and numbers (bodies of 30 tokens and more)."""
    groups = collections.defaultdict(list)
    for name, text in sources():
        for line, function, _, _, _, body in functions(code(text)):
            tokens = shape(body)
            if len(tokens) >= 30:
                groups[tokens].append(f"{name}:{line}: {function}")
    for members in groups.values():
        if len(members) > 1:
            for member in members:
                yield member + "  like " + members[0].split(": ")[1]


def point_3():
    """Loops that count an index by hand, and loops over an index that copy, compare or search."""
    for name, text in sources():
        rows = code(text).split("\n")
        for line, row in enumerate(rows, 1):
            by_hand = re.match(r"\s*(while (\w+) (<|<=|>) |loop \{)", row)
            if by_hand:
                block = []
                for later in rows[line : line + 40]:
                    block.append(later)
                    if re.match(r"^%s\}" % re.match(r"\s*", row).group(0), later):
                        break
                counter = by_hand.group(2) or r"\w+"
                if re.search(r"\b%s (\+|-)= 1;" % counter, "\n".join(block)):
                    yield f"{name}:{line}: {row.strip()}"
            counted = re.match(r"\s*for (\w+) in 0\.\.", row)
            if counted:
                inner = rows[line].strip() if line < len(rows) else ""
                i = counted.group(1)
                if re.match(r"(\w+)\[(?:\w+ \+ )?%s\] = (\w+)\[%s\];$" % (i, i), inner) or re.match(r"if \w+\[.*\b%s\b.*\] (!=|==) \w+\[.*\b%s\b.*\] \{$" % (i, i), inner):
                    yield f"{name}:{line}: {row.strip()} {inner}"


def point_4():
    """Equality, copying and conversion by hand: numbers of enums, fields copied one by one, arrays compared or copied by a loop."""
    for name, text in sources():
        for line, function, inside, result, _, body in functions(code(text)):
            if re.search(r"match (number|phase) \{", body) and re.search(r"Phase|u32", result):
                yield f"{name}:{line}: {function}"
            elif re.search(r"^\s*for (\w+) in [^\n]*\{\n\s*\w+\[\1\] = \w+\[\1\];\n\s*\}", body, re.M):
                yield f"{name}:{line}: {function} copies by a loop"
            elif result == "bool" and re.search(r"\w+\[(\w+)\] != \w+\[\1\]", body):
                yield f"{name}:{line}: {function} compares by hand"
            elif len(re.findall(r"^\s*\w+\[(\d)\] = \w+\[\1\];", body, re.M)) > 1:
                yield f"{name}:{line}: {function} copies by hand"


def point_5():
    """Facts that stand in the requires of three functions or more, and three parameters that three functions or more take together."""
    facts = collections.defaultdict(list)
    groups = collections.defaultdict(list)
    for name, text in sources():
        for line, function, inside, _, clauses, _ in functions(code(text)):
            where = f"{name}:{line}: {function}"
            for kind, _, said in clauses:
                if kind == "requires":
                    facts[re.sub(r"\s+", " ", said).strip()].append(where)
            taken = tuple(p.strip() for p in inside.split(", ") if ":" in p)
            if {"h: Header", "entries: [[u32; 8]; 8]", "statement: [u32; 8]"} <= set(taken):
                groups["h, entries, statement"].append(where)
            if {"first: Loaded", "second: Loaded"} <= set(taken):
                groups["first, second of two loaded sheets"].append(where)
            if {"m: u32", "reciprocal: u64"} <= set(taken):
                groups["m, reciprocal"].append(where)
    for said, places in sorted(list(facts.items()) + list(groups.items())):
        if len(places) > 2:
            for place in places:
                yield f"{place}  takes or asks: {said}"


def point_6():
    """Buffers with a length beside them in a struct, and arrays with a count beside them in a signature."""
    pair = re.compile(r"(\w+): (?:mut )?\[\w+; \w+\][^\n]{0,60}?\b(n|count|size): (?:usize|u32)")
    for name, text in sources():
        for line, function, inside, _, _, _ in functions(code(text)):
            found = pair.search(inside)
            if found:
                yield f"{name}:{line}: {function} takes {found.group(1)} and {found.group(2)}"
        for found in re.finditer(r"struct (\w+)[^{;]*\{([^}]*)\}", code(text)):
            if re.search(r"\[[^\]]*; \w+\]", found.group(2)) and re.search(r"\b(count|length): ", found.group(2)):
                yield f"{name}:{text.count(chr(10), 0, found.start()) + 1}: struct {found.group(1)}"


def point_7():
    """Tables of functions, and a number that says which step to run."""
    for name, text in sources():
        for line, row in enumerate(code(text).split("\n"), 1):
            if re.search(r"\bfn\(|match (step|which|action) ", row):
                yield f"{name}:{line}: {row.strip()}"


def point_8():
    """Lines of the answers and invariants of each crate with functions."""
    for crate in sorted(p.name for p in TOP.iterdir() if (p / "src").is_dir()):
        lines = 0
        for path in (TOP / crate / "proofs").rglob("*.antt"):
            if path.name in ("Answers.antt", "Invariants.antt", "Proof.antt"):
                lines += sum(1 for row in path.read_text().split("\n") if row.strip() and not row.startswith("--"))
        if lines:
            yield from (f"{crate}" for _ in range(lines))


def main():
    points = [point_1, point_2, point_3, point_4, point_5, point_6, point_7, point_8]
    if len(sys.argv) > 1:
        for place in points[int(sys.argv[1]) - 1]():
            print(place)
        return
    for number, point in enumerate(points, 1):
        print(f"{number}  {sum(1 for _ in point()):5}  {point.__doc__}")


if __name__ == "__main__":
    main()
