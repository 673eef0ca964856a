#!/usr/bin/env python3
"""Places in crates/*/src (and for point 8 in proofs/) that are written in an older form, by point of docs/DESIGN-PASS.md.

    tools/places.py [-l] [ROOT]      -l lists each place too; ROOT is another checkout
"""
import re
import sys
from pathlib import Path

args = [a for a in sys.argv[1:] if a != "-l"]
listed = "-l" in sys.argv[1:]
root = Path(args[0] if args else Path(__file__).resolve().parent.parent)

SHAPED = "Judged|Updated|Eligibility|Made|StateRead|Placed|Described|Found|RowFound|Visit|Order|Number|Code|Choice|Listed|Row|Mode|Walked"


def sources(pattern="*/src/**/*.rt"):
    for path in sorted((root / "crates").glob(pattern)):
        if "/out/" not in str(path):
            yield path.relative_to(root / "crates"), path.read_text().split("\n")


def lines(pattern, but=None):
    for path, text in sources():
        for i, line in enumerate(text, 1):
            code = line.split("//")[0]
            if re.search(pattern, code) and not (but and re.search(but, code)):
                yield f"{path}:{i}: {line.strip()[:110]}"


def functions():
    """Each function: its place, name and parameters."""
    for path, text in sources():
        whole = "\n".join(text)
        for m in re.finditer(r"^ *(?:pub(?:\([a-z]+\))? )?(?:extern \"C\" )?fn (\w+)(?:<[^(]*>)?\(", whole, re.M):
            depth, j = 1, m.end()
            while depth:
                depth += {"(": 1, ")": -1}.get(whole[j], 0)
                j += 1
            inside = whole[m.end():j - 1]
            params, part, depth = [], "", 0
            for c in inside:
                depth += {"(": 1, "<": 1, "[": 1, ")": -1, ">": -1, "]": -1}.get(c, 0)
                if c == "," and depth == 0:
                    params.append(part.strip())
                    part = ""
                else:
                    part += c
            params += [part.strip()] if part.strip() else []
            yield f"{path}:{whole.count(chr(10), 0, m.start()) + 1}: {m.group(1)}", params


def bodies():
    """Each function: its place and name, and the shape of its body: names as x, numbers as 0."""
    for path, text in sources():
        whole = "\n".join(re.sub(r"//.*", "", x) for x in text)
        for m in re.finditer(r"^( *)(?:pub(?:\([a-z]+\))? )?(?:extern \"C\" )?fn (\w+)\b.*?^\1\{\n(.*?)^\1\}", whole, re.M | re.S):
            shape = re.sub(r"\b[A-Za-z_]\w*(::\w+)*\b", "x", re.sub(r"\b\d[\d_]*\b", "0", m.group(3)))
            yield f"{path}:{whole.count(chr(10), 0, m.start()) + 1}: {m.group(2)}", " ".join(shape.split())


def twins():
    """Functions beyond the first whose body has the shape of another's, from 60 characters of shape on."""
    groups = {}
    for place, shape in bodies():
        if len(shape) >= 60:
            groups.setdefault(shape, []).append(place)
    for group in groups.values():
        for place in group[1:]:
            yield f"{place}  ~  {group[0]}"


def many():
    for place, params in functions():
        if len(params) >= 8:
            yield f"{place}, {len(params)} parameters"


def counted():
    """A lent list or table with its count beside it."""
    for place, params in functions():
        if any(re.search(r"&(?:'\w+ )?(?:mut )?\[", p) for p in params) and any(re.match(r"(n|h|m|k|count|len|g): usize", p) for p in params):
            yield f"{place}({', '.join(params)})"[:150]


def derived():
    for path, text in sources():
        for i, line in enumerate(text, 1):
            if re.fullmatch(r"\s*#\[derive\(Clone, Copy\)\]", line):
                rest = [x for x in text[i:i + 4] if re.match(r"\s*(pub )?(struct|enum) ", x)]
                yield f"{path}:{i}: {rest[0].strip() if rest else ''}"


def clauses(pattern):
    return lines(r"^\s*(requires|ensures)\b.*(" + pattern + ")")


def files(name):
    for path in sorted((root / "crates").glob(f"*/proofs/**/{name}")):
        if "/out/" not in str(path):
            yield str(path.relative_to(root / "crates"))


def only_search():
    for path in sorted((root / "crates").glob("*/proofs/**/Answers.antt")):
        if "/out/" in str(path):
            continue
        body = [x for x in path.read_text().split("\n") if x.strip() and not re.match(r"\s*(--|use |unfolding |pub \S+ : goal\.)", x)]
        if body and all(re.match(r"\S+ c = search\b", x) for x in body):
            yield str(path.relative_to(root / "crates"))


POINTS = [
    ("1", "refusals by number: `refuse(N, ..)`", lambda: lines(r"\brefuse\(", r"fn refuse\(")),
    ("1", "`let Judged::Accepted = x else { return x }`", lambda: lines(r"let Judged::Accepted\b.* else")),
    ("1", "own enums of the shape of Option or Result", lambda: lines(rf"\benum ({SHAPED})\b")),
    ("1", "a variant `Refused` or `Unreadable` beside the answers", lambda: lines(r"^\s*(Refused|Unreadable)\b.*,?$")),
    ("1", "a kind told by a bool", lambda: lines(r"\b(parents|children|merge|managed|split|added): bool")),
    ("1", "a kind or refusal told by a number", lambda: lines(r"\b(number|mark|kind|letter|family|from|to|tag): (u64|u8|u32)\b", r"^\s*(pub )?(number|family): u64,$")),
    ("1", "a flag with a value beside it", lambda: lines(r"\b(flag: u64|present: bool|held: bool|layout: bool|error: bool),")),
    ("2", "functions with the body of another but for names and numbers", twins),
    ("3", "`while` and `loop`", lambda: lines(r"^\s*('\w+: )?(while|loop)\b|= ('\w+: )?loop\b")),
    ("3", "`return true` and `return false`", lambda: lines(r"\breturn (true|false);")),
    ("4", "types that derive `Clone, Copy` alone", derived),
    ("4", "a comparison, minimum, maximum or copy by hand", lambda: lines(r"\bfn (larger|lesser|least|less_one|before|same|equal|is_same|min|max|larger_of)\b")),
    ("5", "functions of 8 parameters or more", many),
    ("5", "clauses that say again: ids ascend, counts fit, it is an image", lambda: clauses(r"Ascends|Tabled |Image w|Rows (old|those|rows)")),
    ("5", "clauses that say again: the image stays", lambda: clauses(r"take .* w\.new ≡ take .* w\.old")),
    ("5", "clauses of 100 characters or more", lambda: lines(r"^\s*(requires|ensures).{100,}")),
    ("5", "an offset into a row as a bare number", lambda: lines(r"\+ (9|10)\b")),
    ("6", "a lent list with its count beside it", counted),
    ("7", "a step told by an enum: `Turn`, `Visit`, `Order`", lambda: lines(r"\benum (Turn|Visit|Order|Step)\b|\bstruct Turn\b")),
    ("7", "a table of functions, a function pointer", lambda: lines(r"\bfn\(")),
    ("8", "answer files", lambda: files("Answers.antt")),
    ("8", "answer files that say only `search`", only_search),
    ("8", "invariant files", lambda: files("Invariants.antt")),
]

for point, name, find in POINTS:
    found = list(find())
    print(f"{point}  {len(found):5d}  {name}")
    if listed:
        for place in found:
            print(f"          {place}")
proofs = sum(len(p.read_text().split("\n")) - 1 for p in (root / "crates").glob("*/proofs/**/*.antt") if "/out/" not in str(p))
code = sum(len(t) - 1 for _, t in sources())
print(f"   lines: {code} in src/, {proofs} in proofs/")
