#!/usr/bin/env python3
"""scripts/forms.py [-v]: counts, in crates/*/src, the older forms that docs/DESIGN-PASS.md speaks of; -v lists each place."""
import collections
import glob
import re
import sys

LIST = "-v" in sys.argv[1:]
FILES = {path: open(path, encoding="utf-8").read() for path in sorted(glob.glob("crates/*/src/**/*.rt", recursive=True))}


def bare(text):
    return re.sub(r"//[^\n]*", "", text)


def blocks(text, start):
    """(head, body, line) of each item whose head matches, its body by braces."""
    for match in re.finditer(start, text, re.M):
        at = text.find("{", match.end())
        depth, end = 0, at
        while end < len(text):
            depth += {"{": 1, "}": -1}.get(text[end], 0)
            end += 1
            if depth == 0:
                break
        yield match.group(0), text[at + 1:end - 1], text.count("\n", 0, match.start()) + 1


def functions(text):
    """(name, parameters, result, clauses, body, line) of each function that has a body."""
    for match in re.finditer(r"^ *(?:pub(?:\(crate\))? )?(?:const )?(?:unsafe )?(?:extern \"C\" )?fn (\w+)", text, re.M):
        at = text.find("(", match.end())
        depth, end = 0, at
        while True:
            depth += {"(": 1, ")": -1}.get(text[end], 0)
            end += 1
            if depth == 0:
                break
        parameters = text[at + 1:end - 1]
        rest = text[end:]
        start = re.search(r"^ *\{|\{\n", rest, re.M)
        # clauses stand on lines of their own, the body's brace ends a line
        body_at = re.search(r"(^ *\{$)|( \{$)", rest, re.M)
        if not body_at:
            continue
        head = rest[:body_at.start()]
        a = end + body_at.end() - 1
        depth, b = 0, a
        while b < len(text):
            depth += {"{": 1, "}": -1}.get(text[b], 0)
            b += 1
            if depth == 0:
                break
        result = re.search(r"->\s*([^\n{]+)", head.split("requires")[0].split("ensures")[0])
        yield (match.group(1), parameters, result.group(1).strip() if result else "", head, text[a + 1:b - 1],
               text.count("\n", 0, match.start()) + 1)


POINTS = collections.OrderedDict()


def found(point, path, line, what):
    POINTS.setdefault(point, []).append(f"{path}:{line}: {what}")


shapes = collections.defaultdict(list)
clauses = collections.defaultdict(list)
for path, whole in FILES.items():
    text = bare(whole)
    for head, body, line in blocks(text, r"^(?:pub )?enum \w+"):
        flat = re.sub(r"\([^)]*\)|\{[^}]*\}", lambda m: "(" if m.group(0) != "(u8)" else "#", body)
        variants = [v.strip() for v in flat.split(",") if v.strip()]
        empty = [v for v in variants if re.fullmatch(r"\w+", v)]
        refused = [v for v in variants if v.endswith("#") and v.startswith("Refused")]
        if refused or (len(variants) == 2 and len(empty) == 1):
            found("1 enums of the shape of Option or Result", path, line, head)
    for head, body, line in blocks(text, r"^(?:pub )?struct \w+"):
        fields = re.findall(r"(\w+): ([^,\n]+)", body)
        if len(fields) > 1 and any(n in ("rule", "refusal", "kept", "outcome", "number") and t in ("u8", "bool") for n, t in fields):
            found("1 a flag or a refusal's number with values beside it", path, line, head)
    for name, parameters, result, head, body, line in functions(text):
        place = f"fn {name}"
        if result == "u8" and re.search(r"return (\d+|[A-Z_]{3,});|^\s*(\d+|[A-Z_]{3,})$|\{ \d+ \}", body, re.M):
            found("1 functions that give a refusal or a kind as a number", path, line, place)
        if re.search(r"\b(kind|k|event|flag|code): (u8|usize)", parameters) and re.search(r"match (kind|k|event)\b|if (k|kind) ==", body):
            found("7 switches on a number that says which step to run", path, line, place)
        if re.search(r"\b(kind|k): (u8|usize)", parameters):
            found("1 kinds handed over as numbers", path, line, place)
        for loop in re.finditer(r"^ *(?:'\w+: )?while\b[^\n]*", body, re.M):
            found("3 loops that count by hand", path, line + body.count("\n", 0, loop.start()), loop.group(0).strip())
        if result == "bool" and re.search(r"return (true|false);|^\s*(true|false)$|=> (true|false),", body, re.M):
            found("4 a test spelled by early returns", path, line, place)
        if re.fullmatch(r"\s*if (\w+) <=? (\w+) \{ (\1|\2) \} else \{ (\1|\2) \}\s*", body) or re.fullmatch(r"\s*if \w+ < 1 \{ 1 \} else \{ \w+ \}\s*", body):
            found("4 the smaller or larger of two", path, line, place)
        if re.fullmatch(r"\s*\w+ as \w+\s*|\s*if \w+ \{ 1 \} else \{ 0 \}\s*", body):
            found("4 a conversion", path, line, place)
        statements = [l.strip() for l in body.splitlines() if l.strip()]
        if len(statements) >= 3 and not path.split("/")[1].endswith("_c"):
            shape = re.sub(r"\b[A-Za-z_]\w*\b|\b\d\w*\b", "x", re.sub(r"\s+", " ", body))
            shapes[shape].append((path, line, place))
        asked = re.search(r"requires \{ (.*) \}\s*\n", head)
        if asked and not path.split("/")[1].endswith("_c"):
            for part in asked.group(1).split(" × "):
                fact = re.sub(r"\b[a-z]\w*\.(now|old)\b", "it", part.strip("() "))
                fact = re.sub(r"\b[a-z]\b", "v", fact)
                clauses[fact].append((path, line, place))
    for head, body, line in blocks(text, r"^(?:pub )?struct \w+"):
        fields = dict(re.findall(r"(\w+): ([^,\n]+)", body))
        if any(t.startswith("[") for t in fields.values()) and any(n in ("length", "count", "n", "len") for n in fields):
            found("6 a buffer with its length beside it", path, line, head)

for shape, places in shapes.items():
    if len(places) > 1:
        found("2 functions of one shape", places[0][0], places[0][1], " ~ ".join(f"{p.split('/')[1]} {n}" for p, _, n in places))
for fact, places in sorted(clauses.items()):
    if len(places) >= 3:
        found("5 a fact asked for by three functions or more", places[0][0], places[0][1], f"{fact}: {len(places)} functions")

for point in sorted(POINTS):
    print(f"{len(POINTS[point]):5} {point}")
    if LIST:
        for place in POINTS[point]:
            print("       ", place)
proofs = sum(len(open(p, encoding="utf-8").read().splitlines()) for p in glob.glob("crates/*/proofs/**/*.antt", recursive=True))
folders = len(glob.glob("crates/*/proofs/**/Answers.antt", recursive=True))
print(f"{proofs:5} 8 lines of proof, {folders} files of answers")
