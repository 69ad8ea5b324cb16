#!/usr/bin/env python3
"""Spells the names that this repository's antt files declare as today's Rattle does: words in snake case, types and modules in camel case.

usage: tools/spelling.py [--check] [--table FILE]   at the top of the repository, once, after port.py

A name turns if a file of specs/ or proofs/ declares it, it begins with a small letter, and it has a dash or a capital. It turns
wherever it stands as a whole word of antt (a lemma that would have a function's name then ends in _lem): in specs/, proofs/, clauses and `ghost use` items, code spans of comments and documents,
and the list of edits. A name of the kit's libraries stays, also behind a library's path, and so does a name that Rattle makes (behind
`goal.`, `tie.` or declared at such a type). --check writes nothing and says where a new name meets another. --table writes old and new.
"""
import collections
import os
import re
import sys

WORD = re.compile(r'[^\s(){}.;,@"«»`]+')
DECLARED = re.compile(
    r'(?m)^[ ]*(?:(?:pattern|unfoldable|abbrev|axiom|pub) )*(?:(record|data|ruleset|mod) )?([^\s(){}.;,@"«»:`]+)'
    r"(?: \{[^{}\n]*\})*(?: \([^()\n]*\))*(?:\n\s+| )[:=](?=\s)([^\n]*)"
)
LIBRARY = re.compile(r"(?<![\w.])(?:Prim|lib|mathlib|native|borrow|denote|seplogic|mir|core|Rattle\.(?:std|core|io|libc|os|check)\w*)\.")
USE = re.compile(r"(?m)^\s*(?:ghost |pub |unfoldable )*use ([\w.·]+?)\.?(\{[^;\n]*\}|[^\s;{]+)")
CLAUSE = re.compile(r"\b(?:requires|ensures)\b\*?[^{;]*\{|\bghost\b[^{;\n]*\{|\bghost use\b")
MADE = re.compile(r"\s*(?:goal|tie)\.")
# what the rule alone would spell like another name in use
OTHERWISE = {"data-of": "data_read"}


def files():
    for root, dirs, names in os.walk("crates"):
        dirs[:] = sorted(d for d in dirs if d not in ("out", "target"))
        for n in sorted(names):
            if n.endswith((".rt", ".antt")):
                yield os.path.join(root, n)


def snake(name):
    name = re.sub(r"(?<=[a-z0-9'])([A-Z]+)(?![a-z])", lambda m: "_" + m[1].lower(), name)
    name = re.sub(r"(?<=[a-z0-9'])[A-Z]", lambda m: "_" + m[0].lower(), name)
    return name.replace("-", "_")


def library_names(texts):
    found = set()
    for p, t in texts.items():
        if not p.endswith(".antt"):
            continue
        for m in USE.finditer(t):
            if not LIBRARY.match(m[1] + "."):
                continue
            for item in re.split(r"[{},]", m[2]):
                item = item.strip()
                if item:
                    found.update(w for w in re.split(r" as ", item))
    return found


def made(texts):
    """Names that Rattle makes: declared at a type of goal or tie."""
    found = set()
    for p, t in texts.items():
        if p.endswith(".antt"):
            found.update(m[2] for m in DECLARED.finditer(t) if MADE.match(m[3]))
    return found


def rust_names(texts):
    return {w for p, t in texts.items() if p.endswith(".rt") for w in re.findall(r"\w+", re.sub(r"//.*", "", re.sub(r"(?m)^\s*(?:ghost use|requires|ensures).*$", "", t)))}


def table(texts):
    library, theirs = library_names(texts), made(texts)
    rust = rust_names(texts)
    names = set()
    for p, t in texts.items():
        if not p.endswith(".antt"):
            continue
        t = re.sub(r"(?m)--.*$", "", t)
        for m in DECLARED.finditer(t):
            if m[1] in ("record", "data", "mod"):
                continue
            names.add(m[2])
        # constructors and fields are caught as `name : type`
    def stays(n):
        if not re.match(r"[a-zα-ω]", n) or n in library or n in theirs or re.search(r"[→·◌≤≡<+*/%^&|]", n):
            return True
        return bool(re.match(r"(loop|invariant|decreases)(-|$)|(returns-|overflow_|bounds-)", n)) or "-requires" in n

    turned = {}
    definitions = [n for n in sorted(names) if not stays(n) and re.search(r"[A-Z]", n) and "-" not in n]
    lemmas = [n for n in sorted(names) if not stays(n) and "-" in n]
    for n in definitions:
        turned[n] = OTHERWISE.get(n) or snake(n)
        # a lemma that has the function's name already
        if turned[n] in names and turned[n] not in rust:
            turned[turned[n]] = turned[n] + "_lem"
    taken = set(turned.values()) | {n for n in names if n not in turned} | library
    for n in lemmas:
        new = OTHERWISE.get(n) or snake(n)
        turned[n] = new + "_lem" if new in taken else new
    return turned


def turn_code(text, turned):
    """Whole words of antt, but for those behind a library's path or behind goal. and tie."""
    out, at = [], 0
    for m in WORD.finditer(text):
        new = turned.get(m[0])
        if new is None:
            continue
        line = text.rfind("\n", 0, m.start()) + 1
        before = text[line : m.start()]
        head = re.search(r"([^\s(){};,@\"«»`]+\.)$", before)
        if head and (LIBRARY.match(head[1]) or re.match(r"(?:goal|tie)\.", head[1])):
            continue
        out.append(text[at : m.start()])
        out.append(new)
        at = m.end()
    out.append(text[at:])
    return "".join(out)


def turn_spans(text, turned):
    return re.sub(r"`[^`\n]*`", lambda m: turn_code(m[0], turned), text)


def turn_labels(text, rust):
    """In a proof that walks the code, what stands behind a dot under the name of a function, a field or a variable of the code."""

    def label(m):
        new = m[2].replace("-", "_")
        return m[1] + (new if new in rust else m[2])

    return re.sub(r"(?<![\w'])((?:[a-z][\w'-]*)(?:\.[\w'-]+)*?\.)([a-z]\w*(?:-[\w]+)+)(?![\w'-])", label, text)


def turn_antt(text, turned):
    lines = []
    for l in text.split("\n"):
        m = re.search(r"(?<![^\s(){}.;,@\"«»])--", l)
        code, comment = (l[: m.start()], l[m.start() :]) if m else (l, "")
        lines.append(turn_code(code, turned) + turn_spans(comment, turned))
    return "\n".join(lines)


def turn_rt(text, turned):
    lines = []
    for l in text.split("\n"):
        m = re.search(r"//", l)
        code, comment = (l[: m.start()], l[m.start() :]) if m else (l, "")
        lines.append(turn_code(code, turned) + turn_spans(comment, turned))
    return "\n".join(lines)


def turn_doc(text, turned):
    parts = re.split(r"(?m)^(```[^\n]*\n.*?^```$)", text, flags=re.S | re.M)
    return "".join(p if p.startswith("```") else turn_spans(p, turned) for p in parts)


def turn_list(text, turned):
    def row(l):
        parts = l.split("\t")
        if len(parts) > 2 and not parts[2].startswith("fn "):
            parts[2] = turn_code(parts[2], turned)
        return "\t".join(parts)

    return "\n".join(row(l) if l and not l.startswith("#") else l for l in text.split("\n"))


def main(argv):
    texts = {p: open(p, encoding="utf-8").read() for p in files()}
    turned, rust = table(texts), rust_names(texts)
    if "--table" in argv:
        with open(argv[argv.index("--table") + 1], "w") as f:
            f.writelines(f"{a}\t{b}\n" for a, b in sorted(turned.items()))
    into = collections.defaultdict(list)
    for a, b in turned.items():
        into[b].append(a)
    for b, olds in sorted(into.items()):
        if len(olds) > 1:
            print(f"meets: {' '.join(olds)} → {b}")
    for p, t in texts.items():
        if not p.endswith(".antt"):
            continue
        code = re.sub(r"(?<![^\s(){}.;,@\"«»])--.*", "", t)
        words = set(WORD.findall(code))
        for w in sorted(words):
            if w in turned and turned[w] in words and turned[w] not in turned:
                print(f"meets: {p}: {w} → {turned[w]}")
    if "--check" in argv:
        print(f"{len(turned)} names")
        return 0
    changed = 0
    for p, t in texts.items():
        if p.endswith("Proof.antt"):
            while turn_labels(t, rust) != t:
                t = turn_labels(t, rust)
        new = turn_antt(t, turned) if p.endswith(".antt") else turn_rt(t, turned)
        if p.endswith("Proof.antt"):
            name = os.path.basename(os.path.dirname(p)) + "_spec"
            new = re.sub(r"(?m)^(pub )?[\w'-]+[-_]spec(?= [:=])", lambda m: (m[1] or "") + name, new)
        if new != texts[p]:
            open(p, "w", encoding="utf-8").write(new)
            changed += 1
    others = ["README.md", "CHANGELOG.md", "tests/edits/refused.tsv"] + [os.path.join("docs", f) for f in sorted(os.listdir("docs")) if f.endswith(".md")]
    for p in others:
        t = open(p, encoding="utf-8").read()
        new = turn_list(t, turned) if p.endswith(".tsv") else turn_doc(t, turned)
        if new != t:
            open(p, "w", encoding="utf-8").write(new)
            changed += 1
    print(f"{len(turned)} names, {changed} files")
    return 0


if __name__ == "__main__":
    raise SystemExit(main(sys.argv[1:]))
