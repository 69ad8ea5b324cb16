"""headers.py INCLUDE: the module `names` of the package, made of the headers in a folder: version, limits, numbers with their words.

The words have one place, kelindap_names.h, and the numbers theirs, the enumerations of the headers; nothing is copied by hand.
"""

from __future__ import annotations

import re
import sys
from pathlib import Path

# the enumerations, each with those of the headers that it joins, and what it is
CLASSES = [
    ("Outcome", ["outcome", "store_outcome", "trace_refusal", "link_outcome", "slot_refusal"], "What a call gave, or why it was refused."),
    ("Rule", ["rule"], "What the check of a sheet gives: accepted, the first rule broken, or old."),
    ("Mode", ["mode"], "How a request came."),
    ("Kind", ["kind"], "The PDUs."),
    ("Event", ["event"], "What a frame means."),
    ("Message", ["message"], "The message codes of a frame."),
    ("TraceKind", ["trace_kind"], "The events of a trace."),
    ("Work", ["work"], "The pieces of work of a save."),
]
# beginnings of names in the headers that the class says already; an outcome keeps its own
SAID = {"Event": "EVENT_", "TraceKind": "TRACE_", "Work": "WORK_"}
PLAIN = "kelindap_plain.h"  # another library


def text_of(folder: Path) -> str:
    """All headers, without comments."""
    headers = sorted(header for header in folder.glob("*.h") if header.name != PLAIN)
    return "\n".join(re.sub(r"/\*.*?\*/", "", header.read_text(), flags=re.S) for header in headers)


def members(body: str) -> list[tuple[str, int]]:
    """The members of an enumeration, without KELINDAP_."""
    return [(name, int(number, 0)) for name, number in re.findall(r"\bKELINDAP_(\w+) = (\w+)", body)]


def words_of(text: str) -> dict[str, dict[str, str]]:
    """For each list of kelindap_names.h the words by name; of a rule the two that stand in its function too."""
    lists = {}
    for name, body in re.findall(r"#define KELINDAP_(\w+)\(X\)(.*?)\n\n", text, re.S):
        lists[name] = {member: words for _, member, words in re.findall(r'X\((\d+), (\w+), "(.*?)"\)', body)}
    for member, words in re.findall(r'case KELINDAP_(\w+):\s*return "(.*?)";', text):
        lists["RULES"][member] = words
    return lists


def plain_words(name: str) -> str:
    """A name as words, where the headers have none."""
    code = re.fullmatch(r"L_DATA_(\w+)", name)
    return "L_Data." + code.group(1).lower() if code else name.lower().replace("_", " ")


def names(folder: Path) -> str:
    """The text of the module."""
    text = text_of(folder)
    lists = words_of(text)
    worded = {name: words for list_ in lists.values() for name, words in list_.items()}
    found = dict(re.findall(r"enum kelindap_(\w+) \{(.*?)\}", text, re.S))
    version = re.search(r'KELINDAP_VERSION_TEXT "(.*)"', text)
    assert version
    lines = [
        '"""Numbers and words of the headers, which tell more; made of them by `make python`, and not to be edited."""',
        "",
        "from ._number import Number, Result",
        "",
        f'VERSION = "{version.group(1)}"',
    ]
    for body in re.findall(r"enum \{(.*?)\}", text, re.S):
        lines += [f"{name} = {number}" for name, number in members(body)]
    for class_, enums, doc in CLASSES:
        base = "Result" if class_ == "Outcome" else "Number"
        lines += ["", "", f"class {class_}({base}):", f'    """{doc}"""', ""]
        seen: dict[str, int] = {}
        for enum in enums:
            seen.update(members(found[enum]))
        # two of the outcomes stand in the enumeration of events
        if class_ == "Outcome":
            events = dict(members(found["event"]))
            seen.update((name, events[name]) for name in lists["OUTCOMES"] if name in events)
        # 0 is ANSWERED before it is OK: the first name is the one shown
        order = sorted(seen, key=lambda name: (seen[name], name not in worded))
        for name in order:
            short = name[len(SAID[class_]) :] if name.startswith(SAID.get(class_, "-")) else name
            same = [other for other in order if seen[other] == seen[name] and other in worded]
            words = worded[name] if name in worded else worded[same[0]] if same else plain_words(short)
            lines.append(f'    {short} = {seen[name]}, "{words}"')
    return "\n".join(lines) + "\n"


if __name__ == "__main__":
    sys.stdout.write(names(Path(sys.argv[1])))
