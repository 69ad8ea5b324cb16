"""layout.py WORDS: the package's structures, calls, numbers and words, held to the headers: layouts by the facts of tests/c/layout.c,
which a C compiler has checked; the calls by the functions that the headers declare; version, numbers and words by a program in C,
tests/python/words.c, whose output is WORDS; the table of PDUs by the table in kelindap_pdu.h."""

import ctypes
import glob
import re
import sys

import kelindap
from kelindap import _library, names, pdu

wrong = []
facts = open("tests/c/layout.c").read()
places = {"W": ctypes.sizeof(ctypes.c_void_p), "F": 16 if ctypes.sizeof(ctypes.c_void_p) == 8 else 12}
structures = {"kelindap" + re.sub("([A-Z])", r"_\1", name).lower(): value for name, value in vars(_library).items()
              if isinstance(value, type) and issubclass(value, ctypes.Structure) and value is not ctypes.Structure}
held = 0


def hold(what, got, due):
    global held
    held += 1
    if got != due:
        wrong.append(f"{what} is {got}, not {due}")


# the plain engine is a library of its own, which the module has not
sizes = [fact for fact in re.findall(r"SIZE\((kelindap_\w+), (.*?)\) \\", facts) if "_plain_" not in fact[0]]
hold("structures", sorted(structures), sorted(name for name, _ in sizes))
for name, size in sizes:
    if name in structures:
        hold(name, ctypes.sizeof(structures[name]), eval(size, places))
for name, field, size, offset in re.findall(r"FIELD\((kelindap_\w+), (\w+), (.*?), (.*?)\) \\", facts):
    if hasattr(structures.get(name), field):
        place = getattr(structures[name], field)
        hold(f"{name}.{field}", (place.size, place.offset), (eval(size, places), eval(offset, places)))
for name, structure in structures.items():
    hold(f"fields of {name}", [field for field, *_ in structure._fields_],
         [field for owner, field in re.findall(r"FIELD\((kelindap_\w+), (\w+),", facts) if owner == name])

declared = {name for header in glob.glob("include/*.h") if not header.endswith(("_names.h", "_plain.h"))
            for name in re.findall(r"^(?!static| )[\w ]*\bkelindap_(\w+)\(", open(header).read(), re.M)}
hold("calls", sorted(_library.CALLS), sorted(declared))

# what C says of each number from 0 to 255: list, number, words
told = {}
for line in open(sys.argv[1]):
    what, key, words = line.rstrip("\n").split("\t")
    told.setdefault(what, {})[key] = words
hold("version", kelindap.__version__, told["version"]["text"])
for what, enumeration in (("outcome", names.Outcome), ("rule", names.Rule), ("kind", names.Kind)):
    numbers = {str(member.value): member.words for member in enumeration}
    for number, words in told[what].items():
        hold(f"{what} {number}", numbers.pop(number, f"no {what}"), words)
    hold(f"{what}s that C has not", numbers, {})

# each enumeration of the headers, by name and number; limits too
headers = [open(header).read() for header in sorted(glob.glob("include/*.h")) if "_plain" not in header]
text = re.sub(r"/\*.*?\*/", "", "".join(headers), flags=re.S)
due = {"Outcome": {}}
for owner, body in re.findall(r"enum (?:kelindap_(\w+) )?\{(.*?)\}", text, re.S):
    found = {name: int(number, 0) for name, number in re.findall(r"KELINDAP_(\w+) = (\w+)", body)}
    if owner in ("outcome", "store_outcome", "trace_refusal", "link_outcome", "slot_refusal"):
        due["Outcome"].update(found)
    elif owner in ("rule", "mode", "kind", "message"):
        due[owner.title()] = found
    elif owner in ("event", "trace_kind", "work"):
        short = {re.sub("EVENT_|TRACE_|^WORK_", "", name): number for name, number in found.items()}
        due[owner.title().replace("_", "")] = {"NO_EVENT" if name == "NO_" else name: number for name, number in short.items()}
        if owner == "event":
            due["Outcome"].update((name, found[name]) for name in ("EVENT_OTHER", "EVENT_ACKNOWLEDGED"))
    elif not owner:
        for name, number in found.items():
            hold(name, getattr(names, name, None), number)
for owner, found in due.items():
    hold(owner, {name: member.value for name, member in getattr(names, owner).__members__.items()}, found)

# the table of PDUs: most of each number, and the data
WIDTHS = {"serial": 48, "key": 32, "address": 16, "domain": 16, "s": 16, "maximum": 16}
table = re.search(r" \*  kind  .*?\n \* A field", open("include/kelindap_pdu.h").read(), re.S).group()
rows = re.sub(r"\n \* {30,}(maximum)", r" \1", table)  # one row goes on in a second line
header = {}
for kind, rest in re.findall(r"^ \*  ([A-Z_]+) +\w+h(?: \+ \w)? +(.*)$", rows, re.M):
    rest = re.sub(r"type, +none +9 (maximum.*)", r"type, \1  none  9", rest)
    fields, *columns = re.split(r"  +", rest)
    most = {}
    for field in [] if fields == "-" else fields.split(", "):
        name, *limit = field.split()
        most[name] = int(limit[0].split("..")[1]) if limit else (1 << WIDTHS.get(name, 8)) - 1
    data = {"none": None, "n": "n", "n AND, n XOR": "n n"}.get(columns[0], columns[0])
    header[kind.lower()] = (most, tuple(map(int, data.split(" to "))) if data and " to " in data else data)
hold("rows of the table", len(header), 28)
for kind, row in pdu.ROWS.items():
    hold(f"row {kind.words}", (dict(row.most), row.data), header.get(kind.words))

for line in wrong:
    print(f"python: {line}")
print(f"python: {held} facts of the headers, {len(wrong)} different")
sys.exit(bool(wrong) or held < 900)
