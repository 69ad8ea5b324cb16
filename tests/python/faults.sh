#!/usr/bin/env bash
# tests/python/faults.sh WORDS: faults planted in a copy of the package, one by one: the tests find each. WORDS as in layout.py.
set -euo pipefail
cd "$(dirname "$0")/../.."
work=$(mktemp -d)
trap 'rm -rf "$work"' EXIT
export PYTHONPATH=$work PYTHONDONTWRITEBYTECODE=1 FIRST=1
found=0 tried=0

# the test that must fail, the module, and the change, an expression of sed's
plant() {
    tried=$((tried + 1))
    rm -rf "$work/kelindap"
    cp -r build/python/kelindap "$work/"
    sed -i "$3" "$work/kelindap/$2.py"
    if cmp -s "$work/kelindap/$2.py" "build/python/kelindap/$2.py"; then
        echo "python: a fault is planted nowhere: $2: $3"
    elif python3 "tests/python/$1.py" "${words[@]}" > "$work/said" 2>&1; then
        echo "python: a fault is not found by $1: $2: $3"
    elif ! grep -q 'Error\|Refused\|different' "$work/said"; then
        echo "python: $1 fails for another reason: $2: $3"
    else
        found=$((found + 1))
    fi
}
words=()
# a copy is written where the run is lent
plant lost _runs 's/return Lent(run, view.nbytes)/return Lent(bytearray(view), view.nbytes)/'
plant lost _runs 's/if view.readonly:/if False:/'
plant lost _runs 's/ or not view.c_contiguous:/:/'
plant lost _runs 's/view.ndim == 1 and view.itemsize == 1 and view.format.*$/True/'
plant lost _library 's/items.from_buffer(argument.run)/items.from_buffer_copy(argument.run)/'
plant lost _library 's/^    return _calls\[name\](\*given)/    KEPT.append(given); return _calls[name](*given)/; s/^_calls = _load()/_calls = _load(); KEPT: List[Any] = []/'
# the sheet is lent, or shared, in place of copied
plant lost unit 's/return bytes(self._sheet)/return self._sheet/'
plant lost unit 's/self._sheet = bytearray(run if self._any else accepted(run))/self._sheet = sheet if self._any else sheet/'
plant lost unit 's/run if self._any else accepted(run)/run/'
plant lost unit 's/run if self._any else accepted(run)/accepted(run)/'
plant lost unit 's/return got if 0 <= got < LINK_NOBODY else LINK_NOBODY/return got \& 255/'
plant lost unit 's/place = number("connection", connection, CONNECTIONS - 1)/place = connection/'
plant lost unit 's/flag("on", on)/bool(on)/'
plant lost unit 's/elif mode == Mode.CONNECTED and connection is None:/elif False:/'
plant lost link 's/ - ended))/))/'
plant lost link 's/None if number == LINK_NOBODY else number/number/'
plant lost sheet 's/^    new = bytearray(reading("sheet", sheet))/    new = sheet/'
# what raises, and what it says
plant refusals errors 's/if not Outcome(outcome).carried_out:/if False:/'
plant refusals errors 's/{self.outcome.words} ({self.outcome})/outcome {self.outcome}/'
plant refusals pdu 's/PROPERTY = {"object": _BYTE, "id": _BYTE, "n": 15/PROPERTY = {"object": _BYTE, "id": _BYTE, "n": 14/'
plant refusals pdu 's/if getattr(flat, name) != value:/if False:/'
plant refusals pdu 's/near = difflib.get_close_matches(kind.lower(), _KINDS, 1, 0.5)/near = []/'
plant refusals frames 's/if any(getattr(flat, name) != value/if False and any(getattr(flat, name) != value/'
plant refusals points 's/return bool(point.value)/return int(point.value)/'
plant refusals points 's/float(Fraction(point.hundredths, 100))/point.hundredths/'
plant refusals points 's/round(Fraction(value) \* 100)/int(value * 100)/'
plant refusals points 's/got if got in WIDTHS else _NO_TYPE/got \& 255/'
plant refusals _runs 's/if not 0 <= got <= most:/if got < 0:/'
plant refusals _runs 's/return name if name == "key"/return name if name == "kee"/'
plant refusals store 's/^    must(saved.outcome.*//'
plant refusals sheet 's/^        accepted(run)$/        pass/'
# slots
plant slots slots 's/SlotGoal(1 - self.slot, (self.number + 1) \& _NUMBER)/SlotGoal(1 - self.slot, self.number + 1)/'
plant slots slots 's/return _library.SlotState(Outcome.SLOT_UNMARKED, 0, 0, 0)/return _library.SlotState(0, 0, 0, 0)/'
plant slots slots 's/^    if state.refusal:$/    if False:/'
plant slots slots 's/run if kind is Work.SHEET else b""/run/'
plant slots slots 's/return None if which == SLOT_NEITHER else which/return which/'
plant slots slots 's/^    if not isinstance(held, Slot):$/    if False:/'
plant slots slots 's/under, long = reading("sheet", sheet), number("number", goal.number, _NUMBER)/under, long = reading("sheet", sheet), goal.number/'
# what is told
plant whole unit 's/^        """The programming button.*//'
plant whole _runs 's/^    """What a run has, without a copy."""//'
plant whole unit 's/def button(self, on: bool)/def button(self, on)/'
plant whole unit 's/address = f" {area >> 4}/address = f" {self._sheet[20:40].hex()} {area >> 4}/'
plant whole __init__ 's/^    "read",//'
plant whole names 's/^VERSION = .*/VERSION = "0.0.1"/'
plant whole _number 's/return str(int(self))/return self.name/'
words=("$1")
plant layout names 's/DENIED = 11, "refused"/DENIED = 11, "denied"/'
plant layout names 's/STORE_OTHER = 36/STORE_OTHER = 38/'
plant layout names 's/ACKNOWLEDGED = 45/ACKNOWLEDGED = 46/'
plant layout names 's/^LINK_ROOM = 25/LINK_ROOM = 24/'
plant layout names 's/SLOT_SUM = 84/SLOT_SUM = 83/'
plant layout names 's/    SHEET = 3/    SHEET = 4/'
plant layout _library 's/"number length left stated sum"/"number left length stated sum"/'
plant layout pdu 's/Kind.USER_MEMORY_WRITE: Row({"n": 11/Kind.USER_MEMORY_WRITE: Row({"n": 12/'
plant layout _library 's/\[("outcome", c_uint8), ("number", c_uint16)\]/[("number", c_uint16), ("outcome", c_uint8)]/'
echo "python: $found of $tried faults found"
[ "$found" = "$tried" ]
