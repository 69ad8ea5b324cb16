"""play.py SCRIPT..: the desk unit's scripts, played through the Python package. SCRIPT.in has the commands, SCRIPT.out the answers.

What the package answers is put into the unit's words and held to the expected line. A line that the unit answers by ERR is about
its own language and is left out, and so is a command that is not among those below; both are counted.
"""

import struct
import sys
from fractions import Fraction

import kelindap
from kelindap import Event, Outcome, Refused, Rule
from support import SAMPLE


def from_hex(word):
    return b"" if word == "-" else bytes.fromhex(word)


def to_hex(run):
    return run.hex() or "-"


def outcome_of(call, *arguments):
    """The outcome of what is done or raises."""
    try:
        call(*arguments)
    except Refused as refused:
        return refused.outcome
    return Outcome.DONE


class Player:
    def __init__(self):
        self.unit = kelindap.Unit(SAMPLE, any_sheet=True)
        self.store_, self.events, self.played = bytearray(), b"", 0

    def sessions(self):
        return " ".join(f"{open:d} {level}" for open, level in self.unit.sessions)

    def event(self, outcome, count=0, buffer=b""):
        return f"{outcome} {self.sessions()} {count} {to_hex(buffer)} {to_hex(self.unit.sheet)}"

    def sheet(self, word):
        self.unit.sheet = from_hex(word)
        rule = self.unit.check()
        return "OLD" if rule is Rule.OLD else f"S{rule}" if rule else "OK"

    def convert(self):
        return f"{outcome_of(self.unit.convert)} {to_hex(self.unit.sheet)}"

    def session(self, connection, open, level):
        self.unit.set_session(int(connection), open == "1", int(level))
        return f"session {int(connection)} {open} {int(level)}"

    def connect(self, connection):
        return self.event(outcome_of(self.unit.connect, int(connection)))

    def disconnect(self, connection):
        return self.event(outcome_of(self.unit.disconnect, int(connection)))

    def button(self, word):
        return self.event(outcome_of(self.unit.button, word == "on"))

    def request(self, mode, group, apdu, buffer, connection):
        buffer = bytearray(from_hex(buffer))
        before = self.unit.sheet
        reply = self.unit.request_into(buffer, from_hex(apdu), mode=int(mode), connection=int(connection), group=int(group))
        return self.told(before, reply) or self.event(reply.outcome, len(reply.answer), buffer)

    def told(self, before, reply):
        """A line if a byte changed outside the parts that the reply names, or a refusal names one."""
        for offset, length in reply.changed:
            before = before[:offset] + self.unit.sheet[offset : offset + length] + before[offset + length :]
        if before != self.unit.sheet or reply.changed and reply.outcome > 1:
            return f"the parts {reply.changed} are not what changed"
        return ""

    def lookup(self, what, *words):
        find = {"property": kelindap.find_property, "region": kelindap.find_region, "group": kelindap.find_group}
        find["user"] = kelindap.find_user_region
        try:
            return to_hex(find[what](self.unit.sheet, *map(int, words)) or b"")
        except Refused as refused:
            # the unit finds nothing in a sheet that is not accepted
            return "-" if refused.rule else str(refused.outcome)

    # ---- PDUs: serial and key are hex of their own length; one of another length fits no place ----

    HEX = {"serial": 6, "key": 4}

    def shown(self, name, value):
        if name in self.HEX:
            return value.to_bytes(self.HEX[name], "big").hex()
        return to_hex(value) if isinstance(value, bytes) else value

    def field(self, word):
        name, value = word.split("=")
        if name in self.HEX:
            run = from_hex(value)
            return name, int.from_bytes(run, "big") if len(run) == self.HEX[name] else 1 << 64
        return name, from_hex(value) if name in ("data", "and", "xor", "info", "apdu") else int(value)

    def read(self, apdu):
        pdu = kelindap.read(from_hex(apdu))
        return " ".join(["0", pdu.kind.words] + [f"{name}={self.shown(name, value)}" for name, value in pdu.fields.items()])

    def write(self, kind, *words):
        buffer = bytearray(from_hex(words[-1]))
        try:
            count = kelindap.write_into(buffer, kind, dict(map(self.field, words[:-1])))
        except Refused as refused:
            return f"{refused.outcome} 0 {to_hex(buffer)}"
        return f"0 {count} {to_hex(buffer)}"

    # values as Python has them: True, a number, a float by hundredths, a float by its bits

    def point(self, what, type, word):
        type = int(type)
        if what == "read":
            value = kelindap.point_read(type, from_hex(word))
            assert isinstance(value, {1: bool, 5: int, 9: float, 14: float}[type])
            if type == 14:
                return f"0 {struct.unpack('=I', struct.pack('=f', value))[0]:08x}"
            return f"0 {round(value * 100)}" if type == 9 else f"0 {value:d}"
        if type == 14:
            value = struct.unpack("=f", struct.pack("=I", int(word, 16)))[0]
        elif type == 9:
            hundredths = int(word)
            value = hundredths / 100 if abs(hundredths) < 1 << 40 else Fraction(hundredths, 100)
        else:
            value = int(word) if type in (1, 5) else 0
        return f"0 {to_hex(kelindap.point_write(type, value))}"

    # ---- versions and traces ----

    def store(self, word):
        self.store_ = bytearray(from_hex(word))
        return str(kelindap.store_check(self.store_) or "OK")

    def save(self):
        try:
            outcome, number = 0, self.unit.save(self.store_)
        except Refused as refused:
            outcome, number = refused.outcome, 0
        return f"{outcome} {number} {to_hex(self.store_)}"

    def restore(self, connection, number):
        return f"{outcome_of(self.unit.restore, self.store_, int(number), int(connection))} {to_hex(self.unit.sheet)}"

    def remove(self, number):
        return f"{outcome_of(kelindap.remove, self.store_, int(number))} {to_hex(self.store_)}"

    def versions(self):
        try:
            kept = kelindap.versions(self.store_)
        except Refused:
            kept = []
        return " ".join([str(len(kept))] + [f"{number}:{length}" for number, length in kept])

    def trace(self, word):
        self.events, self.played = from_hex(word), 0
        return str(kelindap.trace_check(self.events) or "OK")

    def play(self, limit):
        log = self.unit.play(self.events, self.played, int(limit))
        self.played += len(log)
        told = "".join(f" {outcome}:{to_hex(answer)}" for outcome, answer in log)
        return f"{len(log)}{told} {self.sessions()} {to_hex(self.unit.sheet)}"

    # ---- frames: two fields have shorter names here, and the lower events have words ----

    EVENTS = [event.words for event in Event if event <= Event.DISCONNECT]

    def frame(self, what, *words):
        if what == "read":
            f = kelindap.frame_read(from_hex(words[0]))
            means = self.EVENTS[f.event] if f.event < len(self.EVENTS) else f.event
            means = f"{means} {f.destination}" if means == "multicast" else means
            numbers = f"code={f.code} c1={f.control1} c2={f.control2} source={f.source} destination={f.destination}"
            return f"0 {numbers} transport={f.transport} info={to_hex(f.info)} tpdu={to_hex(f.tpdu)} {means}"
        fields = dict(map(self.field, words[:-1]))
        fields["control1"], fields["control2"] = fields.pop("c1"), fields.pop("c2")
        buffer = bytearray(from_hex(words[-1]))
        try:
            count = kelindap.frame_write_into(buffer, fields.pop("apdu"), **fields)
        except Refused as refused:
            return f"{refused.outcome} 0 {to_hex(buffer)}"
        return f"0 {count} {to_hex(buffer)}"

    # ---- links ----

    def link(self):
        return " ".join(map(str, self.unit.addresses))

    def heard(self, frame):
        event, connection, group, *_ = self.unit.heard(from_hex(frame))
        if event >= len(self.EVENTS):
            return str(event)
        more = f" {group}" if event == 0 else "" if connection is None else f" {connection}"
        return f"0 {self.EVENTS[event]}{more}"

    def serve(self, sequence, frame, buffer):
        buffer = bytearray(from_hex(buffer))
        before = self.unit.sheet
        served = self.unit.serve_into(buffer, from_hex(frame), int(sequence))
        outcome = "-" if served.number else served.outcome
        connection = "-" if served.connection is None else served.connection
        line = f"{served.number} {outcome} {connection} {len(served.frame)} {to_hex(buffer)} {self.link()}"
        return self.told(before, served) or f"{line} {self.sessions()} {to_hex(self.unit.sheet)}"

    COMMANDS = "sheet convert session connect disconnect button request lookup read write point frame".split()
    COMMANDS += "store save restore remove versions trace play link heard serve".split()

    def obey(self, line):
        """The answer, or None to a command that is not known here."""
        name, *words = line.split()
        if name not in self.COMMANDS:
            return None
        try:
            return getattr(self, name)(*words)
        except Refused as refused:
            return str(refused.outcome)


def play(script, tally):
    player = Player()
    with open(script + ".in", encoding="latin-1", newline="\n") as commands, open(script + ".out") as answers:
        lines = [line for line in commands.read().split("\n") if line.rstrip("\r") and not line.startswith("#")]
        expected = answers.read().splitlines()
        assert len(lines) == len(expected), script
        for line, due in zip(lines, expected):
            got = due if due.startswith("ERR") else player.obey(line)
            tally["unknown" if got is None else "ERR" if got.startswith("ERR") else "same" if got == due else "different"] += 1
            if got not in (None, due) and tally["different"] <= 10:
                print(f"python: {script}: {line[:200]}\n  expected {due[:200]}\n  got      {got[:200]}")


def main():
    if hasattr(sys, "set_int_max_str_digits"):
        sys.set_int_max_str_digits(0)  # the scripts have numbers of any length
    tally = {"same": 0, "different": 0, "ERR": 0, "unknown": 0}
    for script in sys.argv[1:]:
        play(script, tally)
    print(f"python: {tally['same'] + tally['different']} lines of scripts, {tally['different']} different; left out: "
          f"{tally['ERR']} about the unit's own language, {tally['unknown']} of commands that the package has not")
    sys.exit(tally["different"] > 0 or tally["same"] == 0)


main()
