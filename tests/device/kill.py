"""kill.py N [SEED]: kills the host N times during writes of two clients at once. What the files have then is what was acknowledged
last to each, or the next: property writes that are answered, memory writes that have transport's acknowledgement alone (verify is
off), group writes that have the tunnel's alone, and versions saved and removed at the control socket, two of these by turns."""
import itertools
import random
import shutil
import subprocess
import sys
import tempfile
import threading
import time

from client import Closed, Connection, Tunnel, tell
from start import SHEET, SHEET_PROGRAM, Host

KILLS, SEED = int(sys.argv[1]), int(sys.argv[2]) if len(sys.argv) > 2 else 7
UNVERIFIED = SHEET[:14] + b"\0" + SHEET[15:]


class Writer(threading.Thread):
    """writes until the host is gone; `last` is what was acknowledged last, `sent` what was sent last"""
    def __init__(self, h, first):
        super().__init__()
        self.h, self.v, self.last, self.sent, self.acked = h, first, None, None, 0
        self.tunnel = Tunnel(h.port)
        self.tunnel.wait, self.tunnel.tries = .2, 5
        self.prepare()

    def prepare(self):
        pass

    def connect(self):
        self.c = Connection(self.tunnel)
        assert self.c.ask("03D10022222222").hex() == "03d201"
        self.tunnel.inbox.clear()

    def run(self):
        try:
            while True:
                self.v = self.v % 60000 + 1
                if not self.write():
                    break
                self.last = self.sent
                self.acked += 1
        except (Closed, OSError, IndexError):
            pass

    def good(self, before, after):
        a, b = self.of(before), self.of(after)
        return b in (a if self.last is None else self.last, self.sent)


class Property(Writer):
    prepare = Writer.connect

    def write(self):
        self.sent = self.v.to_bytes(2, "big")
        x = self.c.ask(bytes.fromhex("03D701331001") + self.sent, wait=.5)
        return bool(x) and x[6:] == self.sent

    def of(self, folder):
        return folder["sheet"][64:66]


class Memory(Writer):
    prepare = Writer.connect

    def write(self):
        self.sent = self.v.to_bytes(4, "big")
        return self.c.ask(bytes.fromhex("02840100") + self.sent, wait=.5, answer=False) == b""

    def of(self, folder):
        return folder["sheet"][60:64]


class Group(Writer):
    def write(self):
        self.sent = bytes([self.v & 255])
        return self.tunnel.frame(0x0801, b"\x00\x80" + self.sent, group=True) == 0

    def of(self, folder):
        return folder["sheet"][68:69]


class Versions(Writer):
    def write(self):
        if self.last and self.last[0]:
            self.sent = []
            return tell(self.h.ctl, "remove %d" % self.last[0]).startswith("ok")
        self.sent = [self.number + 1]
        said = tell(self.h.ctl, "save")
        if said.startswith("ok"):
            self.number = int(said.split()[1])
            assert self.sent == [self.number], said
        return said.startswith("ok")

    def prepare(self):
        for kept in tell(self.h.ctl, "versions").split()[:-1]:
            tell(self.h.ctl, "remove " + kept)
        with open(self.h.sheet + ".store", "rb") as f:
            self.number = int.from_bytes(f.read()[2:4], "big")
        self.last = []

    def of(self, folder):
        store = folder["store"]
        return [store[8 + 8 * i] << 8 | store[9 + 8 * i] for i in range(store[1])]


def files(folder):
    with open(folder + "/sheet", "rb") as f, open(folder + "/sheet.store", "rb") as g:
        return {"sheet": f.read(), "store": g.read()}


def main():
    r = random.Random(SEED)
    folder = tempfile.mkdtemp(prefix="kelindap-kill-")
    pairs = itertools.cycle(itertools.combinations((Property, Memory, Group, Versions), 2))
    acked, both, later = {}, 0, 0
    try:
        for k in range(KILLS):
            h = Host(folder=folder, sheet=UNVERIFIED)
            writers = [kind(h, r.randrange(1, 60000)) for kind in next(pairs)]
            before = files(folder)
            for w in writers:
                w.start()
            end = time.monotonic() + 3  # the kill falls into writes of both
            while time.monotonic() < end and not all(w.acked for w in writers):
                time.sleep(.001)
            time.sleep(r.uniform(0, .1))
            h.p.kill()
            for w in writers:
                w.join()
            h.p.wait()
            h.tidy()
            after = files(folder)
            for w in writers:
                name = type(w).__name__.lower()
                if not w.good(before, after):
                    raise SystemExit("kill: LOST at kill %d: %s has %s, acknowledged %s, sent %s" % (k, name, w.of(after), w.last, w.sent))
                acked[name] = acked.get(name, 0) + w.acked
                later += w.of(after) == w.sent and w.sent != w.last
            both += all(w.acked for w in writers)
            if subprocess.run([SHEET_PROGRAM, "check", folder + "/sheet"], stdout=subprocess.DEVNULL).returncode != 0:
                raise SystemExit("kill: %d left a sheet that is not accepted" % k)
        if KILLS >= 10 and both < KILLS / 2:
            raise SystemExit("kill: only %d of %d fell into writes of both" % (both, KILLS))
    finally:
        shutil.rmtree(folder, ignore_errors=True)
    told = ", ".join("%s %d" % x for x in sorted(acked.items()))
    print("kill: %d kills, %d during writes of two clients; acknowledged before them: %s; the file had the next one %d times; nothing lost"
          % (KILLS, both, told, later))


main()
