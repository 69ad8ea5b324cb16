"""The host and outside software: two knxd as its clients, knxtool, and tshark, where it may capture, as the judge of every datagram.

    meet.py        needs knxd and knxtool; says what it leaves out
Group values and bus monitor by knxtool; connected requests by knxd's raw TPDU service, through both knxd at once: one with the key,
one without. What tshark reads in each datagram is held to our own reading of the same bytes."""
import os
import select
import shutil
import socket
import struct
import subprocess
import threading
import time

from client import DEVICE, Checks
from start import Host

check = Checks("meet")
WRITES = 50


class Raw:
    """a tool's end of transport over knxd's raw TPDUs (EIB_OPEN_T_TPDU 0024h, EIB_APDU_PACKET 0025h)"""
    def __init__(self, path):
        self.s = socket.socket(socket.AF_UNIX, socket.SOCK_STREAM)
        self.s.connect(path)
        self.tx = self.rx = 0
        self.put(b"\0\x24\0\0\0")
        assert self.get(3)[:2] == b"\0\x24"
        self.tpdu(b"\x80")

    def put(self, b):
        self.s.sendall(struct.pack(">H", len(b)) + b)

    def get(self, wait):
        if not select.select([self.s], [], [], wait)[0]:
            return None
        n = struct.unpack(">H", self.s.recv(2, socket.MSG_WAITALL))[0]
        return self.s.recv(n, socket.MSG_WAITALL)

    def tpdu(self, t):
        self.put(b"\0\x25" + struct.pack(">H", DEVICE) + t)

    def ask(self, text, wait=3):
        """the answer to an APDU as text; "closed" if the device disconnects, "none" if nothing comes"""
        a = bytes.fromhex(text)
        self.tpdu(bytes([a[0] & 3 | 0x40 | self.tx << 2]) + a[1:])
        self.tx = (self.tx + 1) & 15
        end = time.monotonic() + wait
        while time.monotonic() < end:
            m = self.get(end - time.monotonic())
            if m is None or m[:2] != b"\0\x25" or struct.unpack(">H", m[2:4])[0] != DEVICE:
                continue
            t = m[4:]
            if t[0] == 0x81:
                return "closed"
            if t[0] & 0xC0 == 0x40:
                self.tpdu(bytes([0xC2 | t[0] & 0x3C]))
                if t[0] >> 2 & 15 == self.rx:
                    self.rx = (self.rx + 1) & 15
                    return (bytes([t[0] & 3]) + t[1:]).hex()
        return "none"


def tool(*words):
    r = subprocess.run(["knxtool", *words], capture_output=True, text=True, timeout=10)
    return " ".join((r.stdout + r.stderr).split())


def until(what, true, wait=5):
    end = time.monotonic() + wait
    while not true():
        if time.monotonic() > end:
            raise SystemExit("meet: %s: not within %d s" % (what, wait))
        time.sleep(.05)


def groups(h, at):
    check("groupwrite", tool("groupwrite", at[0], "1/0/1", "55"), "Send request")
    until("the file has it", lambda: h.bytes()[68] == 0x55)
    # knxtool waits a second for the answer, which a busy machine may not do with
    until("groupreadresponse by the other", lambda: "Response from 1.1.5: 55" in tool("groupreadresponse", at[1], "1/0/1"), 20)
    check("groupread", tool("groupread", at[0], "1/0/1"), "Send request")
    due = ["A_GroupValue_%s" % w for w in ("Write 55", "Read", "Response 55")]
    until("the bus monitor", lambda: all(w in open(h.dir + "/monitor").read() for w in due))


def connected(h, eib):
    """the one with the key writes while the one without is refused; a third is turned away; a Restart cuts both off"""
    a, b = Raw(eib[0]), Raw(eib[1])
    check("a has the key", a.ask("03D10022222222"), "03d201")
    got = {}

    def writes(name, c, base):
        got[name] = [c.ask("03D701331001%04X" % (base + i)) for i in range(WRITES)]
    both = [threading.Thread(target=writes, args=x) for x in (("a", a, 2000), ("b", b, 50000))]
    for t in both:
        t.start()
    for t in both:
        t.join()
    check("a's writes are answered", got["a"], ["03d601331001%04x" % (2000 + i) for i in range(WRITES)])
    check("b's are refused", got["b"], ["03d601330001"] * WRITES)
    check("the file has a's last", h.bytes()[64:66], (1999 + WRITES).to_bytes(2, "big"))
    check("a third is turned away", Raw(eib[0]).ask("0300", 1), "closed")
    check("who restarts is cut off", b.ask("0380", 1), "closed")
    check("and so is the other", a.ask("0300", 1), "closed")


FIELDS = ("udp.payload", "frame.protocols", "_ws.expert", "knxip.service", "knxip.totallength", "knxip.channel", "knxip.seqctr",
          "cemi.mc", "cemi.sa", "cemi.da", "cemi.hc", "cemi.prio", "cemi.ce", "cemi.len", "cemi.num")


def ours(b):
    """what we read in a datagram, in tshark's fields"""
    service = b[2] << 8 | b[3]
    read = {"knxip.service": service, "knxip.totallength": len(b)}
    if service in (0x0207, 0x0208, 0x0209, 0x020A):
        read["knxip.channel"] = b[6]
    if service in (0x0420, 0x0421):
        read["knxip.channel"], read["knxip.seqctr"] = b[7], b[8]
    if service == 0x0420 and b[11] == 0:
        control, hops, tpdu = b[12], b[13] >> 4 & 7, b[19]
        read.update({"cemi.mc": b[10], "cemi.hc": hops, "cemi.prio": control >> 2 & 3, "cemi.len": b[18]})
        read["cemi.sa"], read["cemi.da"] = struct.unpack(">HH", b[14:18])
        if b[10] == 0x2E:
            read["cemi.ce"] = control & 1
        if tpdu & 0x40:
            read["cemi.num"] = tpdu >> 2 & 15
    return read


def number(text):
    """a number as tshark shows it: 0x0420, 1056, 1.1.5, 1/0/1"""
    for sign, parts in ((".", (12, 8, 0)), ("/", (11, 8, 0))):
        if sign in text:
            return sum(int(x) << shift for x, shift in zip(text.split(sign), parts))
    return int(text, 0)


def judged(h, capture):
    """every datagram is read without a complaint, and as we read it"""
    read = ["tshark", "-r", capture, "-d", "udp.port==%d,kip" % h.port, "-T", "fields"]
    said = subprocess.run(read + [w for f in FIELDS for w in ("-e", f)], capture_output=True, text=True)
    check("tshark's fields", said.returncode, 0)
    rows = [dict(zip(FIELDS, row.split("\t"))) for row in said.stdout.splitlines()]
    bad = [r["udp.payload"] for r in rows if r["_ws.expert"] or "malformed" in r["frame.protocols"] or "kip" not in r["frame.protocols"]]
    check("tshark reads all as KNXnet/IP", (len(rows) > 400, bad), (True, []))
    same = 0
    for r in rows:
        for field, value in ours(bytes.fromhex(r["udp.payload"])).items():
            check("%s of %s" % (field, r["udp.payload"]), number(r[field].split(",")[0]), value)
            same += 1
    print("meet: tshark reads %d datagrams without a complaint, and %d fields in them as we do" % (len(rows), same))


def main():
    for program in ("knxd", "knxtool"):
        if shutil.which(program) is None:
            print("meet: left out: there is no %s here (Debian: knxd, knxd-tools)" % program)
            return
    h, started = Host(), []

    def run(*words, out=subprocess.DEVNULL):
        p = subprocess.Popen(words, stdout=out, stderr=subprocess.STDOUT)
        started.append(p)
        return p
    try:
        capture, shark = h.dir + "/capture.pcap", None
        if shutil.which("tshark") is not None:
            shark = run("tshark", "-q", "-i", "lo", "-f", "udp port %d" % h.port, "-w", capture)
            try:
                until("tshark", lambda: os.path.exists(capture) and os.path.getsize(capture) > 0 or shark.poll() is not None)
                time.sleep(.5)
            except SystemExit:
                pass
            if shark.poll() is not None:
                shark = None
        eib = [h.dir + "/eib%d" % i for i in range(2)]
        for i, path in enumerate(eib):
            run("knxd", "-e", "1.1.%d" % (250 + i), "-E", "1.1.%d:10" % (200 + 10 * i), "-u", path, "-b", "ipt:127.0.0.1:%d" % h.port)
        until("both knxd have a channel", lambda: h.log().count("is opened by") == 2 and all(map(os.path.exists, eib)), 10)
        at = ["local:" + path for path in eib]
        with open(h.dir + "/monitor", "w") as monitor:
            run("knxtool", "vbusmonitor1", at[1], out=monitor)
            time.sleep(.5)
            groups(h, at)
        connected(h, eib)
        h.p.terminate()
        check("ends in order", h.p.wait(5), 0)
        print("meet: two knxd, knxtool: %d checks" % check.done)
        if shark is None:
            print("meet: left out: tshark is not installed, or may not capture")
        else:
            time.sleep(1)
            shark.terminate()
            shark.wait()
            judged(h, capture)
    finally:
        for p in started:
            if p.poll() is None:
                p.kill()
            p.wait()
        if h.p.poll() is None:
            h.kill()
        else:
            h.tidy()


main()
