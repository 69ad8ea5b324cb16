"""wire.py N SEED: N datagrams, right, mutated and random, over UDP to the host built with sanitizers. It must stay, serve a right client
after it, and keep every byte whose write level is below 3: no datagram has a key in it. fuzz_parts does the same without sockets, with
what must hold after each."""
import os
import random
import socket
import struct
import sys
import time

from client import DEVICE, Connection, Tunnel, datagram
from start import SHEET, TOP, Host

N, SEED = int(sys.argv[1]), int(sys.argv[2])
WATCHED = os.environ.get("DEVICE_WATCHED", TOP + "/build/kelindap-device_watched")
r = random.Random(SEED)
APDUS = [bytes.fromhex(x) for x in ("03D501331001", "03D7013310010909", "0284010007070707", "02040100", "008009", "0000", "0300", "0380",
                                    "0100", "03D10001020304", "03D30101020304", "00C01107")]


class Sender:
    """a client of sorts: from an address of its own"""
    def __init__(self, h, k):
        self.s = socket.socket(socket.AF_INET, socket.SOCK_DGRAM)
        self.s.bind(("127.0.1.%d" % (k + 1), 0))
        self.s.setblocking(False)
        self.to = ("127.0.0.1", h.port)
        self.hpai = bytes([8, 1]) + socket.inet_aton(self.s.getsockname()[0]) + struct.pack(">H", self.s.getsockname()[1])
        self.channel, self.tx, self.number, self.opened, self.taken = 1, 0, 0, 0, 0

    def put(self, d):
        try:
            self.s.sendto(d, self.to)
        except BlockingIOError:
            pass

    def drain(self):
        while True:
            try:
                d = self.s.recv(2048)
            except (BlockingIOError, ConnectionRefusedError):
                return
            service = d[2] << 8 | d[3]
            if service == 0x0206 and d[7] == 0:
                self.channel, self.tx, self.opened = d[6], 0, self.opened + 1
            if service == 0x0421 and d[9] == 0 and d[7] == self.channel:
                self.tx, self.taken = (d[8] + 1) & 255, self.taken + 1
            if service in (0x0420, 0x0310) and r.random() < .97:
                self.put(datagram(service + 1, bytes([4, d[7], d[8], 0])))

    def frame(self):
        group = r.random() < .3
        to = r.choice([0x0801, 0, r.randrange(65536)]) if group else r.choice([DEVICE] * 8 + [r.randrange(65536), 0x11F0 + r.randrange(8)])
        a, k = r.choice(APDUS + [r.randbytes(r.randrange(1, 17))]), r.random()
        if not group and k < .25:
            a = b"\x80"
        elif not group and k < .45:
            a = bytes([0xC2 | r.randrange(2) | r.randrange(16) << 2])
        elif not group and k < .9:
            self.number = (self.number + 1) & 15
            a = bytes([a[0] & 3 | 0x40 | self.number << 2]) + a[1:]
        source = r.choice([0, 0, 0x1200 + r.randrange(99), DEVICE, r.randrange(65536)])
        return bytes([0x11, 0, 0xBC, (0x80 if group else 0) | 0x60]) + struct.pack(">HHB", source, to, len(a) - 1) + a

    def right(self):
        k = r.random()
        if k < .02:
            return datagram(r.choice([0x0201, 0x0203]), self.hpai)
        if k < .05:
            return datagram(0x0205, self.hpai * 2 + r.choice([bytes([4, 4, 2, 0])] * 9 + [b"\x02\x03"]))
        if k < .08:
            return datagram(0x0207, bytes([self.channel, 0]) + self.hpai)
        if k < .083:
            return datagram(0x0209, bytes([self.channel, 0]) + self.hpai)
        if k < .11:
            return datagram(0x0421, bytes([4, self.channel, r.randrange(256), 0]))
        if k < .13:
            return datagram(0x0310, bytes([4, self.channel, self.tx, 0, r.choice([0xFC, 0xF6])]) + r.randbytes(6))
        return datagram(0x0420, bytes([4, self.channel, self.tx, 0]) + self.frame())


def mutated(d):
    d = bytearray(d)
    for _ in range(r.choice([1, 1, 2, 5])):
        k, at = r.random(), r.randrange(len(d)) if d else 0
        if k < .5 and d:
            d[at] = r.randrange(256)
        elif k < .65:
            del d[at:]
        elif k < .8:
            d += r.randbytes(r.randrange(1, 600))
        else:
            d[at:at + r.randrange(9)] = r.randbytes(r.randrange(9))
    if r.random() < .6 and len(d) >= 6:
        d[4:6] = struct.pack(">H", len(d) & 65535)
    return bytes(d)


h = Host(program=WATCHED)
try:
    senders = [Sender(h, k) for k in range(6)]
    for i in range(N):
        s, k = r.choice(senders), r.random()
        s.put(s.right() if k < .5 else mutated(s.right()) if k < .9 else r.randbytes(r.choice([r.randrange(64), r.randrange(1400)])))
        if i % 8 == 0:
            time.sleep(.0005)
            for x in senders:
                x.drain()
        if i % 1000 == 0 and h.p.poll() is not None:
            break
    time.sleep(.3)
    if h.p.poll() is not None:
        raise SystemExit("wire: the host ended: " + h.log()[-3000:])
    for s in senders:  # their channels end, so that a right client gets one
        for channel in range(1, 256):
            s.put(datagram(0x0209, bytes([channel, 0]) + s.hpai))
            time.sleep(.0003)
    time.sleep(6.5)  # and so do the connections of those that are left
    b = h.bytes()
    t = Tunnel(h.port)
    answer = Connection(t, b[16] << 8 | b[17]).ask("0300")
    if (t.status, answer and answer.hex()) != (0, "034007b0"):
        raise SystemExit("wire: a right client then gets %r, %r" % (t.status, answer))
    if (b[:14] + b[18:60] + b[64:68]) != (SHEET[:14] + SHEET[18:60] + SHEET[64:68]):
        raise SystemExit("wire: protected bytes are others: " + b.hex())
    said = [x for x in h.log().splitlines() if not x.startswith("20")]
    if h.end() != 0 or said:
        raise SystemExit("wire: the sanitizers said: " + "\n".join(said))
    opened, taken = sum(s.opened for s in senders), sum(s.taken for s in senders)
    if opened == 0 or taken == 0:
        raise SystemExit("wire: nothing was taken, so nothing was tried")
    print("wire: %d datagrams, %d channels opened, %d requests taken; a right client is served after them" % (N, opened, taken))
finally:
    if h.p.poll() is None:
        h.kill()
