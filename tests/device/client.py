"""A tunnelling client and a tool's end of transport, for the tests of kelindap-device. Nothing here knows the host's sources."""
import select
import socket
import struct
import time

DEVICE = 0x1105


def datagram(service, body):
    return struct.pack(">BBHH", 6, 16, service, 6 + len(body)) + body


class Closed(Exception):
    pass


class Tunnel:
    def __init__(self, port, nat=False, layer=2, open_it=True):
        self.s = socket.socket(socket.AF_INET, socket.SOCK_DGRAM)
        self.s.bind(("127.0.0.1", 0))
        self.s.connect(("127.0.0.1", port))
        own = socket.inet_aton("127.0.0.1") + struct.pack(">H", self.s.getsockname()[1])
        self.hpai = bytes([8, 1]) + (bytes(6) if nat else own)
        self.channel = self.tx = self.rx = 0
        self.inbox, self.acks, self.other = [], [], []
        self.answer_acks = True
        self.wait, self.tries = 1.0, 2  # of a request
        if open_it:
            r = self.ask(0x0205, self.hpai * 2 + bytes([4, 4, layer, 0]), 0x0206)
            self.status = None if r is None else r[1]
            if self.status == 0:
                self.channel, self.address = r[0], r[12] << 8 | r[13]

    def put(self, service, body):
        self.s.send(datagram(service, body))

    def pump(self, wait):
        """one datagram: (service, body) or None; tunnelling requests are acknowledged and put into the inbox"""
        if not select.select([self.s], [], [], max(0, wait))[0]:
            return None
        try:
            d = self.s.recv(2048)
        except ConnectionRefusedError:
            raise Closed("the host is gone")
        service, b = d[2] << 8 | d[3], d[6:]
        assert d[:2] == b"\x06\x10" and struct.unpack(">H", d[4:6])[0] == len(d), d.hex()
        if service == 0x0420 and b[1] == self.channel:
            if self.answer_acks and b[2] in (self.rx, (self.rx - 1) & 255):
                self.put(0x0421, bytes([4, b[1], b[2], 0]))
            if b[2] == self.rx and self.answer_acks:
                self.rx = (self.rx + 1) & 255
                self.inbox.append(b[4:])
        elif service == 0x0421:
            self.acks.append((b[2], b[3]))
        else:
            self.other.append((service, b))
        return service, b

    def ask(self, service, body, want, wait=2.0):
        self.put(service, body)
        end = time.monotonic() + wait
        while time.monotonic() < end:
            r = self.pump(end - time.monotonic())
            if r and r[0] == want:
                return r[1]
        return None

    def request(self, cemi, wait=None, tries=None):
        """a tunnelling request; the status of its acknowledgement, None if there was none"""
        wait = wait or self.wait
        for _ in range(tries or self.tries):
            self.put(0x0420, bytes([4, self.channel, self.tx, 0]) + cemi)
            end = time.monotonic() + wait
            while time.monotonic() < end:
                self.pump(end - time.monotonic())
                for number, status in self.acks:
                    if number == self.tx:
                        self.acks.clear()
                        self.tx = (self.tx + 1) & 255
                        return status
        return None

    def frame(self, dst, tpdu, group=False, src=0, c1=0xBC, hops=6, wait=None, tries=None):
        head = bytes([0x11, 0, c1, (0x80 if group else 0) | hops << 4])
        return self.request(head + struct.pack(">HHB", src, dst, len(tpdu) - 1) + tpdu, wait, tries)

    def get(self, wait, want=lambda f: True):
        end = time.monotonic() + wait
        while True:
            for i, f in enumerate(self.inbox):
                if want(f):
                    return self.inbox.pop(i)
            if time.monotonic() >= end:
                return None
            self.pump(end - time.monotonic())

    def state(self):
        return self.ask(0x0207, bytes([self.channel, 0]) + self.hpai, 0x0208)

    def close(self):
        return self.ask(0x0209, bytes([self.channel, 0]) + self.hpai, 0x020A)


class Connection:
    """a tool's end of a transport connection"""
    def __init__(self, tunnel, dst=DEVICE, src=0, connect=True):
        self.t, self.dst, self.src, self.tx, self.rx = tunnel, dst, src, 0, 0
        self.own = src or tunnel.address
        if connect:
            tunnel.frame(dst, b"\x80", src=src, c1=0xB0)

    def tpdu(self, wait):
        ours = (self.dst, self.own)
        f = self.t.get(wait, lambda f: f[0] == 0x29 and f[3] < 0x80 and struct.unpack(">HH", f[4:8]) == ours)
        return None if f is None else f[9:]

    def send(self, apdu, number=None, wait=None):
        n = self.tx if number is None else number
        return self.t.frame(self.dst, bytes([apdu[0] & 3 | 0x40 | n << 2]) + apdu[1:], src=self.src, c1=0xB0, wait=wait)

    def ask(self, apdu, wait=2.0, answer=True):
        """sends, waits for T_ACK, and for the answer, which it acknowledges"""
        apdu = bytes.fromhex(apdu) if isinstance(apdu, str) else apdu
        if self.send(apdu) != 0:
            raise Closed("tunnel")
        acked, end = False, time.monotonic() + wait
        while time.monotonic() < end:
            t = self.tpdu(end - time.monotonic())
            if t is None:
                break
            if t[0] == 0x81:
                raise Closed("disconnect")
            if t[0] == 0xC2 | self.tx << 2:
                acked, self.tx = True, (self.tx + 1) & 15
                if not answer:
                    return b""
            elif t[0] & 0xC0 == 0x40:
                self.t.frame(self.dst, bytes([0xC2 | t[0] & 0x3C]), src=self.src, c1=0xB0)
                if t[0] >> 2 & 15 == self.rx:
                    self.rx = (self.rx + 1) & 15
                    return bytes([t[0] & 3]) + t[1:]
        return b"" if acked else None

    def close(self):
        self.t.frame(self.dst, b"\x81", src=self.src, c1=0xB0)


def tell(path, text):
    """a command to the control socket: all that it answers"""
    with socket.socket(socket.AF_UNIX, socket.SOCK_STREAM) as s:
        s.connect(path)
        s.settimeout(10)
        s.sendall(text.encode() + b"\n")
        out = b""
        while not (out.endswith(b"\n") and out.split(b"\n")[-2].startswith((b"ok", b"refused"))):
            d = s.recv(65536)
            if not d:
                break
            out += d
        return out.decode()


class Checks:
    """counts what was as due, and ends the test at the first that was not"""
    def __init__(self, name):
        self.name, self.done = name, 0

    def __call__(self, what, got, due):
        if got != due:
            raise SystemExit("%s: %s: got %r, due %r" % (self.name, what, got, due))
        self.done += 1
