"""Where answers go, and what a frame becomes on its way: two sockets, address translation, search by multicast, odd frames."""
import socket
import struct

from client import Checks, Tunnel, datagram
from start import Host

check = Checks("endpoints")
READ = bytes.fromhex("1100bce000000801010000")


def udp(at="127.0.0.1"):
    s = socket.socket(socket.AF_INET, socket.SOCK_DGRAM)
    s.bind((at, 0))
    s.settimeout(1)
    return s


def hpai(s, at="127.0.0.1"):
    return bytes([8, 1]) + socket.inet_aton(at) + struct.pack(">H", s.getsockname()[1])


def silent(s):
    """whether nothing comes"""
    s.settimeout(.2)
    try:
        return s.recv(99)
    except TimeoutError:
        return None
    finally:
        s.settimeout(1)


def two_sockets(to):
    c, d = udp(), udp()
    c.sendto(datagram(0x205, hpai(c) + hpai(d) + bytes([4, 4, 2, 0])), to)
    n = c.recv(99)[6]
    d.sendto(datagram(0x420, bytes([4, n, 0, 0]) + READ), to)
    check("acknowledged to the data socket", d.recv(99), datagram(0x421, bytes([4, n, 0, 0])))
    check("confirmed there", d.recv(99)[10], 0x2E)
    d.sendto(datagram(0x421, bytes([4, n, 0, 0])), to)
    check("answered there", d.recv(99)[10], 0x29)
    d.sendto(datagram(0x421, bytes([4, n, 1, 0])), to)
    c.sendto(datagram(0x420, bytes([4, n, 1, 0]) + READ), to)
    check("not from the control socket", c.recv(99), datagram(0x421, bytes([4, n, 1, 0x21])))
    c.sendto(datagram(0x207, bytes([n, 0]) + hpai(c)), to)
    check("state", c.recv(99), datagram(0x208, bytes([n, 0])))


def translated(to):
    """behind address translation: zeros, or an address that is not the sender's"""
    for name in (bytes([8, 1]) + bytes(6), bytes([8, 1, 192, 168, 7, 7, 0xC3, 0xB4])):
        s = udp("127.0.0.2")
        s.sendto(datagram(0x205, name * 2 + bytes([4, 4, 2, 0])), to)
        n = s.recv(99)[6]
        s.sendto(datagram(0x420, bytes([4, n, 0, 0]) + READ), to)
        check("translated", (s.recv(99)[9], s.recv(99)[10]), (0, 0x2E))


def by_multicast(h):
    """leaving by another address than the HPAI names; of the group of all servers a search alone is taken"""
    s, r = udp("127.0.0.2"), udp()
    s.setsockopt(socket.IPPROTO_IP, socket.IP_MULTICAST_IF, socket.inet_aton("127.0.0.1"))
    group = ("224.0.23.12", 3671)
    try:
        if "by multicast are not heard" in h.log():
            raise OSError
        s.sendto(datagram(0x201, hpai(r)), group)
    except OSError:
        print("endpoints: left out: searches by multicast: there is none on the loopback here")
        return
    ours = [d for d in iter(lambda: silent(r), None) if struct.unpack(">H", d[12:14])[0] == h.port]
    check("search by multicast", [d[2:4] for d in ours], [b"\x02\x02"])
    s.sendto(datagram(0x203, hpai(r)), group)
    s.sendto(datagram(0x205, hpai(r) * 2 + bytes([4, 4, 2, 0])), group)
    check("nothing else by multicast", silent(r), None)


def frames(h):
    t, o = Tunnel(h.port), Tunnel(h.port)
    t.request(bytes.fromhex("110403020a0b" "9ee0" "0000" "0801" "01" "0000"))
    check("additional information, repeat bit 0", (t.get(1).hex(), o.get(1).hex()),
          ("2e009ee011f3" "0801010000", "2900bce011f3" "0801010000"))
    t.get(1), o.get(1)
    for f in ("11003ce00000080115008000" + "00" * 20, "2900bce000000801010000", "f1", "fc000b01341001", "2b00", ""):
        check("acknowledged, and no more: " + f[:8], (t.request(bytes.fromhex(f)), t.get(.1), o.get(.1)), (0, None, None))


h = Host()
try:
    to = ("127.0.0.1", h.port)
    two_sockets(to)
    translated(to)
    by_multicast(h)
    frames(h)
    s = udp()
    for bad in (b"", b"\x06", datagram(0x203, hpai(s))[:-1], datagram(0x203, hpai(s)) + b"\0", b"\x06\x20\x02\x03\0\x0e" + hpai(s),
                datagram(0x203, hpai(s)) + bytes(600), datagram(0x20B, hpai(s)), datagram(0x530, READ)):
        s.sendto(bad, to)
    check("what is no datagram of version 1", silent(s), None)
    print("endpoints: %d checks" % check.done)
finally:
    h.kill()
