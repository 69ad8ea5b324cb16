"""The host by a client of its own: services, statuses, numbers, rights told by the library, the log, repetition, versions."""
import os
import stat
import struct
import subprocess
import time

from client import DEVICE, Checks, Closed, Connection, Tunnel, tell
from start import SHEET_PROGRAM, Host

check = Checks("session")
GROUP = 0x0801
HEIGHT = "03D701331001"  # element 1 of property 1/51, and a value


def after(start):
    """whole seconds since then; a machine that is busy may be late"""
    return int(time.monotonic() - start + .15)


def services(h):
    n = Tunnel(h.port, open_it=False)
    r = n.ask(0x0201, n.hpai, 0x0202)
    own = bytes([8, 1, 127, 0, 0, 1]) + struct.pack(">H", h.port)
    check("search", (len(r), r[:8], r[8:14], r[16:22]), (70, own, bytes.fromhex("360102001105"), bytes.fromhex("00c501020304")))
    check("its name", r[32:62].rstrip(b"\0"), b"kelindap")
    r = n.ask(0x0203, n.hpai, 0x0204)
    check("description", (len(r), r[54:]), (62, bytes.fromhex("0802020103010401")))
    check("button", tell(h.ctl, "button on"), "ok\n")
    check("programming mode shows", n.ask(0x0203, n.hpai, 0x0204)[3], 1)
    tell(h.ctl, "button off")
    for wish, status in (("0206", 0x22), ("04048000", 0x29), ("04040400", 0x29), ("060402001105", 0x23)):
        check("connect " + wish, n.ask(0x0205, n.hpai * 2 + bytes.fromhex(wish), 0x0206), bytes([0, status]))
    tcp = b"\x08\x02" + n.hpai[2:]
    check("connect by TCP", n.ask(0x0205, tcp * 2 + bytes.fromhex("04040200"), 0x0206), bytes([0, 1]))


def management(h):
    """every property is answered as not there"""
    m = Tunnel(h.port, open_it=False)
    r = m.ask(0x0205, m.hpai * 2 + b"\x02\x03", 0x0206)
    check("management", (r[1], r[10:]), (0, b"\x02\x03"))
    m.channel = r[0]
    head = bytes([4, m.channel, 0, 0])
    m.put(0x0310, head + bytes.fromhex("fc00000153" + "1001"))
    check("acknowledged", m.pump(1), (0x0311, head))
    check("no such property", m.pump(1), (0x0310, head + bytes.fromhex("fb00000153" + "0001" + "07")))
    m.put(0x0311, head)
    asked = bytes([4, m.channel, 1, 0]) + bytes.fromhex("1100bce000000801010000")
    check("no tunnelling there", m.ask(0x0420, asked, 0x0421), bytes([4, m.channel, 1, 0x21]))
    m.close()


def channels(h):
    ts = [Tunnel(h.port, nat=i % 2 == 1) for i in range(8)]
    check("channels", [(t.status, t.address) for t in ts], [(0, 0x11F0 + i) for i in range(8)])
    check("numbers differ", len({t.channel for t in ts}), 8)
    check("no more", Tunnel(h.port).status, 0x24)
    check("state", ts[3].state(), bytes([ts[3].channel, 0]))
    other = bytes([ts[2].channel, 0]) + ts[3].hpai
    check("state of another's", ts[3].ask(0x0207, other, 0x0208), bytes([ts[2].channel, 0x21]))
    check("disconnect of another's", ts[3].ask(0x0209, other, 0x020A), bytes([ts[2].channel, 0x21]))
    check("close", ts[7].close(), bytes([ts[7].channel, 0]))
    old = ts[7].channel
    ts[7] = Tunnel(h.port)
    check("opened again", (ts[7].status, ts[7].address, ts[7].channel != old), (0, 0x11F7, True))
    for t in ts[2:]:
        t.close()
    return ts[0], ts[1]


def groups(h, a, b):
    """write, read, confirmation, indication to the other, not to oneself"""
    a.tx = 255
    check("the number before the first is none", a.frame(GROUP, b"\x00\x80\x11", group=True, wait=.2, tries=1), None)
    check("and is not taken", (h.bytes()[68], a.get(.1)), (0, None))
    a.tx = 0
    check("group write", a.frame(GROUP, b"\x00\x80\x55", group=True), 0)
    check("confirmation", a.get(1).hex(), "2e00bce011f008010200" + "8055")
    check("indication", b.get(1).hex(), "2900bce011f008010200" + "8055")
    check("saved", h.bytes()[68], 0x55)
    check("group read", b.frame(GROUP, b"\x00\x00", group=True), 0)
    check("confirmation", b.get(1).hex(), "2e00bce011f1080101" + "0000")
    check("answer", b.get(1).hex(), "2900bce01105080102" + "004055")
    check("the other hears the read", a.get(1).hex(), "2900bce011f1080101" + "0000")
    check("and the answer", a.get(1).hex(), "2900bce01105080102" + "004055")
    check("nothing more", (a.get(.2), b.get(.1)), (None, None))
    a.tx = (a.tx - 1) & 255
    check("the number before", a.frame(GROUP, b"\x00\x80\x66", group=True), 0)
    check("is not taken", (h.bytes()[68], a.get(.2)), (0x55, None))
    a.tx = (a.tx + 1) & 255
    check("another number", a.request(bytes.fromhex("1100bce000000801020080") + b"\x77", wait=.2, tries=1), None)
    a.tx = (a.tx - 1) & 255
    b_, b.channel = b.channel, a.channel
    check("another's channel", b.frame(GROUP, b"\x00\x80\x66", group=True), 0x21)
    b.channel, b.tx = b_, (b.tx - 1) & 255
    old, at = h.bytes(), os.stat(h.sheet).st_ino
    check("a write of what is there", a.frame(GROUP, b"\x00\x80\x55", group=True), 0)
    check("saves nothing", (h.bytes(), os.stat(h.sheet).st_ino), (old, at))
    a.get(1), b.get(1)


def rights(h, a):
    """none without a key"""
    c = Connection(a)
    check("confirmation of connect", a.get(1, lambda f: f[0] == 0x2E)[9], 0x80)
    c.send(bytes.fromhex("0300"), number=15)
    check("number 15 right after a connect is not acknowledged", c.tpdu(1), bytes([0xC3 | 15 << 2]))
    check("read", c.ask("03D501331001").hex(), "03d60133100103e8")
    check("refused write", c.ask(HEIGHT + "0384").hex(), "03d601330001")
    check("nothing stored", h.bytes()[64:66].hex(), "03e8")
    check("a wrong key", c.ask("03D10012345678").hex(), "03d203")
    check("authorize", c.ask("03D10022222222").hex(), "03d201")
    check("write", c.ask(HEIGHT + "0384").hex(), "03d6013310010384")
    check("stored", h.bytes()[64:66].hex(), "0384")
    c.t.inbox.clear()
    c.send(bytes.fromhex(HEIGHT + "0999"), number=(c.tx - 1) & 15)
    check("the one before", c.tpdu(1)[0], 0xC2 | ((c.tx - 1) & 15) << 2)
    c.send(bytes.fromhex(HEIGHT + "0999"), number=(c.tx + 5) & 15)
    check("out of turn", c.tpdu(1)[0], 0xC3 | ((c.tx + 5) & 15) << 2)
    check("neither stored", h.bytes()[64:66].hex(), "0384")
    return c


def partners(h, a, b):
    """a second partner, and a third; addresses that are not one's own; one behind a channel"""
    d = Connection(b)
    check("second", d.ask("0300").hex(), "034007b0")
    t = Tunnel(h.port)
    check("third is turned away", Connection(t).tpdu(1), b"\x81")
    f = Connection(t)
    f.send(bytes.fromhex("0300"))
    check("data of a stranger", [f.tpdu(1), f.tpdu(1)], [b"\x81", b"\x81"])
    check("d is not authorized", d.ask(HEIGHT + "0777").hex(), "03d601330001")
    check("others do not hear it", [x for x in t.inbox if x[0] == 0x29], [])
    t.inbox.clear()
    for src in (DEVICE, a.address, b.address, 0x11F5):
        t.frame(DEVICE, bytes.fromhex("47D7013310010777"), src=src)
        x = t.get(1)
        check("under another's address", (x[0], x[2] & 1, t.get(.1)), (0x2E, 1, None))
    t.frame(0x1203, b"\x80")
    x = t.get(1)
    check("to nobody", (x[0], x[2] & 1), (0x2E, 1))
    d.close()
    g = Connection(t, src=0x1210)
    check("a line behind a channel", g.ask("0300").hex(), "034007b0")
    return g


def versions(h, c):
    check("save", tell(h.ctl, "save"), "ok 1\n")
    check("restore needs level 0", tell(h.ctl, "restore 1")[:10], "refused 35")
    c.ask(HEIGHT + "1111")
    check("level 0", c.ask("03D10011111111").hex(), "03d200")
    check("restore", tell(h.ctl, "restore 1"), "ok\n")
    check("restored", (h.bytes()[64:66].hex(), c.ask("03D501331001").hex()), ("0384", "03d6013310010384"))
    check("versions", tell(h.ctl, "versions"), "1\nok\n")
    check("remove", (tell(h.ctl, "remove 1"), tell(h.ctl, "remove 1")[:10]), ("ok\n", "refused 34"))
    for words in ("nonsense", "button", "restore", "restore 1x", "restore 123456", "state ", "", "button onn"):
        check(words, tell(h.ctl, words)[:9], "refused: ")


def meanings(h, c):
    """each write in the log, in the words of sheet diff; c is at level 0"""
    def lines_of(apdu):
        before, at = h.dir + "/before", len(h.log())
        with open(before, "wb") as f:
            f.write(h.bytes())
        c.ask(apdu)
        said = subprocess.run([SHEET_PROGRAM, "diff", before, h.sheet], capture_output=True, text=True).stdout
        told = [x.split(" writes ", 1)[1] for x in h.log()[at:].splitlines() if " writes " in x]
        return told, said.replace("→", "->").splitlines()
    for apdu, lines in ((HEIGHT + "04E2", 1), ("03D701332001" + "04E30007", 3), ("02840100" + "01020304", 1),
                        ("03D0040100" + "FFFFFFFF" + "00FF00FF", 2), ("03D30144556677", 1), ("03D301" + "22222222", 1),
                        ("03D701331000" + "0000", 1), ("03D701331001" + "03E8", 2)):
        told, said = lines_of(apdu)
        check("the log of " + apdu, (told, len(told)), (said, lines))
    at = len(h.log())
    c.ask(HEIGHT + "03E8")
    check("a write of what is there", "writes what is there already: property_write of 1/51 from element 1" in h.log()[at:], True)
    log = h.log().lower()
    keys = [k for k in ("11111111", "22222222", "44556677", "12345678") for k in (k, " ".join(k[i:i + 2] for i in range(0, 8, 2)), str(int(k, 16)))]
    check("no key in the log", [k for k in keys if k in log], [])
    for words in ("channel 1 is opened by 127.0.0.1:", "1.1.240 connects: connection 0", "gets no channel: all are taken",
                  "1.1.240 on connection 0 at level 3 is refused: property_write of 1/51 from element 1: refused",
                  "1.1.240 on connection 0 at level 3 offers a key, and has level 3: it is no level's key",
                  "1.1.240 on connection 0 at level 3 offers a key, and has level 1", "1.1.240 writes group object 1/0/1: 00 -> 55",
                  "1.1.240 on connection 0 at level 1 writes property 1/51 element 1: 1000 -> 900",
                  "is turned away: no place for a third partner", "is turned away: connected data from nobody's partner",
                  "the control socket writes programming mode: off -> on", "version 1 is kept", "version 1 is restored",
                  "the control socket writes property 1/51 element 1: 4369 -> 900"):
        check("in the log: " + words, words in h.log(), True)


def inherits_nothing(h, a, c):
    """the channel ends: its connection too, before its address is another's"""
    state = tell(h.ctl, "state")
    check("state shows", ["connection 0 partner 1.1.240 level 0" in state, "channel " in state, "carried-out" in state], [True] * 3)
    a.close()
    check("connections of a closed channel", "connection 0" in tell(h.ctl, "state"), False)
    a2 = Tunnel(h.port)
    check("same address", a2.address, a.address)
    c2 = Connection(a2, connect=False)
    c2.tx, c2.rx = c.tx, c.rx
    c2.send(bytes.fromhex(HEIGHT + "0BAD"))
    check("nothing is inherited", (c2.tpdu(1), h.bytes()[64:66].hex()), (b"\x81", "03e8"))
    return a2


def restart(a2, g):
    c = Connection(a2)
    try:
        c.send(bytes.fromhex("0380"))
        check("restart", [c.tpdu(1), c.tpdu(1)], [b"\xC2", b"\x81"])
        check("the other too", g.tpdu(1), b"\x81")
    except Closed:
        pass


def times(h, a2):
    """an answer that is not acknowledged goes out at 0, 3, 6, 9 s, and the connection ends at 12 s; a silent partner beside it has 6 s;
    a third gets the place of the silent one"""
    c = Connection(a2)
    c.send(bytes.fromhex("0300"))
    quiet, third = Tunnel(h.port), Tunnel(h.port)
    q = Connection(quiet)
    check("no third", Connection(third).tpdu(1), b"\x81")
    start, seen, ended = time.monotonic(), [], None
    while time.monotonic() - start < 13:
        x = c.tpdu(.05)
        if x:
            seen.append((after(start), x.hex()))
        if ended is None and q.tpdu(.01) == b"\x81":
            ended = after(start)
            check("the third has the place", Connection(third).tpdu(.2), None)
    check("repetition", seen, [(0, "c2"), (0, "434007b0"), (3, "434007b0"), (6, "434007b0"), (9, "434007b0"), (12, "81")])
    check("silence", ended, 6)
    check("both are told", ["it is silent" in h.log(), "it acknowledges no answer" in h.log()], [True, True])


def unread(h, a2):
    """who doesn't acknowledge is closed after two seconds"""
    a2.answer_acks = False
    a2.other.clear()
    a2.frame(GROUP, b"\x00\x80\x11", group=True)
    start = time.monotonic()
    while not a2.other and time.monotonic() - start < 4:
        a2.pump(.5)
    check("no acknowledgement", (a2.other[0][0], a2.other[0][1][:2], after(start)),
          (0x0209, bytes([a2.channel, 0]), 2))


def ends(h):
    last = Tunnel(h.port)
    h.p.terminate()
    check("ends in order", h.p.wait(5), 0)
    x = last.pump(1)
    check("and tells its clients", x and (x[0], x[1][0]), (0x0209, last.channel))
    check("and takes its socket with it", os.path.exists(h.ctl), False)


h = Host()
try:
    check("mode of the control socket", stat.S_IMODE(os.stat(h.ctl).st_mode), 0o600)
    services(h)
    management(h)
    a, b = channels(h)
    groups(h, a, b)
    c = rights(h, a)
    g = partners(h, a, b)
    versions(h, c)
    meanings(h, c)
    a2 = inherits_nothing(h, a, c)
    restart(a2, g)
    times(h, a2)
    unread(h, a2)
    ends(h)
    print("session: %d checks" % check.done)
finally:
    if h.p.poll() is None:
        h.kill()
    else:
        h.tidy()
