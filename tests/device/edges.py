"""What is at the edges of the host: its words, a second start, names at which something stands, links, planted files, old and bad
sheets, a full disk, too few descriptors, floods, tunnels that are opened and left."""
import os
import resource
import shutil
import socket
import struct
import subprocess
import tempfile
import time

from client import Checks, Connection, Tunnel, datagram, tell
from start import PROGRAM, SHEET, SHEET_PROGRAM, TOP, Host, sheet_of

check = Checks("edges")
HEIGHT = "03D701331001"
left_out = []


def run(*words, **more):
    r = subprocess.run([PROGRAM, *words], capture_output=True, text=True, timeout=10, **more)
    return r.returncode, r.stdout, r.stderr


def refused(what, status, part, *words):
    """one line on standard error, with this in it, and nothing on standard output"""
    got, out, err = run(*words)
    check(what, (got, out, err.count("\n"), part in err, err.startswith("kelindap-device: ")), (status, "", 1, True, True))


def words():
    text = open(TOP + "/hosts/device/kelindap-device.txt").read()
    check("--help", run("--help"), (0, text, ""))
    check("ctl --help", run("ctl", "--help"), (0, text, ""))
    version = subprocess.run([SHEET_PROGRAM, "--version"], capture_output=True, text=True).stdout.split()[-1]
    check("--version", run("--version"), (0, "kelindap-device of kelindap %s\n" % version, ""))
    for part, line in ((": SHEET is missing;", ()), ('"--prot"', ("s", "--prot", "1")), ('"70000"', ("s", "--port", "70000")), ('"x"', ("s", "--port=x",)),
                       ('"0.0.0.0"', ("s", "--listen", "0.0.0.0")), ('"224.0.0.1"', ("s", "--listen", "224.0.0.1")), ('"lo"', ("s", "--listen", "lo")),
                       ('"--control"', ("s", "--control")), ('"1.1.249"', ("s", "--addresses", "1.1.249")), ('"t"', ("s", "t")),
                       (": SHEET, or --control SOCKET, is missing;", ("ctl",)), (": COMMAND is missing;", ("ctl", TOP)), ('"--x"', ("ctl", "--x", "state")),
                       ('two values of "--port"', ("s", "--port", "1", "--port=2")), ("up to 29 bytes", ("s", "--name", "a" * 30))):
        refused("words " + " ".join(line), 2, part, *line)
    refused("no sheet", 1, "none: can't be read: No such file", "/tmp/none")
    refused("ctl without a sheet", 2, "none: can't be read: No such file", "ctl", "/tmp/none", "state")
    refused("ctl without a host", 2, "no host answers", "ctl", "--control", "/tmp/none", "state")


def ctl(h):
    check("ctl state", [run("ctl", h.sheet, "state")[0], "device 1.1.5" in run("ctl", h.sheet, "state")[1]], [0, True])
    check("ctl by name", run("ctl", "--control", h.ctl, "save"), (0, "ok 1\n", ""))
    check("ctl versions", run("ctl", "--control=" + h.ctl, "versions"), (0, "1\nok\n", ""))
    check("ctl refused", run("ctl", h.sheet, "restore", "1"), (1, "", "refused 35: not open at level 0\n"))
    check("ctl nonsense", run("ctl", h.sheet, "fly")[0], 1)
    refused("ctl with too many words", 2, "too many words", "ctl", h.sheet, *["x" * 20] * 9)
    idle = []
    for _ in range(6):  # whoever holds a place and says nothing makes room
        s = socket.socket(socket.AF_UNIX, socket.SOCK_STREAM)
        s.connect(h.ctl)
        idle.append(s)
    check("ctl beside clients that say nothing", run("ctl", h.sheet, "remove", "1"), (0, "ok\n", ""))
    idle[-1].sendall(b"x" * 300)
    idle[-1].settimeout(2)
    try:
        check("a line that is too long", idle[-1].recv(9), b"")
    except ConnectionResetError:
        pass


def twice(h):
    refused("a second host", 1, "sheet: is served by another program", h.sheet, "--port", "0")
    os.symlink(h.sheet, h.dir + "/link")
    refused("a second host by a link", 1, "link: is served by another program", h.dir + "/link", "--port", "0")
    other = h.dir + "/other"
    shutil.copy(h.sheet, other)
    refused("the other's socket", 1, "is the socket of another program", other, "--port", "0", "--control", h.ctl)
    refused("the other's port", 1, "127.0.0.1:%d: can't be listened on: Address already in use" % h.port, other, "--port", str(h.port))
    refused("no address of this machine", 1, "can't be listened on", other, "--listen", "192.0.2.1")
    check("the first still answers", tell(h.ctl, "state").splitlines()[0], "device 1.1.5 programming off")
    for name in (h.sheet, other, h.dir):
        was = os.lstat(name)
        refused("a socket's name at which something stands", 1, "is there already, and is no socket", other, "--port", "0", "--control", name)
        check("and it stays", os.lstat(name)[:2], was[:2])
    refused("a name that is too long", 1, "is no name for a socket", other, "--port", "0", "--control", h.dir + "/" + "x" * 120)
    refused("a folder that is not there", 1, "can't be listened on: No such file", other, "--port", "0", "--control", h.dir + "/no/socket")


def folder():
    return tempfile.mkdtemp(prefix="kelindap-edges-")


def links():
    """a sheet that is a link stays one; what is planted beside it is not written through"""
    at = folder()
    os.mkdir(at + "/real")
    for name, content in (("real/tank", SHEET), ("victim", b"as it was")):
        with open(at + "/" + name, "wb") as f:
            f.write(content)
    os.symlink("real/tank", at + "/sheet")
    os.symlink(at + "/victim", at + "/real/tank.new")
    h = Host(folder=at)
    h.ctl = at + "/real/tank.control"
    try:
        t = Tunnel(h.port)
        check("a write", t.frame(0x0801, b"\x00\x80\x55", group=True), 0)
        check("the link", (os.readlink(at + "/sheet"), os.path.islink(at + "/real/tank")), ("real/tank", False))
        check("the file", (h.bytes()[68], os.stat(h.sheet).st_mode & 0o777), (0x55, 0o600))
        check("what was planted", open(at + "/victim").read(), "as it was")
        mine = open(at + "/real/tank.new", "wb")  # somebody's own file, open: no key gets into it
        check("a write", t.frame(0x0801, b"\x00\x80\x56", group=True), 0)
        check("a planted file", (os.fstat(mine.fileno()).st_size, h.bytes()[68]), (0, 0x56))
        os.mkdir(at + "/real/tank.new")
        check("not acknowledged", t.frame(0x0801, b"\x00\x80\x57", group=True, wait=.3, tries=1), None)
        check("nor stored", (h.bytes()[68], "can't be saved: Is a directory" in h.log()), (0x56, True))
        os.rmdir(at + "/real/tank.new")
        check("then it is", (t.frame(0x0801, b"\x00\x80\x57", group=True), h.bytes()[68]), (0, 0x57))
    finally:
        h.kill()
        shutil.rmtree(at)


def sheets():
    at = folder()
    name = at + "/sheet"
    with open(name, "wb") as f:
        f.write(b"\x01" + SHEET[1:14] + b"\x03" + SHEET[15:])
    h = Host(folder=at)
    check("an old sheet, in programming mode", (h.bytes(), "was of edition 1: it is converted" in h.log()), (SHEET, True))
    h.kill()
    check("a socket that was left", os.path.exists(h.ctl), True)
    h = Host(folder=at)
    check("is replaced", tell(h.ctl, "versions"), "ok\n")
    h.kill()
    for bad, part in ((SHEET[:-1], "S4, another length than it states"), (b"", "S1, not 32 to"), (bytes(40000), "S1, not 32 to")):
        with open(name, "wb") as f:
            f.write(bad)
        refused("a bad sheet", 1, part, name, "--port", "0")
        check("stays", open(name, "rb").read(), bad)
    with open(name, "wb") as f:
        f.write(SHEET)
    with open(name + ".store", "wb") as f:
        f.write(b"\1" * 16)
    refused("a bad store", 1, "sheet.store: is no good store", name, "--port", "0")
    refused("a folder", 1, "is no file", at, "--port", "0")
    os.mkfifo(at + "/pipe")
    refused("a pipe", 1, "pipe: is no file", at + "/pipe", "--port", "0")
    shutil.rmtree(at)


def notified():
    at = folder()
    s = socket.socket(socket.AF_UNIX, socket.SOCK_DGRAM)
    s.bind(at + "/notify")
    s.settimeout(5)
    h = Host(environment={"NOTIFY_SOCKET": at + "/notify", "JOURNAL_STREAM": "1:2"})
    check("the service manager is told", s.recv(99), b"READY=1")
    check("a journal has the time", h.log().startswith("device 1.1.5 serves on 127.0.0.1:"), True)
    check("ends in order", h.end(), 0)
    check("and told of the end", s.recv(99), b"STOPPING=1")
    shutil.rmtree(at)


def unsaved(h, fill, free):
    """what can't be saved is told, not acknowledged, and has not happened; nothing that was acknowledged is lost"""
    t, o = Tunnel(h.port), Tunnel(h.port)
    c = Connection(t)
    check("level 1", c.ask("03D10022222222").hex(), "03d201")
    check("a height", c.ask(HEIGHT + "0401").hex(), "03d6013310010401")
    while t.get(.1):
        pass
    fill()
    check("a group write is not acknowledged", t.frame(0x0801, b"\x00\x80\x55", group=True, wait=.3, tries=2), None)
    check("nor heard by anybody", (t.get(.1), o.get(.1)), (None, None))
    apdu = bytes.fromhex(HEIGHT + "0402")
    n, t.tries, t.wait = t.tx, 1, .3
    check("nor a height", (c.send(apdu), c.tpdu(.2)), (None, None))
    check("nor a version", tell(h.ctl, "save")[:26], "refused: it can't be saved")
    check("nor the button", tell(h.ctl, "button on")[:26], "refused: it can't be saved")
    check("the file", (h.bytes()[64:69].hex(), h.bytes()[14]), ("0401000000", 2))
    check("it is told", (h.says("can't be saved: "), "unsaved" in tell(h.ctl, "state")), (True, True))
    t.wait, t.tries = 1.0, 2
    check("reading goes on", c.ask("03D501331001").hex(), "03d6013310010401")
    free()
    check("and then it is stored", c.ask(HEIGHT + "0402").hex(), "03d6013310010402")
    check("the file", h.bytes()[64:66].hex(), "0402")
    check("told", (h.says("is saved again"), t.tx != n), (True, True))
    check("a version", tell(h.ctl, "save"), "ok 1\n")


def full_disk():
    h = Host(piped=True)
    size = lambda n: lambda: resource.prlimit(h.p.pid, resource.RLIMIT_FSIZE, (n, resource.RLIM_INFINITY))
    try:
        unsaved(h, size(40), size(resource.RLIM_INFINITY))  # no file gets longer than 40 bytes
    finally:
        h.kill()
    at = folder()
    if os.geteuid() != 0 or subprocess.run(["mount", "-t", "tmpfs", "-o", "size=64k,mode=700", "none", at], capture_output=True).returncode != 0:
        left_out.append("a disk that is full (no tmpfs may be mounted); a limit of files was tried")
        os.rmdir(at)
        return
    try:
        os.mkdir(at + "/real")
        with open(at + "/real/sheet", "wb") as f:
            f.write(SHEET)
        out = folder()
        os.symlink(at + "/real/sheet", out + "/sheet")
        h = Host(folder=out)
        h.ctl = at + "/real/sheet.control"
        try:
            unsaved(h, lambda: filled(at + "/filler"), lambda: os.remove(at + "/filler"))
        finally:
            h.kill()
            shutil.rmtree(out)
    finally:
        subprocess.run(["umount", at])
        os.rmdir(at)


def filled(name):
    """no byte is left"""
    with open(name, "wb", buffering=0) as f:
        for size in (4096, 1):
            try:
                while f.write(bytes(size)):
                    pass
            except OSError:
                pass


def floods():
    """a client above its limit is held back, and another is served all the while"""
    h = Host()
    try:
        loud, quiet = Tunnel(h.port), Tunnel(h.port)
        read = bytes.fromhex("1100bc60000011050103" "00")
        start, taken, held = time.monotonic(), 0, 0
        while held < 20 and time.monotonic() - start < 10:
            got = loud.request(read, wait=.01, tries=1)
            taken, held = taken + (got == 0), held + (got is None)
            loud.inbox.clear()
        check("as many as the limit has", taken <= 201 + 100 * (time.monotonic() - start), True)
        check("another is served", quiet.frame(0x0801, b"\x00\x80\x55", group=True), 0)
        limited = lambda: [int(x.split(" limited ")[1].split()[0]) for x in tell(h.ctl, "state").splitlines() if " limited " in x]
        check("the loud one was held back, and nobody else", [n > 0 for n in limited()], [True, False, True])
        s = socket.socket(socket.AF_INET, socket.SOCK_DGRAM)
        s.bind(("127.0.0.3", 0))
        s.setblocking(False)
        wish = bytes([8, 1]) + bytes(6)
        before, answers = limited()[-1], 0
        for i in range(1000):
            s.sendto(datagram(0x0203, wish), ("127.0.0.1", h.port))
            if i % 20 == 19:
                time.sleep(.005)
                try:
                    while s.recv(99):
                        answers += 1
                except BlockingIOError:
                    pass
        check("questions above the limit", (answers >= 50, answers < 500, limited()[-1] - before > 400), (True, True, True))
        check("who asks from elsewhere is answered", Tunnel(h.port).status, 0)
    finally:
        h.kill()


def left():
    """tunnels that are opened and left take the places until they end (120 s: tunnel_test by its own clock); who has one goes on"""
    h = Host()
    try:
        t = Tunnel(h.port)
        for _ in range(7):
            Tunnel(h.port).s.close()
        check("no more", Tunnel(h.port).status, 0x24)
        check("the one that has a channel goes on", t.frame(0x0801, b"\x00\x80\x11", group=True), 0)
        end = time.monotonic() + 5  # whoever doesn't acknowledge a frame for it is closed after two seconds
        while time.monotonic() < end and tell(h.ctl, "state").count("\nchannel ") > 1:
            t.pump(.2)
        check("those that were left are closed", (tell(h.ctl, "state").count("\nchannel "), Tunnel(h.port).status), (1, 0))
        check("and the first is not", t.state(), bytes([t.channel, 0]))
    finally:
        h.kill()


def own_address():
    """an address that the device gets is no channel's any more"""
    h = Host()
    try:
        a, b, w = Tunnel(h.port), Tunnel(h.port), Tunnel(h.port)
        tell(h.ctl, "button on")
        check("the device gets the address of b's channel", w.frame(0, b"\x00\xC0" + struct.pack(">H", b.address), group=True), 0)
        tell(h.ctl, "button off")
        for t in (a, b, w):
            t.get(.2), t.get(.1)
        c = Connection(a, dst=b.address)
        check("a speaks with the device", c.ask("0300").hex(), "034007b0")
        check("b hears nothing of it", b.get(.2), None)
        b.frame(b.address, b"\x80")
        x = b.get(1)
        check("and does not speak under its address", (x[0], x[2] & 1), (0x2E, 1))
    finally:
        h.kill()


def descriptors():
    """out of descriptors newcomers at the control socket are turned away, and the bus goes on"""
    def limited(n):
        return lambda: resource.setrlimit(resource.RLIMIT_NOFILE, (n, n))

    def crowd(h):
        many = []
        for _ in range(30):
            s = socket.socket(socket.AF_UNIX, socket.SOCK_STREAM)
            s.settimeout(5)
            for _ in range(100):  # its queue may be full
                try:
                    s.connect(h.ctl)
                    break
                except BlockingIOError:
                    time.sleep(.05)
            many.append(s)
        return many
    h = Host(before=limited(16))
    try:
        many = crowd(h)
        t = Tunnel(h.port)
        check("a write is saved", (t.frame(0x0801, b"\x00\x80\x55", group=True), h.bytes()[68]), (0, 0x55))
        for s in many:
            s.close()
        check("and the socket answers again", tell(h.ctl, "versions"), "ok\n")
    finally:
        h.kill()
    at = folder()
    with open(at + "/sheet", "wb") as f:
        f.write(SHEET)
    n = 8  # as few as it starts with: none is left
    while not starts(at, limited(n)):
        n += 1
    h = Host(folder=at, before=limited(n))
    try:
        for s in crowd(h):
            try:
                got = s.recv(1)
            except ConnectionResetError:
                got = b""
            check("turned away", got, b"")
        t = Tunnel(h.port)
        check("the bus goes on", t.frame(0x0801, b"\x00\x00", group=True), 0)
        check("what can't be saved", t.frame(0x0801, b"\x00\x80\x55", group=True, wait=.3, tries=1), None)
        check("is told", "can't be saved: Too many open files" in h.log(), True)
    finally:
        h.kill()
        shutil.rmtree(at)


def starts(at, before):
    """whether the host starts with that limit"""
    p = subprocess.Popen([PROGRAM, at + "/sheet", "--port", "0"], stdout=subprocess.PIPE, stderr=subprocess.DEVNULL, preexec_fn=before)
    line = p.stdout.readline()
    p.kill()
    p.wait()
    p.stdout.close()
    return line.startswith(b"ready")


words()
h = Host()
try:
    ctl(h)
    twice(h)
finally:
    h.kill()
links()
sheets()
notified()
full_disk()
floods()
left()
own_address()
descriptors()
print("edges: %d checks" % check.done)
for what in left_out:
    print("edges: left out: " + what)
