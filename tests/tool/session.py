"""Every command of kelindap-tool as a person gives it, against kelindap-device on the loopback: what it says, its status, what then
stands in the file; keys, which nobody may see; the terminal; signals; recordings, which kelindap-trace explains; a full disk.

    session.py [units | around]        one half of it: the requests, or all around them"""
import os
import pty
import re
import select
import signal
import subprocess
import sys
import time

TOP = os.path.realpath(os.path.join(os.path.dirname(os.path.abspath(__file__)), "../.."))
sys.path.insert(0, os.path.join(TOP, "tests/device"))
from client import Checks, tell  # noqa: E402
from start import Host  # noqa: E402

TOOL = os.environ.get("TOOL_PROGRAM", os.path.join(TOP, "build/kelindap-tool"))
SHEET = os.path.join(TOP, "build/sheet")
TRACE = os.path.join(TOP, "build/trace")
check = Checks("session")

TEXT = """edition 2
serial 00c501020304
mask 07b0
programming off
verify on
address 1.1.5
key 0 5a17c0de
key 1 22222222
key 2 ffffffff
region 0100h r3 w2
    a0 a1 a2 a3
region 0200h r1 w1
    00 01 02 03 04 05 06 07 08 09 0a 0b 0c 0d 0e 0f 10
property 0/11 type 22 size 6 maximum 1 count 1 r3 w0
    00c501020304h
property 1/51 type 4 writable size 2 maximum 3 count 1 r3 w1
    1000
property 1/52 type 9 writable size 4 maximum 1 count 1 r1 w1
    70000
property 1/53 type 2 size 1 maximum 12 count 12 r3 w0
    1 2 3 4 5 6 7 8 9 10 11 12
property 2/7 type 19 writable size 3 maximum 1 count 1 r3 w3
    010203h
group 1/0/1 code 1 read write
    00
group 1/0/2 code 2 read write
    00 00
group 1/0/3 code 4 read write
    00 00 00 00
group 1/0/4 code 0 read write
    00
user 0000h r3 w1
    07 08
end
"""


def sheet_of(text):
    made = subprocess.run([SHEET, "make", "-"], input=text.encode(), capture_output=True)
    assert made.returncode == 0, made.stderr
    return made.stdout


class Tool:
    """the program with its words: what it says on both, and its status; and all that it ever said"""
    def __init__(self, host, folder):
        self.via, self.dir, self.all = "127.0.0.1:%d" % host.port, folder, ""

    def __call__(self, words, *more):
        r = subprocess.run([TOOL, *words.split(), *more, "--via", self.via], capture_output=True, text=True, cwd=self.dir, timeout=60,
                           stdin=subprocess.DEVNULL, start_new_session=True)
        said = r.stdout + r.stderr
        self.all += said
        return said, r.returncode


def key(folder, name, digits, mode=0o600):
    with open(os.path.join(folder, name), "w") as f:
        f.write(digits + "\n")
    os.chmod(os.path.join(folder, name), mode)


def properties(tool):
    check("read", tool("read 1.1.5 1/51"), ("1000\n", 0))
    check("read as hex", tool("read 1.1.5 1/51 --hex"), ("03 e8\n", 0))
    check("read in batches", tool("read 1.1.5 1/53"), ("".join("%d\n" % n for n in range(1, 13)), 0))
    check("some of them", tool("read 1.1.5 1/53 --from 11 --count 2"), ("11\n12\n", 0))
    check("the count", tool("read 1.1.5 1/53 --from 0"), ("12\n", 0))
    check("three bytes", tool("read 1.1.5 2/7"), ("01 02 03\n", 0))
    check("no such", tool("read 1.1.5 1/99"), ("refused: there is no property 1/99\n", 1))
    check("above the count", tool("read 1.1.5 1/51 --from 2"), ("refused: it has 1 element now, and element 2 was asked for\n", 1))
    check("above the room", tool("read 1.1.5 1/51 --from 4"), ("refused: it has room for 3 elements, and element 4 was named\n", 1))
    check("no right", tool("read 1.1.5 1/52"), ("refused: level 3, the description says that reading needs level 1\n", 1))
    check("with the key", tool("read 1.1.5 1/52 --key-file key"), ("70000\n", 0))
    check("write", tool("write 1.1.5 1/51 1250"), ("refused: level 3, the description says that writing needs level 1\n", 1))
    check("read as before", tool("read 1.1.5 1/51"), ("1000\n", 0))
    check("with the key", tool("write 1.1.5 1/51 1250 --key-file key"), ("property 1/51 element 1: 1000 → 1250\nread back: 1250\n", 0))
    check("two", tool("write 1.1.5 1/51 1300 1400 --from 2 --key-file key"),
          ("property 1/51 element 2: not there → 1300\nread back: 1300\nproperty 1/51 element 3: not there → 1400\nread back: 1400\n", 0))
    check("one too many", tool("write 1.1.5 1/51 1 --from 4 --key-file key"), ("refused: it has room for 3 elements, and element 4 was named\n", 1))
    check("not writable", tool("write 1.1.5 1/53 1 --key-file key"), ("refused: the description says that it can't be written\n", 1))
    check("in hex", tool("write 1.1.5 2/7 a0b0c0"), ("property 2/7 element 1: 01 02 03 → a0 b0 c0\nread back: a0 b0 c0\n", 0))
    check("the count", tool("write 1.1.5 1/51 0 --from 0 --key-file key"), ("property 1/51 count: 3 → 0\nread back: 0\n", 0))
    check("none is left", tool("read 1.1.5 1/51"), ("", 0))
    check("and anew", tool("write 1.1.5 1/51 1000 --key-file key"), ("property 1/51 element 1: not there → 1000\nread back: 1000\n", 0))
    check("too large", tool("write 1.1.5 1/51 65536 --key-file key"), ('kelindap-tool: a value is no number up to 65535: "65536"\n', 2))
    check("describe", tool("describe 1.1.5 1/51"), ("property 1/51 type 4 writable maximum 3 r3 w1\n", 0))
    said, status = tool("describe 1.1.5 1")
    check("describe an object", (len(said.splitlines()), status), (3, 0))
    check("describe nothing", tool("describe 1.1.5 1/99"), ("refused: there is no property 1/99\n", 1))


def memories(tool):
    check("memory", tool("memory read 1.1.5 0100h 4"), ("0100h  a0 a1 a2 a3\n", 0))
    check("in two requests", tool("memory read 1.1.5 512 17 --key-file key"),
          ("0200h  00 01 02 03 04 05 06 07 08 09 0a 0b 0c 0d 0e 0f\n0210h  10\n", 0))
    check("refused", tool("memory read 1.1.5 0200h 1"),
          ("refused: reading memory at 0200h at level 3; memory has no description that says why\n", 1))
    check("write", tool("memory write 1.1.5 0101h bb cc --key-file key"), ("memory 0101h: a1 a2 → bb cc\nread back: bb cc\n", 0))
    check("write refused", tool("memory write 1.1.5 0101h 00"),
          ("refused: writing memory at 0101h at level 3; memory has no description that says why\n", 1))
    check("user memory", tool("user-memory read 1.1.5 0 2"), ("0000h  07 08\n", 0))
    check("user write", tool("user-memory write 1.1.5 1 09 --key-file key"), ("user memory 0001h: 08 → 09\nread back: 09\n", 0))
    check("user refused", tool("user-memory write 1.1.5 1 09"),
          ("refused: writing user memory at 0001h at level 3; memory has no description that says why\n", 1))


def groups(tool):
    for to, kind, value, said in (("1/0/1", "5", "200", "200"), ("1/0/2", "9", "21.5", "21.50"), ("1/0/2", "9.001", "-3", "-3.00"),
                                  ("1/0/3", "14", "1.5", "1.5"), ("1/0/4", "1", "on", "on")):
        check("group write", tool("group write %s %s %s" % (to, kind, value)), ("%s is sent %s\n" % (to, said), 0))
        check("group read", tool("group read %s %s" % (to, kind)), ("%s  # from 1.1.5\n" % said, 0))
    check("another type", tool("group read 1/0/1 9"),
          ("kelindap-tool: 1.1.5 answers c8, which is no value of type 9: it has another number of bytes\n", 2))
    check("a wrong value", tool("group write 1/0/2 9 warm"), ('kelindap-tool: no value of type 9, a number as 21.5: "warm"\n', 2))


def others(h, tool):
    check("descriptor", tool("descriptor 1.1.5"), ("07b0\n", 0))
    check("behind address translation", tool("descriptor 1.1.5 --nat"), ("07b0\n", 0))
    check("nobody", tool("descriptor 1.1.6"), ("kelindap-tool: 1.1.6: nobody has this address\n", 2))
    check("restart", tool("restart 1.1.5"), ("1.1.5 restarts\n", 0))
    check("scan", tool("scan 1.1"), ("1.1.5  mask 07b0  serial 00c501020304\n", 0))
    check("nobody programs", tool("address"), ("kelindap-tool: nobody in programming mode answers\n", 2))
    check("the serial", tool("address --serial 00c501020304"), ("1.1.5\n", 0))
    tell(h.ctl, "button on")
    check("who", tool("address"), ("1.1.5\n", 0))
    check("a new address", tool("address --set 1.1.9"), ("1.1.5 → 1.1.9\nread back: 1.1.9\n", 0))
    check("by the serial", tool("address --serial 00c501020304 --set 1.1.5"), ("1.1.9 → 1.1.5\nread back: 1.1.5\n", 0))
    said, status = tool("readout 1.1.5 --reference sheet")
    lines = said.splitlines()
    check("readout", (status, lines[:4], lines[-1]), (0, ["unit 1.1.5", "level 3", "mask 07b0", "serial 00c501020304"], "end"))
    check("what may not be read", ("region 0200h length 17 refused" in said, "maximum 1 refused r1 w1" in said), (True, True))
    said, status = tool("readout 1.1.5 --reference sheet --key-file key")
    check("with the key", (status, "refused" in said, "    70000" in said), (0, False, True))
    said, status = tool("survey 1.1.5 --reference sheet --key-file wrong")
    check("with a wrong key", (status, "1.1.5: the key gives level 3, which everybody has" in said), (1, True))
    said, status = tool("survey 1.1.5 --reference sheet --key-file key")
    check("nothing deviates", (status, "1 unit beside sheet: 1 read, 0 not read" in said, "units that were read in part: none" in said), (1, True, True))
    check("but what is open to all", "open to all, write level 3\n     1  property 2/7\n" in said, True)


def keys(h, tool):
    check("authorize", tool("authorize 1.1.5 --key-file key"), ("level 1\n", 0))
    check("a wrong key", tool("authorize 1.1.5 --key-file wrong"), ("refused: the key gives level 3, which everybody has\n", 1))
    check("a file that others read", tool("authorize 1.1.5 --key-file open"),
          ("kelindap-tool: open: mode 644: others may read or write it, so it is not taken: chmod 600 open\n", 2))
    check("no key", tool("authorize 1.1.5 --key-file text"), ("kelindap-tool: text: no key: eight hex digits are one\n", 2))
    check("no terminal", tool("authorize 1.1.5")[1], 2)
    check("key refused", tool("key 1.1.5 0 --key-file key --new-key-file new"),
          ("refused: level 1, and the key of level 0 needs level 0 or less\n", 1))
    check("key", tool("key 1.1.5 1 --key-file key --new-key-file new"), ("key of level 1 changed\noffered: it gives level 1\n", 0))
    check("the old one gives nothing", tool("authorize 1.1.5 --key-file key")[1], 1)
    check("and back", tool("key 1.1.5 1 --key-file new --new-key-file key"), ("key of level 1 changed\noffered: it gives level 1\n", 0))
    check("where none is offered", tool("scan 1.1 --key-file key"), ("kelindap-tool: scan offers no key, and one is named\n", 2))
    check("no argument takes one", tool("authorize 1.1.5 22222222")[1], 2)


def on_terminal(tool, words, *typed):
    """at a terminal: all that it shows, and the status"""
    pid, fd = pty.fork()
    if pid == 0:
        os.chdir(tool.dir)
        os.environ["TERM"] = "dumb"
        os.execv(TOOL, [TOOL, *words.split(), "--via", tool.via])
    shown, end, left = b"", time.monotonic() + 30, list(typed)
    while time.monotonic() < end:
        if not select.select([fd], [], [], .1)[0]:
            continue
        try:
            got = os.read(fd, 4096)
        except OSError:
            break
        shown += got
        if left and shown.endswith(b": "):
            os.write(fd, left.pop(0) + b"\n")
    status = os.waitstatus_to_exitcode(os.waitpid(pid, 0)[1])
    os.close(fd)
    tool.all += shown.decode()
    return shown.decode().replace("\r\n", "\n"), status


def terminal(tool):
    check("asked without echo", on_terminal(tool, "authorize 1.1.5", b"22222222"), ("key: \nlevel 1\n", 0))
    check("with --ask-key", on_terminal(tool, "read 1.1.5 1/52 --ask-key", b"22222222"), ("key: \n70000\n", 0))
    check("a new key, twice", on_terminal(tool, "key 1.1.5 1 --key-file key", b"22222222", b"22222223"),
          ("new key: \nonce more: \nkelindap-tool: the two differ, and nothing is written\n", 2))
    check("ended while it asks", on_terminal(tool, "authorize 1.1.5", b"\x03"), ("key: \nkelindap-tool: interrupted\n", 2))
    said, status = on_terminal(tool, "survey 1.1.1-60 --reference sheet")
    check("progress with an estimate", (bool(re.search(r"survey: \d+ of 60, \d+ of 60 read, \d+ without, some \d+ s more", said)), status), (True, 1))


def recorded(h, tool):
    """a recording explains what happened: with the keys, who; without them it says that it does not know"""
    with open(tool.dir + "/before", "wb") as f:
        f.write(h.bytes())
    check("recorded", tool("write 1.1.5 1/51 1250 --key-file key --record one.hex --record-keys")[1], 0)
    check("refused on record", tool("write 1.1.5 1/51 1260 --record two.hex")[1], 1)
    with open(tool.dir + "/after", "wb") as f:
        f.write(h.bytes())
    check("without keys", tool("write 1.1.5 1/51 1270 --key-file key --record three.hex")[1], 0)
    check("not over a file", tool("descriptor 1.1.5 --record three.hex"), ("kelindap-tool: three.hex: File exists (os error 17)\n", 2))
    for name in ("one.hex", "two.hex", "three.hex"):
        check("mode of " + name, os.stat(os.path.join(tool.dir, name)).st_mode & 0o777, 0o600)
    read = {name: open(os.path.join(tool.dir, name)).read() for name in ("one.hex", "two.hex", "three.hex")}
    check("keys", ["22222222" in read[name] for name in read], [True, False, False])

    def trace(*words):
        r = subprocess.run([TRACE, *words], capture_output=True, text=True, cwd=tool.dir)
        return r.stdout + r.stderr, r.returncode
    with open(tool.dir + "/all.hex", "w") as f:
        f.write(read["one.hex"] + read["two.hex"])
    check("trace reads it", trace("make", "hex", "all.hex", "all.trace", "--sheet", "before")[1], 0)
    said, status = trace("explain", "--final", "after", "before", "all.trace")
    check("trace explains it", ("property 1/51 element 1: 1000 → 1250\n  by event 4" in said, "not sure" in said,
                                "after is what the events give, byte by byte" in said, status), (True, False, True, 0))
    check("without the key too", trace("make", "hex", "three.hex", "three.trace", "--sheet", "after")[1], 0)
    said, status = trace("explain", "after", "three.trace")
    check("and says what it does not know", "recording and device part at event 2" in said, True)


def example_in_c(h, tool):
    """examples/height.c, on the same bus"""
    program = os.environ.get("HEIGHT_PROGRAM", os.path.join(TOP, "build/height"))

    def height(*words):
        r = subprocess.run([program, "127.0.0.1", str(h.port), "1.1.5", *words], capture_output=True, text=True, cwd=tool.dir, timeout=60)
        return r.stdout + r.stderr, r.returncode
    check("it is refused", height("write", "wrong", "1300"), ("height: the unit refuses\n", 1))
    check("heard with the key", height("write", "key", "1300"), ("1300\n", 0))
    check("and reads", height("read"), ("1300\n", 0))
    check("as the tool does", tool("read 1.1.5 1/51 --from 1"), ("1300\n", 0))
    check("no such file", height("write", "none", "1300"), ("height: no key in the file\n", 2))
    r = subprocess.run([program, "127.0.0.1", "1", "1.1.5", "read"], capture_output=True, text=True, timeout=60)
    check("no such interface", (r.stderr, r.returncode), ("height: nobody listens there\n", 2))


def signals(h, tool):
    """ended by a signal it closes what it opened"""
    for number in (signal.SIGINT, signal.SIGTERM):
        p = subprocess.Popen([TOOL, "scan", "1.1", "--via", tool.via], stdout=subprocess.PIPE, stderr=subprocess.PIPE, text=True)
        time.sleep(.7)
        p.send_signal(number)
        said = p.communicate(timeout=10)
        check("ends", (said, p.returncode), (("", "kelindap-tool: interrupted\n"), 2))
    state = tell(h.ctl, "state")
    check("no channel is left, and no connection", re.findall(r"^(?:channel|connection) .*", state, re.M), [])
    log = h.log()
    check("each was closed by its client", log.count("is opened by"), log.count("ends: its client closes it"))
    check("no connection was left to a time limit", ("is disconnected" in log, "is gone" in log), (False, False))


def full_disk(h, tool):
    """a folder in which no file may grow: told of the unit, and the report is there"""
    words = "ulimit -f 0; exec %s survey 1.1.5 1.1.6 --reference sheet --into kept --via %s" % (TOOL, tool.via)
    r = subprocess.run(["bash", "-c", words + " | cat"], capture_output=True, text=True, cwd=tool.dir)
    check("told by unit", "1.1.5: read, and not kept in kept: File too large" in r.stdout, True)
    check("nothing is left", os.listdir(os.path.join(tool.dir, "kept")), [])
    small = os.path.join(tool.dir, "small")
    os.mkdir(small)
    if subprocess.run(["mount", "-t", "tmpfs", "-o", "size=16k", "none", small], capture_output=True).returncode != 0:
        print("session: left out: a disk that is full, for no tmpfs may be mounted")
    else:
        try:
            with open(small + "/fill", "wb", buffering=0) as f:
                try:
                    while f.write(b"x" * 4096):
                        pass
                except OSError:
                    pass
            said, status = tool("survey 1.1.4-6 --reference sheet --into small")
            check("a full disk", ("1.1.5: read, and not kept in small: No space left on device" in said, "1 read, 2 not read" in said, status),
                  (True, True, 1))
            os.remove(small + "/fill")
            tool("survey 1.1.5 --reference sheet --into small")
            check("with room it is kept", os.listdir(small), ["1.1.5.readout"])
        finally:
            subprocess.run(["umount", small], check=True)
    r = subprocess.run(["bash", "-c", "ulimit -f 0; exec %s descriptor 1.1.5 --record full.hex --via %s" % (TOOL, tool.via)],
                       capture_output=True, text=True, cwd=tool.dir)
    check("a recording with a gap", (r.returncode, "full.hex: File too large" in r.stderr), (2, True))


def examples(h, tool):
    """each example of the man page, in its order, on this bus; every command has one"""
    text = open(os.path.join(TOP, "tools/tool/kelindap-tool.txt")).read()
    part = text.split("\nEXAMPLES\n")[1].split("\nEXIT STATUS\n")[0]
    all = re.findall(r"^    (kelindap-tool .*)$", part, re.M)
    there = {words.replace("--via 10.0.0.7:3671 ", "").split()[1] for words in all}
    commands = set(re.findall(r"^    kelindap-tool ([a-z][a-z-]+) ", text.split("\nDESCRIPTION\n")[0], re.M))
    check("an example of each", (len(commands), commands - there), (14, set()))
    with open(os.path.join(tool.dir, "tank.sheet"), "wb") as f:
        f.write(h.bytes())
    for words in all:
        words = words.replace("--via 10.0.0.7:3671 ", "").split(None, 1)[1]
        # where a bus of four hundred is meant, there is one of a dozen addresses
        said, status = tool(words.replace("1.1.1-200 1.2.1-200", "1.1.1-12"))
        check("example: " + words, (status, said != "", "kelindap-tool:" in said), (1 if "survey" in words else 0, True, False))
        if words.startswith("key "):
            check("the key is put back", tool("key 1.1.5 1 --key-file new --new-key-file key")[1], 0)
    check("a word from the man page", "→ 1250" in tool.all, True)


def main(part):
    h = Host(sheet=sheet_of(TEXT))
    try:
        with open(h.dir + "/before", "wb") as f:
            f.write(h.bytes())
        tool = Tool(h, h.dir)
        for name, digits, mode in (("key", "22222222", 0o600), ("wrong", "33333333", 0o400), ("open", "22222222", 0o644),
                                   ("text", "two keys", 0o600), ("new", "44444444", 0o600)):
            key(h.dir, name, digits, mode)
        if part in ("", "units"):
            properties(tool)
            memories(tool)
            groups(tool)
            others(h, tool)
        if part in ("", "around"):
            keys(h, tool)
            terminal(tool)
            recorded(h, tool)
            full_disk(h, tool)
            examples(h, tool)
            example_in_c(h, tool)
        signals(h, tool)
        shown = [k for k in ("22222222", "33333333", "44444444", "5a17c0de") if k in tool.all.replace("22222222\"; kelindap", "")]
        check("no key is shown", [k for k in shown if k != "22222222" or tool.all.count(k) > 1], [])
        print("session: %d checks%s" % (check.done, part and ", " + part))
    finally:
        if h.p.poll() is None:
            h.p.terminate()
            h.p.wait(10)
        h.tidy()


main(sys.argv[1] if len(sys.argv) > 1 else "")
