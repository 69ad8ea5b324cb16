"""The tool and outside software: through knxd's own tunnelling server to kelindap-device behind it, knxd being its client; and tshark,
where it may capture, as the judge of every datagram on both sides.

    meet.py        needs knxd; says what it leaves out"""
import os
import shutil
import socket
import subprocess
import sys
import time

TOP = os.path.realpath(os.path.join(os.path.dirname(os.path.abspath(__file__)), "../.."))
sys.path.insert(0, os.path.join(TOP, "tests/device"))
from client import Checks  # noqa: E402
from start import Host  # noqa: E402

TOOL = os.environ.get("TOOL_PROGRAM", os.path.join(TOP, "build/kelindap-tool"))
check = Checks("meet")


def until(what, true, wait=10):
    end = time.monotonic() + wait
    while not true():
        if time.monotonic() > end:
            raise SystemExit("meet: %s: not within %d s" % (what, wait))
        time.sleep(.05)


def free_port():
    with socket.socket(socket.AF_INET, socket.SOCK_DGRAM) as s:
        s.bind(("127.0.0.1", 0))
        return s.getsockname()[1]


def commands(h, port):
    def tool(words):
        r = subprocess.run([TOOL, "--via", "127.0.0.1:%d" % port, *words.split()], capture_output=True, text=True, cwd=h.dir, timeout=60)
        return r.stdout + r.stderr, r.returncode
    check("descriptor", tool("descriptor 1.1.5"), ("07b0\n", 0))
    check("read", tool("read 1.1.5 1/51"), ("1000\n", 0))
    check("refused", tool("write 1.1.5 1/51 1250"), ("refused: level 3, the description says that writing needs level 1\n", 1))
    check("heard", tool("write 1.1.5 1/51 1250 --key-file key"), ("property 1/51 element 1: 1000 → 1250\nread back: 1250\n", 0))
    check("the file has it", h.bytes()[64:66], (1250).to_bytes(2, "big"))
    check("memory", tool("memory write 1.1.5 0100h aa --key-file key"), ("memory 0100h: a0 → aa\nread back: aa\n", 0))
    check("group write", tool("group write 1/0/1 5 77"), ("1/0/1 is sent 77\n", 0))
    until("the group value is there", lambda: h.bytes()[68] == 77)
    check("group read", tool("group read 1/0/1 5"), ("77  # from 1.1.5\n", 0))
    check("describe", tool("describe 1.1.5 1"), ("property 1/51 type 4 writable maximum 2 r3 w1\n", 0))
    said, status = tool("survey 1.1.5 --reference before --bound 200")
    check("survey", (status, "1 units" in said or "1 unit beside before: 1 read, 0 not read" in said,
                     "1.1.5: property 1/51 element 1 is 1250, 250 above the reference's 1000" in said), (1, True, True))
    said, status = tool("readout 1.1.5 --reference before")
    check("readout", (status, "    1250\n" in said, said.endswith("end\n")), (0, True, True))


def judged(ports, capture):
    """every datagram is read without a complaint"""
    read = ["tshark", "-r", capture]
    for port in ports:
        read += ["-d", "udp.port==%d,kip" % port]
    fields = ("udp.payload", "frame.protocols", "_ws.expert")
    said = subprocess.run(read + ["-T", "fields"] + [w for f in fields for w in ("-e", f)], capture_output=True, text=True)
    check("tshark's fields", said.returncode, 0)
    rows = [row.split("\t") for row in said.stdout.splitlines()]
    # knxd's own answers to a search lack a service, which tshark tells; nobody searches here
    bad = [r for r in rows if len(r) < 3 or r[2] or "malformed" in r[1] or "kip" not in r[1]]
    check("tshark reads all as KNXnet/IP", (len(rows) > 200, bad), (True, []))
    print("meet: tshark reads %d datagrams without a complaint" % len(rows))


def main():
    if shutil.which("knxd") is None:
        print("meet: left out: there is no knxd here (Debian: knxd)")
        return
    h, started = Host(), []

    def run(*words):
        p = subprocess.Popen(words, stdout=open(h.dir + "/said", "a"), stderr=subprocess.STDOUT)
        started.append(p)
        return p
    try:
        with open(h.dir + "/before", "wb") as f:
            f.write(h.bytes())
        with open(h.dir + "/key", "w") as f:
            f.write("22222222\n")
        os.chmod(h.dir + "/key", 0o600)
        port = free_port()
        capture, shark = h.dir + "/capture.pcap", None
        if shutil.which("tshark") is not None:
            shark = run("tshark", "-q", "-i", "lo", "-f", "udp port %d or udp port %d" % (h.port, port), "-w", capture)
            try:
                until("tshark", lambda: os.path.exists(capture) and os.path.getsize(capture) > 0 or shark.poll() is not None)
                time.sleep(.5)
            except SystemExit:
                pass
            if shark.poll() is not None:
                shark = None
        run("knxd", "-e", "1.1.250", "-E", "1.1.200:10", "-D", "-T", "-I", "lo", "-S", "224.0.23.12:%d" % port,
            "-b", "ipt:127.0.0.1:%d" % h.port)
        until("knxd has a channel", lambda: "is opened by" in h.log())
        time.sleep(.3)
        commands(h, port)
        print("meet: through knxd to kelindap-device: %d checks" % check.done)
        if shark is None:
            print("meet: left out: tshark is not installed, or may not capture")
        else:
            time.sleep(1)
            shark.terminate()
            shark.wait()
            judged((h.port, port), capture)
    finally:
        for p in started:
            if p.poll() is None:
                p.kill()
            p.wait()
        h.kill()


main()
