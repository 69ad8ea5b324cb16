"""Starts kelindap-device on a sheet in a folder of its own. DEVICE_PROGRAM and SHEET_PROGRAM name the programs, build/ has them."""
import os
import re
import shutil
import subprocess
import tempfile
import threading
import time

TOP = os.path.realpath(os.path.join(os.path.dirname(os.path.abspath(__file__)), "../.."))
PROGRAM = os.environ.get("DEVICE_PROGRAM", os.path.join(TOP, "build/kelindap-device"))
SHEET_PROGRAM = os.environ.get("SHEET_PROGRAM", os.path.join(TOP, "build/sheet"))


def sheet_of(name):
    """the bytes of a sheet in hosts/"""
    text = open(os.path.join(TOP, "hosts", name)).read()
    return bytes(int(b, 16) for b in re.findall("0x(..)", text))


SHEET = sheet_of("sample_sheet.inc")


class Host:
    def __init__(self, folder=None, sheet=SHEET, more=(), program=PROGRAM, environment=None, before=None, piped=False):
        self.own = folder is None
        self.dir = folder or tempfile.mkdtemp(prefix="kelindap-device-")
        self.sheet = self.dir + "/sheet"
        if not os.path.exists(self.sheet):
            with open(self.sheet, "wb") as f:
                f.write(sheet)
        self.err = open(self.dir + "/log", "a")
        env = dict(os.environ, ASAN_OPTIONS="detect_leaks=0", **(environment or {}))
        self.p = subprocess.Popen([program, self.sheet, "--port", "0", *more], stdout=subprocess.PIPE,
                                  stderr=subprocess.PIPE if piped else self.err, env=env, preexec_fn=before)
        if piped:  # where the host's own files are limited
            threading.Thread(target=self.copy, daemon=True).start()
        line = self.p.stdout.readline().split()
        if not line:
            raise SystemExit("the host does not start: " + self.log())
        self.port, self.ctl = int(line[1]), self.sheet + ".control"

    def copy(self):
        try:
            for line in self.p.stderr:
                os.write(self.err.fileno(), line)
        except ValueError:  # closed at the end
            pass

    def says(self, words, wait=5):
        """whether the log has these words, or gets them soon"""
        end = time.monotonic() + wait
        while words not in self.log() and time.monotonic() < end:
            time.sleep(.02)
        return words in self.log()

    def bytes(self):
        with open(self.sheet, "rb") as f:
            return f.read()

    def log(self):
        with open(self.dir + "/log") as f:
            return f.read()

    def tidy(self):
        self.p.stdout.close()
        self.err.close()
        if self.own:
            shutil.rmtree(self.dir, ignore_errors=True)

    def kill(self):
        self.p.kill()
        self.p.wait()
        self.tidy()

    def end(self):
        self.p.terminate()
        status = self.p.wait(10)
        self.tidy()
        return status
