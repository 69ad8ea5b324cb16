#!/usr/bin/env python3
"""tests/shell/terminal.py SHEET TRACE UNIT: the programs at a terminal of their own. Colours where standard output is one, none with
NO_COLOR or on a dumb one, and never in another text than without; JSON has none. The unit speaks in words where both its input
and its output are a terminal, and in lines elsewhere."""
import os, pty, re, select, subprocess, sys, tempfile

sheet, trace, unit = map(os.path.abspath, sys.argv[1:4])
here = os.path.join(os.path.dirname(os.path.abspath(__file__)), "../..")
MARK = re.compile(r"\x1b\[[0-9;]*m")


def at_terminal(words, typed="", stdin=True, stdout=True, **more):
    """What a program writes when its input and output are a terminal, or one of them: all of it, and its status."""
    env = {k: v for k, v in os.environ.items() if k not in ("NO_COLOR", "TERM")}
    env.update({"TERM": "xterm"}, **more)
    main, end = pty.openpty()
    if not stdin or typed:
        subprocess.run(["stty", "-echo"], stdin=end, check=True)
    pipe = subprocess.PIPE
    run = subprocess.Popen(words, stdin=end if stdin else pipe, stdout=end if stdout else pipe, stderr=pipe, env=env)
    os.close(end)
    got = b""
    if stdin and typed:
        os.write(main, typed.encode())
    if not stdin:
        run.stdin.write(typed.encode())
        run.stdin.close()
    while stdout:
        ready, _, _ = select.select([main], [], [], 20)
        try:
            part = os.read(main, 65536) if ready else b""
        except OSError:  # the other end is closed
            part = b""
        if not part:
            break
        got += part
    if not stdout:
        got = run.stdout.read()
    status = run.wait(20)
    err = run.stderr.read().decode()
    os.close(main)
    return got.decode().replace("\r\n", "\n"), status, err


def plain(words, typed=""):
    got = subprocess.run(words, input=typed.encode(), capture_output=True)
    return got.stdout.decode(), got.returncode


checked = 0
with tempfile.TemporaryDirectory() as work:
    os.chdir(work)
    for name in ("before", "after"):
        with open(name, "wb") as out:
            text = os.path.join(here, "examples/accident", name + ".txt")
            subprocess.run([sheet, "make", text], stdout=out, check=True)
    laptop = os.path.join(here, "examples/accident/laptop.hex")
    subprocess.run([trace, "make", "hex", laptop, "t", "--sheet", "before"], check=True, capture_output=True)
    broken = bytearray(open("before", "rb").read())
    broken[47] = 3
    open("broken", "wb").write(broken)
    commands = [[sheet, "check", "before"], [sheet, "check", "broken"], [sheet, "show", "before"], [sheet, "diff", "before", "after"],
                [sheet, "--help"], [sheet, "show", "--help"], [trace, "show", "t"], [trace, "play", "before", "t"],
                [trace, "explain", "before", "t", "--final", "after"], [trace, "make", "--help"]]
    for words in commands:
        text, status = plain(words)
        colours, again, err = at_terminal(words)
        assert "\x1b[" not in text and text, words
        assert "\x1b[" in colours and MARK.sub("", colours) == text, (words, colours)
        assert (again, err) == (status, ""), (words, again, status, err)
        for more in ({"NO_COLOR": "1"}, {"TERM": "dumb"}, {"TERM": ""}):
            assert at_terminal(words, **more)[0] == text, (words, more)
        assert at_terminal(words, NO_COLOR="")[0] == colours, words  # an empty one says nothing
        checked += 1
    for words in ([sheet, "show", "--json", "before"], [trace, "show", "--json", "t"], [sheet, "--version"]):
        assert at_terminal(words)[0] == plain(words)[0], words
    # the bytes of a sheet are nothing for a terminal
    got, status, err = at_terminal([sheet, "make", os.path.join(here, "examples/accident/before.txt")])
    assert (got, status) == ("", 2) and "is no text for a terminal" in err, (got, status, err)

    # the unit: words at a terminal, with a prompt and colours
    typed = "connect\nwrite property 1/51 1250\nnonsence\nquit\nconnect\n"
    said, status, err = at_terminal([unit], typed)
    assert (status, err) == (0, ""), (status, err)
    bare = MARK.sub("", said)
    assert "\x1b[31mrefused (11): needs level 1, has 3\x1b[0m" in said and "\x1b[32mcarried out (1)\x1b[0m" in said, said
    assert bare.startswith("unit of kelindap ") and bare.count("> ") == 4, bare
    assert "outcome  refused (11): needs level 1, has 3\n" in bare and 'no command "nonsence"; help says more\n' in bare, bare
    assert bare.endswith("> "), repr(bare[-20:])
    for more in ({"NO_COLOR": "1"}, {"TERM": "dumb"}):
        assert at_terminal([unit], typed, **more)[0] == bare
    assert at_terminal([unit, "--words"], typed)[0] == said
    # the end of the input ends it too
    said, status, err = at_terminal([unit], "sessions\n\x04")
    assert status == 0 and said.endswith("connection 1: closed\n> \n"), repr(said)
    # lines where either is no terminal, and where they are asked for
    line = "1 1 3 0 3 0 - 02"
    assert plain([unit], "connect 0\n")[0].startswith(line)
    assert at_terminal([unit], "connect 0\n", stdin=False)[0].startswith(line)
    assert at_terminal([unit], "connect 0\n\x04", stdout=False)[0].startswith(line)
    assert at_terminal([unit, "--lines"], "connect 0\n\x04")[0].startswith(line)
    assert plain([unit, "--words"], "connect 0\n")[0] == "  outcome  carried out (1)\n  changed  connection 0: closed → level 3\n"
print("terminal: %d commands with colours and without, the unit in words and in lines" % checked)
