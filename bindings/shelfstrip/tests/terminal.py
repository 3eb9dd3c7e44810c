#!/usr/bin/env python3
"""Runs shelfstrip on a terminal of its own: the progress bar, colours, and bytes that are no text.
usage: terminal.py PROGRAM"""
import fcntl, os, struct, subprocess, sys, tempfile, termios

PROGRAM = os.path.abspath(sys.argv[1])
BAR = b" of 200 files"


def read_all(terminal):
    """All that comes to a terminal until its last writer has closed it."""
    told = b""
    while True:
        try:
            part = os.read(terminal, 65536)
        except OSError:
            return told
        if not part:
            return told
        told += part


def on_terminal(stream, *arguments, **variables):
    """Runs the program with one stream on a terminal of 100 columns: its exit status, and what came there."""
    ours, theirs = os.openpty()
    fcntl.ioctl(theirs, termios.TIOCSWINSZ, struct.pack("HHHH", 24, 100, 0, 0))
    streams = dict.fromkeys(("stdin", "stdout", "stderr"), subprocess.DEVNULL)
    streams[stream] = theirs
    environment = {name: value for name, value in os.environ.items() if name != "NO_COLOR"}
    environment.update(TERM="xterm", **variables)
    child = subprocess.Popen([PROGRAM, *arguments], env=environment, **streams)
    os.close(theirs)
    told = read_all(ours)
    os.close(ours)
    return child.wait(), told


def scripts(folder):
    """The names of 200 scripts; the last is refused."""
    names = [os.path.join(folder, f"{number}.strip") for number in range(200)]
    for name in names:
        with open(name, "w") as file:
            file.write("preset fadein" if name == names[-1] else "at 1")
    return names


def main():
    with tempfile.TemporaryDirectory() as folder:
        names = scripts(folder)
        status, told = on_terminal("stderr", "check", *names)
        assert status == 1 and BAR in told and b"error[24]" in told.replace(b"\x1b[0m", b""), told
        status, told = on_terminal("stderr", "morning", *names)
        assert status == 1 and BAR in told, told
        # few files have no bar
        assert on_terminal("stderr", "check", *names[:5]) == (0, b"")
        # the bar is on standard error alone
        assert BAR not in on_terminal("stdout", "check", *names)[1]
        status, told = on_terminal("stderr", "check", names[-1])
        assert status == 1 and b"\x1b[" in told, told
        status, told = on_terminal("stderr", "check", names[-1], NO_COLOR="1")
        assert status == 1 and b"\x1b[" not in told, told
        # bytes that are no text do not go to a terminal
        assert on_terminal("stdout", "plane", names[0]) == (2, b"")
    print("shelfstrip on a terminal: 7 passed")


main()
