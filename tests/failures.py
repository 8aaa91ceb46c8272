"""failures.py HOW SCRIPT PROGRAM..: runs the program on a script, its standard input or output set up as HOW says; what it prints is printed.

slow-reader: its output is a pipe that does not block, and is read in small parts with pauses.
late-writer: its input is a pipe that does not block, and nothing comes for a while, at first and behind its second line.
open-input: its input is a pipe that stays open behind the script; the program has to end by itself.
lost-line: its input is a terminal's line that fails once the script has come.
tight-pipe: its output is a pipe that does not block, and has room for 12 bytes; a write of more than is left fails, and leaves the room as it is.
"""
import fcntl
import os
import pty
import subprocess
import sys
import threading
import time
import tty

PAUSE = 0.3
F_SETPIPE_SZ = 1031  # of Linux; a name of Python's from 3.10 on
ROOM = 12  # bytes
LIMIT = 120  # seconds; a program that takes longer is killed, and its status tells


def start(program, **streams):
    running = subprocess.Popen(program, **streams)
    watch = threading.Timer(LIMIT, running.kill)
    watch.daemon = True
    watch.start()
    return running


def slow_reader(script, program):
    read, write = os.pipe()
    os.set_blocking(write, False)
    with open(script, "rb") as source:
        running = start(program, stdin=source, stdout=write)
    os.close(write)
    time.sleep(PAUSE)
    for turn in range(1 << 30):
        part = os.read(read, 5_000)
        if not part:
            return running.wait()
        sys.stdout.buffer.write(part)
        if turn % 20 == 0:
            time.sleep(0.01)


def late_writer(script, program):
    read, write = os.pipe()
    os.set_blocking(read, False)
    running = start(program, stdin=read, stdout=subprocess.PIPE)
    os.close(read)
    whole = open(script, "rb").read()
    # The first two lines print one. Once that has come they have been read, and the next read finds nothing.
    front = whole.index(b"\n", whole.index(b"\n") + 1) + 1
    time.sleep(PAUSE)
    os.write(write, whole[:front])
    sys.stdout.buffer.write(running.stdout.readline())
    time.sleep(PAUSE)

    def write_rest():
        part = whole[front:]
        while part:
            part = part[os.write(write, part):]
        os.close(write)

    writer = threading.Thread(target=write_rest, daemon=True)
    writer.start()
    sys.stdout.buffer.write(running.stdout.read())
    return running.wait()


def open_input(script, program):
    read, write = os.pipe()
    running = start(program, stdin=read)
    os.close(read)
    whole = open(script, "rb").read()
    try:
        while whole:
            whole = whole[os.write(write, whole):]
    except BrokenPipeError:
        pass
    return running.wait()


def lost_line(script, program):
    ours, theirs = pty.openpty()
    tty.setraw(theirs)
    os.write(theirs, open(script, "rb").read())
    running = start(program, stdin=ours)
    os.close(ours)
    os.close(theirs)
    return running.wait()


def tight_pipe(script, program):
    read, write = os.pipe()
    filled = fcntl.fcntl(write, F_SETPIPE_SZ, 4_096) - ROOM
    os.write(write, b"." * filled)
    os.set_blocking(write, False)
    with open(script, "rb") as source:
        running = start(program, stdin=source, stdout=write)
    os.close(write)
    status = running.wait()
    with open(read, "rb") as printed:
        sys.stdout.buffer.write(printed.read()[filled:])
    return status


def main():
    how, script, program = sys.argv[1], sys.argv[2], sys.argv[3:]
    ways = {"slow-reader": slow_reader, "late-writer": late_writer, "open-input": open_input, "lost-line": lost_line, "tight-pipe": tight_pipe}
    status = ways[how](script, program)
    sys.stdout.flush()
    sys.exit(status)


main()
