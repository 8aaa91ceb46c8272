"""pieces.py CASES PROGRAM..: runs the program on each script of CASES, its standard input in pieces of each of SIZES, and compares.

The pieces come through a socket that keeps them apart (SOCK_SEQPACKET), so each read of the program brings one piece and no more; 65,536 bytes are as
many as it reads at a time. The format of CASES stands at the head of crates/frames/src/main.rt.
"""
import socket
import subprocess
import sys
import tempfile
import threading

SIZES = (1, 7, 65_536)
LIMIT = 120  # seconds; a program that takes longer is killed, and its status tells


def word(text):
    if text.startswith(b"~") and len(text) >= 3:
        return bytes([int(text[1:3], 16)])
    part, star, times = text.partition(b"*")
    return part * int(times) if star else text


def line(text):
    return b"".join(word(w) for w in text.split(b" ") if w)


def cases(path):
    """The number of the line that ends each script, the script, and what it prints."""
    script = printed = b""
    for number, text in enumerate(open(path, "rb").read().split(b"\n"), 1):
        kind, rest = text[:1], text[1:]
        if kind == b">":
            script += line(rest) + b"\n"
        elif kind == b"!":
            script += line(rest)
        elif kind == b"<":
            printed += line(rest) + b"\n"
        elif kind == b"=":
            yield number, script, printed
            script = printed = b""


def run(program, script, size):
    ours, theirs = socket.socketpair(socket.AF_UNIX, socket.SOCK_SEQPACKET)
    with tempfile.TemporaryFile() as out, tempfile.TemporaryFile() as err:
        running = subprocess.Popen(program, stdin=theirs, stdout=out, stderr=err)
        watch = threading.Timer(LIMIT, running.kill)
        watch.start()
        theirs.close()
        for at in range(0, len(script), size):
            ours.send(script[at:at + size])
        ours.close()
        status = running.wait()
        watch.cancel()
        out.seek(0)
        err.seek(0)
        return status, out.read(), err.read()


def main():
    path, program = sys.argv[1], sys.argv[2:]
    passed = failed = 0
    for number, script, printed in cases(path):
        for size in SIZES:
            if run(program, script, size) == (0, printed, b""):
                passed += 1
            else:
                failed += 1
                print(f"{path}:{number}: not what stands there, in pieces of {size}", file=sys.stderr)
    print(f"{passed} passed, {failed} failed")
    sys.exit(failed != 0 or passed == 0)


main()
