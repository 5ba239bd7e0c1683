#!/usr/bin/env python3
"""Runs the wire program on awkward inputs and compares its answers: tests/wire.py [PROGRAM].

PROGRAM is crates/wire/out/wire where none is given, which `rt ci` leaves there, and `rt run` in
crates/wire. The last line says how many cases agree; the exit status is 1 if one does not.
"""
import contextlib
import os
import random
import re
import resource
import select
import shlex
import signal
import socket
import subprocess
import sys
import tempfile
import time

HERE = os.path.dirname(os.path.dirname(os.path.abspath(__file__)))
WIRE = os.path.abspath(sys.argv[1]) if len(sys.argv) > 1 else os.path.join(HERE, "crates/wire/out/wire")
LIMIT = 60  # seconds that a case may take
FRAME = re.compile(rb"0[12][0-9a-f]{32}|03[0-9a-f]{48}|0[46][0-9a-f]{16}|05|07[0-9a-f]{64}")
NUMBERS = {1: 2, 2: 2, 3: 3, 4: 1, 5: 0, 6: 1, 7: 4}  # how many each call has


def line(number, *values):
    return ("%02x" % number + "".join("%016x" % v for v in values) + "\n").encode()


BAD = line(0xFF, 0, 0)
UNOPENED = line(3, 0, 0)
OPEN = line(1, 0x1000, 0x10000)
OPENED = line(0, 0x1000, 0x10000)


def listed(*holes):
    """The answer to list."""
    return line(0, len(holes), sum(size for _, size in holes)) + b"".join(line(0x20, *hole) for hole in holes)


def stored(name):
    with open(os.path.join(HERE, "crates/wire", name), "rb") as f:
        return f.read()


def check(got, expected):
    if got == expected:
        return
    a, b = got.split(b"\n"), expected.split(b"\n")
    at = next((i for i, (x, y) in enumerate(zip(a, b)) if x != y), min(len(a), len(b)))
    show = lambda lines: lines[at][:60] if at < len(lines) else "no line"
    raise AssertionError(f"line {at + 1} is {show(a)}, not {show(b)}")


def run(data, **options):
    """What the program prints on data, which it reads from a file."""
    with tempfile.TemporaryFile() as f:
        f.write(data)
        f.seek(0)
        done = subprocess.run([WIRE], stdin=f, stdout=subprocess.PIPE, **options)
    assert done.returncode == 0, f"exit status {done.returncode}"
    return done.stdout


def pieces(parts):
    """What it prints if each read gives one of the parts."""
    ours, its = socket.socketpair(socket.AF_UNIX, socket.SOCK_SEQPACKET)
    with tempfile.TemporaryFile() as out:
        with started(stdin=its, stdout=out) as p:
            its.close()
            for part in parts:
                ours.send(part)
            ours.close()
            assert p.wait() == 0, f"exit status {p.returncode}"
        out.seek(0)
        return out.read()


def cut(data, size):
    return [data[i : i + size] for i in range(0, len(data), size)]


def heard(pipe, length, wait=None):
    """The next bytes of a pipe, fewer than length if it ends or no more come in time."""
    got = b""
    while len(got) < length and select.select([pipe], [], [], wait)[0]:
        more = os.read(pipe.fileno(), length - len(got))
        if not more:
            break
        got += more
    return got


@contextlib.contextmanager
def started(**options):
    p = subprocess.Popen([WIRE], bufsize=0, **options)
    try:
        yield p
    finally:
        p.kill()
        p.wait()


PIPE = subprocess.PIPE

# ---- lines: input, answers

ALLOCATE = line(2, 24, 8)
FREE = line(3, 0x1000, 24, 8)
RESIZE = line(7, 0x1000, 24, 8, 48)
STATE = OPEN + ALLOCATE
STATED = OPENED + line(0, 0x1000, 1)
LIST = listed((0x1018, 0x10000 - 24))
ROOM = line(6, 1)
ALL = (OPEN, ALLOCATE, FREE, line(4, 0), b"05\n", ROOM, RESIZE)

# the room report: frames and their answers, on a heap of 152 bytes with blocks of 16, 48, 32, 40 and 16
ROOMS = (
    (line(6, 8), UNOPENED),
    (line(6, 3), UNOPENED),
    (line(1, 0x1000, 0x98), line(0, 0x1000, 0x98)),
    (line(2, 16, 1), line(0, 0x1000, 1)),
    (line(2, 48, 1), line(0, 0x1010, 1)),
    (line(2, 32, 1), line(0, 0x1040, 1)),
    (line(2, 40, 1), line(0, 0x1060, 1)),
    (line(6, 1), line(0, 16, 1)),
    (line(2, 16, 1), line(0, 0x1088, 1)),
    # no hole
    (line(6, 1), line(0, 0, 0)),
    (line(6, 32), line(0, 0, 0)),
    # one of 48 bytes, of which 32 lie behind a multiple of 32
    (line(3, 0x1010, 48, 1), line(0, 48, 0x68)),
    (line(6, 1), line(0, 48, 1)),
    (line(6, 16), line(0, 48, 1)),
    (line(6, 32), line(0, 32, 1)),
    (line(2, 48, 32), line(7, 0, 1)),
    # one of 40 bytes at a multiple of 32: the smaller lies better; at 64 nothing is left of the one and 8 bytes of the other
    (line(3, 0x1060, 40, 1), line(0, 40, 0x40)),
    (line(6, 1), line(0, 48, 2)),
    (line(6, 2), line(0, 48, 2)),
    (line(6, 32), line(0, 40, 2)),
    (line(6, 64), line(0, 0, 2)),
    (line(6, 1 << 62), line(0, 0, 2)),
    # numbers that are no alignment, and a frame without one
    (line(6, 0), line(6, 0, 0)),
    (line(6, 3), line(6, 0, 0)),
    (line(6, 1 << 63), line(6, 0, 0)),
    (line(6, (1 << 64) - 1), line(6, 0, 0)),
    (b"06\n", BAD),
    # what was told is granted, at the hole that was meant
    (line(2, 40, 32), line(0, 0x1060, 2)),
    (line(6, 32), line(0, 32, 1)),
    (line(2, 32, 32), line(0, 0x1020, 1)),
    (line(6, 32), line(0, 0, 1)),
    (line(6, 16), line(0, 16, 1)),
    # one of 24 bytes at 0x1028: at 16 it would leave 8 in front
    (line(3, 0x1020, 32, 32), line(0, 32, 0x68)),
    (line(2, 24, 1), line(0, 0x1010, 1)),
    (line(6, 16), line(0, 0, 1)),
    (line(6, 8), line(0, 24, 1)),
)

# resize: frames and their answers, on a heap of 152 bytes with blocks of 24, 48, 32, 16 and 32
RESIZES = (
    # not opened, which comes before a bad layout
    (line(7, 0x1000, 24, 3, 24), UNOPENED),
    (line(1, 0x1000, 0x98), line(0, 0x1000, 0x98)),
    (line(2, 24, 1), line(0, 0x1000, 1)),
    (line(2, 48, 1), line(0, 0x1018, 1)),
    (line(2, 32, 1), line(0, 0x1048, 1)),
    (line(2, 16, 1), line(0, 0x1068, 1)),
    (line(2, 32, 1), line(0, 0x1078, 1)),
    # no hole: the same size, and sizes that round alike; 8 more, and 8 less
    (line(7, 0x1000, 24, 1, 24), line(0, 24, 0x98)),
    (line(7, 0x1000, 24, 1, 17), line(0, 24, 0x98)),
    (line(7, 0x1000, 17, 8, 24), line(0, 24, 0x98)),
    (line(7, 0x1000, 24, 1, 25), line(10, 0, 0)),
    (line(7, 0x1000, 24, 1, 16), line(10, 0, 0)),
    (line(7, 0x1000, 24, 1, 0), line(10, 0, 0)),
    # sizes of at most 16 are one size
    (line(7, 0x1068, 16, 1, 0), line(0, 16, 0x98)),
    (line(7, 0x1068, 0, 1, 15), line(0, 16, 0x98)),
    (line(7, 0x1068, 1, 8, 16), line(0, 16, 0x98)),
    (line(7, 0x1068, 16, 1, 17), line(10, 0, 0)),
    # 16 less is a hole of 16: 8 more would leave 8 of it, 17 more is too much, and 9 more is all of it
    (line(7, 0x1018, 48, 1, 32), line(0, 32, 0x88)),
    (b"05\n", listed((0x1038, 16))),
    (line(7, 0x1018, 32, 1, 40), line(10, 0, 0)),
    (line(7, 0x1018, 32, 1, 49), line(10, 0, 0)),
    (b"05\n", listed((0x1038, 16))),
    (line(7, 0x1018, 32, 1, 41), line(0, 48, 0x98)),
    (b"05\n", listed()),
    # 24 less is a hole of 24: 8 more leaves 16, 8 less is a hole of 24 again, 16 more would leave 8, and 24 more is all of it
    (line(7, 0x1018, 48, 1, 24), line(0, 24, 0x80)),
    (line(7, 0x1018, 24, 1, 32), line(0, 32, 0x88)),
    (b"05\n", listed((0x1038, 16))),
    (line(7, 0x1018, 32, 1, 24), line(0, 24, 0x80)),
    (line(7, 0x1018, 24, 1, 40), line(10, 0, 0)),
    (b"05\n", listed((0x1030, 24))),
    (line(7, 0x1018, 24, 1, 48), line(0, 48, 0x98)),
    # a freed block of 32 behind: 16 more leaves 16, then 8 more would leave 8, 17 more is too much, and 16 more is all of it
    (line(3, 0x1048, 32, 1), line(0, 32, 0x78)),
    (line(7, 0x1018, 48, 1, 64), line(0, 64, 0x88)),
    (b"05\n", listed((0x1058, 16))),
    (line(7, 0x1018, 64, 1, 72), line(10, 0, 0)),
    (line(7, 0x1018, 64, 1, 81), line(10, 0, 0)),
    (line(7, 0x1018, 64, 1, 80), line(0, 80, 0x98)),
    (b"05\n", listed()),
    (line(7, 0x1018, 80, 1, 16), line(0, 16, 0x58)),
    (b"05\n", listed((0x1028, 64))),
    (line(7, 0x1018, 16, 1, 48), line(0, 48, 0x78)),
    # a hole that touches the front of a block is none of its stretch, and stays
    (line(3, 0x1000, 24, 1), line(0, 24, 0x60)),
    (line(7, 0x1068, 16, 1, 32), line(10, 0, 0)),
    (line(7, 0x1068, 16, 1, 16), line(0, 16, 0x60)),
    (line(7, 0x1018, 48, 1, 25), line(0, 32, 0x50)),
    (b"05\n", listed((0x1000, 24), (0x1038, 48))),
    (line(7, 0x1018, 25, 1, 80), line(0, 80, 0x80)),
    (b"05\n", listed((0x1000, 24))),
    (line(7, 0x1018, 80, 8, 48), line(0, 48, 0x60)),
    # the block at top: 8 more, 8 less, and 16 less
    (line(7, 0x1078, 32, 1, 40), line(10, 0, 0)),
    (line(7, 0x1078, 32, 1, 24), line(10, 0, 0)),
    (line(7, 0x1078, 32, 1, 16), line(0, 16, 0x50)),
    (b"05\n", listed((0x1000, 24), (0x1048, 32), (0x1088, 16))),
    # that hole does not touch the block before: only the block at top takes it, and not all but 8 bytes of it
    (line(7, 0x1068, 16, 1, 32), line(10, 0, 0)),
    (line(7, 0x1078, 16, 1, 24), line(10, 0, 0)),
    (line(7, 0x1078, 16, 1, 32), line(0, 32, 0x60)),
    (b"05\n", listed((0x1000, 24), (0x1048, 32))),
    # bytes that are pending are no hole; once they are, the block grows over the old top
    (line(4, 15), line(0, 0x98, 15)),
    (line(7, 0x1078, 32, 1, 40), line(10, 0, 0)),
    (line(4, 1), line(0, 0xA8, 0)),
    (line(7, 0x1078, 32, 1, 40), line(10, 0, 0)),
    (line(7, 0x1078, 32, 1, 48), line(0, 48, 0x70)),
    (b"05\n", listed((0x1000, 24), (0x1048, 32))),
    # no block that could be held, though 10 would hold too: a hole, off 8, off the alignment, past top, over a hole, 8 bytes in front of
    # a hole, 8 bytes behind one, 8 bytes below top, below bottom, and at the last address
    (line(7, 0x1048, 32, 1, 24), line(8, 0, 0)),
    (line(7, 0x106C, 16, 1, 24), line(8, 0, 0)),
    (line(7, 0x1068, 16, 16, 24), line(8, 0, 0)),
    (line(7, 0x1078, 56, 1, 48), line(8, 0, 0)),
    (line(7, 0x1018, 56, 1, 48), line(8, 0, 0)),
    (line(7, 0x1018, 40, 1, 32), line(8, 0, 0)),
    (line(7, 0x1020, 40, 1, 64), line(8, 0, 0)),
    (line(7, 0x1078, 40, 1, 32), line(8, 0, 0)),
    (line(7, 0xFF8, 16, 1, 24), line(8, 0, 0)),
    (line(7, 0, 16, 1, 24), line(8, 0, 0)),
    (line(7, (1 << 64) - 8, 16, 1, 24), line(8, 0, 0)),
    # numbers that are no alignment, and a size too large, of the old layout or of the new one: before the block is looked at
    (line(7, 0x1018, 48, 0, 48), line(6, 0, 0)),
    (line(7, 0x1018, 48, 3, 48), line(6, 0, 0)),
    (line(7, 0x1018, 48, 1 << 63, 48), line(6, 0, 0)),
    (line(7, 0x1018, (1 << 63) - 7, 1, 48), line(6, 0, 0)),
    (line(7, 0x1018, (1 << 64) - 1, 8, 48), line(6, 0, 0)),
    (line(7, 0x1018, 48, 1, (1 << 63) - 7), line(6, 0, 0)),
    (line(7, 0x1018, 48, 8, (1 << 64) - 1), line(6, 0, 0)),
    (line(7, 0x1048, 32, 1, (1 << 63) - 7), line(6, 0, 0)),
    # the largest size that passes: no block is so large, and no stretch
    (line(7, 0x1018, (1 << 63) - 8, 8, 48), line(8, 0, 0)),
    (line(7, 0x1018, 48, 8, (1 << 63) - 8), line(10, 0, 0)),
    # frames with a number too few, and with none
    (line(7, 0x1018, 48, 1), BAD),
    (b"07\n", BAD),
    # none of these changed a thing; what was resized is given back with its new size
    (b"05\n", listed((0x1000, 24), (0x1048, 32))),
    (line(3, 0x1078, 48, 1), line(0, 48, 0x40)),
    (line(3, 0x1078, 32, 1), line(8, 0, 0)),
    (line(7, 0x1018, 48, 8, 72), line(10, 0, 0)),
    (line(7, 0x1018, 48, 8, 80), line(0, 80, 0x60)),
    (line(3, 0x1018, 80, 8), line(0, 80, 0x10)),
    (line(3, 0x1068, 16, 1), line(0, 16, 0)),
    (b"05\n", listed((0x1000, 168))),
)

# and a block that takes the largest heap
WHOLE = (
    (OPEN, OPENED),
    (ALLOCATE, line(0, 0x1000, 1)),
    (line(7, 0x1000, 24, 8, 65536), line(0, 65536, 0x10000)),
    (b"05\n", listed()),
    (line(7, 0x1000, 65536, 8, 65528), line(10, 0, 0)),
    (line(7, 0x1000, 65536, 8, 65537), line(10, 0, 0)),
    (line(7, 0x1000, 65536, 8, 65520), line(0, 65520, 0xFFF0)),
    (b"05\n", listed((0x10FF0, 16))),
    (line(7, 0x1000, 65520, 8, 65528), line(10, 0, 0)),
    (line(7, 0x1000, 65520, 8, 0), line(0, 16, 0x10)),
    (b"05\n", listed((0x1010, 65520))),
    (line(7, 0x1000, 0, 8, 24), line(0, 24, 0x18)),
    (b"05\n", listed((0x1018, 65512))),
)

LINES = {
    "no input": (b"", b""),
    "a lone LF": (b"\n", BAD),
    "three LFs": (b"\n\n\n", BAD * 3),
    "the paper's example": (stored("stdin"), stored("stdout")),
    "a last line without LF": (stored("stdin")[:-1], stored("stdout")),
    "one line without LF": (b"05", UNOPENED),
    "a last line without LF that is no frame": (b"05\n0", UNOPENED + BAD),
    "CR LF": (b"05\r\n" + ROOM[:-1] + b"\r\n\r\n", BAD * 3),
    "CR alone": (b"05\r05", BAD),
    "spaces": (b" 05\n05 \n0 5\n05\t\n", BAD * 4),
    "uppercase": (STATE + FREE.replace(b"1000", b"100A").upper() + b"0A\n05\n", STATED + BAD * 2 + LIST),
    "odd digits": (b"0\n5\n050\n" + OPEN[:-2] + b"\n", BAD * 4),
    "half frames": (b"".join(f[:n] + b"\n" for f in (OPEN, ROOM, RESIZE) for n in range(len(f) - 1)), BAD * (34 + 18 + 66)),
    "a digit too many": (b"".join(f[:-1] + b"0\n" for f in ALL), BAD * 7),
    "a number too many": (b"".join(f[:-1] + line(0, 8)[2:] for f in ALL), BAD * 7),
    "another call's numbers": (b"".join(line(c, *[8] * n) for c in NUMBERS for n in range(6) if n != NUMBERS[c]), BAD * 35),
    "unknown calls": (b"".join(b"%02x\n" % n for n in range(256) if n != 5), BAD * 255),
    "unknown calls with numbers": (b"".join(line(c, *[8] * n) for c in range(256) if c not in NUMBERS for n in range(1, 5)), BAD * 996),
    "room at alignments": (b"".join(f for f, _ in ROOMS), b"".join(a for _, a in ROOMS)),
    "resizes": (b"".join(f for f, _ in RESIZES), b"".join(a for _, a in RESIZES)),
    "resizes of the only block": (b"".join(f for f, _ in WHOLE), b"".join(a for _, a in WHOLE)),
    "NUL": (b"\0\n05\0\n\0" + b"05\n" + b"0\0005\n", BAD * 4),
    "bytes above 127": (b"\xef\xbb\xbf05\n\xff\n", BAD * 2),
    "lines around the longest frame": (b"".join(RESIZE[:66] + b"0" * n + b"\n" for n in range(4)), UNOPENED + BAD * 3),
    "a frame and 5 MB behind it": (STATE + b"05" + b"0" * 5_000_000 + b"\n05\n", STATED + BAD + LIST),
    "5 MB without LF": (b"05\n" + b"x" * 5_000_000, UNOPENED + BAD),
    "what is no frame does nothing": (STATE + b"\n05 \n" + FREE[:-1] + b"\r\n" + RESIZE[:-1] + b" \n05\n", STATED + BAD * 4 + LIST),
}


def all_at_once(data, answers):
    check(run(data), answers)


def in_pieces(data, answers):
    for size in (1, 2, 33, 66, 67, 68, 4096):
        if len(data) <= 4096 * size:
            check(pieces(cut(data, size)), answers)


# ---- talks, ends and sizes


def noise():
    data = random.Random(1).randbytes(1_000_000)
    lines = data.split(b"\n")
    assert lines[-1] and not any(FRAME.fullmatch(x) for x in lines)
    check(run(STATE + data + b"\n05\n"), STATED + BAD * len(lines) + LIST)


def blocks():
    """Lines whose LF is the last byte of a block of 65,536, the first of the next, and near those."""
    for pad in range(65_533, 65_539):
        check(run(STATE + b"y" * (pad - len(STATE)) + b"\n05\n"), STATED + BAD + LIST)


def most_holes():
    """Calls that make 2,048 holes, their answers, and the list."""
    calls, answers = OPEN, OPENED
    for i in range(4096):
        calls += line(2, 16, 8)
        answers += line(0, 0x1000 + 16 * i, 1)
    for i in range(0, 4096, 2):
        calls += line(3, 0x1000 + 16 * i, 16, 8)
        answers += line(0, 16, 0x10000 - 8 * (i + 2))
    rows = line(0, 2048, 0x8000) + b"".join(line(0x20, 0x1000 + 16 * i, 16) for i in range(0, 4096, 2))
    assert len(rows) == 71_715
    return calls, answers, rows


def longest():
    """The longest answer so often that it fills the room for answers many times over."""
    calls, answers, rows = most_holes()
    for mixed in (b"05\n", ROOM + b"05\n", b"\n" * 2048 + b"05\n"):
        before = b"".join(line(0, 16, 2048) if x + b"\n" == ROOM else BAD for x in mixed.split(b"\n")[:-2])
        check(run(calls + mixed * 20), answers + (before + rows) * 20)


def memory():
    """A line of 64 MB in 32 MB of memory."""
    limit = lambda: resource.setrlimit(resource.RLIMIT_AS, (1 << 25, 1 << 25))
    check(run(b"05\n" + b"0" * (1 << 26) + b"\n05\n", preexec_fn=limit), UNOPENED + BAD + UNOPENED)


def million(calls, answers):
    """A million lines from a file: how long, and how many calls of the system."""
    with tempfile.TemporaryFile() as data, tempfile.TemporaryFile() as out:
        data.write(calls)
        data.seek(0)
        begin = time.monotonic()
        p = subprocess.Popen([WIRE], stdin=data, stdout=out)
        os.waitid(os.P_PID, p.pid, os.WEXITED | os.WNOWAIT)
        took = time.monotonic() - begin
        with open(f"/proc/{p.pid}/io") as f:
            counts = dict(row.split(": ") for row in f.read().split("\n") if row)
        assert p.wait() == 0, f"exit status {p.returncode}"
        out.seek(0)
        check(out.read(), answers)
    reads, writes = int(counts["syscr"]), int(counts["syscw"])
    assert reads <= len(calls) / 65_536 + 20, f"{reads} reads"
    assert writes <= len(answers) / 65_536 + len(calls) / 65_536 + 20, f"{writes} writes"
    return f"{took:.2f} s, {reads} reads, {writes} writes"


def million_lists():
    return million(b"05\n" * 1_000_000, UNOPENED * 1_000_000)


def million_calls():
    pair, answered = ALLOCATE + FREE, line(0, 0x1000, 1) + line(0, 24, 0)
    return million(OPEN + pair * 500_000, OPENED + answered * 500_000)


def line_by_line():
    """Each answer comes while the program waits for the next line."""
    with started(stdin=PIPE, stdout=PIPE) as p:
        for call, said in zip(stored("stdin").split(b"\n"), stored("stdout").split(b"\n")[:7]):
            p.stdin.write(call + b"\n")
            check(heard(p.stdout, 35), said + b"\n")
        check(heard(p.stdout, 70), stored("stdout")[-70:])
        for _ in range(2000):
            p.stdin.write(ROOM)
            check(heard(p.stdout, 35), line(0, 0x20, 2))
        p.stdin.write(ROOM + b"\n" + ROOM[:1])
        check(heard(p.stdout, 70), line(0, 0x20, 2) + BAD)
        check(heard(p.stdout, 1, 0.3), b"")
        p.stdin.write(ROOM[1:-1])
        p.stdin.close()
        check(heard(p.stdout, 1000), line(0, 0x20, 2))
        assert p.wait() == 0


def closed_output(**options):
    """Nobody reads any more: the first answer has come, and the program ends, its input still open."""
    with started(stdin=PIPE, stdout=PIPE, **options) as p:
        p.stdin.write(b"05\n")
        check(heard(p.stdout, 35), UNOPENED)
        p.stdout.close()
        p.stdin.write(b"05\n")
        return p.wait()


def closed_by_signal():
    """The signal would end the program, but from its start on it ignores it, so that the write fails."""
    assert closed_output() == 0


def closed_by_answer():
    """The same where the signal is ignored before the program starts."""
    assert closed_output(restore_signals=False) == 0


def head():
    out = subprocess.run(f"yes 05 | {shlex.quote(WIRE)} | head -1", shell=True, stdout=PIPE).stdout
    check(out, UNOPENED)


def full_output():
    with open("/dev/full", "wb") as full, started(stdin=PIPE, stdout=full) as p:
        p.stdin.write(b"05\n")
        assert p.wait() == 0


def full_now_and_then():
    """An output that takes no more at times: what came is a beginning of the answers, without a gap, and the program ends there."""
    calls, answers, rows = most_holes()
    with contextlib.ExitStack() as open_files:
        r, w = (open_files.enter_context(open(end, mode, 0)) for end, mode in zip(os.pipe(), ("rb", "wb")))
        with started(stdin=PIPE, stdout=w) as p:
            for part, said in zip(cut(calls.splitlines(True), 100), cut(answers, 3500)):
                p.stdin.write(b"".join(part))
                check(heard(r, len(said)), said)
            os.set_blocking(w.fileno(), False)
            w.close()
            p.stdin.write(b"05\n" * 1000)
            p.stdin.close()
            got = b""
            while more := heard(r, 1 << 16):
                got += more
                time.sleep(0.001)
            check(got, (rows * 1000)[: len(got)])
            assert got and p.wait() == 0


def no_input():
    """A read that fails at once: of a folder, and of nothing."""
    folder = os.open("/", os.O_RDONLY)
    with started(stdin=folder, stdout=PIPE) as p:
        check(heard(p.stdout, 1), b"")
        assert p.wait() == 0, f"exit status {p.returncode}"
    os.close(folder)
    check(run(b"", preexec_fn=lambda: os.close(0)), b"")


def failed_read():
    """A read that fails after a line and a half: the line's answer stands, and the half is none."""
    try:
        server = socket.create_server(("127.0.0.1", 0))
    except OSError as e:
        return f"not tried, since this machine has no loopback: {e}"
    with server:
        ours = socket.create_connection(server.getsockname())
        its, _ = server.accept()
    with started(stdin=its, stdout=PIPE) as p:
        its.close()
        ours.sendall(b"05\n05")
        check(heard(p.stdout, 35), UNOPENED)
        ours.setsockopt(socket.SOL_SOCKET, socket.SO_LINGER, b"\1\0\0\0\0\0\0\0")
        ours.close()
        check(heard(p.stdout, 1000), b"")
        assert p.wait() == 0


OTHERS = (
    noise, blocks, longest, memory, million_lists, million_calls, line_by_line,
    closed_by_signal, closed_by_answer, head, full_output, full_now_and_then, no_input, failed_read,
)  # fmt: skip


def late(_signal, _frame):
    raise AssertionError(f"no end after {LIMIT} s")


def main():
    cases = []
    for name, case in LINES.items():
        cases.append((name, lambda case=case: all_at_once(*case)))
        cases.append((name + ", in pieces", lambda case=case: in_pieces(*case)))
    cases += [(case.__name__.replace("_", " "), case) for case in OTHERS]
    failed = 0
    signal.signal(signal.SIGALRM, late)
    for name, case in cases:
        try:
            signal.alarm(LIMIT)
            note = case()
            if note:
                print(f"wire: {name}: {note}")
        except (AssertionError, OSError) as e:
            failed += 1
            print(f"wire: {name}: {e}")
    print(f"wire: {len(cases) - failed} cases agree, {failed} do not")
    return 1 if failed else 0


if __name__ == "__main__":
    sys.exit(main())
