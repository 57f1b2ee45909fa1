#!/usr/bin/env python3
"""Runs crates/chainrun/out/chainrun, or the program that is named, on the streams of the stored list, whole and in pieces, and on
the cases that document 01 names; the lines it has to print are the oracle's (crates/replay/stdout). Streams that start at
exponent 63 are run at others above it too. Then on the sample stream, against what README shows. Prints nothing
unless something differs."""
import pathlib
import re
import select
import struct
import subprocess
import sys

import stored

TOP = pathlib.Path(__file__).resolve().parent.parent
CHAINRUN = pathlib.Path(sys.argv[1]) if len(sys.argv) > 1 else TOP / "crates/chainrun/out/chainrun"
WHOLE = bytes.fromhex("15000100020205" + "00" * 16 + "05000300000101" + "040004000000")
START = WHOLE[:23]
REFUSED_START = START[:5] + b"\0" + START[6:]
# a record of each kind but start, as it may follow START
RECORDS = [
    struct.pack("<HHBB32d", 260, 2, 0, 1, *[1.0 if k % 10 == 0 else 0.0 for k in range(32)]),
    struct.pack("<HHBBB", 5, 3, 0, 1, 1),
    struct.pack("<HHBB", 4, 4, 0, 0),
    struct.pack("<HHBBd", 12, 5, 0, 0, 0.5),
    struct.pack("<HHBd", 11, 6, 0, 0.5),
]


def lines(data):
    p = subprocess.run([CHAINRUN], input=data, stdout=subprocess.PIPE, timeout=10)
    return p.stdout.decode().splitlines() if p.returncode == 0 else [f"status {p.returncode}"]


def in_pieces(data):
    with subprocess.Popen([CHAINRUN], stdin=subprocess.PIPE, stdout=subprocess.PIPE, bufsize=0) as p:
        try:
            for k in range(len(data)):
                p.stdin.write(data[k : k + 1])
            p.stdin.close()
        except BrokenPipeError:
            pass
        return p.stdout.read().decode().splitlines()


def one_at_a_time(records):
    """Each record is written once the line of the one before it was read."""
    with subprocess.Popen([CHAINRUN], stdin=subprocess.PIPE, stdout=subprocess.PIPE, bufsize=0) as p:
        out = []
        for record in records:
            p.stdin.write(record)
            ready, _, _ = select.select([p.stdout], [], [], 10)
            if not ready:
                p.kill()
                return [*out, "no line"]
            out.append(p.stdout.readline().decode().rstrip())
        return out


def after_the_stop():
    """Records in a later piece than the one that `0 8` was printed for."""
    with subprocess.Popen([CHAINRUN], stdin=subprocess.PIPE, stdout=subprocess.PIPE, bufsize=0) as p:
        p.stdin.write(b"\2\0\x09\0")
        out = p.stdout.readline()
        try:
            p.stdin.write(START)
            p.stdin.close()
        except BrokenPipeError:
            pass
        return (out + p.stdout.read()).decode().splitlines()


def longer(record):
    """The record with one byte more, its length field too."""
    (size,) = struct.unpack_from("<H", record)
    return struct.pack("<H", size + 1) + record[2:] + b"\0"


def shorter(record):
    (size,) = struct.unpack_from("<H", record)
    return struct.pack("<H", size - 1) + record[2:-1]


def document_cases():
    stop = "0 8"
    yield "the whole case", WHOLE, ["1 0", "3 0", "4 0 3FF0000000000000"]
    yield "nothing", b"", []
    for name, data in [("kind 9", b"\2\0\x09\0"), ("one byte", b"\2"), ("length 0", b"\0\0"), ("length 1", b"\1\0\1")]:
        yield name, data, [stop]
        yield f"{name} after a start", START + data, ["1 0", stop]
    yield "start one byte long", longer(START), [stop]
    yield "start one byte short", shorter(START), [stop]
    for record in RECORDS:
        kind = record[2]
        yield f"kind {kind} one byte long", START + longer(record), ["1 0", stop]
        yield f"kind {kind} one byte short", START + shorter(record), ["1 0", stop]
        yield f"kind {kind} cut off", START + record[:-1], ["1 0", stop]
        yield f"kind {kind} before a start", record, [stop]
    yield "a start after a refused one", REFUSED_START + START, ["1 1", "1 0"]
    yield "a start after an accepted one", START + START, ["1 0", stop]


def stored_cases():
    sections = stored.sections((stored.REPLAY / "stdout").read_text())
    for k, (stream, section) in enumerate(zip(stored.streams(), sections, strict=True)):
        yield f"stream {k}", stream, stored.answers(section)


def exponent_cases():
    """Every byte is an exponent that start takes, and above 63 a stream's lines are those at 63."""
    for exponent in range(256):
        yield f"a start at exponent {exponent}", START[:6] + bytes([exponent]) + START[7:], ["1 0"]
    for name, stream, want in stored_cases():
        for exponent in (64, 200, 255):
            other = stored.at_exponent(exponent, stream)
            if other != stream:
                yield f"{name} at exponent {exponent}", other, want


def sample_case():
    """README shows what the sample stream gives, each line with its meaning behind it."""
    shown = re.findall(r"^    (\d \d(?: [0-9A-F]+)?)  ", (TOP / "README.md").read_text(), re.M)
    yield "samples/ghz.run", (TOP / "samples/ghz.run").read_bytes(), shown


faults = []
for name, data, want in [*document_cases(), *stored_cases(), *exponent_cases(), *sample_case()]:
    got = lines(data)
    if got != want:
        faults.append(f"{name}: {got}, and not {want}")
for name, data, want in document_cases():
    got = in_pieces(data)
    if got != want:
        faults.append(f"{name}, byte by byte: {got}, and not {want}")
got = one_at_a_time([START, *RECORDS])
want = lines(START + b"".join(RECORDS))
if got != want:
    faults.append(f"record by record: {got}, and not {want}")
got = after_the_stop()
if got != ["0 8"]:
    faults.append(f"after the stop: {got}, and not ['0 8']")
for f in faults[:20]:
    print(f)
sys.exit(1 if faults else 0)
