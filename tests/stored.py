"""The stored list of the oracle's answers (crates/replay): its streams, and a text of whole states stream by stream."""
import pathlib
import struct

REPLAY = pathlib.Path(__file__).resolve().parent.parent / "crates/replay"


def streams():
    data, at, out = (REPLAY / "stdin").read_bytes(), 0, []
    while at < len(data):
        (size,) = struct.unpack_from("<I", data, at)
        out.append(data[at + 4 : at + 4 + size])
        at += 4 + size
    return out


def at_exponent(exponent, stream):
    """A stream that starts at exponent 63, at another; one that does not, as it is."""
    starts = stream[2:4] == b"\1\0" and stream[6:7] == b"\x3f"
    return stream[:6] + bytes([exponent]) + stream[7:] if starts else stream


def sections(text):
    """The lines behind each line `stream K`."""
    out = []
    for line in text.splitlines():
        if line.startswith("stream "):
            out.append([])
        else:
            out[-1].append(line)
    return out


def answers(section):
    """Document 01's lines alone."""
    return [line for line in section if line[0] != "#"]
