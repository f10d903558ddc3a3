#!/usr/bin/env python3
"""Measures `decode` on three captures of 10 MB against `sha256sum` of the same files.

    tools/decode_speed.py PROGRAM

PROGRAM is the built program. For each capture it prints the user time of both, the best of five runs, how many times
`sha256sum` that is, and the most memory that the program held. Nothing here is proved."""
import os
import subprocess
import sys
import tempfile
import time
import zlib

SIZE = 10_000_000
HEADER = b"T1SC\x01\x00"
END = b"\x21"
GROUPS = bytes([0x1E, 0x09, 0x14, 0x15, 0x0A, 0x0B, 0x0E, 0x0F, 0x12, 0x13, 0x16, 0x17, 0x1A, 0x1B, 0x1C, 0x1D])
J, H, T, R = b"\x18", b"\x04", b"\x0d", b"\x07"


def gap(ticks):
    """A gap of so many ticks."""
    return b"\x20" + ticks.to_bytes(4, "big")


def scrambled(nibbles):
    """The nibbles, scrambled from a start of all ones: each bit with those 14 and 17 bits before it."""
    history = [1] * 17
    out = []
    for nibble in nibbles:
        value = 0
        for place in range(4):
            bit = (nibble >> place & 1) ^ history[13] ^ history[16]
            history = [bit] + history[:16]
            value |= bit << place
        out.append(value)
    return out


def piece(octets):
    """A piece of a frame of these octets, with a lead of two J and closed as good."""
    frame = octets + zlib.crc32(octets).to_bytes(4, "little")
    nibbles = [5] * 15 + [0xD] + [half for octet in frame for half in (octet & 15, octet >> 4)]
    # two J and two H stand in the place of the first four nibbles
    return J * 2 + H * 2 + bytes(GROUPS[n] for n in scrambled(nibbles[4:])) + T + R


def captures():
    """The three captures: what each is, and its octets."""
    beacons = gap(100) + b"\x08" * 5
    yield "beacons and gaps", HEADER + beacons * (SIZE // len(beacons)) + END
    run = gap(100) + piece(bytes(i * 7 % 256 for i in range(1518)))
    yield "full frames", HEADER + run * (SIZE // len(run)) + END
    bare = gap(100) + J * 4096
    yield "longest J", HEADER + bare * (SIZE // len(bare)) + END


def peak_memory(pid, before):
    """The most memory that the process has held so far, in KB, or what was known before where it has ended."""
    try:
        with open(f"/proc/{pid}/status") as status:
            return next((int(line.split()[1]) for line in status if line.startswith("VmHWM")), before)
    except OSError:
        return before


def one_run(words, path):
    """The user time of a run over the file, in seconds, and the most memory, in KB, as it was seen while it ran."""
    memory = 0
    with open(path, "rb") as source:
        child = subprocess.Popen(words, stdin=source, stdout=subprocess.DEVNULL)
        while True:
            memory = peak_memory(child.pid, memory)
            pid, status, usage = os.wait4(child.pid, os.WNOHANG)
            if pid:
                break
            time.sleep(0.005)
    child.returncode = os.waitstatus_to_exitcode(status)
    if child.returncode != 0:
        sys.exit(f"{words[0]} ended with {child.returncode}")
    return usage.ru_utime, memory


def best_run(words, path):
    """The least user time of five runs, and the most memory of the last."""
    runs = [one_run(words, path) for _ in range(5)]
    return min(seconds for seconds, _ in runs), runs[-1][1]


def main():
    program = os.path.abspath(sys.argv[1])
    with tempfile.TemporaryDirectory() as folder:
        path = os.path.join(folder, "capture")
        for name, octets in captures():
            with open(path, "wb") as sink:
                sink.write(octets)
            reference, _ = best_run(["sha256sum"], path)
            decoding, memory = best_run([program, "decode"], path)
            print(f"{name}: {len(octets)} octets, decode {decoding:.3f} s, sha256sum {reference:.3f} s, "
                  f"{decoding / reference:.1f} times, {memory} KB")


if __name__ == "__main__":
    main()
