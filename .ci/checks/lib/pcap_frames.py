"""Compares a pcap file that `pcap K` wrote with the good arrivals at node K in what `run` wrote for the same script.

    python3 .ci/checks/lib/pcap_frames.py pcap_K.pcap K run.txt

It reads the file by the description of the format alone. The times are seconds and microseconds, and a tick is 100 ns.
"""

import struct
import sys

HEAD = struct.pack(">IHHiIII", 0xA1B2C3D4, 2, 4, 0, 0, 65535, 1)


def records(octets):
    """The time in microseconds and the octets of each record."""
    if octets[: len(HEAD)] != HEAD:
        sys.exit(f"the header is {octets[:24].hex(' ')}")
    found, at = [], len(HEAD)
    while at < len(octets):
        seconds, micros, kept, whole = struct.unpack_from(">IIII", octets, at)
        frame = octets[at + 16 : at + 16 + kept]
        if micros >= 1_000_000 or kept != whole or len(frame) != kept:
            sys.exit(f"the record at octet {at} is not one")
        found.append((seconds * 1_000_000 + micros, frame))
        at += 16 + kept
    return found


def arrivals(report, node):
    """The same of each good arrival at the node."""
    found = []
    for line in report:
        fields = line.split()
        if fields[1:4] == ["arrive", node, "good"]:
            found.append((int(fields[0]) // 10, bytes.fromhex(fields[4])))
    return found


def main():
    path, node, report = sys.argv[1:]
    with open(path, "rb") as file:
        found = records(file.read())
    with open(report, encoding="ascii") as file:
        wanted = arrivals(file, node)
    if found != wanted:
        sys.exit(f"read {found}, and the arrivals are {wanted}")
    print(len(found))


main()
