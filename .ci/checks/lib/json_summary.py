"""Compares what `json` wrote with the summary in what `run` wrote for the same script.

    python3 .ci/checks/lib/json_summary.py json.txt run.txt
"""

import json
import sys


def offer(fields):
    """The wait, or the word, that stands behind the number of an offer."""
    return int(fields[1]) if fields[0] == "wait" else fields[0]


def summary(report):
    """The summary of a report. Only its lines begin with these words: the line of an event begins with a tick."""
    nodes, offers, settled = [], [], None
    for line in report:
        word, *fields = line.split()
        if word == "settled" and fields != ["never"]:
            settled = int(fields[0])
        elif word == "node":
            names = [word, *fields[1::2]]
            nodes.append(dict(zip(names, map(int, fields[0::2]))))
        elif word == "offer":
            offers.append(offer(fields[1:]))
    return {"nodes": nodes, "offers": offers, "settled": settled}


def main():
    with open(sys.argv[1], encoding="ascii", newline="") as file:
        text = file.read()
    with open(sys.argv[2], encoding="ascii") as file:
        wanted = summary(file)
    value = json.loads(text)
    if value != wanted:
        sys.exit(f"read {value}, and the summary is {wanted}")
    if text != json.dumps(wanted, separators=(",", ":"), sort_keys=True) + "\n":
        sys.exit("it is not the compact text with ascending keys, and LF")


main()
