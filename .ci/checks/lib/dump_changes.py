"""Whether a value change dump is a valid one, and tells the drives and the pulses that its report tells, and what node K hears that
the decoded capture of the node tells.

    python3 dump_changes.py DUMP REPORT UNTIL [K DECODED]
"""
import sys

PARTS = {"beacon": "beacon", "commit": "commit", "leave": "frame", "quiet": None}
HEARD = {"beacon": 1, "run": 2, "bare": 3, "torn": 4, "blur": 5}
PULSES = {"taken": "taken", "full": "refused", "off": "refused", "jam": "jam", "drop": "drop"}


def read_dump(lines):
    """The wires by their code as (node, name), and the changes as (time, wire, value). Exits where the text is no valid dump."""
    wires, widths, changes, node, time = {}, {}, [], None, None
    lines = iter(lines)
    if next(lines) != "$timescale 100 ns $end":
        sys.exit("the time unit is another one")
    for line in lines:
        fields = line.split()
        if fields == ["$enddefinitions", "$end"]:
            break
        if fields[:2] == ["$scope", "module"] and fields[3:] == ["$end"] and node is None:
            node = int(fields[2].rpartition("_")[2])
        elif fields == ["$upscope", "$end"] and node is not None:
            node = None
        elif fields[:2] == ["$var", "wire"] and fields[5:] == ["$end"] and node is not None:
            name, _, number = fields[4].rpartition("_")
            if fields[3] in wires or (node, name) in wires.values() or int(number) != node:
                sys.exit(f"declared twice, or of another node: {line}")
            wires[fields[3]] = (node, name)
            widths[fields[3]] = int(fields[2])
        else:
            sys.exit(f"no declaration: {line}")
    for line in lines:
        if line.startswith("#"):
            if time is not None and int(line[1:]) <= time:
                sys.exit(f"the time does not ascend: {line}")
            time = int(line[1:])
        else:
            bits, code = line[1:].split(" ") if line[0] == "b" else (line[0], line[1:])
            if time is None or set(bits) - set("01") or widths.get(code) != len(bits):
                sys.exit(f"no change: {line}")
            changes.append((time, wires[code], int(bits, 2)))
    return wires, changes, time


def held(changes, end):
    """When each wire has a value other than 0: a set of (wire, value, from, up to)."""
    values, since, spans = {}, {}, set()
    for time, wire, value in changes + [(end, wire, 0) for _, wire, _ in changes]:
        if value == values.get(wire, 0):
            continue
        if values.get(wire) and since[wire] < time:
            spans.add((wire, values[wire], since[wire], time))
        values[wire], since[wire] = value, time
    return spans


def heard(node, decoded):
    """What the node hears, by the items of its capture."""
    changes = []
    for line in open(decoded):
        word, *fields = line.split()
        numbers = [int(field) for field in fields] if word in HEARD else []
        if word == "beacon":
            numbers.append(numbers[0] + 20)
        for value, tick in zip((HEARD.get(word), 0), numbers):
            changes.append((tick, (node, "hears"), value))
        if word == "torn" and numbers[3]:
            changes.append((numbers[1] - numbers[3], (node, "hears"), HEARD["blur"]))
    return changes


def told(report, end, changes):
    """The same by the report's lines, and these changes."""
    for line in open(report):
        fields = line.split()
        if not fields[0].isdigit():
            break
        tick, word, node = int(fields[0]), fields[1], int(fields[2])
        if word in PARTS:
            for name in ("beacon", "commit", "frame"):
                changes.append((tick, (node, name), int(PARTS[word] == name)))
            changes.append((tick, (node, "drives"), int(word != "quiet")))
        elif word == "status":
            changes.append((tick, (node, "status"), int(fields[3] == "ok")))
        else:
            name = PULSES.get(word) or ("good" if fields[3] == "good" else "bad")
            changes += [(tick, (node, name), 1), (tick + 1, (node, name), 0)]
    changes.sort(key=lambda change: change[0])
    return held(settled(changes), end)


def settled(changes):
    """Of the changes of one wire at one time the last one stands."""
    last = {}
    for time, wire, value in changes:
        last[time, wire] = value
    return [(time, wire, value) for (time, wire), value in last.items()]


dump, report, until = sys.argv[1], sys.argv[2], int(sys.argv[3])
hearing = heard(int(sys.argv[4]), sys.argv[5]) if len(sys.argv) > 4 else []
wires, changes, end = read_dump(open(dump).read().splitlines())
if end < until:
    sys.exit("the dump ends before the run")
if held(settled(changes), end) != told(report, end, hearing):
    sys.exit("the dump tells other drives or events than the report")
