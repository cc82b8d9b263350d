"""Prints the table of instructions a call from what was counted.

usage: table.py FOLDER "D N".. ; FOLDER/D-N/counts has a line for each part at that size: SIDE/PART/CALLS, a tab, its instructions
"""
import sys

folder, sizes = sys.argv[1], sys.argv[2:]


def counts(size):
    """Each part's instructions and calls; what switching the count on and off costs by itself is taken off."""
    found = {}
    for line in open("%s/%s/counts" % (folder, size.replace(" ", "-"))):
        label, instructions = line.rstrip("\n").split("\t")
        side, part, calls = label.split("/")
        found[part, side] = (int(instructions), int(calls))
    inside = {side: found["nothing", side][0] / found["nothing", side][1] for side in ("port", "rust")}
    return {name: (instructions - calls * inside[name[1]], calls) for name, (instructions, calls) in found.items()}


def total(part, side):
    return got[part, side][0]


def each(part, side):
    return total(part, side) / got[part, side][1]


CALLS = [
    "word, first fill", "same word again", "word, satellite replaced", "word, satellite replaced, at worst", "word, new subframe",
    "word, new subframe, by time", "CED tag", "timing tag", "ask CED", "ask timing", "read orbit",
    "read timing numbers", "the room's test", "the room's test, fresh",
]
# the port's own calls, and the asking whose data each reads
READINGS = {"read orbit": "ask CED", "read timing numbers": "ask timing"}
YARD = ["yard, words", "yard, tags", "yard, askings"]
# these cost the same at every size
MESSAGES = ["CED message", "tag 0 message", "timing message"]


def line(name, port, rust):
    print("| %s | %.0f | %.0f | %.2f |" % (name, port, rust, port / rust))


for size in sizes:
    got = counts(size)
    d, n = map(int, size.split())
    print("\nD %d, N %d (%d records)\n\n| Call | port | Rust | ratio |\n|---|---:|---:|---:|" % (d, n, 2 * d * n))
    for part in CALLS:
        if (part, "port") not in got:
            continue  # all 36 satellites have a slot, so that none is replaced
        if part.startswith("the room's test"):
            print("| %s | %.0f | none | %.1f a record |" % (part, each(part, "port"), each(part, "port") / (2 * d * n)))
        elif part in READINGS:
            asking = each(READINGS[part], "port")
            print("| %s | %.0f | none | %.2f of %s |" % (part, each(part, "port"), each(part, "port") / asking, READINGS[part]))
        else:
            line(part, each(part, "port"), each(part, "rust"))
    for part in YARD:
        line("%s, %d calls" % (part, got[part, "port"][1]), total(part, "port"), total(part, "rust"))
    whole = {side: sum(total(part, side) for part in YARD) for side in ("port", "rust")}
    line("**yard's subframe**", whole["port"], whole["rust"])
    calls = sum(got[part, "port"][1] for part in YARD)
    test = each("yard, the room's test", "port")
    print("| of it the room's test, %d × %.0f | %.0f | none | %.2f |" % (calls, test, calls * test, calls * test / whole["rust"]))
    line("of it all else", whole["port"] - calls * test, whole["rust"])
    more = total("yard, tags with candidates", "port") - total("yard, tags", "port")
    line("yard's subframe, with a candidate shown for each tag", whole["port"] + more, whole["rust"])

got = counts(sizes[0])
print("\nMessages\n\n| Message | port | Rust | ratio |\n|---|---:|---:|---:|")
for part in MESSAGES:
    line(part, each(part, "port"), each(part, "rust"))
for part in MESSAGES:
    back = each(part + ", read back", "port")
    print("| %s, read back | %.0f | none | %.2f of building |" % (part, back, back / each(part, "port")))
