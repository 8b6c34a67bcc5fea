#!/usr/bin/env python3
"""Writes the files of this folder: the networks of document 01, "Tried networks", with plans for them, network B in
volt-amperes and with a guarded switch, and the largest network with the longest plan; and the standard input that the
gate gives to `plan` (B), to `mark` (B with the plan of case 8) and to `trial_final` (B with that plan and a cheaper
one)."""
import os
import struct

OPEN, CLOSED = 1, 2
SOURCE = 1


def records(*records):
    """A record is its length in bytes, its kind and its fields, two bytes a number, low byte first."""
    return b"".join(struct.pack(f"<{len(r) + 1}H", 2 * (len(r) + 1), *r) for r in records)


def element(load, capacity, flags):
    """Kind 2, or kind 7 with a load and a capacity of four bytes where one of them needs it."""
    if max(load, capacity) < 65536:
        return (2, load, capacity, flags)
    return (7, load % 65536, load // 65536, capacity % 65536, capacity // 65536, flags)


def link(end, other, form, cost, guard=None):
    """Kind 3, or kind 8 with its guard, the number of an earlier switch, where one is given."""
    if guard is None:
        return (3, end, other, form, cost)
    return (8, end, other, form, cost, guard)


def network(elements, links):
    """Kind 1 head, elements (load, capacity, flags), links (two ends, form, cost, and a guard or none), kind 4 end."""
    return records((1, len(elements), len(links)), *(element(*e) for e in elements), *(link(*l) for l in links), (4,))


def plan(*steps):
    """Kind 5 head, kind 6 steps (link, 1 to close it and 0 to open it), kind 4 end."""
    return records((5, len(steps)), *((6, *s) for s in steps), (4,))


def largest():
    """64 elements, 53 of them in a chain from one source and 11 dark, 96 links, 12 operable switches (links 52 to 63);
    255 steps of cost 1 that are all good: close the tie of each dark element, then open and close the last of them 122
    times. VALID 255 244."""
    elements = [(1, 64, SOURCE)] + [(1, 64, 0)] * 63
    links = [(i, i + 1, CLOSED, 1) for i in range(52)]
    links += [(i, 53 + i, OPEN, 1) for i in range(11)] + [(20, 63, OPEN, 1)]
    links += [(i, i + 2, OPEN, 1) for i in range(32)]
    steps = [(52 + i, 1) for i in range(11)] + [(62, 0), (62, 1)] * 122
    return network(elements, links), plan(*steps)


B_LINKS = [(0, 1, CLOSED, 1), (1, 2, OPEN, 1), (2, 3, OPEN, 1), (3, 4, OPEN, 4), (1, 3, OPEN, 2)]
B_ELEMENTS = [(0, 5, 1), (2, 9, 0), (1, 9, 2), (3, 9, 0), (0, 3, 1)]
B = network(B_ELEMENTS, B_LINKS)
B_GUARDED = network(B_ELEMENTS, B_LINKS[:4] + [(*B_LINKS[4], 0)])
B_VA = network([(0, 500000, 1), (200000, 900000, 0), (1, 9, 2), (300000, 900000, 0), (0, 3, 1)], B_LINKS)
D = network(
    [(0, 2, 1), (2, 9, 0), (2, 9, 0), (0, 2, 1)],
    [(0, 1, OPEN, 1), (1, 2, CLOSED, 1), (2, 3, OPEN, 1)],
)
CLOSE_3, CLOSE_4 = plan((3, 1)), plan((4, 1))
LARGEST, LONGEST = largest()
FILES = {
    "b.net": B, "b_va.net": B_VA, "b_guarded.net": B_GUARDED, "d.net": D, "close_3.plan": CLOSE_3,
    "close_4.plan": CLOSE_4, "largest.net": LARGEST, "largest.plan": LONGEST
}

if __name__ == "__main__":
    folder = os.path.dirname(os.path.abspath(__file__))
    crates = os.path.join(folder, "..", "crates")
    files = {os.path.join(folder, name): data for name, data in FILES.items()}
    files[os.path.join(crates, "plan", "stdin")] = B
    files[os.path.join(crates, "mark", "stdin")] = B + CLOSE_3
    files[os.path.join(crates, "trial_final", "stdin")] = B + CLOSE_3 + CLOSE_4
    for path, data in files.items():
        with open(path, "wb") as file:
            file.write(data)
