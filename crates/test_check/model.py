"""An independent model of the cases in data/: it prints what the program must print, from the pipeline, the vectors and the
rules as docs/ tell them. The blocks, edges, loops and classes of the few programs were worked out by hand.

    python3 model.py > stdout
"""

import pathlib

HIT, MISS, QUEUE, HORIZON, GREATEST = 1, 8, 2, 255, 10**18
LR, FLAGS = 33, 34


def reads_and_writes(word):
    """The slots of what an instruction reads and writes, of those that the programs have."""
    register = 19 + (word >> 12 & 15)
    if word >> 24 == 0xE3:
        return [], [register]
    if word >> 20 == 0xE25:
        return [19 + (word >> 16 & 15)], [register, FLAGS]
    if word >> 24 == 0x1A:
        return [FLAGS], []
    if word >> 24 == 0xEB:
        return [], [LR]
    if word == 0xE12FFF1E:
        return [LR], []
    return [], []


def advance(v, word, miss):
    """The vector behind one instruction, where it does not jump; each unit is the ALU."""
    reads, writes = reads_and_writes(word)
    f = max(v[0], v[1], v[2 + QUEUE], v[13])
    fe = max(f + HIT + (MISS if miss else 0), v[1])
    d = max(fe, v[3], v[11])
    x = max([d + 1, v[11] + 1, v[16]] + [v[slot] for slot in reads])
    c = max(x + 1, v[14] + 1)
    w = [0] * 35
    w[0], w[1], w[3], w[4], w[11], w[14], w[16] = f, fe, d, v[3], x, c, x + 1
    w[17:] = v[17:]
    for slot in writes:
        w[slot] = x + 1
    return w


def behind(v, words, missing):
    """The vector behind a block whose fetches at these places miss."""
    for place, word in enumerate(words):
        v = advance(v, word, place in missing)
    return v


def left(v, taken):
    """What an edge hands on: its cost, and the vector from there."""
    v = list(v)
    v[13] = v[11] + 1 if taken else 0
    cost = max(v[0], v[1], v[2 + QUEUE], v[13], max(v) - HORIZON)
    return cost, [max(0, slot - cost) for slot in v]


# For each program: of each node its words, and by the place of an instruction the line of a fetch that is a first miss of the
# run; the other fetches hit. Edges with their sources, targets and whether they jump. Of each loop its head, back edges, edges
# into it and the address of its head.
PROGRAMS = {
    "e3a00001 ef000000": ([([0xE3A00001, 0xEF000000], {0: 0x800})], [], []),
    "eafffffe": ([([0xEAFFFFFE], {0: 0x800})], [(0, 0, True)], [(0, [0], [], 0x8000)]),
    "e2500001 1afffffd ef000000": (
        [([0xE2500001, 0x1AFFFFFD], {0: 0x800}), ([0xEF000000], {})],
        [(0, 0, True), (0, 1, False)],
        [(0, [0], [], 0x8000)],
    ),
    "e3a0000a e2500001 1afffffd ef000000": (
        [([0xE3A0000A], {0: 0x800}), ([0xE2500001, 0x1AFFFFFD], {}), ([0xEF000000], {})],
        [(0, 1, False), (1, 1, True), (1, 2, False)],
        [(1, [1], [0], 0x8004)],
    ),
    "e3a04003 eb000003 eb000002 e2544001 1afffffb ef000000 e12fff1e": (
        [
            ([0xE3A04003], {0: 0x800}),
            ([0xEB000003], {}),
            ([0xEB000002], {}),
            ([0xE2544001, 0x1AFFFFFB], {}),
            ([0xEF000000], {}),
            ([0xE12FFF1E], {0: 0x801}),
            ([0xE12FFF1E], {}),
        ],
        [(0, 1, False), (1, 5, True), (2, 6, True), (3, 1, True), (3, 4, False), (5, 2, True), (6, 3, True)],
        [(1, [3], [0], 0x8004)],
    ),
}


def counts_in(facts):
    """The bounds of the one loop: for a stay and, if there is one, for the whole run."""
    words = dict(part.split("=") for part in facts.replace("/>", " ").replace(">", " ").split() if "=" in part)
    number = {key: int(value.strip('"')) for key, value in words.items() if key != "address"}
    total = number.get("totalcount")
    return number.get("maxcount", total), total


def read(text):
    """The families, charges, multipliers, totals and bound of a certificate, of either version."""
    listed, families, charges, multipliers, totals, bound = [], [], [], [], [], 0
    for line in text.replace("_", " ").split(";"):
        kind, *rest = line.split() or [""]
        pairs = [tuple(int(n) for n in pair.split(":")) for pair in rest if ":" in pair]
        if kind == "v":
            listed.append(vector(pairs))
        elif kind == "node":
            families.append([(potential, listed[place]) for potential, place in pairs])
        elif kind == "vec":
            families[-1].append((int(rest[0]), vector(pairs)))
        elif kind == "charge":
            charges.append((int(rest[0], 16), rest[1], int(rest[2])))
        elif kind == "multiplier":
            multipliers.append(int(rest[1]))
        elif kind == "total":
            totals.append((int(rest[0], 16), int(rest[1])))
        elif kind == "bound":
            bound = int(rest[0])
    return families, charges, multipliers, totals, bound


def vector(pairs):
    v = [0] * 35
    for slot, value in pairs:
        v[slot] = value
    return v


def answer(words, facts, text):
    nodes, edges, loops = PROGRAMS[words]
    maxcount, totalcount = counts_in(facts)
    families, charges, multipliers, totals, bound = read(text)
    groups = sorted({(line, "run") for _, misses in nodes for line in misses.values()})
    heads = [address for _, _, _, address in loops] if totalcount is not None else []
    if (
        len(families) != len(nodes)
        or [(line, scope) for line, scope, _ in charges] != groups
        or len(multipliers) != len(loops)
        or any(address not in heads for address, _ in totals)
    ):
        return "rejected 0 0 0"
    if not families[0]:
        return "rejected 1 0 0"
    charge, total = {line: amount for line, _, amount in charges}, dict(totals)

    def trials(node):
        """Each vector with the vector behind the block and what may be spent there, for each choice of misses."""
        block, misses = nodes[node]
        for place, (potential, v) in enumerate(families[node]):
            for missing in [{}] + ([misses] if misses else []):
                yield place, behind(v, block, missing), potential + sum(charge[line] for line in missing.values())

    for node in range(len(nodes)):
        for place, w, earned in trials(node):
            if w[14] > earned:
                return f"rejected 2 {node} {place}"
    for node in range(len(nodes)):
        for place, w, earned in trials(node):
            for number, (source, target, taken) in enumerate(edges):
                if source == node:
                    cost, handed = left(w, taken)
                    for multiplier, (_, back, entries, address) in zip(multipliers, loops):
                        cost += maxcount * multiplier if number in entries else 0
                        earned_here = earned + (multiplier + total.get(address, 0) if number in back else 0)
                    if not any(
                        cost + potential <= earned_here and all(a >= b for a, b in zip(v, handed)) for potential, v in families[target]
                    ):
                        return f"rejected 3 {node} {place}"
    paid = sum(charge.values()) + sum(totalcount * amount for amount in total.values())
    paid += sum(maxcount * multiplier for multiplier, (head, _, _, _) in zip(multipliers, loops) if head == 0)
    return f"bound {bound}" if bound == families[0][0][0] + paid else "rejected 5 0 0"


def main():
    folder = pathlib.Path(__file__).parent
    for name in (folder / "args").read_text().split():
        for line in (folder / "data" / name).read_text().splitlines():
            print(line if not line or line.startswith("#") else f"{line} -> {answer(*line.split(' | '))}")


if __name__ == "__main__":
    main()
