"""An independent model of the cases in data/: it prints what the program must print, from the definitions alone.

    python3 model.py > stdout
"""

import pathlib
import re

LINE = 16
MOST_INSNS, MOST_EVENTS, MOST_BLOCKS = 32, 12, 16384
FOREIGN = (0xFFFFFFFF, 0xE0600290)


def flow(word, address):
    """What an instruction is to the flow: the next address, jump, call, calls by register, return, indirect, end."""
    always = word >> 28 == 14
    kind = dict(next=True, jump=None, call=None, call_any=False, ret=False, indirect=False, stop=False, always=always)
    offset = (word & 0xFFFFFF) - (1 << 24 if word & 0x800000 else 0)
    target = (address + 8 + 4 * offset) % 2**32
    leaves = True
    if word >> 25 & 7 == 5:
        kind["call" if word >> 24 & 1 else "jump"] = target
        leaves = not word >> 24 & 1
    elif word >> 24 & 15 == 15:
        kind["stop"] = True
    elif word & 0x0FFFFFF0 == 0x012FFF10:
        kind["ret" if word & 15 == 14 else "indirect"] = True
    elif word & 0x0FFFFFF0 == 0x012FFF30:
        kind["call_any"], leaves = True, False
    elif word & 0x0FFFFFFF == 0x01A0F00E or word & 0x0FFFFFFF == 0x049DF004:
        kind["ret"] = True
    elif word >> 26 & 3 == 1 and word >> 20 & 1 and word >> 12 & 15 == 15:
        kind["indirect"] = True
    elif word >> 25 & 7 == 4 and word >> 20 & 1 and word >> 15 & 1:
        kind["ret" if word >> 16 & 15 == 13 else "indirect"] = True
    else:
        leaves = False
    if leaves and always:
        kind["next"] = False
    return kind


def is_call(kind):
    return kind["call"] is not None or kind["call_any"]


def is_end(kind):
    return kind["jump"] is not None or is_call(kind) or kind["ret"] or kind["indirect"] or kind["stop"]


def unit(word):
    if word & 0x0F0000F0 == 0x00000090:
        return "multiply"
    if word >> 26 & 3 == 1 or word >> 25 & 7 == 4:
        return "data"
    return None


def facts_of(text):
    def number(digits):
        return int(digits, 0)

    loops, branches, calls = {}, {}, {}
    for attributes in re.findall(r"<loop ([^>]*)/>", text):
        given = dict(re.findall(r'(\w+)="([^"]*)"', attributes))
        most, total = given.get("maxcount", "NOCOMP"), given.get("totalcount", "NOCOMP")
        most, total = (None if n == "NOCOMP" else number(n) for n in (most, total))
        if most is not None or total is not None:
            loops[number(given["address"])] = (total if most is None else most, total)
    for table, name in ((branches, "multibranch"), (calls, "multicall")):
        for address, inner in re.findall(rf'<{name} address="([^"]*)">(.*?)</{name}>', text):
            table[number(address)] = sorted({number(a) for a in re.findall(r'<target address="([^"]*)"', inner)})
    return loops, branches, calls


class Image:
    def __init__(self, text):
        self.words = {}
        for part in text.split(";"):
            first, words = part.split(":")
            address = int(first, 16)
            for word in words.split():
                digits, _, count = word.partition("*")
                for _ in range(int(count or "1")):
                    self.words[address] = int(digits, 16)
                    address += 4


class Flow:
    """The graph of an image with facts."""

    def __init__(self, image, facts):
        self.words, (self.loops, self.branches, self.calls) = image.words, facts
        self.kinds = {a: flow(w, a) for a, w in self.words.items() if w not in FOREIGN}

    def jumps(self, a):
        kind = self.kinds.get(a)
        if kind is None:
            return []
        return ([] if kind["jump"] is None else [kind["jump"]]) + (self.branches.get(a, []) if kind["indirect"] else [])

    def callees(self, a):
        kind = self.kinds.get(a)
        if kind is None:
            return []
        return ([] if kind["call"] is None else [kind["call"]]) + (self.calls.get(a, []) if kind["call_any"] else [])

    def ways(self, a):
        kind = self.kinds.get(a)
        if kind is None:
            return []
        return sorted({*self.jumps(a), *([(a + 4) % 2**32] if kind["next"] else [])})

    def leads(self, a):
        return self.ways(a) + self.callees(a)


def reached(leads, root, without=None):
    found, queue = set(), [root]
    while queue:
        a = queue.pop()
        if a not in found and a != without:
            found.add(a)
            queue.extend(leads(a))
    return found


def structure(leads, entry):
    """The loops of what an entry reaches, head to members, and the least vertex on a cycle without back edges."""
    body = reached(leads, entry)
    sources = {v: [] for v in body}
    for u in body:
        for v in leads(u):
            sources[v].append(u)
    back = {}
    for h in body:
        if len(sources[h]) + (h == entry) > 1:
            around = reached(leads, entry, h)
            back[h] = [u for u in sources[h] if u not in around]
    loops = {}
    for h, tails in sorted(back.items()):
        if tails:
            members, queue = {h}, list(tails)
            while queue:
                u = queue.pop()
                if u not in members:
                    members.add(u)
                    queue.extend(sources[u])
            loops[h] = sorted(members)
    forward = {u: [v for v in leads(u) if u not in back.get(v, [])] for u in body}
    # What is left after the vertices without edges were taken away again and again lies on a cycle or leads to one.
    count = {u: len(vs) for u, vs in forward.items()}
    before = {u: [] for u in body}
    for u, vs in forward.items():
        for v in vs:
            before[v].append(u)
    queue = [u for u in body if count[u] == 0]
    while queue:
        v = queue.pop()
        for u in before[v]:
            count[u] -= 1
            if count[u] == 0:
                queue.append(u)
    rest = sorted(u for u in body if count[u] > 0)
    for u in rest:
        if any(u in reached(forward.__getitem__, v) for v in forward[u]):
            return loops, u
    return loops, None


def blocks(graph, entry):
    body = reached(graph.ways, entry)
    leaders = {entry}
    for a in body:
        leaders.update(graph.jumps(a))
        if is_end(graph.kinds[a]) and (a + 4) % 2**32 in body:
            leaders.add((a + 4) % 2**32)
    made, queue = {}, list(leaders)
    while queue:
        start = queue.pop()
        if start in made:
            continue
        insns, events, lines, a = [], [], set(), start
        while True:
            more = []
            if a // LINE not in lines:
                more.append(f"{len(insns)}:fetch-{a // LINE:x}")
            if unit(graph.words[a]):
                more.append(f"{len(insns)}:{unit(graph.words[a])}")
            if len(insns) == MOST_INSNS or len(events) + len(more) > MOST_EVENTS or (insns and a in leaders):
                if a not in leaders:
                    queue.append(a)
                break
            lines.add(a // LINE)
            events += more
            insns.append(a)
            if is_end(graph.kinds[a]):
                break
            a = (a + 4) % 2**32
        last = insns[-1]
        kind = graph.kinds[last]
        goes = kind["next"] and not (is_call(kind) and kind["always"])
        made[start] = (len(insns), (last + 4) % 2**32 if goes else None, graph.jumps(last), graph.callees(last), kind["ret"], events)
    return sorted(made.items())


def refusal(graph, start):
    seen = {a for a in reached(lambda a: [b for b in graph.leads(a) if b in graph.words], start) if a in graph.words}
    for a in sorted(seen):
        if graph.words[a] in FOREIGN:
            return f"word {graph.words[a]:08x} at {a:08x} is no instruction of the subset"
    behind = [(a + 4) % 2**32 for a in seen if graph.kinds[a]["next"]]
    out = sorted(a for a in [start, *behind] if a not in graph.words)
    if out:
        return f"no word of code stands at {out[0]:08x}, where a run may come"
    for a in sorted(seen):
        kind = graph.kinds[a]
        if (kind["indirect"] and not graph.branches.get(a)) or (kind["call_any"] and not graph.calls.get(a)):
            return f"no targets are listed for the jump or call at {a:08x}"
    for a in sorted(seen):
        for b in sorted(graph.jumps(a) + graph.callees(a)):
            if b not in graph.words:
                return f"{b:08x}, a target of the jump or call at {a:08x}, is no code"
    for a in sorted(seen):
        if any(a in reached(graph.leads, callee) for callee in graph.callees(a)):
            return f"the call at {a:08x} is recursive"
    entries = sorted({start, *(b for a in seen for b in graph.callees(a))})
    found = [(e, *structure(graph.ways, e)) for e in entries]
    cycles = [cycle for _, _, cycle in found if cycle is not None]
    if cycles:
        return f"the flow at {min(cycles):08x} is irreducible"
    heads = [h for _, loops, _ in found for h in loops if h not in graph.loops]
    if heads:
        return f"the loop at {min(heads):08x} has no bound"
    functions = [(e, blocks(graph, e), loops) for e, loops, _ in found]
    if sum(len(bs) for _, bs, _ in functions) > MOST_BLOCKS:
        return "the program has more than 16384 blocks"
    return functions


def listed(word, addresses):
    return "".join([word if addresses else "", *(f" {a:08x}" for a in addresses)])


def program(kind, case):
    start, image, facts = case.split(" | ")
    graph = Flow(Image(image), facts_of(facts))
    found = refusal(graph, int(start, 16))
    if isinstance(found, str):
        return " " + found
    if kind == "count":
        return "".join(f" {len(bs)} blocks {len(loops)} loops" for _, bs, loops in found)
    text = f" start {start}"
    for entry, bs, loops in found:
        text += f"\n  function {entry:08x}"
        for first, (count, behind, jumps, calls, ret, events) in bs:
            text += f"\n    block {first:08x} of {count}"
            text += "" if behind is None else f" next {behind:08x}"
            text += listed(" jumps", jumps) + listed(" calls", calls) + (" returns" if ret else "")
            text += "".join(f" {event}" for event in events)
        for head, members in loops.items():
            most, total = graph.loops[head]
            text += f"\n    loop {head:08x} maxcount {most}" + ("" if total is None else f" totalcount {total}")
            text += listed(" members", members)
    return text


def ways(case):
    place, facts = case.split(" | ")
    word, address = place.split(" at ")
    image = Image(f"{address}: {word}")
    return listed("", Flow(image, facts_of(facts)).ways(int(address, 16)))


def graph_of(text):
    return [[int(v) for v in part.split()] for part in text.split(":")[1].split(",")]


def loops(case):
    found, cycle = structure(graph_of(case).__getitem__, 0)
    text = "".join(f" loop {h} of {' '.join(map(str, members))}" for h, members in found.items())
    return text + ("" if cycle is None else f" irreducible at {cycle}")


def reach(case):
    graph, avoided = case.split(" avoiding")
    without = int(avoided) if avoided.strip() else None
    return "".join(f" {v}" for v in sorted(reached(graph_of(graph).__getitem__, 0, without)))


def outcome(line):
    kind, case = line.split(" ", 1)
    if kind in ("program", "count"):
        return program(kind, case)
    return {"ways": ways, "loops": loops, "reach": reach}[kind](case)


def main():
    here = pathlib.Path(__file__).parent
    for name in (here / "args").read_text().split():
        if name == "unfoldings.txt":  # these were worked out by hand
            continue
        for line in (here / "data" / name).read_text().splitlines():
            print(line if not line or line.startswith("#") else f"{line} ->{outcome(line)}")


main()
