"""A second model of diagrams: a diagram is the list of its times at each combination of six events. It writes the lines of
data/random.txt, and with `expect` the line that is due for each of them."""
import random, sys

EVENTS = 6
SIZE = 1 << EVENTS


def missed(combination, event):
    return combination >> (EVENTS - 1 - event) & 1


def given(d, event, way):
    bit = 1 << (EVENTS - 1 - event)
    return tuple(d[c | bit if way else c & ~bit] for c in range(SIZE))


def text(d):
    lines, seen = [], {}

    def walk(f, event):
        while event < EVENTS and given(f, event, 0) == given(f, event, 1):
            event += 1
        if f not in seen:
            if event == EVENTS:
                line = f"leaf {f[0]}"
            else:
                hit = walk(given(f, event, 0), event + 1)
                miss = walk(given(f, event, 1), event + 1)
                line = f"branch {event} {hit} {miss}"
            seen[f] = len(lines)
            lines.append(line)
        return seen[f]

    walk(d, 0)
    return "".join(line + ";" for line in [f"dd {len(lines)}"] + lines).replace(" ", "_"), len(lines)


def run(line):
    stack, pairs, out = [], [], []
    for word in line.split():
        name, _, arg = word.partition(":")
        if name == "leaf":
            stack.append((int(arg),) * SIZE)
        elif name == "branch":
            miss, hit = stack.pop(), stack.pop()
            stack.append(tuple(miss[c] if missed(c, int(arg)) else hit[c] for c in range(SIZE)))
        elif name in ("max", "plus", "minus", "zip"):
            b, a = stack.pop(), stack.pop()
            if name == "zip":
                for pair in zip(a, b):
                    if pair not in pairs:
                        pairs.append(pair)
            make = {"max": max, "plus": lambda x, y: x + y, "minus": lambda x, y: max(x - y, 0),
                    "zip": lambda x, y: pairs.index((x, y))}[name]
            stack.append(tuple(map(make, a, b)))
        elif name == "fix":
            event, way = arg.split(":")
            stack.append(given(stack.pop(), int(event), way == "miss"))
        elif name == "replace":
            times = [int(t) for t in arg.split(",")]
            stack.append(tuple(times[t] for t in stack.pop()))
        elif name == "print":
            out.append(text(stack[-1])[0])
        elif name == "size":
            out.append(str(text(stack[-1])[1]))
        elif name == "greatest":
            out.append(str(max(stack[-1])))
        elif name == "rise":
            d, e = stack[-1], int(arg)
            out.append(str(max(max(x - y, 0) for x, y in zip(given(d, e, 1), given(d, e, 0)))))
        elif name == "pairs":
            out += [f"{a},{b}" for a, b in pairs]
        elif name == "same":
            b, a = stack.pop(), stack.pop()
            out.append("true" if a == b else "false")
    return " ".join([f"{line} ->"] + out)


def words(rng, event, depth):
    while event < EVENTS and rng.random() < 0.3:
        event += 1
    if event >= EVENTS or depth == 0:
        return f"leaf:{rng.choice([0, 0, 1, 3, 5, 7, 12])}"
    return f"{words(rng, event + 1, depth - 1)} {words(rng, event + 1, depth - 1)} branch:{event}"


def lines(rng):
    for i in range(240):
        a, b = words(rng, 0, 3), words(rng, 0, 3)
        e, way = rng.randrange(EVENTS), rng.choice(["hit", "miss"])
        kind = i % 6
        if kind < 3:
            yield f"{a} {b} {['max', 'plus', 'minus'][kind]} print size greatest rise:{e}"
        elif kind == 3:
            yield f"{a} fix:{e}:{way} print {b} fix:{e}:{way} same"
        elif kind == 4:
            yield f"{a} {b} zip pairs print replace:{','.join(str(rng.randrange(4)) for _ in range(64))} print"
        else:
            yield f"{a} replace:{','.join(str(rng.randrange(6)) for _ in range(13))} {b} max {a} minus print rise:{e}"


HEAD = "# Diagrams of up to six events, made at random; what is due was worked out by model.py, which keeps the times at each combination."
if sys.argv[1:] == ["expect"]:
    for line in sys.stdin.read().splitlines():
        print(line if not line or line.startswith("#") else run(line))
else:
    print(HEAD)
    print()
    for line in lines(random.Random(18)):
        print(line)
