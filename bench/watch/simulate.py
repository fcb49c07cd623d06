"""What `sdhwatch run` must write for a plan, simulated plainly: who is joined by the restoration model of the tools' tests, streams byte by
byte, and a watch as a list of chunks that is cut into VC-4s at the end. It shares nothing with the crates; `compare` holds the built
program against it.

Where a settle step ends is known beforehand for the plans that `compare` makes: they have at most ten nodes, at most ten turns held and at
most three slips a port, so that each step is quiet before its 128th round, and ends with it."""
from rules import CHUNK, Rules, Stream, bip8

WATCHED = 128


def last_rounds(settles):
    """The last round of each settle step, and that of its watches. Round 0 is there before the first multiple of 128."""
    ended = [128 + 2 * WATCHED * k for k in range(settles)]
    return ended, [last + WATCHED for last in ended]


def slips_before(script, settle, name, end):
    """Ups less downs that a port was told of before this settle step, counted from 0."""
    total, passed = 0, 0
    for step in script:
        if step == "settle":
            passed += 1
            if passed > settle:
                break
        word, *rest = step.split(" ")
        if word == "slip" and rest[:2] == [name, end]:
            total += int(rest[3]) if rest[2] == "up" else -int(rest[3])
    return total


def stretch(stream, position, count):
    """So many bytes of a customer's stream."""
    at = position + (CHUNK - (783 + 3 * stream.offset) % CHUNK) % CHUNK
    first, skip = divmod(at, CHUNK)
    vcs = [stream.vc(first + i) for i in range((skip + count) // CHUNK + 1)]
    return b"".join(vcs)[skip : skip + count]


def report(trace, given):
    """What a watch reports of what it was given: chunks with their pointer values, and None for AIS."""
    since, value = [], None
    for item in given:
        if item is None:
            since, value = [], None
        elif item[1] != value:
            since, value = [item[0]], item[1]
        else:
            since.append(item[0])
    data = b"".join(since)
    first = (783 + 3 * (value or 0)) % CHUNK
    vcs = [data[at : at + CHUNK] for at in range(first, len(data) - CHUNK + 1, CHUNK)]
    b3 = sum(bin(vc[261] ^ bip8(before)).count("1") for before, vc in zip(vcs, vcs[1:]))
    label = sum(vc[522] != 1 for vc in vcs)
    j1 = data[first::CHUNK]
    expected = trace.encode().ljust(64)
    turns = {expected[k:] + expected[:k] for k in range(64)}
    word = "short" if len(j1) < 64 else "ok" if j1[-64:] in turns else "mismatch"
    return f"vcs {len(vcs)} b3 {b3} label {label} trace {word}"


def watch_lines(data, rules, streams, settle, ended):
    """The lines of all ports after a settle step that ended with this round."""
    applied = rules.applied(ended + WATCHED)
    for circuit in data.get("circuit", []):
        for end, other in (("a", "b"), ("b", "a")):
            line = f"watch {circuit['name']} {end}"
            if not rules.joined(circuit, applied):
                yield f"{line} ais"
                continue
            slipped = slips_before(data["script"], settle, circuit["name"], other)
            stream = streams[circuit["name"], other]
            value = (stream.offset + slipped) % 783
            start = CHUNK * (ended + 1 - rules.hops(circuit, applied)) - 3 * slipped
            chunks = stretch(stream, start, CHUNK * WATCHED)
            given = [(chunks[CHUNK * k : CHUNK * (k + 1)], value) for k in range(WATCHED)]
            yield f"{line} {report(circuit.get('trace_' + other, circuit['name']), given)}"


def run(data):
    """The status and the text."""
    settles = data["script"].count("settle")
    if data["limit"] <= 128:
        return 7, b"unsettled 1\n"
    ended, watched = last_rounds(settles)
    rules = Rules(data, watched)
    streams = {}
    for circuit in data.get("circuit", []):
        for end in "ab":
            trace = circuit.get(f"trace_{end}", circuit["name"])
            streams[circuit["name"], end] = Stream(circuit[f"text_{end}"], trace, circuit.get(f"offset_{end}", 0))
    lines = []
    for settle in range(settles):
        lines.append(f"settle {settle + 1} round {ended[settle]}")
        lines += watch_lines(data, rules, streams, settle, ended[settle])
    return 0, "\n".join([*lines, "done", ""]).encode()
