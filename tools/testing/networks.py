"""Random networks of rings, and what becomes of their customers by a second reading: from the documents alone, with nothing of the tools.

A section is lost where a span of its own arc is cut and one of the opposite arc; a customer is lost where one of his sections is. All sets of
failures are gone through one by one.
"""

import csv
import io
import json
import math
import random
import subprocess
import tomllib
from itertools import combinations

HOURS = 8760


class Tables:
    """Random tables of a network of 2 to 4 rings of 2 to 6 places, with customers, spans, places and groups."""

    def __init__(self, chance, most_places=6, rates=False):
        self.chance = chance
        count = chance.randint(2, 4)
        self.rings, number = [], 0
        for at in range(count):
            own = [f"P{number + i}" for i in range(chance.randint(2, most_places))]
            number += len(own)
            if at:  # it shares one or two places with rings before it
                known = sorted({place for ring in self.rings for place in ring[2]})
                for shared in chance.sample(known, min(len(own), chance.randint(1, 2))):
                    own[chance.randrange(len(own))] = shared
                own = list(dict.fromkeys(own))
            if len(own) < 2:
                own.append(f"P{number}")
                number += 1
            self.rings.append((f"R{at}", chance.choice((4, 16)), own))
        self.places = list(dict.fromkeys(place for ring in self.rings for place in ring[2]))
        self.spans = [(name, places[i], places[(i + 1) % len(places)]) for name, _, places in self.rings for i in range(len(places))]
        self.circuits = []
        for at in range(chance.randint(1, 6)):
            self.circuits.append((f"k{at}", *chance.sample(self.places, 2)))
        self.groups = [(f"g{at}", [self.member() for _ in range(chance.randint(1, 3))]) for at in range(chance.randint(0, 3))]
        self.rates = rates

    def member(self):
        if self.chance.random() < 0.3:
            return f"place {self.chance.choice(self.places)}"
        ring, one, other = self.chance.choice(self.spans)
        return f"span {one}-{other} in {ring}"

    def rate(self, likely=0.6):
        return round(10 ** self.chance.uniform(-2, 3), 3) if self.chance.random() < likely else 0

    def hours(self):
        return round(10 ** self.chance.uniform(-1, 2), 2)

    def files(self):
        rings = [["ring", "rate", "places"], *([name, rate, "; ".join(places)] for name, rate, places in self.rings)]
        circuits = [["name", "from", "to"], *self.circuits]
        groups = [["group", "members", "failures", "hours"], *([name, "; ".join(members), self.rate(1), self.hours()] for name, members in self.groups)]
        found = {"rings.csv": rings, "circuits.csv": circuits, "groups.csv": groups}
        if self.rates:
            fibres = lambda: [self.rate(0.2), self.hours()] if self.chance.random() < 0.3 else ["", ""]
            found["spans.csv"] = [["ring", "from", "to", "cuts", "hours", "fibre_failures", "fibre_hours"], *([*span, self.rate(), self.hours(), *fibres()] for span in self.spans)]
            found["nodes.csv"] = [["place", "failures", "hours"], *([place, self.rate(), self.hours()] for place in self.places)]
        return found

    def write(self, folder):
        folder.mkdir(parents=True, exist_ok=True)
        for name, rows in self.files().items():
            text = io.StringIO(newline="")
            csv.writer(text).writerows(rows)
            (folder / name).write_text(text.getvalue(), encoding="utf-8")


class Network:
    """A network's folder, as its documents have it. A component is a name with its parts: (ring, kind, position, side)."""

    def __init__(self, folder):
        self.folder = folder
        self.document = tomllib.loads((folder / "network.toml").read_text(encoding="utf-8"))
        self.rings = self.document["ring"]
        self.number = {ring["name"]: at for at, ring in enumerate(self.rings)}
        self.plans = [tomllib.loads((folder / ring["plan"]).read_text(encoding="utf-8")) for ring in self.rings]
        self.circuits = [{circuit["name"]: circuit for circuit in plan.get("circuit", [])} for plan in self.plans]
        self.customers = self.document.get("customer", [])
        self.sections = []
        for customer in self.customers:
            self.sections.append([])
            for words in customer["sections"]:
                ring, _, circuit = words.rpartition(" ")
                self.sections[-1].append((self.number[ring], circuit))

        self.left = [part for ring in range(len(self.rings)) for part in self.left_in(ring)]

    def left_in(self, ring):
        """The fibres that a plan's script leaves cut, where it does nothing but cut."""
        nodes = self.plans[ring]["nodes"]
        return [(ring, "fibre", nodes.index(int(step.split()[1])), step.split()[2]) for step in self.plans[ring]["script"] if step.startswith("cut")]

    def script(self, ring, steps):
        """Puts these steps into a plan's script, before it settles."""
        path = self.folder / self.rings[ring]["plan"]
        text = path.read_text(encoding="utf-8")
        begin, end = text.index("script = ["), text.index("\n]\n", text.index("script = [")) + 2
        path.write_text(text[:begin] + f"script = {json.dumps([*steps, 'settle'])}" + text[end:], encoding="utf-8")
        return Network(self.folder)

    def size(self, ring):
        return len(self.rings[ring]["places"])

    def at(self, ring, place):
        places = self.rings[ring]["places"]
        return places.index(place) if place in places else None

    def arc(self, ring, circuit):
        found, nodes = self.circuits[ring][circuit], self.plans[ring]["nodes"]
        start, end = nodes.index(found["from"]), nodes.index(found["to"])
        return {(start + i) % self.size(ring) for i in range((end - start) % self.size(ring))}

    def span(self, ring, one, other):
        here, there = self.at(ring, one), self.at(ring, other)
        return here if (here + 1) % self.size(ring) == there else there

    def parts(self, member):
        """What a member of a group is: `span A-B in R` or `place P`."""
        kind, _, rest = member.partition(" ")
        if kind == "place":
            return [(ring, "place", at, "") for ring in range(len(self.rings)) if (at := self.at(ring, rest)) is not None]
        words, _, ring = rest.partition(" in ")
        one, other = words.split("-")
        rings = [self.number[ring]] if ring else [at for at in range(len(self.rings)) if None not in (self.at(at, one), self.at(at, other))]
        return [(rings[0], "span", self.span(rings[0], one, other), "")]

    def components(self, kinds=("fibre", "span", "place", "group")):
        """Each component by its name, as the tools write it, with its kind and parts."""
        found = {}
        for ring, row in enumerate(self.rings):
            places, n = row["places"], self.size(ring)
            for at in range(n):
                for side, way in (("west", -1), ("east", 1)) if "fibre" in kinds else ():
                    aside = f" ({side})" if n == 2 else ""
                    found[f"fibre {places[at]}>{places[(at + way) % n]}{aside} in {row['name']}"] = ("fibre", [(ring, "fibre", at, side)])
                if "span" in kinds:
                    found[f"span {places[at]}–{places[(at + 1) % n]} in {row['name']}"] = ("span", [(ring, "span", at, "")])
                if "place" in kinds:
                    found[f"place {places[at]}"] = ("place", self.parts(f"place {places[at]}"))
        for group in self.document.get("group", []) if "group" in kinds else ():
            found[f"group {group['name']}"] = ("group", [part for member in group["members"] for part in self.parts(member)])
        return found

    def cut(self, parts):
        """The spans that are cut, by ring."""
        found = {}
        for ring, kind, at, side in parts:
            n = self.size(ring)
            spans = {"span": {at}, "place": {at, (at - 1) % n}, "fibre": {at if side == "east" else (at - 1) % n}}[kind]
            found.setdefault(ring, set()).update(spans)
        return found

    def lost(self, parts):
        """The customers that are lost beside what the scripts leave, each with the rings in which a section of his is."""
        cut, found = self.cut([*parts, *self.left]), {}
        for number, sections in enumerate(self.sections):
            rings = []
            for ring, circuit in sections:
                own = self.arc(ring, circuit)
                other = set(range(self.size(ring))) - own
                if own & cut.get(ring, set()) and other & cut.get(ring, set()):
                    rings.append(ring)
            if rings:
                found[number] = rings
        return found

    def ends_at(self, number, parts):
        """Whether a customer ends at a lost node: his first section's or his last one's."""
        customer, sections = self.customers[number], self.sections[number]
        nodes = {(ring, at) for ring, kind, at, _ in parts if kind == "place"}
        ends = {(sections[0][0], self.at(sections[0][0], customer["from"])), (sections[-1][0], self.at(sections[-1][0], customer["to"]))}
        return bool(nodes & ends)

    def steps(self, ring, parts):
        """The steps of a script that make these parts fail in one ring."""
        nodes, n, found = self.plans[ring]["nodes"], self.size(ring), []
        for where, kind, at, side in parts:
            if where != ring:
                continue
            cut = lambda span: [f"cut {nodes[span]} east", f"cut {nodes[(span + 1) % n]} west"]
            found += {"span": cut(at), "place": cut(at) + cut((at - 1) % n), "fibre": [f"cut {nodes[at]} {side}"]}[kind]
        return found

    def reported(self, ring, parts, program):
        """The circuits of a ring at one of whose ports `sdhring run` reports AIS where these parts fail."""
        data = (self.folder / self.rings[ring]["plan"]).read_text(encoding="utf-8")
        steps = [*self.plans[ring]["script"][:-1], *self.steps(ring, parts), "settle"]
        lines = [line for line in data.splitlines() if not line.startswith("#")]
        text = "\n".join(lines)
        begin, end = text.index("script = ["), text.index("]", text.index("script = [")) + 1
        ended = subprocess.run([*program, "run"], input=(text[:begin] + f"script = {json.dumps(steps)}" + text[end:]).encode(), capture_output=True)
        said = ended.stdout.decode()
        assert ended.returncode == 0 and said.endswith("done\n"), said[-200:] + ended.stderr.decode()
        ports = [line.split() for line in said[said.rindex("settle ") :].splitlines() if line.startswith("port ")]
        return {words[1] for words in ports if words[3] == "ais"}

    def lost_by_runs(self, parts, program):
        """The customers that are lost, by the reports of the rings that these parts touch."""
        ais = {ring: self.reported(ring, parts, program) for ring in {part[0] for part in parts}}
        return {number for number, sections in enumerate(self.sections) if any(circuit in ais.get(ring, ()) for ring, circuit in sections)}

    def pairs(self, components):
        """Each two components by their names, with the customers that are lost."""
        for (one, (_, parts)), (other, (_, more)) in combinations(components.items(), 2):
            yield one, other, self.lost([*parts, *more])


def rated(folder, network):
    """Each component that fails with a rate that isn't 0: its unavailability and its parts."""
    rows = lambda name: list(csv.DictReader(io.StringIO((folder / name).read_text(encoding="utf-8"), newline="")))
    found = []
    down = lambda rate, hours: float(rate) * float(hours) / (HOURS + float(rate) * float(hours))
    for row in rows("spans.csv"):
        ring = network.number[row["ring"]]
        span, n = network.span(ring, row["from"], row["to"]), network.size(ring)
        if n == 2:  # the one that leads eastwards from the row's `from`
            span = network.at(ring, row["from"])
        found.append((down(row["cuts"], row["hours"]), [(ring, "span", span, "")]))
        for at, side in ((span, "east"), ((span + 1) % n, "west")) if row["fibre_failures"] else ():
            found.append((down(row["fibre_failures"], row["fibre_hours"]), [(ring, "fibre", at, side)]))
    for row in rows("nodes.csv"):
        found.append((down(row["failures"], row["hours"]), network.parts(f"place {row['place']}")))
    for group in network.document.get("group", []):
        found.append((down(group["failures"], group["hours"]), [part for member in group["members"] for part in network.parts(member)]))
    return [one for one in found if one[0]]


def unavailability(network, components):
    """Of each customer, by going through all sets of components that are down."""
    found = [[] for _ in network.customers]
    for places in range(1 << len(components)):
        probability, parts = 1.0, []
        for at, (down, more) in enumerate(components):
            probability *= down if places >> at & 1 else 1 - down
            parts += more if places >> at & 1 else []
        for number in network.lost(parts):
            found[number].append(probability)
    return [math.fsum(parts) for parts in found]


def drawn(seed, folder, **more):
    """A random network's tables, written into a folder."""
    tables = Tables(random.Random(seed), **more)
    tables.write(folder)
    return tables
