"""From tables to a network, its growth, what is free, and what honest mistakes are answered with."""

import csv
import io
import random
import tempfile
import tomllib
import unittest
from pathlib import Path

from common import TOOLS, call

EXAMPLE = TOOLS.parent / "examples" / "network"
RINGS = "ring,rate,places\nNorth,4,Ahlen; Bonn; Celle; Dorf\nSouth,4,Celle; Emden; Fulda\n"
CIRCUITS = "name,from,to,via,count\nlong,Ahlen,Fulda,,\nshort,Ahlen,Bonn,,\n"
SPANS = "ring,from,to,km,cuts,hours\nNorth,Ahlen,Bonn,10,1,8\nNorth,Bonn,Celle,10,1,8\nNorth,Celle,Dorf,10,1,8\nNorth,Dorf,Ahlen,10,1,8\nSouth,Celle,Emden,10,1,8\nSouth,Emden,Fulda,10,1,8\nSouth,Fulda,Celle,10,1,8\n"
NODES = "place,failures,hours\nAhlen,1,1\nBonn,1,1\nCelle,1,1\nDorf,1,1\nEmden,1,1\nFulda,1,1\n"
GROUPS = "group,members,failures,hours\nduct,span Ahlen-Bonn; span Celle-Emden,1,1\n"
GOOD = {"rings.csv": RINGS, "circuits.csv": CIRCUITS, "spans.csv": SPANS, "nodes.csv": NODES, "groups.csv": GROUPS}


class Folder(unittest.TestCase):
    """A folder of its own for each test."""

    def setUp(self):
        folder = tempfile.TemporaryDirectory()
        self.addCleanup(folder.cleanup)
        self.top = Path(folder.name)

    def tables(self, name="tables", **changed):
        """The good tables with some of them changed; `rings` stands for rings.csv, and None for none."""
        folder = self.top / name
        folder.mkdir(exist_ok=True)
        for file, text in (GOOD | {f"{key}.csv": text for key, text in changed.items()}).items():
            (folder / file).unlink(missing_ok=True)
            if text is not None:
                (folder / file).write_text(text, encoding="utf-8")
        return folder

    def call(self, *words, wanted=0):
        ended = call("sdhring-network", *words, cwd=self.top)
        said = ended.stderr.decode()
        self.assertEqual(ended.returncode, wanted, said + ended.stdout.decode()[-300:])
        self.assertNotIn("Traceback", said)
        self.assertNotIn("a mistake of this tool", said)
        return ended.stdout.decode(), said

    def imported(self, folder, to="net", *words):
        self.call("import", folder, "--to", self.top / to, *words)
        return tomllib.loads((self.top / to / "network.toml").read_text(encoding="utf-8"))

    def rows(self, text):
        return list(csv.DictReader(io.StringIO(text, newline="")))


def sections(document):
    return {customer["name"]: (customer["sections"], customer.get("changes", [])) for customer in document["customer"]}


def laid(folder):
    """Each circuit of each plan by its ring: ends, slot and texts."""
    found = {}
    for file in sorted((folder / "rings").glob("*.toml")):
        for circuit in tomllib.loads(file.read_text(encoding="utf-8")).get("circuit", []):
            found[file.stem, circuit["name"]] = circuit
    return found


class Imported(Folder):
    def test_rings_and_changes_are_chosen(self):
        document = self.imported(self.tables())
        self.assertEqual(sections(document), {"long": (["North long", "South long"], ["Celle"]), "short": (["North short"], [])})
        self.assertEqual([ring["places"] for ring in document["ring"]], [["Ahlen", "Bonn", "Celle", "Dorf"], ["Celle", "Emden", "Fulda"]])
        self.assertEqual(document["group"], [{"name": "duct", "members": ["span Ahlen-Bonn", "span Celle-Emden"], "failures": 1.0, "hours": 1.0}])
        self.assertEqual((self.top / "net" / "spans.csv").read_text(encoding="utf-8"), SPANS)

    def test_what_a_customer_sends_is_the_same_in_each_ring(self):
        """What comes in at Celle is what was sent at Ahlen, whichever way round the circuit leads."""
        self.imported(self.tables(circuits="name,from,to,text_a,text_b,trace_a\nlong,Ahlen,Fulda,from Ahlen,from Fulda,A\n"))
        places = {"north": ["Ahlen", "Bonn", "Celle", "Dorf"], "south": ["Celle", "Emden", "Fulda"]}
        for (ring, _), circuit in laid(self.top / "net").items():
            start = places[ring][circuit["from"] - 1]
            near = "a" if start in ("Ahlen",) or ring == "south" and start == "Celle" else "b"
            self.assertEqual((circuit[f"text_{near}"], circuit["text_b" if near == "a" else "text_a"]), ("from Ahlen", "from Fulda"))
            self.assertEqual(circuit[f"trace_{near}"], "A")

    def test_plans_are_good_ones(self):
        self.imported(self.tables())
        for name in ("north", "south"):
            self.assertEqual(call("sdhring-explain", self.top / "net" / "rings" / f"{name}.toml").returncode, 0)

    def test_a_bundle_is_as_many_circuits(self):
        document = self.imported(self.tables(circuits="name,from,to,via,count\nwide,Ahlen,Fulda,,2\n,Bonn,Dorf,,\n"))
        self.assertEqual(list(sections(document)), ["wide-1", "wide-2", "c1"])

    def test_the_fewest_rings_and_then_the_shortest(self):
        """Two rings of two ways: by km the long way round over Bonn is the shorter one; with spans alone it isn't."""
        rings = "ring,rate,places\nA,4,P; Q; R; S\nB,4,R; T\nC,4,Q; T\n"
        lengths = "ring,from,to,km,hours\nA,P,Q,{},8\nA,Q,R,1,8\nA,R,S,1,8\nA,S,P,1,8\nB,R,T,5,8\nB,T,R,5,8\nC,Q,T,5,8\nC,T,Q,5,8\n"
        for far, wanted in ((1, (["A c", "C c"], ["Q"])), (9, (["A c", "B c"], ["R"]))):
            folder = self.tables(f"far{far}", rings=rings, circuits="name,from,to\nc,P,T\n", spans=lengths.format(far), nodes=None, groups=None)
            self.assertEqual(sections(self.imported(folder, f"net{far}"))["c"], wanted)

    def test_via_fixes_rings_and_places(self):
        rings = "ring,rate,places\nA,4,P; Q; R\nB,4,R; T\nC,4,Q; T\n"
        for via, wanted in (("R", (["A c", "B c"], ["R"])), ("C", (["A c", "C c"], ["Q"])), ("A; Q; C", (["A c", "C c"], ["Q"])), ("", (["A c", "B c"], ["R"]))):
            folder = self.tables(f"via{via}", rings=rings, circuits=f"name,from,to,via\nc,P,T,{via}\n", spans=None, nodes=None, groups=None)
            self.assertEqual(sections(self.imported(folder, f"net{via}"))["c"], wanted, via)

    def test_the_answer_does_not_hang_on_the_order_of_the_table(self):
        """Twelve tables by chance: fits or not, and all sections, are the same in two orders."""
        fits = 0
        for seed in range(12):
            chance = random.Random(seed)
            places = "Ahlen Bonn Celle Dorf Emden Fulda".split()
            lines = [f"k{at},{','.join(chance.sample(places, 2))}" for at in range(chance.randint(4, 9))]
            found = set()
            for order in range(2):
                chance.shuffle(lines)
                folder = self.tables(f"t{seed}-{order}", circuits="name,from,to\n" + "\n".join(lines) + "\n")
                ended = call("sdhring-network", "import", folder, "--to", self.top / f"n{seed}-{order}")
                if ended.returncode:
                    words = [line.split(":", 2)[2] for line in ended.stderr.decode().splitlines() if "circuits.csv:" in line]
                    found.add(tuple(sorted(words)))
                else:
                    circuits = laid(self.top / f"n{seed}-{order}")
                    found.add(tuple(sorted((key, one["from"], one["to"], one["slot"]) for key, one in circuits.items())))
                    fits += 1
            self.assertEqual(len(found), 1, seed)
        self.assertTrue(2 < fits < 24, fits)

    def test_no_two_circuits_share_a_span_and_a_slot(self):
        chance = random.Random(7)
        for seed in range(6):
            places = "Ahlen Bonn Celle Dorf Emden Fulda".split()
            lines = [f"k{at},{','.join(chance.sample(places, 2))}" for at in range(6)]
            folder = self.tables(f"t{seed}", rings=RINGS.replace(",4,", ",16,"), circuits="name,from,to\n" + "\n".join(lines) + "\n")
            self.imported(folder, f"n{seed}")
            taken = set()
            for (ring, _), circuit in laid(self.top / f"n{seed}").items():
                size = {"north": 4, "south": 3}[ring]
                at = circuit["from"]
                while at != circuit["to"]:
                    self.assertNotIn((ring, at, circuit["slot"]), taken)
                    taken.add((ring, at, circuit["slot"]))
                    at = at % size + 1

    def test_another_way_is_taken_where_a_ring_is_full(self):
        rings = "ring,rate,places\nA,4,P; Q; R\nB,4,R; T\nC,4,Q; T\n"
        circuits = "name,from,to,count\nc,P,T,4\n"
        document = self.imported(self.tables(rings=rings, circuits=circuits, spans=None, nodes=None, groups=None))
        self.assertEqual(len(document["customer"]), 4)
        _, said = self.call("import", self.top / "tables", "--to", self.top / "again")
        self.assertIn("4 customers: 4 in 2 rings", said)

    def test_what_does_not_fit_is_named(self):
        """Nothing is written; the customer, the ring, the full span, and what would still fit there."""
        folder = self.tables(circuits="name,from,to,count\nwide,Celle,Emden,5\n")
        _, said = self.call("import", folder, "--to", self.top / "net", wanted=1)
        self.assertIn("1 circuit of 5 can't be fitted beside the others, by the best of several orders", said)
        self.assertIn("circuits.csv:2: wide-", said)
        self.assertIn("in South eastwards Celle–Emden is full, with 2 of 2 slots taken; westwards Emden–Fulda is full, with 2 of 2 slots taken", said)
        self.assertIn("nothing more fits in South", said)
        self.assertFalse((self.top / "net" / "network.toml").exists())
        folder = self.tables(circuits="name,from,to,count\nwide,Celle,Bonn,3\nmore,Bonn,Celle,2\n")
        _, said = self.call("import", folder, "--to", self.top / "net", wanted=1)
        self.assertIn("1 circuit of 5 can't be fitted", said)

    def test_nothing_of_a_table_is_dropped_in_silence(self):
        folder = self.tables(circuits="name,from,to,colour\nlong,Ahlen,Fulda,red\n", nodes=NODES.replace("hours", "hours,owner"))
        (folder / "ducts.csv").write_text("a,b\n")
        _, said = self.call("import", folder, "--to", self.top / "net")
        for words in ("circuits.csv: not read: colour", "nodes.csv: not read: owner", "ducts.csv: not read: a network's tables are"):
            self.assertIn(words, said)


class Growth(Folder):
    def test_all_that_is_in_service_stays(self):
        """Circuits in service have the same ends, slots, texts and names; a plan that nothing is added to is the same to the byte."""
        self.imported(self.tables(), "old")
        with (self.top / "old" / "rings" / "south.toml").open("a", encoding="utf-8") as file:
            file.write("# looked at by hand\n")
        more = CIRCUITS + "new,Bonn,Dorf,,\nbeside,Ahlen,Bonn,,\n"
        document = self.imported(self.tables("more", circuits=more), "new", "--keep", self.top / "old")
        before, after = laid(self.top / "old"), laid(self.top / "new")
        self.assertEqual({key: after[key] for key in before}, before)
        self.assertEqual(len(after), len(before) + 2)
        self.assertEqual(list(sections(document)), ["long", "short", "new", "beside"])
        self.assertEqual((self.top / "old" / "rings" / "south.toml").read_bytes(), (self.top / "new" / "rings" / "south.toml").read_bytes())

    def test_what_the_table_lacks_stays_and_is_named(self):
        self.imported(self.tables(), "old")
        _, said = self.call("import", self.tables("less", circuits="name,from,to\nlong,Ahlen,Fulda\n"), "--to", self.top / "new", "--keep", self.top / "old")
        self.assertIn("1 customer in service and not in the table stay: short", said)
        self.assertEqual(len(laid(self.top / "new")), 3)

    def test_a_new_ring_comes_beside(self):
        self.imported(self.tables(), "old")
        rings = RINGS + "West,16,Dorf; Goch\n"
        spans = SPANS + "West,Dorf,Goch,5,1,8\nWest,Goch,Dorf,5,1,8\n"
        folder = self.tables("more", rings=rings, spans=spans, nodes=NODES + "Goch,1,1\n", circuits=CIRCUITS + "west,Goch,Ahlen,,\n")
        self.assertEqual(sections(self.imported(folder, "new", "--keep", self.top / "old"))["west"], (["West west", "North west"], ["Dorf"]))

    def test_what_can_not_be_kept_is_refused(self):
        self.imported(self.tables(), "old")
        for words, changed in (
            ("ring South is in service, and has no row", {"rings": RINGS.split("South")[0], "spans": None, "nodes": None, "groups": None, "circuits": "name,from,to\nshort,Ahlen,Bonn\n"}),
            ("ring North is in service with the places Ahlen; Bonn; Celle; Dorf, and these are others", {"rings": RINGS.replace("Bonn; Celle", "Celle; Bonn"), "spans": None, "groups": None}),
            ("ring North is in service at STM-4, and `rate` is 16", {"rings": RINGS.replace("North,4", "North,16")}),
            ("long is in service from Ahlen to Fulda; another name is wanted for what is new", {"circuits": "name,from,to\nlong,Ahlen,Emden\n"}),
        ):
            _, said = self.call("import", self.tables("more", **changed), "--to", self.top / "new", "--keep", self.top / "old", wanted=1)
            self.assertIn(words, said)

    def test_used_and_free_slots_by_hand(self):
        """North: `long` and `short` both have Ahlen–Bonn or the other way; the largest that fits is three spans of a ring of four."""
        self.imported(self.tables(circuits="name,from,to,direction,slot\nshort,Ahlen,Bonn,east,1\nother,Bonn,Celle,east,2\n"))
        found, said = self.call("room", self.top / "net")
        rows = {(row["ring"], row["span"]): row for row in self.rows(found)}
        north = [[rows["North", span][column] for column in ("slots", "used", "free", "largest", "from", "to", "slot")] for span in ("Ahlen–Bonn", "Bonn–Celle", "Celle–Dorf")]
        self.assertEqual(north[0], ["2", "1", "1", "3", "Celle", "Bonn", "2"])
        self.assertEqual(north[1], ["2", "1", "1", "3", "Bonn", "Ahlen", "1"])
        self.assertEqual(north[2], ["2", "0", "2", "3", "Bonn", "Ahlen", "1"])
        self.assertEqual(rows["South", "Fulda–Celle"]["used"], "0")
        self.assertIn("2 of 14 slots of spans are used, 12 are free", said)

    def test_what_if_these_came_too(self):
        """Answered without touching a file."""
        self.imported(self.tables())
        read = lambda: {file: file.read_bytes() for file in (self.top / "net").rglob("*") if file.is_file()}
        before = read()
        (self.top / "ten.csv").write_text("name,from,to,count\nten,Ahlen,Fulda,2\nmore,Emden,Fulda,3\n")
        found, said = self.call("add", self.top / "net", "ten.csv", wanted=1)
        rows = self.rows(found)
        self.assertEqual([row["circuit"] for row in rows], ["ten-1", "ten-2", "more-1", "more-2", "more-3"])
        self.assertTrue(all(row["rings"] == "North; South" and row["changes"] == "Celle" for row in rows[:2] if row["fits"] == "yes"))
        missing = [row for row in rows if row["fits"] == "no"]
        self.assertEqual(len(missing), 2)  # South has six slots of spans; `long` takes one, and five more have no room beside it
        self.assertIn("is full, with 2 of 2 slots taken", missing[0]["problem"])
        self.assertIn("3 of 5 fit; then", said)
        self.assertEqual(read(), before)
        _, said = self.call("add", self.top / "net", self.put("name,from,to\nlong,Ahlen,Fulda\n"), wanted=1)
        self.assertIn("long is in service; another name is wanted for what is to come", said)

    def put(self, text):
        (self.top / "more.csv").write_text(text)
        return "more.csv"


MISTAKES = (
    # (what is said, the tables that are changed)
    ("rings.csv is missing; rings.csv has ring,rate,places and circuits.csv has name,from,to", {"rings": None}),
    ("circuits.csv is missing", {"circuits": None}),
    ("rings.csv:1: the first line is to name the columns, and `places` is missing; there are ring, rate, nodes", {"rings": RINGS.replace("places", "nodes")}),
    ("rings.csv:2: `rate` is `STM-4`, and 4 or 16 is wanted, for STM-4 or STM-16", {"rings": RINGS.replace("North,4", "North,STM-4")}),
    ("rings.csv:3: the ring north stood in line 2 already", {"rings": RINGS.replace("South", "north")}),
    ("rings.csv:2: `places` has 1 place, separated by semicolons, and a ring has 2 to 16", {"rings": "ring,rate,places\nNorth,4,Ahlen - Bonn\n"}),
    ("rings.csv:2: `places` has bonn twice", {"rings": RINGS.replace("Celle; Dorf", "bonn; Dorf")}),
    ("rings.csv:2: `places` has `7`, and a number alone, or beside words such as node and east, would be read as an identifier", {"rings": RINGS.replace("Dorf", "7")}),
    ("rings.csv:2: `ring` is empty, and a name is wanted", {"rings": RINGS.replace("North", "")}),
    ("circuits.csv:2: `from` is `Alhen`, and no ring comes there; there is Ahlen", {"circuits": CIRCUITS.replace("long,Ahlen", "long,Alhen")}),
    ("circuits.csv:2: `to` is empty, and a place is wanted", {"circuits": CIRCUITS.replace("Ahlen,Fulda", "Ahlen,")}),
    ("circuits.csv:3: `from` and `to` are both Ahlen", {"circuits": CIRCUITS.replace("Ahlen,Bonn", "Ahlen,Ahlen")}),
    ("circuits.csv:3: the circuit Long stood in line 2 already; `count` makes a bundle of several", {"circuits": CIRCUITS.replace("short", "Long")}),
    ("circuits.csv:2: `count` is `four`, and a whole number from 1 to 128 is wanted", {"circuits": CIRCUITS.replace("Fulda,,", "Fulda,,four")}),
    ("circuits.csv:2: `via` has `Cele`, and no ring comes there, and none is called so; there is Celle", {"circuits": CIRCUITS.replace("Fulda,,", "Fulda,Cele,")}),
    ("circuits.csv:2: no way leads from Ahlen to Fulda by Emden: `via` names places where rings are changed", {"circuits": CIRCUITS.replace("Fulda,,", "Fulda,Emden,")}),
    ("circuits.csv:2: `direction` and `slot` are those of one ring, and long crosses North and South: leave them empty", {"circuits": "name,from,to,slot\nlong,Ahlen,Fulda,1\n"}),
    ("circuits.csv:2: `slot` is 3, and a span of ring North has 2 working slots", {"circuits": "name,from,to,slot\nshort,Ahlen,Bonn,3\n"}),
    ("circuits.csv:2: `slot` is 1, and the 2 circuits of a bundle can't share one: leave it empty, or write a row for each", {"circuits": "name,from,to,slot,count\nshort,Ahlen,Bonn,1,2\n"}),
    ("circuits.csv:2: `direction` is `up`, and east, west or an empty cell is wanted", {"circuits": "name,from,to,direction\nshort,Ahlen,Bonn,up\n"}),
    ("circuits.csv:2: no way leads from Ahlen to Emden: the rings of these places touch nowhere", {"rings": RINGS.replace("South,4,Celle", "South,4,Xanten"), "circuits": "name,from,to\nx,Ahlen,Emden\n", "spans": None, "nodes": None, "groups": None}),
    ("spans.csv:2: `ring` is `Nord`, and the rings are North, South", {"spans": SPANS.replace("North,Ahlen,Bonn", "Nord,Ahlen,Bonn")}),
    ("spans.csv:2: no span of ring North joins Ahlen and Celle; Ahlen has spans to Dorf and Bonn", {"spans": SPANS.replace("North,Ahlen,Bonn", "North,Ahlen,Celle")}),
    ("spans.csv:3: span Ahlen–Bonn in North stood in line 2 already", {"spans": SPANS.replace("North,Bonn,Celle", "North,Bonn,Ahlen")}),
    ("spans.csv: span Fulda–Celle in South: it has no row; a rate of 0 stands for what never fails", {"spans": SPANS.replace("South,Fulda,Celle,10,1,8\n", "")}),
    ("spans.csv:2: `km` is `10 km`, and a number is wanted that isn't below 0", {"spans": SPANS.replace("Bonn,10,", "Bonn,10 km,", 1)}),
    ("spans.csv:4: `km` is empty, and other spans have one: all have a length, or none has", {"spans": SPANS.replace("Celle,Dorf,10", "Celle,Dorf,")}),
    ("nodes.csv: place Fulda: it has no row; a rate of 0 stands for what never fails", {"nodes": NODES.replace("Fulda,1,1\n", "")}),
    ("nodes.csv:3: `place` is `Ulm`, and no ring comes there", {"nodes": NODES.replace("Bonn", "Ulm")}),
    ("groups.csv:2: `span Ahlen-Celle`: no span joins Ahlen and Celle; the neighbours of Ahlen are Bonn, Dorf", {"groups": GROUPS.replace("Ahlen-Bonn", "Ahlen-Celle")}),
    ("groups.csv:2: `Ahlen-Bonn` names no failure: `span A-B`, `fibre A>B`, `place A`", {"groups": GROUPS.replace("span Ahlen", "Ahlen")}),
    ("groups.csv:2: `place Cele`: no ring comes to `Cele`; there is Celle", {"groups": GROUPS.replace("span Celle-Emden", "place Cele")}),
    ("groups.csv:2: `failures` a year and `hours` of a repair go together: one of them is empty", {"groups": GROUPS.replace(",1,1", ",1,")}),
    ("groups.csv:2: `members` is empty; spans, places and fibres are wanted, separated by semicolons", {"groups": "group,members,failures,hours\nduct,,1,1\n"}),
    ("groups.csv:3: the group Duct stood in line 2 already", {"groups": GROUPS + "Duct,place Ahlen,1,1\n"}),
    ("groups.csv:2: `span P-Q` is in A and B: write `span P-Q in A`", {"rings": "ring,rate,places\nA,4,P; Q; R\nB,4,P; Q; S\n", "circuits": "name,from,to\nx,P,S\n", "spans": None, "nodes": None, "groups": "group,members\nduct,span P-Q\n"}),
)


class Mistakes(Folder):
    def test_each_is_refused_with_what_would_be_right(self):
        self.assertGreaterEqual(len(MISTAKES), 30)
        for number, (words, changed) in enumerate(MISTAKES):
            with self.subTest(words=words):
                _, said = self.call("import", self.tables(f"t{number}", **changed), "--to", self.top / f"n{number}", wanted=1)
                self.assertIn(words, said)
                self.assertFalse((self.top / f"n{number}").exists())

    def test_the_good_tables_are_good(self):
        self.imported(self.tables())

    def document(self, old, new):
        """The good network's document with something else in it."""
        if not (self.top / "net").exists():
            self.imported(self.tables())
            self.good = (self.top / "net" / "network.toml").read_text(encoding="utf-8")
        self.assertIn(old, self.good)
        (self.top / "net" / "network.toml").write_text(self.good.replace(old, new, 1), encoding="utf-8")

    def test_a_document_that_says_something_else(self):
        for old, new, words in (
            ("'rings/north.toml'", "'../north.toml'", "`plan` is `../north.toml`, and a file in the network's own folder is wanted"),
            ("'rings/north.toml'", "'/etc/passwd'", "`plan` is `/etc/passwd`, and a file in the network's own folder is wanted"),
            ("'rings/north.toml'", "'rings/nord.toml'", "nord.toml: No such file"),
            ("[[ring]]", "[[rings]]", "the key `rings` isn't known; a network has [[ring]], [[customer]] and [[group]]"),
            ("from = 'Ahlen'", "start = 'Ahlen'", "customer 1: the key `start` isn't known; a customer has changes, from, name, sections, to"),
            ("'North long', 'South long'", "'North long'", "customer long: 1 section, and so 0 places where rings are changed; `changes` has 1"),
            ("'North long', 'South long'", "'North long', 'North short'", "customer long: a ring stands twice; each ring is crossed once at most"),
            ("changes = ['Celle']", "changes = ['Bonn']", "customer long: ring South doesn't come to Bonn"),
            ("'South long'", "'East long'", "customer long: the section `East long` is to be a ring's name, a blank, and a circuit's name in its plan; the rings are North, South"),
            ("'South long'", "'South lang'", "circuit long is no customer's section"),
            ("'North short'", "'North long'", "customers long and short have one circuit, North long"),
            ("'Celle', 'Dorf']", "'Celle', 'Dort']", "its places are Ahlen, Bonn, Celle, Dorf, and ring North has Ahlen, Bonn, Celle, Dort"),
            ("'span Ahlen-Bonn'", "'span Ahlen-Dort'", "group duct: `span Ahlen-Dort`: no ring comes to `Dort`; there is Dorf"),
            ("failures = 1.0", "failures = 'often'", "`failures` is to be a number that isn't below 0"),
            ("[[ring]]", "= [[ring]]", "no TOML document"),
        ):
            with self.subTest(words=words):
                self.document(old, new)
                _, said = self.call("whatif", self.top / "net", "--dir", self.top / "out", wanted=1)
                self.assertIn(words, said)

    def test_a_document_has_at_most_24_mebibytes(self):
        """A network of a thousand rings has several, and a plan one."""
        self.document("[[ring]]", "# " + "x" * (3 << 20) + "\n[[ring]]")
        self.call("whatif", self.top / "net", "--dir", self.top / "out")
        self.document("[[ring]]", "# " + "x" * (24 << 20) + "\n[[ring]]")
        _, said = self.call("whatif", self.top / "net", "--dir", self.top / "out", wanted=1)
        self.assertIn("it is longer than 25,165,824 bytes, the most that is read of a network's document", said)

    def test_a_fibre_s_rate_and_its_hours_stand_together(self):
        head, row = SPANS.split("\n", 1)[0], "North,Ahlen,Bonn,10,1,8"
        for cells, words in (((",", ",8"), "`fibre_hours` is `8`, and `fibre_failures`, the failures a year of each fibre, are missing"), ((",2", ","), "`fibre_hours` is empty, and")):
            more = "".join(line + (",fibre_failures,fibre_hours" if line == head else "".join(cells) if line == row else ",,") + "\n" for line in SPANS.splitlines())
            _, said = self.call("import", self.tables(spans=more), "--to", self.top / "more", wanted=1)
            self.assertIn(f"spans.csv:2: {words}", said)

    def test_what_is_asked_wrongly(self):
        self.imported(self.tables())
        for words, asked, status in (
            ("`spam Ahlen-Bonn` names no failure", ("--case", "spam Ahlen-Bonn"), 1),
            ("`group trench`: there is no such group; the groups are duct", ("--case", "group trench"), 1),
            ("failures are wanted, separated by semicolons", ("--case", ";"), 1),
            ("--kinds span,duct: `duct` is none of degraded, fibre, span, place, manual, forced, group", ("--kinds", "span,duct"), 1),
            ("--part 5/4: K/N with K from 1 to N is wanted", ("--part", "5/4"), 1),
            ("`single spam: none lost`: `spam` is none of degraded, fibre, span", ("--require", "single spam: none lost"), 2),
            ("a network is asked about nothing, single and double failures", ("--require", "triple span: none lost"), 2),
            ("parts are kept in the folder of --dir, which is missing", ("--parts", "2"), 1),
            ("--jobs: at least 1 is wanted", ("--jobs", "0"), 2),
            ("--against compares records of failures, and --summary has none", ("--summary", "--against", "net"), 1),
            ("nowhere/singles.csv is missing: --against names a network, or the folder of an earlier `whatif`", ("--against", "nowhere", "--dir", "out"), 1),
            ("writes no table", ("--teller", "false", "--dir", "out"), 1),
        ):
            with self.subTest(words=words):
                _, said = self.call("whatif", "net", *asked, wanted=status)
                self.assertIn(words, said)
        _, said = self.call("import", self.top / "tables", "--to", "net", wanted=1)
        self.assertIn("net/rings/north.toml is there already; --to is to name a new folder", said)
        _, said = self.call("availability", "nowhere", wanted=1)
        self.assertIn("there is no such file; `sdhring-network import` writes a network's folder", said)


if __name__ == "__main__":
    unittest.main()
