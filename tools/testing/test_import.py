"""Plans from tables: directions and slots beside a brute search, names of places and of customers, and tables that are refused."""

import csv
import io
import os
import random
import tempfile
import tomllib
import unicodedata
import unittest
from pathlib import Path
from runpy import run_path

from common import TOOLS, call

from ringtools.importing import ImportProblem
from ringtools.making import MakingProblem
from ringtools.places import PlaceProblem, read_places, written
from ringtools.plan import read_plan
from ringtools.slots import Demand, Laid, Wanted, arcs_of, fitted, layout_of, loads_of, spans_of
from ringtools.tables import TableProblem

PLAN = run_path(str(TOOLS / "sdhring-plan"))

NODES = "place,node\nKöln,4\nBad Ems,\nMainz,9\nAachen,\n"


def full_ring(chance, size, slots, longest, share):
    """Circuits laid end to end in each slot, of which a share is kept: so they fit, and nothing says how."""
    wanted = []
    for _ in range(slots):
        at, left = chance.randrange(size), size
        while left:
            length = min(left, chance.randint(1, longest), size - 1)
            ends = [at, (at + length) % size]
            chance.shuffle(ends)
            wanted += [Wanted(*ends)] if chance.random() < share else []
            at, left = (at + length) % size, left - length
    chance.shuffle(wanted)
    return wanted


def least_load(size, slots, wanted):
    """The least largest load of a span, by trying each way and each slot of each circuit; None where nothing fits."""
    best, taken, load = [None], set(), [0] * size

    def go_on(at):
        if best[0] is not None and max(load) >= best[0]:
            return
        if at == len(wanted):
            best[0] = max(load)
            return
        for arc in arcs_of(size, wanted[at]):
            spans = spans_of(size, *arc)
            for slot in [wanted[at].slot] if wanted[at].slot else range(1, slots + 1):
                places = {(span, slot) for span in spans}
                if places & taken:
                    continue
                taken.update(places)
                for span in spans:
                    load[span] += 1
                go_on(at + 1)
                taken.difference_update(places)
                for span in spans:
                    load[span] -= 1

    go_on(0)
    return best[0]


class Slots(unittest.TestCase):
    def holds(self, size, slots, wanted, laid):
        taken = set()
        for one, found in zip(wanted, laid, strict=True):
            self.assertIn((found.start, found.end), arcs_of(size, one))
            self.assertIn(found.slot, [one.slot] if one.slot else range(1, slots + 1))
            places = {(span, found.slot) for span in spans_of(size, found.start, found.end)}
            self.assertFalse(places & taken)
            taken |= places

    def test_what_fits_by_construction_is_fitted(self):
        for seed in range(250):
            chance = random.Random(seed)
            size, slots = chance.randint(2, 16), chance.choice((2, 8))
            wanted = full_ring(chance, size, slots, chance.randint(1, max(1, size - 1)), chance.choice((1, 1, 0.95, 0.8)))
            with self.subTest(seed=seed):
                layout, _ = layout_of(size, slots, wanted)
                self.holds(size, slots, wanted, layout.laid)
                self.assertEqual(layout.load, max(loads_of(size, layout.laid), default=0))
                self.assertGreaterEqual(layout.bound, Demand(size, wanted).bound())

    def test_the_largest_load_is_the_least_in_rings_of_up_to_eight_nodes(self):
        unfit, raised = 0, 0
        for seed in range(300):
            chance = random.Random(seed)
            size, slots = chance.randint(2, 8), chance.choice((2, 2, 3, 8))
            ways, given = (None, None, None, "east", "west"), (None, None, None, chance.randint(1, slots))
            count = chance.randint(1, {2: 8, 3: 6, 8: 4}[slots])
            wanted = [Wanted(*chance.sample(range(size), 2), chance.choice(ways), chance.choice(given)) for _ in range(count)]
            with self.subTest(seed=seed):
                layout, is_sure = layout_of(size, slots, wanted)
                self.assertEqual((layout and layout.load, is_sure), (least_load(size, slots, wanted), True))
                bound = Demand(size, wanted).bound()
                unfit += layout is None and bound <= slots
                if layout:
                    self.holds(size, slots, wanted, layout.laid)
                    self.assertEqual(layout.bound, layout.load)
                    raised += layout.load > bound
        self.assertGreater((unfit, raised), (3, 2))

    def test_a_ring_that_is_more_than_full(self):
        """Four circuits over each of two spans that face each other, and one more, in two slots."""
        wanted = [Wanted(0, 2)] * 4 + [Wanted(1, 3)]
        self.assertEqual(layout_of(4, 2, wanted), (None, True))
        where = fitted(4, 2, wanted)
        self.assertEqual([one is None for one in where], [False] * 4 + [True])
        self.assertEqual(where[0], Laid(0, 2, 1))


    def test_how_many_are_left_over_does_not_hang_on_the_order(self):
        """The same circuits in other orders: as many of the same ends are left, and never more than where they are laid as they come."""
        for seed in range(12):
            chance = random.Random(seed)
            size, slots = chance.choice(((4, 2), (8, 2), (12, 8), (16, 8)))
            wanted = [Wanted(*chance.sample(range(size), 2)) for _ in range(3 * size)]
            found = set()
            for _ in range(3):
                chance.shuffle(wanted)
                where = fitted(size, slots, wanted)
                taken = [one for one, laid in zip(wanted, where) if laid]
                self.holds(size, slots, taken, [laid for laid in where if laid])
                found.add(tuple(sorted((one.start, one.end) for one, laid in zip(wanted, where) if not laid)))
                self.assertGreaterEqual(len(taken), self.laid_as_they_come(size, slots, wanted))
            with self.subTest(seed=seed):
                self.assertEqual(len(found), 1)

    def laid_as_they_come(self, size, slots, wanted):
        """How many fit where each in turn takes the first way and slot that are free."""
        taken, count = set(), 0
        for one in wanted:
            choices = ({(span, slot) for span in spans_of(size, *arc)} for arc in arcs_of(size, one) for slot in range(1, slots + 1))
            places = next((places for places in choices if not taken & places), set())
            taken, count = taken | places, count + bool(places)
        return count


class Names(unittest.TestCase):
    def test_comments_of_the_form_are_read_and_nothing_else(self):
        plan = '# node 3 is Köln\n#node 4 is no\n# node 5  is no\nx = "# node 6 is no"\ny = """\n# node 7 is no"""  # node 8 is Bad Ems  \r\n'
        places = read_places((plan + "z = '# circuit a is no'\n# circuit c1 is Nord, 2. Paar\n# node 3 is Köln").encode())
        self.assertEqual(places.nodes, {3: "Köln", 8: "Bad Ems"})
        self.assertEqual(places.circuits, {"c1": "Nord, 2. Paar"})
        self.assertEqual([places.node(3), places.node(4), places.span(3, 8), places.span(3, 4)], ["3 Köln", "4", "Köln–Bad Ems", "Köln–4"])
        self.assertEqual([places.circuit("c1"), places.circuit("c2")], ["Nord, 2. Paar", "c2"])

    def test_two_names_of_one_node_are_refused(self):
        with self.assertRaisesRegex(PlaceProblem, "line 2: node 3 is named Bonn, and Köln before"):
            read_places("# node 3 is Köln\n# node 3 is Bonn\n".encode())

    def test_what_is_written_is_read(self):
        for name in ("Köln", "a is b", "# node 1 is x", "x" * 60):
            self.assertEqual(read_places(written("node", 15, name).encode()).nodes, {15: name})
        for name in ("", " x", "a\nb", "x" * 61):
            self.assertRaises(PlaceProblem, written, "node", 1, name)


class Import(unittest.TestCase):
    def setUp(self):
        self.folder = Path(self.enterContext(tempfile.TemporaryDirectory()))

    def write(self, circuits, nodes):
        for name, text in (("circuits.csv", circuits), ("nodes.csv", nodes)):
            (self.folder / name).write_bytes(text if isinstance(text, bytes) else text.encode())

    def made(self, circuits, nodes=NODES, *words):
        """What the tool writes and says, without a process of its own."""
        self.write(circuits, nodes)
        files = str(self.folder / "circuits.csv"), "--nodes", str(self.folder / "nodes.csv")
        made = PLAN["made_for"](PLAN["options"](["import", *files, *words]))
        return made.document.encode(), "\n".join(made.notes)

    def refused(self, said, *words):
        with self.assertRaises((ImportProblem, MakingProblem, TableProblem)) as raised:
            self.made(*words)
        self.assertIn(said, str(raised.exception))

    def test_the_command(self):
        self.write("name,from,to\nNord 1,Köln,9\n", NODES)
        words = "import", "circuits.csv", "--nodes", "nodes.csv"
        ended = call("sdhring-plan", *words, "--to", "ring.toml", cwd=self.folder)
        said = "sdhring-plan: 1 circuit; the largest load of a span is 1, and no choice of directions and slots has less\nsdhring-plan: circuits.csv:2: `Nord 1` is named nord-1 in the plan\n"
        self.assertEqual((ended.returncode, ended.stdout, ended.stderr.decode()), (0, b"", said))
        self.assertIn("# node 4 is Köln\n", (self.folder / "ring.toml").read_text(encoding="utf-8"))
        there = b"sdhring-plan: ring.toml is there, and is left alone: name another file, or remove this one\n"
        self.assertEqual(call("sdhring-plan", *words, "--to", "ring.toml", cwd=self.folder).stderr, there)
        self.write("from,to\n1,1\n", NODES)
        ended = call("sdhring-plan", *words, cwd=self.folder)
        self.assertEqual((ended.returncode, ended.stdout, ended.stderr), (1, b"", b"sdhring-plan: circuits.csv:2: `from` and `to` are both Bad Ems\n"))

    def test_a_plan_of_all_columns(self):
        head = "Name;From;to;Direction;slot;text_a;text b;trace_a;offset_a;offset_b;Kunde\n"
        rows = "Nördliche Straße;köln;Mainz;;;from Köln;;;;\n".replace("from Köln", "from K") + "back;mainz;bad ems;west;2;M;E;T;5;6;X\n;9;4;east;;;;;;;\n"
        text, said = self.made("\ufeff" + head + rows, NODES, "--wait", "3", "--threshold", "2", "--limit", "999", "--steps", "cut 4 east")
        plan, table = read_plan(text), tomllib.loads(text.decode())["circuit"]
        self.assertEqual((plan.ids, plan.rate, plan.wait, plan.threshold, plan.limit), ((4, 1, 9, 2), 4, 3, 2, 999))
        self.assertEqual([step.text for step in plan.steps], ["cut 4 east", "settle"])
        self.assertEqual([(one["name"], one["from"], one["to"]) for one in table], [("nordliche-strass", 4, 9), ("back", 9, 1), ("c3", 9, 4)][:1] + [("back", 1, 9), ("c3", 9, 4)])
        # `back` leads westwards from Mainz, so in the plan it starts at Bad Ems, and what is of Mainz is at port b.
        back = table[1]
        self.assertEqual([back[key] for key in ("slot", "text_a", "text_b", "trace_b", "offset_a", "offset_b")], [2, "E", "M", "T", 6, 5])
        self.assertNotIn("trace_a", back)
        self.assertEqual((table[0]["text_a"], table[0].get("trace_a")), ("from K", None))
        places = read_places(text)
        self.assertEqual(places.nodes, {4: "Köln", 1: "Bad Ems", 9: "Mainz", 2: "Aachen"})
        self.assertEqual(places.circuits, {"nordliche-strass": "Nördliche Straße"})
        self.assertIn("3 circuits; the largest load of a span is 2, and no choice of directions and slots has less", said)
        self.assertIn("circuits.csv: not read: Kunde", said)
        self.assertIn("circuits.csv:2: `Nördliche Straße` is named nordliche-strass in the plan", said)

    def test_a_name_that_a_trace_can_hold_is_the_trace(self):
        text, _ = self.made("name,from,to\nNorth line 7,4,9\nNorth-Line 7,4,9\nnorth-line-7,1,2\n")
        table = tomllib.loads(text.decode())["circuit"]
        self.assertEqual([one["name"] for one in table], ["north-line-7-2", "north-line-7-3", "north-line-7"])
        self.assertEqual([one.get("trace_b") for one in table], ["North line 7", "North-Line 7", None])

    def test_circuits_without_a_direction_share_the_ring(self):
        """Four from Köln to Mainz fit in two slots where two lead each way."""
        text, said = self.made("from,to\n" + "Köln,Mainz\n" * 4)
        self.assertEqual(sorted((one.start, one.slot) for one in read_plan(text).circuits), [(0, 1), (0, 2), (2, 1), (2, 2)])
        self.assertIn("is 2, and no choice", said)

    def test_what_doesn_t_fit_is_told_with_the_spans_that_are_full(self):
        self.refused("1 circuit of 5 can't be fitted beside the others\n  5 circuits have to cross", "from,to\n" + "Köln,Mainz\n" * 5)
        self.refused("3 circuits of 7 can't be fitted beside the others, in the best of 16 orders that were tried\n", "from,to\n" + "Köln,Mainz\n" * 7)
        said = "circuits.csv:6: c5, Köln to Mainz: eastwards Köln–Bad Ems is full, with 2 of 2 slots taken; westwards Mainz–Aachen is full"
        self.refused(said, "from,to\n" + "Köln,Mainz\n" * 5)
        self.refused("circuits.csv:3: c2, Köln to Mainz: eastwards slot 1 is taken", "from,to,direction,slot\nKöln,Mainz,east,1\nKöln,Mainz,east,1\n")

    def test_tables_that_are_refused(self):
        row = "name,from,to,direction,slot,text_a,offset_b\n"
        for said, circuits, nodes in (
            ("circuits.csv:1: the first line is to name the columns, and `to` is missing; there are name, from", "name,from\n", NODES),
            ("circuits.csv:1: the column `to` is there twice", "to,from,To\n", NODES),
            ("circuits.csv:1: the table is empty", "", NODES),
            ("circuits.csv:3: `to` is `Bonn`, and the nodes are Köln, Bad Ems, Mainz, Aachen", row + "a,4,9,,,,\nb,4,Bonn,,,,\n", NODES),
            ("circuits.csv:2: `from` and `to` are both Köln", row + "a,4,Köln,,,,\n", NODES),
            ("circuits.csv:2: `direction` is `up`, and east, west or an empty cell is wanted", row + "a,4,9,up,,,\n", NODES),
            ("circuits.csv:2: `slot` is `3`, and a whole number from 1 to 2", row + "a,4,9,,3,,\n", NODES),
            ("circuits.csv:2: `text_a` is to have 1 to 64 characters", row + "a,4,9,,,ü,\n", NODES),
            ("circuits.csv:2: `offset_b` is `783`", row + "a,4,9,,,,783\n", NODES),
            ("circuits.csv:3: the circuit a stood in line 2 already", row + "a,4,9,,,,\na,4,9,,,,\n", NODES),
            ("circuits.csv:2: 8 cells, and the first line names 7 columns", row + "a,4,9,,,,,x\n", NODES),
            ("circuits.csv:2: the text isn't UTF-8", b"from,to\nK\xf6ln,9\n", NODES),
            ("nodes.csv:3: node 4 stood before", row, "node\n4\n4\n"),
            ("nodes.csv:3: the place köln stood before", row, "place\nKöln\nköln\n"),
            ("nodes.csv:2: `node` is `16`", row, "node\n16\n1\n"),
            ("nodes.csv:2: `place` is `7`, and a number alone", row, "place\n7\nKöln\n"),
            ("nodes.csv: 1 node, and a ring has 2 to 16", row, "node\n4\n"),
            ("nodes.csv:1: the first line is to name the column `place`", row, "town\nKöln\nBonn\n"),
        ):
            with self.subTest(said=said):
                self.refused(said, circuits, nodes)
        self.refused("rate 5: 4 or 16 is wanted", row, NODES, "--rate", "5")
        self.refused("bad plan 15 at 0", row, NODES, "--threshold", "13")

    def test_what_spreadsheets_put_above_the_names_of_the_columns(self):
        """A line with the separator and empty lines are skipped; of a title it is said what to do."""
        plain, _ = self.made("from,to\nKöln,9\n")
        for circuits in ("sep=;\r\nfrom;to\r\nKöln;9\r\n", "SEP=|\nfrom|to\nKöln|9\n", "\n\nfrom,to\nKöln,9\n", ";;\nfrom;to\nKöln;9\n"):
            self.assertEqual(self.made(circuits)[0], plain, circuits)
        self.refused("circuits.csv:4: `to` is `x`", "sep=;\n\nfrom;to\nKöln;x\n")
        for sign in ('"', "\r", "f"):  # these separate no cells
            self.refused("circuits.csv:", f"sep={sign}\nfrom,to\nKöln,9\n")
        there = "the first line is to name the columns, and `from` is missing; there are Circuits of 2026; line 3 has them: take away what stands above it"
        self.refused(there, "Circuits of 2026;;\n;;\nFrom;To;slot\nKöln;9;\n")
        self.refused("or `node`, or both; line 2 has them: take away what stands above it", "from,to\n", "Our nodes\nplace\nKöln\nBonn\n")

    def test_a_letter_and_its_accent_are_the_letter_with_it(self):
        apart = unicodedata.normalize("NFD", "Köln")
        self.assertNotEqual(apart, "Köln")
        for circuits, nodes in ((f"from,to\n{apart},9\n", NODES), ("from,to\nKöln,9\n", NODES.replace("Köln", apart))):
            self.assertEqual(read_places(self.made(circuits, nodes)[0]).nodes[4], "Köln")
        self.assertEqual(read_places(f"# node 4 is {apart}\n".encode()).nodes, {4: "Köln"})

    def test_lines_within_quotes_are_counted(self):
        self.refused("circuits.csv:4: `to` is `x`", 'name,from,to\n"a\nb",4,9\nc,4,x\n')


class Growth(unittest.TestCase):
    """A table that grows: what holds the circuits that are in service, and what is said where they move."""

    NODES = "place\n" + "".join(f"{place}\n" for place in ("Köln", "Bonn", "Mainz", "Trier", "Aachen"))
    FIRST = "name,from,to\nalt,Köln,Bonn\n"

    def setUp(self):
        self.folder = Path(self.enterContext(tempfile.TemporaryDirectory()))
        (self.folder / "nodes.csv").write_text(self.NODES, encoding="utf-8")

    def plan(self, circuits, to, *words, status=0, folder=None):
        """What is said, and the circuits of the plan by name: where they start and end, and their slot."""
        (self.folder / "circuits.csv").write_text(circuits, encoding="utf-8")
        ended = call("sdhring-plan", "import", "circuits.csv", "--nodes", "nodes.csv", "--to", to, *words, cwd=self.folder)
        self.assertEqual(ended.returncode, status, ended.stderr.decode())
        return ended.stderr.decode(), self.circuits(to) if not status else {}

    def circuits(self, name):
        plan = read_plan((self.folder / name).read_bytes())
        return {one.name: (plan.ids[one.start], plan.ids[one.end], one.slot) for one in plan.circuits}

    def test_a_circuit_in_service_moves_and_it_is_said(self):
        _, before = self.plan(self.FIRST, "a.toml")
        self.assertEqual(before["alt"], (1, 2, 1))
        self.plan("name,from,to\nalt,Trier,Aachen\nneu,Mainz,Trier\n", "other.toml")  # of another ring, which has circuits of these names
        grown = self.FIRST + "neu,Köln,Bonn\n"
        said, after = self.plan(grown, "b.toml")
        self.assertNotEqual(after["alt"], before["alt"])
        self.assertRegex(said, r"sdhring-plan: circuits of a\.toml that move: 1 of 1 \(1 other way.*\); --keep a\.toml holds them\n")
        said, _ = self.plan(grown, "a.toml", status=1)
        self.assertRegex(said, r"a\.toml is there, and is left alone; circuits of a\.toml that move: 1 of 1 \(.*\); --keep a\.toml holds them: name another file")

    def test_circuits_in_service_are_held(self):
        _, before = self.plan(self.FIRST, "a.toml")
        said, after = self.plan("name,from,to\nneu,Köln,Bonn\nalt,Bonn,Köln\nHalle <1>,Trier,Bonn\n", "b.toml", "--keep", "a.toml")
        self.assertEqual(after["alt"], before["alt"])
        self.assertIn("sdhring-plan: held in direction and slot as in a.toml: 1 circuit; new: 2\n", said)
        self.assertNotIn("that move", said)
        (self.folder / "nodes.csv").write_text(self.NODES.replace("Bonn", "Brühl\nBonn").replace("place", "place,node").replace("Bonn\n", "Bonn,9\n"), encoding="utf-8")
        said, again = self.plan("name,from,to\nHalle <1>,Bonn,Trier\nalt,Köln,Bonn\nx,Köln,Brühl\n", "c.toml", "--keep", "b.toml")
        plan = read_plan((self.folder / "c.toml").read_bytes())
        self.assertEqual([again["alt"], again["halle-1"][2]], [(1, 9, 1), after["halle-1"][2]])
        self.assertEqual([plan.places.place(node) for node in again["halle-1"][:2]], [{2: "Bonn", 4: "Trier"}[node] for node in after["halle-1"][:2]])
        self.assertIn("1 circuit of b.toml that the table doesn't have: neu\n", said)

    def test_many_circuits_are_held_in_a_full_ring(self):
        """Whatever is added: no circuit in service moves, also where new ones could have been laid better."""
        for seed in range(5):
            chance = random.Random(seed)
            places = ["Köln", "Bonn", "Mainz", "Trier", "Aachen"]
            rows = [f"L{number},{','.join(chance.sample(places, 2))}\n" for number in range(14)]
            _, before = self.plan("name,from,to\n" + "".join(rows[:10]), f"{seed}.toml", "--rate", "16")
            grown = rows[:]
            chance.shuffle(grown)
            said, after = self.plan("name,from,to\n" + "".join(grown), f"{seed}-more.toml", "--rate", "16", "--keep", f"{seed}.toml")
            held = {name: after[name] for name in before}
            self.assertEqual(held, before)
            self.assertIn(f"held in direction and slot as in {seed}.toml: 10 circuits; new: 4", said)

    def test_what_can_not_be_held_is_refused_by_name(self):
        self.plan(self.FIRST, "a.toml")
        for said, circuits in (
            ("circuits.csv:2: alt can't be held: in a.toml it leads from Köln to Bonn, and here its ends are others", "name,from,to\nalt,Köln,Mainz\n"),
            ("circuits.csv:2: alt can't be held: `slot` is 2, and in a.toml it is 1", "name,from,to,slot\nalt,Köln,Bonn,2\n"),
            ("circuits.csv:2: alt can't be held: `direction` is west, and in a.toml it is east", "name,from,to,direction\nalt,Köln,Bonn,west\n"),
            ("circuits.csv:3: x, Köln to Bonn: eastwards slot 1 is taken on some of its spans", "name,from,to,direction,slot\nalt,Köln,Bonn,,\nx,Köln,Bonn,east,1\n"),
        ):
            self.assertIn(said, self.plan(circuits, "b.toml", "--keep", "a.toml", status=1)[0])
        self.assertIn("none.toml: No such file", self.plan(self.FIRST, "b.toml", "--keep", "none.toml", status=1)[0])
        places = self.NODES.splitlines()
        (self.folder / "nodes.csv").write_text("\n".join([places[0], *reversed(places[1:])]), encoding="utf-8")
        self.assertIn("a.toml: its nodes stand in another order eastwards", self.plan(self.FIRST, "b.toml", "--keep", "a.toml", status=1)[0])

    def test_the_choices_are_written_back_to_a_table(self):
        """With all columns and cells of the first one, so that the table alone gives the same plan again."""
        first = "Kunde;To;from;name;Slot\n<b>;Bonn;Köln;Alt 1;\n;Mainz;Bonn;;2\n"
        _, made = self.plan(first, "a.toml", "--table", "chosen.csv")
        rows = list(csv.DictReader(io.StringIO((self.folder / "chosen.csv").read_text(encoding="utf-8")), delimiter=";"))
        self.assertEqual([list(row) for row in rows], [["Kunde", "To", "from", "name", "Slot", "direction"]] * 2)
        self.assertEqual([(row["Kunde"], row["name"], row["To"]) for row in rows], [("<b>", "Alt 1", "Bonn"), ("", "c2", "Mainz")])
        self.assertEqual(rows[1]["Slot"], "2")
        _, again = self.plan((self.folder / "chosen.csv").read_text(encoding="utf-8") + ";Mainz;Köln;neu;;\n", "b.toml")
        self.assertEqual({name: again[name] for name in made}, made)
        said, _ = self.plan(first, "c.toml", "--table", "chosen.csv", status=1)
        self.assertIn("chosen.csv is there, and is left alone", said)
        self.assertFalse((self.folder / "c.toml").exists())

    def test_cells_like_formulas_are_written_back_as_texts(self):
        """They are read as they were, and so is the line that says what separates the cells: the table of a table is the same."""
        _, made = self.plan("SEP=|\nKunde|from|to\n=1+2|Köln|Bonn\n'+49 x|Mainz|Bonn\n", "a.toml", "--table", "one.csv")
        text = (self.folder / "one.csv").read_text(encoding="utf-8")
        self.assertEqual(text.splitlines()[:2], ["sep=|", "Kunde|from|to|name|direction|slot"])
        self.assertEqual([line.split("|")[0] for line in text.splitlines()[2:]], ["'=1+2", "'+49 x"])
        _, again = self.plan(text, "b.toml", "--table", "two.csv")
        self.assertEqual((again, (self.folder / "two.csv").read_text(encoding="utf-8")), (made, text))

    def test_a_table_that_is_a_link_is_left_alone(self):
        (self.folder / "link.csv").symlink_to("nowhere")
        said, _ = self.plan(self.FIRST, "a.toml", "--table", "link.csv", status=1)
        self.assertIn("link.csv is there, and is left alone", said)
        self.assertFalse((self.folder / "nowhere").exists() or (self.folder / "a.toml").exists())

    def test_what_lies_beside_a_new_plan_is_read_within_limits(self):
        """Neither a pipe nor very large files keep the tool from the plan, and a plan among them is found."""
        self.plan(self.FIRST, "a.toml")
        os.mkfifo(self.folder / "b.toml")
        for number in range(9):
            (self.folder / f"c{number}.toml").write_text("#" * (1 << 20))
        said, _ = self.plan(self.FIRST + "neu,Köln,Bonn\n", "d.toml")
        self.assertIn("circuits of a.toml that move", said)

    def test_several_tables_have_a_plan_each_in_the_folder_of_keep(self):
        rings = self.folder / "rings"
        rings.mkdir()
        for name in ("north", "south"):
            (rings / f"{name}.nodes.csv").write_text(self.NODES, encoding="utf-8")
            (rings / f"{name}.circuits.csv").write_text(self.FIRST, encoding="utf-8")
        run = lambda *words: call("sdhring-plan", "import", "rings", *words, cwd=self.folder)
        self.assertEqual(run("--to", "old").returncode, 0)
        (self.folder / "old" / "south.toml").unlink()
        (rings / "north.circuits.csv").write_text("name,from,to\nneu,Köln,Bonn\nalt,Köln,Bonn\n", encoding="utf-8")
        ended = run("--to", "new", "--keep", "old")
        self.assertEqual((ended.returncode, self.circuits("new/north.toml")["alt"]), (1, self.circuits("old/north.toml")["alt"]))
        self.assertIn("rings/south.circuits.csv: old/south.toml: No such file", ended.stderr.decode())
        self.assertIn(b"--table goes with one table", run("--to", "new", "--table", "x.csv").stderr)


if __name__ == "__main__":
    unittest.main()
