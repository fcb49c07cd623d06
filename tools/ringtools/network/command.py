"""The words of sdhring-network: what each asks for, and how it ends."""

import argparse
import os
import shlex
import sys
from collections.abc import Callable, Iterable
from dataclasses import replace
from pathlib import Path

from ..cells import text_of_rows
from ..files import FileProblem, is_there
from ..making import MakingProblem
from ..options import Options
from ..origin import TELLER, CannotRun, Program, program_of
from ..places import PlaceProblem
from ..required import HOLDS, NOT_ASKED, RuleProblem
from ..running import Machines, processors
from ..shown import say as say_of
from ..shown import shown
from ..tables import TableProblem
from ..writing import Folder, named_folder, own_folder
from .beside import answer_in, compared
from .cases import CaseFate, Naming, fate_of
from .components import DEFAULT
from .document import file_of, read_network
from .growing import added_to, read_more
from .joining import Joined
from .making import Made, Settings, kept_load, made_of, service_of
from .minutes import CAUSES, SAVINGS, SHARES, Minutes, as_json
from .model import INDEX, Kind, Network, NetworkProblem
from .moving import COLUMNS as MOVES
from .moving import Provisioned, moved, words_of
from .paging import KINDS, Wanted, pages_of
from .parting import (
    Part,
    Question,
    folder_of,
    in_memory,
    in_parts,
    put_part,
    results_of,
    run_here,
    run_with_parallel,
    run_with_slurm,
)
from .rates import Rates, read_rates
from .ringwork import ALL, Base, Ends, Measure, base_of
from .room import COLUMNS as ROOM_COLUMNS
from .room import Room, head_words
from .rules import COLUMNS as RULE_COLUMNS
from .rules import Rule, read_rule, verdict_on
from .tables import read_tables
from .telling import Telling

PROBLEMS = (NetworkProblem, TableProblem, FileProblem, MakingProblem, PlaceProblem, CannotRun)
FAILED, MISUSED = 1, 2
PARTS = 64  # where the number isn't given
CASE_COLUMNS = ("case", "customer", "fate", "ring", "from", "to")
TOOL = Path(__file__).resolve().parents[2] / "sdhring-network"


def say(words: object) -> None:
    say_of("sdhring-network", words)


def tell_table(columns: Iterable[object], rows: Iterable[Iterable[object]]) -> None:
    """Writes a table to standard output."""
    sys.stdout.write(text_of_rows([tuple(columns), *(tuple(row) for row in rows)]))


def write_new(to: str, files: dict[str, bytes]) -> None:
    """Writes the files of a network into a folder; none of them may be there."""
    folder = named_folder(to)
    if found := [name for name in files if os.path.lexists(folder.path / name)]:
        raise NetworkProblem(f"{folder.path / found[0]} is there already; --to is to name a new folder")
    for name, data in files.items():
        inner, _, own = name.rpartition("/")
        (folder.inside(inner) if inner else folder).write_new(own, data)


def import_tables(asked: argparse.Namespace) -> int:
    folder = Path(asked.folder)
    service = service_of(folder_of(asked.keep)) if asked.keep else None
    made: Made = made_of(read_tables(folder), Settings(asked.threshold, asked.wait, asked.limit), service)
    write_new(asked.to, made.files)
    for note in made.notes:
        say(note)
    return 0


def rooms_of(folder: Path, network: Network) -> list[Room]:
    service = service_of(folder)
    return [kept_load(ring, plan, network).room() for ring, plan in zip(network.rings, service.plans)]


def tell_room(asked: argparse.Namespace) -> int:
    folder = folder_of(asked.network)
    rooms = rooms_of(folder, read_network(str(folder)))
    tell_table(ROOM_COLUMNS, (row for room in rooms for row in room.rows()))
    say(head_words(rooms))
    return 0


def tell_added(asked: argparse.Namespace) -> int:
    """Says of each circuit of a table whether it fits beside what is in service, and where. No file is written."""
    service = service_of(folder_of(asked.network))
    wishes, notes = read_more(asked.circuits, service.network)
    columns, rows, words, fits = added_to(service, wishes)
    tell_table(columns, rows)
    for note in [*notes, words]:
        say(note)
    return 0 if fits else FAILED


def kinds_of(words: str | None, rules: list[Rule]) -> tuple[Kind, ...]:
    """The kinds that are asked about: those of --kinds, or those of the rules, or the usual ones."""
    if words is None:
        named = {kind for rule in rules if rule.depth for kind in rule.kinds}
        return tuple(kind for kind in Kind if kind in named) if rules else DEFAULT
    found = []
    for word in words.split(","):
        kind = next((kind for kind in Kind if kind.value == word.strip().replace("node", "place")), None)
        if kind is None:
            raise NetworkProblem(f"--kinds {words}: `{word}` is none of {', '.join(kind.value for kind in Kind)}")
        found.append(kind)
    return tuple(kind for kind in Kind if kind in found)


def teller_of(asked: argparse.Namespace) -> Program:
    program = program_of(asked.teller, TELLER)
    if not program.proved:
        say(f"warning: the program {shlex.join(program.words)} is {program.proof}")
    return program


def read_part(words: str) -> Part:
    number, _, count = words.partition("/")
    if not (number.isdecimal() and count.isdecimal() and 1 <= int(number) <= int(count)):
        raise NetworkProblem(f"--part {words}: K/N with K from 1 to N is wanted")
    return Part(int(number), int(count))


def results_for(asked: argparse.Namespace, question: Question) -> list[dict[str, object]]:
    """The results of all rings: asked here, or in parts by the engine that was chosen."""
    jobs = asked.jobs or processors()
    if not (asked.parts or asked.sshlogin or asked.slurm is not None):
        return in_memory(question, jobs)
    if not asked.dir:
        raise NetworkProblem("parts are kept in the folder of --dir, which is missing")
    top = named_folder(asked.dir)
    folder, count = top.inside("parts"), min(asked.parts or PARTS, len(question.network.rings))
    if asked.slurm is not None:
        run: Callable[[list[Part]], None] = lambda parts: run_with_slurm(
            question, top, folder, parts, shlex.split(asked.slurm), TOOL
        )
    elif asked.sshlogin:
        machines = Machines(tuple(asked.sshlogin), asked.jobs, tuple(shlex.split(asked.parallel)))
        run = lambda parts: run_with_parallel(question, folder, parts, machines, TOOL)
    else:
        run = lambda parts: run_here(question, folder, parts, jobs, say)
    return in_parts(question, folder, count, run, say)


def case_rows(network: Network, words: str, fate: CaseFate) -> list[list[object]]:
    """A record for each section by which a customer of this case isn't kept."""
    rows: list[list[object]] = []
    for name, found in (("lost", fate.lost), ("impaired", fate.impaired), ("over", fate.over)):
        for number, places in found.items():
            customer = network.customers[number]
            for place in places:
                rows.append(
                    [
                        words,
                        customer.name,
                        name,
                        network.rings[customer.sections[place].ring].name,
                        *customer.ends_of(place),
                    ]
                )
    return rows


def tell_cases(asked: argparse.Namespace, question: Question) -> int:
    """What becomes of each customer in the cases that are named. Those that are kept have no record."""
    asker, rows = question.asker(), []
    base, naming = base_of(asker, question.folder), Naming(question.network)
    for words in asked.case:
        fate = fate_of(asker, base, naming.all(words))
        rows += case_rows(question.network, words, fate)
        kept = len(question.network.customers) - len(fate.lost) - len(fate.impaired) - len(fate.over)
        say(
            f"{words}: {len(fate.lost)} lost, {len(fate.impaired)} impaired, {len(fate.over)} over protection, {kept} kept"
        )
    tell_table(CASE_COLUMNS, rows)
    return 0


def lost_names(question: Question, base: Base, names: tuple[str, ...], measure: Measure) -> list[str]:
    """The customers that these failures lose, by the names of components, as a measure counts them."""
    naming, network = Naming(question.network), question.network
    components = [naming.component(name) for name in names]
    asker = question.asker()
    lost = set(fate_of(asker, base, components).lost) if components else set(base.lost)
    if measure.besides:
        ends = Ends(network)
        lost -= {number for one in components for number in ends.of(one)}
    found = [network.customers[number].name for number in sorted(lost)]
    return [name for name in found if not measure.names or name in measure.names]


def require(asked: argparse.Namespace, question: Question, rules: list[Rule]) -> int:
    """Writes a record for each rule. The status is 1 where one is broken."""
    asker = question.asker()
    base = base_of(asker, question.folder)
    joined = Joined(question.network, question.components(), base, question.measures, results_for(asked, question))
    who = lambda names, measure: lost_names(question, base, names, measure)
    rows = [
        [asked.network, rule.text, *(not_asked(rule) if rule.problem else verdict_on(rule, joined, who))]
        for rule in rules
    ]
    tell_table(RULE_COLUMNS, rows)
    return int(any(row[2] != HOLDS for row in rows))


def not_asked(rule: Rule) -> list[object]:
    return [NOT_ASKED, "", "", "", "", "", rule.problem]


def question_of(asked: argparse.Namespace, rules: list[Rule], network: Network) -> Question:
    measures = tuple(dict.fromkeys([ALL, *(rule.measure for rule in rules)]))
    rows, texts = not (asked.summary or rules), tuple(rule.text for rule in rules)
    return Question(
        folder_of(asked.network), network, teller_of(asked), kinds_of(asked.kinds, rules), measures, rows, texts
    )


def whatif(asked: argparse.Namespace) -> int:
    network = read_network(str(folder_of(asked.network)))
    try:
        rules = [read_rule(rule, network) for rule in asked.require or ()]
    except RuleProblem as problem:
        say(f"--require: {problem}")
        return MISUSED
    question = question_of(asked, rules, network)
    if asked.against and asked.summary:
        raise NetworkProblem("--against compares records of failures, and --summary has none")
    if asked.case:
        return tell_cases(asked, question)
    if asked.part:
        part = read_part(asked.part)
        results = results_of(question, part.rings(len(network.rings)))
        print(shown(put_part(named_folder(asked.dir or ".").inside("parts"), question.sum(), part, results)))
        return 0
    if rules:
        return require(asked, question, rules)
    folder = named_folder(asked.dir) if asked.dir else own_folder(f"{folder_of(asked.network).resolve().name}.whatif")
    write_tables(question, results_for(asked, question), folder)
    if asked.against:
        write_against(asked, question, folder)
    return 0


def write_tables(question: Question, results: list[dict[str, object]], folder: Folder) -> None:
    base = base_of(question.asker(), question.folder)
    joined = Joined(question.network, question.components(), base, question.measures, results)
    for path in Telling(joined).write(folder, question.rows):
        print(shown(path))


def write_against(asked: argparse.Namespace, question: Question, folder: Folder) -> None:
    """Compares with another network, which is asked the same, or with the tables of an earlier run."""
    other, found = Path(asked.against), {}
    if file_of(asked.against).is_file():
        there, beside_folder = folder_of(asked.against), folder.inside("against")
        other = beside_folder.path
        beside = replace(question, folder=there, network=read_network(str(there)))
        write_tables(beside, in_memory(beside, asked.jobs or processors()), beside_folder)
        moves = list(moved(Provisioned(there, beside.network), Provisioned(question.folder, question.network)))
        found["moves.csv"] = text_of_rows([MOVES, *moves])
        say(f"beside {shown(asked.against)}: {words_of(moves, len(question.network.customers))}")
    else:
        say(f"beside {shown(asked.against)}: tables, and it isn't known who wrote them: their rows add up, and nothing else of them was looked at")
    table, words = compared(answer_in(other), answer_in(folder.path))
    for name, text in ({"against.csv": table} | found).items():
        folder.write(name, text)
        print(shown(folder.path / name))
    for one in words:
        say(one)


def availability(asked: argparse.Namespace) -> int:
    folder = folder_of(asked.network)
    network = read_network(str(folder))
    minutes = Minutes(network, folder, read_rates(folder, network, asked.cuts_per_1000_km))
    columns: tuple[str, ...] = SAVINGS if asked.savings else CAUSES if asked.causes else SHARES
    records = {SAVINGS: minutes.saving_records, CAUSES: minutes.cause_records, SHARES: minutes.share_records}[columns]()
    if asked.csv:
        tell_table(columns, ([record[column] for column in columns] for record in records))
    else:
        sys.stdout.write(as_json(columns, records) if asked.json else minutes.text())
    return 0


def rates_of(asked: argparse.Namespace, folder: Path, network: Network) -> tuple[Rates | None, list[str]]:
    """The rates of a network's tables where all are there, and what is to be said of them."""
    if not is_there(folder / "spans.csv"):
        return None, []
    try:
        rates = read_rates(folder, network, asked.cuts_per_1000_km)
    except (TableProblem, NetworkProblem, FileProblem) as problem:
        return None, [f"no availability: {problem}"]
    return rates, rates.unread


def page(asked: argparse.Namespace) -> int:
    """Writes the page of a network and one for each of its rings."""
    folder = folder_of(asked.network)
    network = read_network(str(folder))
    question = Question(folder, network, teller_of(asked), KINDS, (ALL,), True)
    rates, notes = rates_of(asked, folder, network)
    pages = pages_of(
        question, asked.jobs or processors(), Wanted(asked.title or folder.resolve().name, rates, tuple(notes))
    )
    to = named_folder(asked.to)
    for name, text in pages.items():
        to.write(name, text)
    for one in notes:
        say(one)
    print(shown(to.path / INDEX))
    return 0


def asking_options(parser: argparse.ArgumentParser) -> None:
    """The words of `whatif`."""
    parser.add_argument("network", metavar="NETWORK", help="the folder of a network, or its network.toml")
    parser.add_argument("--dir", metavar="DIR", help="where tables and parts are written (NETWORK's name with .whatif)")
    parser.add_argument(
        "--kinds",
        metavar="KINDS",
        help="of degraded,fibre,span,place,manual,forced,group these (fibre,span,place,group)",
    )
    parser.add_argument(
        "--case",
        action="append",
        metavar="FAILURES",
        help="only this case: failures separated by semicolons, as 'span A-B in RING; place C'; may be given more than once",
    )
    parser.add_argument(
        "--require",
        action="append",
        metavar="RULE",
        help="only say whether this rule holds, as 'single place: none lost besides ends'; may be given more than once",
    )
    parser.add_argument(
        "--against",
        metavar="OTHER",
        help="who gains and who loses compared with another network, or with the tables of an earlier run in this folder",
    )
    parser.add_argument(
        "--summary", action="store_true", help="no record for each failure and pair: for very large networks"
    )
    parser.add_argument("--teller", metavar="CMD", help="the program that answers (sdhwhatif beside this one)")
    parser.add_argument("--jobs", type=int, metavar="N", help="N rings at a time (the number of processors)")
    parser.add_argument(
        "--parts",
        type=int,
        metavar="N",
        help="in N parts, kept in DIR/parts: the same command goes on where it was stopped",
    )
    parser.add_argument("--part", metavar="K/N", help="only the K-th of N parts, kept in DIR/parts")
    parser.add_argument(
        "--sshlogin", action="append", metavar="LIST", help="parts over these machines with GNU parallel"
    )
    parser.add_argument("--parallel", default="", metavar="WORDS", help="more words for GNU parallel")
    parser.add_argument(
        "--slurm",
        nargs="?",
        const="",
        metavar="WORDS",
        help="parts as an array job of Slurm, with these words for sbatch",
    )


def import_options(parser: argparse.ArgumentParser) -> None:
    """The words of `import`."""
    parser.add_argument(
        "folder",
        metavar="FOLDER",
        help="rings.csv and circuits.csv; spans.csv, nodes.csv and groups.csv where they are there",
    )
    parser.add_argument(
        "--to", required=True, metavar="DIR", help="the folder to write: a plan for each ring, and network.toml"
    )
    parser.add_argument(
        "--keep", metavar="NETWORK", help="a network in service, whose circuits all stay where they are"
    )
    parser.add_argument(
        "--threshold",
        type=int,
        default=3,
        metavar="COUNT",
        help="violations of B2 in a frame that are a degradation (3)",
    )
    parser.add_argument(
        "--wait", type=int, default=10, metavar="MOMENTS", help="moments that a side waits to restore (10)"
    )
    parser.add_argument(
        "--limit", type=int, metavar="ROUNDS", help="the most rounds of a settle step (64 for each node and 512)"
    )


def options(words: list[str]) -> argparse.Namespace:
    parser = Options(
        prog="sdhring-network",
        description="Networks of rings: plans from tables, who survives what, availability, and what still fits.",
    )
    does = parser.add_subparsers(dest="does", required=True, metavar="import|add|room|whatif|availability|page")
    import_options(
        does.add_parser(
            "import",
            help="a network from tables",
            description="Makes a plan for each ring of a network, with all circuits in ways and slots that fit.",
        )
    )
    add = does.add_parser(
        "add",
        help="what if these circuits came too",
        description="Says which circuits of a table fit beside what is in service. Writes no file.",
    )
    add.add_argument("network", metavar="NETWORK", help="the folder of a network, or its network.toml")
    add.add_argument(
        "circuits",
        metavar="CIRCUITS.csv",
        help="a circuit in each row: name, from, to; via, count, direction, slot where they are there",
    )
    room = does.add_parser(
        "room",
        help="used and free slots",
        description="Lists used and free slots of each span, and the largest circuit over it that still fits.",
    )
    room.add_argument("network", metavar="NETWORK", help="the folder of a network, or its network.toml")
    asking_options(
        does.add_parser(
            "whatif",
            help="who survives which failures",
            description="Asks about every failure of a network alone, and each two.",
        )
    )
    minutes = does.add_parser(
        "availability",
        help="minutes of loss a year",
        description="Computes for which part of the time each customer is lost end to end, by what, and which investment helps most.",
    )
    minutes.add_argument(
        "network", metavar="NETWORK", help="the folder of a network, with spans.csv, and nodes.csv where places fail"
    )
    minutes.add_argument(
        "--cuts-per-1000-km", type=float, metavar="RATE", help="cuts a year of 1,000 km, for rows with a length alone"
    )
    minutes.add_argument("--csv", action="store_true", help="a record for each customer")
    minutes.add_argument("--json", action="store_true", help="the same as JSON, one record in a line")
    minutes.add_argument(
        "--causes",
        action="store_true",
        help="with --csv or --json: the causes of loss, one component or pair in each record",
    )
    minutes.add_argument(
        "--savings",
        action="store_true",
        help="with --csv or --json: for each component, what would be saved if it never failed",
    )
    drawn = does.add_parser(
        "page",
        help="a page of the network and of each ring",
        description="Writes a page on which a click makes a span or a place fail, and one for each ring.",
    )
    drawn.add_argument(
        "network", metavar="NETWORK", help="the folder of a network; with spans.csv the page has availability"
    )
    drawn.add_argument(
        "--to", required=True, metavar="DIR", help="the folder of index.html and of a page for each ring"
    )
    drawn.add_argument("--title", metavar="WORDS", help="the page's title (the folder's name)")
    drawn.add_argument(
        "--cuts-per-1000-km", type=float, metavar="RATE", help="cuts a year of 1,000 km, for rows with a length alone"
    )
    drawn.add_argument("--jobs", type=int, metavar="N", help="N rings at a time (the number of processors)")
    drawn.add_argument("--teller", metavar="CMD", help="the program that answers (sdhwhatif beside this one)")
    asked: argparse.Namespace = parser.parse_args(words)
    if asked.does == "availability" and (asked.causes or asked.savings) and not (asked.csv or asked.json):
        parser.error("--causes and --savings go with --csv or --json")
    for name in ("jobs", "parts"):
        if getattr(asked, name, None) is not None and getattr(asked, name) < 1:
            parser.error(f"--{name}: at least 1 is wanted")
    return asked


DEEDS: dict[str, Callable[[argparse.Namespace], int]] = {
    "import": import_tables,
    "add": tell_added,
    "room": tell_room,
    "whatif": whatif,
    "availability": availability,
    "page": page,
}


def main(words: list[str]) -> int:
    asked = options(words)
    try:
        return DEEDS[asked.does](asked)
    except PROBLEMS as problem:
        say(problem)
        return FAILED
