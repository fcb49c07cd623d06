"""A network's folder from tables: a plan for each ring, and the document that joins them; beside what is in service already, where that is kept."""

from collections.abc import Iterator
from dataclasses import dataclass, field, replace
from pathlib import Path

from ..checks import plain_name
from ..files import FileProblem, found_in, is_there, read_input
from ..importing import apart
from ..making import Asked, Written, document_of, text_of
from ..markup import count_of
from ..places import PlaceProblem
from ..plan import Circuit, Plan, PlanProblem, Port, read_plan
from ..slots import Laid, Wanted
from .document import check_groups, read_network, written
from .fitting import Fitted, Fitting, Placed, RingLoad
from .model import Customer, Group, Network, NetworkProblem, Ring, Section, key_of
from .tables import LARGE, Tables, Wish

NAMED = 12  # of the circuits that don't fit, this many are reported one by one
COPIED = ("spans.csv", "nodes.csv")


@dataclass(frozen=True)
class Settings:
    """What all plans share: the violations that are a degradation, the moments of waiting, and the limit of rounds."""

    threshold: int = 3
    wait: int = 10
    limit: int | None = None


@dataclass
class Made:
    """The files of a network's folder by name, what has to be known of them, and what didn't fit."""

    files: dict[str, bytes]
    notes: list[str]
    fitted: Fitted
    network: Network


@dataclass
class Service:
    """What is in service: a network, and the plan of each of its rings as it stands."""

    network: Network
    plans: list[Plan]
    data: list[bytes] = field(default_factory=list)


def plan_of(folder: Path, ring: Ring) -> tuple[Plan, bytes]:
    """Returns the plan of a ring and its bytes, held against the network's document, or raises a NetworkProblem."""
    path = found_in(folder, ring.file)
    try:
        data = read_input(path)
        plan = read_plan(data)
        places = plan.clear_places()
    except FileProblem as problem:
        raise NetworkProblem(str(problem)) from None
    except (PlanProblem, PlaceProblem) as problem:
        raise NetworkProblem(f"{path}: {problem}") from None
    named = tuple(places.place(number) for number in plan.ids)
    if tuple(map(key_of, named)) != tuple(map(key_of, ring.places)):
        raise NetworkProblem(
            f"{path}: its places are {', '.join(named)}, and ring {ring.name} has {', '.join(ring.places)}"
        )
    return plan, data


def check_circuits(network: Network, ring: Ring, plan: Plan, path: Path) -> None:
    """Raises unless each circuit of a plan is the section of one customer, and leads between the places that he needs."""
    sections = network.sections_in[ring.number]
    for circuit in plan.circuits:
        if circuit.name not in sections:
            raise NetworkProblem(f"{path}: circuit {circuit.name} is no customer's section")
        number, place = sections[circuit.name]
        customer = network.customers[number]
        wanted = {ring.at(end) for end in customer.ends_of(place)}
        if {circuit.start, circuit.end} != wanted:
            raise NetworkProblem(
                f"{path}: circuit {circuit.name} leads from {ring.places[circuit.start]} to {ring.places[circuit.end]}, and customer {customer.name} needs {' to '.join(customer.ends_of(place))}"
            )
    if missing := sorted(set(sections) - {circuit.name for circuit in plan.circuits}):
        customer = network.customers[sections[missing[0]][0]]
        raise NetworkProblem(f"{path}: there is no circuit {missing[0]}, which customer {customer.name} has")


def checked_plan(network: Network, folder: Path, ring: Ring) -> tuple[Plan, bytes]:
    """Returns a ring's plan and its bytes, held against the network's document and its customers."""
    plan, data = plan_of(folder, ring)
    check_circuits(network, ring, plan, folder / ring.file)
    return plan, data


def service_of(folder: Path) -> Service:
    """Returns what is in service in a network's folder."""
    network = read_network(str(folder))
    found = [checked_plan(network, folder, ring) for ring in network.rings]
    return Service(network, [plan for plan, _ in found], [data for _, data in found])


def kept_load(ring: Ring, plan: Plan, network: Network) -> RingLoad:
    """A ring with the circuits that are in service, which stay where they are."""
    sections = network.sections_in[ring.number]
    name = lambda circuit: network.customers[sections[circuit.name][0]].name
    placed = [Placed(name(one), Wanted(one.start, one.end, "east", one.slot), one.name) for one in plan.circuits]
    return RingLoad(ring, plan.rate // 2, placed, tuple(Laid(one.start, one.end, one.slot) for one in plan.circuits))


def check_kept(tables: Tables, service: Service) -> None:
    """Raises where a ring in service isn't in the table, or is another one there: other places, another rate."""
    rows = {key_of(row.name): row for row in tables.rings}
    for ring, plan in zip(service.network.rings, service.plans):
        row = rows.get(key_of(ring.name))
        if row is None:
            raise NetworkProblem(f"{tables.folder / 'rings.csv'}: ring {ring.name} is in service, and has no row")
        if tuple(map(key_of, row.places)) != tuple(map(key_of, ring.places)):
            raise row.row.problem(
                f"ring {ring.name} is in service with the places {'; '.join(ring.places)}, and these are others"
            )
        if row.rate != plan.rate:
            raise row.row.problem(f"ring {ring.name} is in service at STM-{plan.rate}, and `rate` is {row.rate}")


def check_same(wish: Wish, customer: Customer) -> None:
    """Raises where the table wants something else of a customer in service."""
    if {key_of(wish.start), key_of(wish.end)} != {key_of(customer.start), key_of(customer.end)}:
        raise wish.row.problem(
            f"{wish.name} is in service from {customer.start} to {customer.end}; another name is wanted for what is new"
        )


def new_wishes(tables: Tables, service: Service) -> list[Wish]:
    """The circuits of the table that aren't in service yet. Customers in service that the table lacks stay, and are noted."""
    kept = {key_of(customer.name): customer for customer in service.network.customers}
    for wish in tables.wishes:
        if customer := kept.get(key_of(wish.name)):
            check_same(wish, customer)
    named = {key_of(wish.name) for wish in tables.wishes}
    if missing := [customer.name for key, customer in kept.items() if key not in named]:
        tables.notes.append(
            f"{count_of(len(missing), 'customer')} in service and not in the table stay: {', '.join(missing[:NAMED])}"
        )
    return [wish for wish in tables.wishes if key_of(wish.name) not in kept]


class Maker:
    """Makes the files of a network of rings that carry all of these circuits."""

    def __init__(self, network: Network, rates: list[int], settings: Settings, service: Service | None = None):
        self.network, self.rates, self.settings, self.service = network, rates, settings, service
        self.before = (
            {key_of(ring.name): (ring, plan) for ring, plan in zip(service.network.rings, service.plans)}
            if service
            else {}
        )

    def loads(self) -> list[RingLoad]:
        """What each ring carries before anything is put in."""
        found = []
        for ring, rate in zip(self.network.rings, self.rates):
            kept = self.before.get(key_of(ring.name))
            load = (
                kept_load(kept[0], kept[1], self.service.network)
                if kept and self.service
                else RingLoad(ring, rate // 2)
            )
            found.append(replace(load, ring=ring))
        return found

    def names_in(self, load: RingLoad) -> list[str]:
        """The name of each section's circuit in its plan; those in service keep theirs."""
        taken, found = {one.circuit for one in load.placed if one.circuit}, []
        for number, one in enumerate(load.placed, 1):
            name = one.circuit or apart(plain_name(one.customer) or f"c{number}", taken)
            taken.add(name)
            found.append(name)
        return found

    def plan(self, load: RingLoad, names: list[str], wishes: dict[str, Wish]) -> bytes:
        """The document of a ring's plan. A plan in service to which nothing is added stays as it is, to the byte."""
        kept = self.before.get(key_of(load.ring.name))
        if kept and self.service and all(one.circuit for one in load.placed):
            return self.service.data[kept[0].number]
        circuits = [self.circuit(load, at, name, wishes) for at, name in enumerate(names)]
        ids = kept[1].ids if kept else tuple((number + 1) % 16 for number in range(load.ring.size))
        settings = Settings(kept[1].threshold, kept[1].wait, kept[1].limit) if kept else self.settings
        places = dict(zip(ids, load.ring.places))
        steps = tuple(step.text for step in kept[1].steps) if kept else ("settle",)
        about = Asked(
            load.slots * 2,
            ids,
            (),
            steps,
            Path(load.ring.file).name,
            settings.threshold,
            settings.wait,
            settings.limit,
            places,
            "sdhring-network import",
        )
        written_ones = [replace(one, start=ids[one.start], end=ids[one.end]) for one in circuits]
        return str(document_of(about, written_ones)).encode()

    def circuit(self, load: RingLoad, at: int, name: str, wishes: dict[str, Wish]) -> Written:
        """A circuit as it is written, by positions. Where it leads eastwards from the customer's `to`, its ends are exchanged, with texts, traces and offsets."""
        one, laid = load.placed[at], load.laid[at]
        called = one.customer if one.customer != name else ""
        if one.circuit:
            old = self.kept_circuit(load.ring, one.circuit)
            ports = [kept_port(port, old.name) for port in (old.a, old.b)]
            return Written(name, laid.start, laid.end, laid.slot, ports[0], ports[1], called)
        ends = "ab" if laid.start == one.wanted.start else "ba"
        ports = [wishes[one.customer].port(end, name, text_of) for end in ends]
        return Written(name, laid.start, laid.end, laid.slot, ports[0], ports[1], called)

    def kept_circuit(self, ring: Ring, name: str) -> Circuit:
        plan = self.before[key_of(ring.name)][1]
        found: Circuit = next(circuit for circuit in plan.circuits if circuit.name == name)
        return found

    def customers(self, wishes: list[Wish], fitted: Fitted, names: list[list[str]]) -> Iterator[Customer]:
        """Those in service as they are, and then the new ones in the order of the table."""
        numbers = {key_of(ring.name): ring.number for ring in self.network.rings}
        if self.service:
            old = self.service.network
            for customer in old.customers:
                sections = tuple(
                    Section(numbers[key_of(old.rings[one.ring].name)], one.circuit) for one in customer.sections
                )
                yield replace(customer, sections=sections)
        circuits = [
            {one.customer: name for one, name in zip(load.placed, given)} for load, given in zip(fitted.loads, names)
        ]
        for wish in wishes:
            if way := fitted.ways.get(wish.name):
                sections = tuple(Section(number, circuits[number][wish.name]) for number in way.rings)
                yield Customer(wish.name, wish.start, wish.end, sections, way.changes)

    def made(self, wishes: list[Wish], fitted: Fitted, groups: list[Group], notes: list[str]) -> Made:
        by_name = {wish.name: wish for wish in wishes}
        names = [self.names_in(load) for load in fitted.loads]
        files = {load.ring.file: self.plan(load, given, by_name) for load, given in zip(fitted.loads, names)}
        network = Network(self.network.rings, list(self.customers(wishes, fitted, names)), groups)
        files["network.toml"] = written(network).encode()
        return Made(files, notes, fitted, network)


def kept_port(port: Port, name: str) -> tuple[str, str, int]:
    """A port in service as it is written again; a trace that is the circuit's name stands there unwritten."""
    trace = port.trace.decode("ascii")
    return port.text.decode("ascii"), "" if trace == name else trace, port.offset


def summary(made: Made, wishes: list[Wish]) -> Iterator[str]:
    """What has to be known of a network that was made, in words."""
    crossing = [sum(len(customer.sections) == count for customer in made.network.customers) for count in range(1, 13)]
    over = ", ".join(f"{number} in {count_of(count, 'ring')}" for count, number in enumerate(crossing, 1) if number)
    yield f"{count_of(len(made.network.rings), 'ring')}, {count_of(len(made.network.customers), 'customer')}: {over or 'none'}"
    if made.fitted.moved:
        yield f"{count_of(made.fitted.moved, 'circuit')} of {len(wishes)} don't have their best way, since a ring of it is full"


def misfit_words(fitted: Fitted, count: int) -> str:
    """Who doesn't fit, in which ring, by which full span, and what would still fit there."""
    lines = [
        f"{count_of(len(fitted.misfits), 'circuit')} of {count} can't be fitted beside the others, by the best of several orders"
    ]
    for misfit in fitted.misfits[:NAMED]:
        wish = misfit.wish
        lines.append(f"{wish.row.file}:{wish.row.line}: {wish.name}, {wish.start} to {wish.end}: {misfit.why}")
    if more := len(fitted.misfits) - NAMED:
        lines += [f"and {more} more"] if more > 0 else []
    return "\n  ".join(lines)


def made_of(tables: Tables, settings: Settings, service: Service | None = None) -> Made:
    """Returns the files of the network of these tables, or raises a NetworkProblem where not all circuits fit."""
    if service:
        check_kept(tables, service)
    network = tables.network
    wishes = new_wishes(tables, service) if service else tables.wishes
    maker = Maker(network, [row.rate for row in tables.rings], settings, service)
    fitted = Fitting(network, maker.loads(), tables.lengths).fit(wishes)
    if fitted.misfits:
        raise NetworkProblem(misfit_words(fitted, len(wishes)))
    made = maker.made(wishes, fitted, tables.groups, tables.notes)
    check_groups(made.network)
    made.files |= {
        name: read_input(found_in(tables.folder, name), LARGE) for name in COPIED if is_there(tables.folder / name)
    }
    made.notes = [*summary(made, wishes), *tables.notes]
    return made
