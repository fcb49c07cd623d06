"""What if these circuits came too: each beside what is in service, which stays where it is. No file is written."""

from pathlib import Path

from .fitting import Fitting
from .making import Service, kept_load
from .model import Network, key_of
from .room import head_words
from .tables import Wish, read_wishes

COLUMNS = ("circuit", "from", "to", "fits", "rings", "changes", "slots", "problem")


def read_more(file: str, network: Network) -> tuple[list[Wish], list[str]]:
    """Returns the circuits of a table that are to come, and notes of what isn't read. A name that is in service is refused."""
    notes: list[str] = []
    known = {key_of(customer.name) for customer in network.customers}
    wishes = read_wishes(file, network, notes)
    for wish in wishes:
        if key_of(wish.name) in known:
            raise wish.row.problem(f"{wish.name} is in service; another name is wanted for what is to come")
    return wishes, notes


def added_to(service: Service, wishes: list[Wish]) -> tuple[tuple[str, ...], list[list[object]], str, bool]:
    """Returns columns and a record for each circuit, what is free after it in words, and whether all fit."""
    network = service.network
    loads = [kept_load(ring, plan, network) for ring, plan in zip(network.rings, service.plans)]
    fitted = Fitting(network, loads, {}).fit(wishes)
    why = {misfit.wish.name: misfit.why for misfit in fitted.misfits}
    rows: list[list[object]] = []
    slots = [{placed.customer: laid.slot for placed, laid in zip(load.placed, load.laid)} for load in fitted.loads]
    for wish in wishes:
        way = fitted.ways.get(wish.name)
        if way is None:
            rows.append([wish.name, wish.start, wish.end, "no", "", "", "", why[wish.name]])
            continue
        rings = "; ".join(network.rings[number].name for number in way.rings)
        taken = "; ".join(str(slots[number][wish.name]) for number in way.rings)
        rows.append([wish.name, wish.start, wish.end, "yes", rings, "; ".join(way.changes), taken, ""])
    words = f"{len(fitted.ways)} of {len(wishes)} fit; then {head_words(load.room() for load in fitted.loads)}"
    return COLUMNS, rows, words, not fitted.misfits
