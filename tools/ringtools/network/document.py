"""The document of a network, `network.toml`: which plans its rings have, over which sections customers go, and which groups fail as one."""

import json
from collections import Counter
from pathlib import Path
from typing import Any

from ..checks import is_name
from ..files import MEBIBYTE, FileProblem, Limit, found_in, read_input
from ..markup import count_of
from ..plan import PlanProblem, read_document
from .members import Members
from .model import INDEX, Customer, Group, Network, NetworkProblem, Ring, Section, key_of

FILE = "network.toml"
KEYS = {
    "ring": {"name", "plan", "places"},
    "customer": {"name", "from", "to", "sections", "changes"},
    "group": {"name", "members", "failures", "hours"},
}
MOST_NODES = 16
MOST_GROUPS = 64  # that touch a ring: as many as a ring's own table of groups has rows
DOCUMENT = Limit("a network's document", 24 * MEBIBYTE)


def file_of(folder: str) -> Path:
    """Returns the document that is meant by a folder, or by the document itself."""
    path = Path(folder)
    return path / FILE if path.is_dir() else path


def text_in(table: dict[str, Any], key: str, where: str) -> str:
    value = table.get(key)
    if not isinstance(value, str) or not value.strip():
        raise NetworkProblem(f"{where}: `{key}` is missing, or no text")
    return value


def texts_in(table: dict[str, Any], key: str, where: str) -> tuple[str, ...]:
    value = table.get(key, [])
    if not isinstance(value, list) or not all(isinstance(one, str) and one.strip() for one in value):
        raise NetworkProblem(f"{where}: `{key}` is to be an array of texts")
    return tuple(value)


def number_in(table: dict[str, Any], key: str, where: str) -> float | None:
    value = table.get(key)
    if value is None:
        return None
    if isinstance(value, bool) or not isinstance(value, (int, float)) or not 0 <= value < float("inf"):
        raise NetworkProblem(f"{where}: `{key}` is to be a number that isn't below 0")
    return float(value)


def tables_in(document: dict[str, Any], kind: str) -> list[tuple[str, dict[str, Any]]]:
    """Returns the tables of a kind, each with where it stands in words; keys that aren't known are refused."""
    found = document.get(kind, [])
    if not isinstance(found, list) or not all(isinstance(one, dict) for one in found):
        raise NetworkProblem(f"`{kind}` is to be an array of tables: [[{kind}]]")
    named = [(f"{kind} {number}", table) for number, table in enumerate(found, 1)]
    for where, table in named:
        if unknown := sorted(set(table) - KEYS[kind]):
            raise NetworkProblem(
                f"{where}: the key `{unknown[0]}` isn't known; a {kind} has {', '.join(sorted(KEYS[kind]))}"
            )
    return named


def check_once(names: list[str], kind: str) -> None:
    """Raises where two have one name, however it is spelt."""
    seen: set[str] = set()
    for name in names:
        if key_of(name) in seen:
            raise NetworkProblem(f"two {kind}s have the name {name}")
        seen.add(key_of(name))


def read_ring(number: int, where: str, table: dict[str, Any]) -> Ring:
    name, file, places = text_in(table, "name", where), text_in(table, "plan", where), texts_in(table, "places", where)
    if file.startswith("/") or not {".", ".."}.isdisjoint(file.split("/")) or not all(file.split("/")):
        raise NetworkProblem(f"{where}: `plan` is `{file}`, and a file in the network's own folder is wanted")
    if not 2 <= len(places) <= MOST_NODES:
        raise NetworkProblem(f"{where}: {count_of(len(places), 'place')}, and a ring has 2 to {MOST_NODES}")
    check_once(list(places), f"place of ring {name}, so two place")
    ring = Ring(number, name, file, places)
    if ring.page == INDEX:
        raise NetworkProblem(f"{where}: the page of the plan `{file}` would stand in place of the network's own, {INDEX}; give that plan another name")
    return ring


def read_section(text: str, where: str, rings: dict[str, Ring]) -> Section:
    ring, _, circuit = text.rpartition(" ")
    if key_of(ring) not in rings or not is_name(circuit):
        raise NetworkProblem(
            f"{where}: the section `{text}` is to be a ring's name, a blank, and a circuit's name in its plan; the rings are {', '.join(one.name for one in list(rings.values())[:8])}"
        )
    return Section(rings[key_of(ring)].number, circuit)


def read_customer(where: str, table: dict[str, Any], network: Network) -> Customer:
    name, start, end = (text_in(table, key, where) for key in ("name", "from", "to"))
    sections = tuple(
        read_section(text, f"customer {name}", network.by_name) for text in texts_in(table, "sections", where)
    )
    customer = Customer(name, start, end, sections, texts_in(table, "changes", where))
    check_customer(customer, network)
    return customer


def check_customer(customer: Customer, network: Network) -> None:
    """Raises unless the sections lead from the one end to the other, each in a ring of its own."""
    where, wanted = f"customer {customer.name}", len(customer.sections) - 1
    if wanted < 0:
        raise NetworkProblem(f"{where}: there is no section")
    if len(customer.changes) != wanted:
        raise NetworkProblem(
            f"{where}: {count_of(len(customer.sections), 'section')}, and so {count_of(wanted, 'place')} where rings are changed; `changes` has {len(customer.changes)}"
        )
    if len({section.ring for section in customer.sections}) <= wanted:
        raise NetworkProblem(f"{where}: a ring stands twice; each ring is crossed once at most")
    for place, section in enumerate(customer.sections):
        ring, (one, other) = network.rings[section.ring], customer.ends_of(place)
        for end in (one, other):
            if ring.at(end) is None:
                raise NetworkProblem(f"{where}: ring {ring.name} doesn't come to {end}")
        if ring.at(one) == ring.at(other):
            raise NetworkProblem(f"{where}: its section in ring {ring.name} begins and ends at {one}")


def read_group(where: str, table: dict[str, Any]) -> Group:
    name, members = text_in(table, "name", where), texts_in(table, "members", where)
    if not members:
        raise NetworkProblem(f"{where}: `members` is empty; spans, places and fibres are wanted")
    return Group(name, members, number_in(table, "failures", where), number_in(table, "hours", where))


def network_of(data: bytes) -> Network:
    """Returns the network of these bytes, or raises a NetworkProblem. Plans aren't read; each is held against it when it is."""
    try:
        document = read_document(data, DOCUMENT)
    except PlanProblem as problem:
        raise NetworkProblem(str(problem)) from None
    if unknown := sorted(set(document) - set(KEYS)):
        raise NetworkProblem(f"the key `{unknown[0]}` isn't known; a network has [[ring]], [[customer]] and [[group]]")
    rings = [read_ring(number, where, table) for number, (where, table) in enumerate(tables_in(document, "ring"))]
    if not rings:
        raise NetworkProblem("there is no [[ring]]")
    check_once([ring.name for ring in rings], "ring")
    check_once([ring.page for ring in rings], "plan")
    network = Network(rings, [])
    network.customers += [read_customer(where, table, network) for where, table in tables_in(document, "customer")]
    network.groups += [read_group(where, table) for where, table in tables_in(document, "group")]
    check_once([customer.name for customer in network.customers], "customer")
    check_once([group.name for group in network.groups], "group")
    check_sections(network)
    check_groups(network)
    return network


def check_sections(network: Network) -> None:
    """Raises where two customers have one circuit."""
    counted = sum(len(customer.sections) for customer in network.customers)
    if counted == sum(map(len, network.sections_in)):
        return
    seen: dict[Section, str] = {}
    for customer in network.customers:
        for section in customer.sections:
            if section in seen:
                raise NetworkProblem(
                    f"customers {seen[section]} and {customer.name} have one circuit, {network.rings[section.ring].name} {section.circuit}"
                )
            seen[section] = customer.name


def check_groups(network: Network) -> None:
    """Raises where a group names what isn't there, or where more groups touch a ring than are asked about: each two of them are."""
    members, touching = Members(network), Counter()
    for group in network.groups:
        try:
            parts = [part for member in group.members for part in members.parts(member)]
        except NetworkProblem as problem:
            raise NetworkProblem(f"group {group.name}: {problem}") from None
        touching.update({part.ring for part in parts})
    for number, count in touching.most_common(1):
        if count > MOST_GROUPS:
            raise NetworkProblem(f"{count:,} groups touch ring {network.rings[number].name}, and at most {MOST_GROUPS} may")


def read_network(name: str) -> Network:
    """Returns the network of a folder or a document, or raises a NetworkProblem that names the file."""
    path = file_of(name)
    try:
        return network_of(read_input(found_in(name, FILE) if path.parent == Path(name) else str(path), DOCUMENT))
    except (FileProblem, NetworkProblem) as problem:
        words = str(problem)
        raise NetworkProblem(words if words.startswith(str(path)) else f"{path}: {words}") from None


def quoted(text: str) -> str:
    """A text as TOML has it: literal where that can be, which is read fastest."""
    return f"'{text}'" if "'" not in text and text.isprintable() else json.dumps(text, ensure_ascii=False)


def listed(texts: tuple[str, ...]) -> str:
    return "[" + ", ".join(map(quoted, texts)) + "]"


def written_customer(network: Network, customer: Customer) -> str:
    sections = tuple(f"{network.rings[section.ring].name} {section.circuit}" for section in customer.sections)
    lines = [
        "[[customer]]",
        f"name = {quoted(customer.name)}",
        f"from = {quoted(customer.start)}",
        f"to = {quoted(customer.end)}",
        f"sections = {listed(sections)}",
    ]
    return "\n".join([*lines, *([f"changes = {listed(customer.changes)}"] if customer.changes else []), ""])


def written_group(group: Group) -> str:
    rates = [
        f"{key} = {value!r}"
        for key, value in (("failures", group.failures), ("hours", group.hours))
        if value is not None
    ]
    return "\n".join(["[[group]]", f"name = {quoted(group.name)}", f"members = {listed(group.members)}", *rates, ""])


def written(network: Network) -> str:
    """Returns the document of a network."""
    rings = [
        f"[[ring]]\nname = {quoted(ring.name)}\nplan = {quoted(ring.file)}\nplaces = {listed(ring.places)}\n"
        for ring in network.rings
    ]
    counts = f"{count_of(len(rings), 'ring')} and {count_of(len(network.customers), 'customer')}"
    head = f"""# A network of {counts}, made by `sdhring-network import`. Every key is in NETWORKS.md.
#
#   sdhring-network whatif FOLDER         asks who survives which failures
#   sdhring-network room FOLDER           lists the free slots of each span
#   sdhring-network page FOLDER --to DIR  draws it, with a page for each ring
"""
    return "\n".join(
        [
            head,
            *rings,
            *(written_customer(network, one) for one in network.customers),
            *map(written_group, network.groups),
        ]
    )
