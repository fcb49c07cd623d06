"""The ring as alarms leave it, as JSON."""

from __future__ import annotations

import json
from collections.abc import Sequence

from ..desktable import RESULTS
from ..origin import sum_of
from ..plan import Circuit
from .sorting import Change
from .telling import Told


def ids(circuits: Sequence[Circuit]) -> list[str]:
    return [circuit.name for circuit in circuits]


def change_record(change: Change) -> dict:
    parts = {"lost": change.lost, "back": change.back, "impaired": change.impaired, "better": change.better, "moved": change.moved}
    return {"class": change.kind} | {name: ids(found) for name, found in parts.items()}


def customers(told: Told) -> list[dict]:
    return [
        {
            "circuit": customer.circuit.name,
            "customer": customer.called,
            "result": RESULTS[customer.result],
            "spans": customer.spans or None,
            "own_spans": customer.own_spans,
            "km": customer.km,
            "own_km": customer.own_km,
            "longer_ms": customer.more_ms if customer.spans else None,
            "longer_ms_with_fibre": customer.more_ms_with_fibre if customer.spans else None,
        }
        for customer in told.now.customers
    ]


def listing(told: Told) -> dict:
    """What was read of the list, line by line."""
    read, plan = told.read, told.now.plan
    alarms = [{"line": alarm.line, "text": alarm.text, "alarm": alarm.name, "place": alarm.place.words(plan) if alarm.place else None, "cleared": alarm.is_cleared} for alarm in read.alarms]
    unread = [{"line": record.line, "text": record.text, "why": why} for record, why in read.unread]
    others = [{"line": record.line, "text": record.text} for record in read.others]
    return {"order": read.order, "alarms": alarms, "unread": unread, "without_alarm": others, "notes": read.notes}


def commands(told: Told) -> list[dict]:
    return [{"command": command.step, "called": command.called, "stands": command.stands, **change_record(command.change)} for command in told.now.commands]


def repairs(told: Told) -> list[dict]:
    spans = lambda repair: ["{}-{}".format(*told.now.plan.ends(span)) for span in repair.spans]
    return [{"spans": spans(repair), "at_once": change_record(repair.at_once), "after_waiting": change_record(repair.waited)} for repair in told.now.repairs]


def seconds(told: Told) -> list[dict]:
    table = told.now.table
    return [{"failure": table.labels(case)[0], "called": table.words(case), "lost": ids(change.lost)} for case, change in told.now.seconds]


def as_json(told: Told, plan: bytes) -> str:
    """Returns all of it as one object."""
    now = told.now
    own = [text for text in now.own if text != "settle"]
    found = {
        **{"plan": told.title, "plan_sum": sum_of(plan), **now.program.lines(), "script": own, "steps": now.steps, "verdict": list(told.verdict())},
        **{"list": listing(told), "stands": list(told.stands()), "customers": customers(told), "commands": commands(told)},
        **{"repairs": repairs(told), "one_failure_more": seconds(told)},
    }
    return json.dumps(found, indent=1) + "\n"
