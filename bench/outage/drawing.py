"""Random circuits and steps for the plain simulation (simulate.py): no two circuits share a span in a slot, and a step may come in any
round."""

from simulate import SIDES


def made_circuits(dice, n, slots):
    """Circuits of which no two share a span in a slot."""
    taken, circuits = set(), []
    for number in range(dice.randint(1, 8)):
        first, length, slot = dice.randrange(n), dice.randint(1, n - 1), dice.randint(1, slots)
        places = {((first + i) % n, slot) for i in range(length)}
        if not places & taken:
            taken |= places
            circuits.append({"name": f"c{number}", "from": first, "to": (first + length) % n, "slot": slot})
    return circuits


def made_step(dice, plan, moment):
    """A step of a script that may come in any round, as words."""
    kind = dice.choice(("cut", "cut", "mend", "mend", "degrade", "forced", "manual", "clear", "slip", "moment"))
    if kind == "slip" and plan["circuit"]:
        return [kind, dice.choice(plan["circuit"])["name"], dice.choice("ab"), dice.choice(("up", "down")), "1"]
    if kind in ("slip", "moment"):
        return ["moment", str(moment)]
    words = [kind, str(dice.randrange(len(plan["nodes"]))), dice.choice(SIDES)]
    return [*words, "4"] if kind == "degrade" else words
