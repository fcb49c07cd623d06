"""What the answers about all cases come to: who is lost in which failures, and the same in words."""

from .escaping import html
from .failures import KINDS
from .markup import codes, count_of, names
from .plan import enough

KIND_WORDS = {"fibre": "fibre", "span": "span", "node": "node", "pair": "pair of spans"}
KIND_PLURALS = {"fibre": "fibres", "span": "spans", "node": "nodes", "pair": "pairs of spans"}
SINGLE = ("fibre", "span")
NOT_ASKED = "Nothing is said of others, such as degradations, or a fibre and a node at once."
FEW = 6  # circuits for each of which a sentence names its failures


def limit_advice(plan):
    settles = "with that the proved program always settles"
    if plan.limit >= enough(plan.size):
        return f"the limit of {plan.limit} is at least 64n + 512 = {enough(plan.size)}, and {settles}: another program answered, or a fault is found"
    return f"raise `limit` from {plan.limit} to {enough(plan.size)}, which is 64n + 512 for {plan.size} nodes: {settles}"


class Answers:
    """The verdicts on the failures; that on the works, where there are any, apart. `shard` is as '1 of 2', or empty."""

    def __init__(self, beforehand, verdicts, shard=""):
        self.beforehand, self.plan, self.shard = beforehand, beforehand.plan, shard
        self.works = next((verdict for verdict in verdicts if verdict.case.kind == "works"), None)
        self.verdicts = [verdict for verdict in verdicts if verdict.case.kind != "works"]
        self.all = verdicts
        self.circuits = [circuit.name for circuit in self.plan.circuits]
        self.kinds = [kind for kind in KINDS if self.of_kinds((kind,))]

    def of_kinds(self, kinds):
        return [verdict for verdict in self.verdicts if verdict.case.kind in kinds]

    def failed(self, kinds):
        """Cases of these kinds whose failure settled, with that stage."""
        found = ((verdict, verdict.stage("failed")) for verdict in self.of_kinds(kinds))
        return [(verdict, stage) for verdict, stage in found if stage is not None]

    def customers(self, found):
        """Circuits by the names that their customers know."""
        return names(map(self.plan.places.circuit, found))

    def lost_before(self):
        """Circuits that are lost before anything fails."""
        stages = [stage for stage in (verdict.stage("before") for verdict in self.verdicts) if stage is not None]
        return stages[0].all_of("lost") if stages else []

    def taken(self, verdict):
        """Circuits that are lost in this failure, besides those that were lost before it."""
        stage, before = verdict.stage("failed"), set(self.lost_before())
        return [name for name in stage.all_of("lost") if name not in before] if stage else []

    def takers(self, kinds):
        """For each circuit that isn't lost before, the verdicts on failures of these kinds in which it is."""
        before = set(self.lost_before())
        result = {name: [] for name in self.circuits if name not in before}
        for verdict, _ in self.failed(kinds):
            for name in self.taken(verdict):
                result[name].append(verdict)
        return result

    def words_on_runs(self):
        part = f", part {self.shard} of the whole" if self.shard else ""
        each = names(count_of(len(self.of_kinds((kind,))), KIND_WORDS[kind], KIND_PLURALS[kind]) for kind in self.kinds)
        yield f"{count_of(len(self.verdicts), 'failure')} of a ring with {count_of(len(self.circuits), 'circuit')} were run{part}: {each}. {NOT_ASKED}"
        if self.beforehand.own_texts():
            yield html("After the plan's own script: {}.", codes(self.beforehand.own_texts()))
        if self.beforehand.left_out:
            yield html("The plan's own script is left out, as <code>--without-script</code> asks: {}.", codes(self.beforehand.left_out))
        more = self.beforehand.also_texts() + self.beforehand.works_texts()
        if more:
            yield html("Before each: {}.", codes(more))
        before = self.lost_before()
        if before:
            yield f"Lost before anything fails: {self.customers(before)}."

    def words_on_ends(self):
        unsettled = [verdict for verdict in self.all if verdict.unsettled]
        other = [verdict for verdict in self.all if not verdict.ok and not verdict.unsettled]
        if unsettled:
            yield html("<strong>{} of {} didn't settle within the limit</strong>: {}.", len(unsettled), count_of(len(self.all), "case"), limit_advice(self.plan))
        if other:
            each = names((f"{verdict.case.words} ({verdict.status_words()})" for verdict in other), 40)
            yield html("<strong>{} didn't end Ok</strong>: {}.", count_of(len(other), "case"), each)

    def words_on_spans(self):
        if not self.failed(SINGLE) or not self.circuits:
            return
        takers, single = self.takers(SINGLE), " or ".join(kind for kind in SINGLE if kind in self.kinds)
        safe, taken = [name for name in takers if not takers[name]], [name for name in takers if takers[name]]
        if not taken:
            yield html("<strong>Each circuit survives</strong> every single {}: {}.", single, self.customers(safe))
            return
        if safe:
            yield html("<strong>{} of {} survive</strong> every single {}: {}.", len(safe), count_of(len(takers), "circuit"), single, self.customers(safe))
        few = len(taken) <= FEW
        called = self.plan.places.circuit
        each = (f"{called(name)} ({names((verdict.case.words for verdict in takers[name]), 4)})" if few else called(name) for name in taken)
        yield html("<strong>Lost</strong> with some single {}: {}: {}.", single, count_of(len(taken), "circuit"), names(each))

    def ends_at(self, case):
        """Circuits that end at the node which is lost."""
        at = case.fibres[2][0]
        return {circuit.name for circuit in self.plan.circuits if at in (circuit.start, circuit.end)}

    def besides_ends(self, verdict):
        """Circuits that are lost with a node and don't end there."""
        return [name for name in self.taken(verdict) if name not in self.ends_at(verdict.case)]

    def words_on_nodes(self):
        failed = self.failed(("node",))
        beyond = {verdict.case.words: self.besides_ends(verdict) for verdict, _ in failed if self.besides_ends(verdict)}
        if beyond:
            each = "; ".join(f"{words}: {self.customers(more)}" for words, more in beyond.items())
            yield html("<strong>With a lost node</strong> the circuits that end there are lost, and besides: {}.", each)
        elif failed:
            yield html("<strong>With a lost node</strong> the circuits that end there are lost, and no other.")

    def words_on_pairs(self):
        failed = self.failed(("pair",))
        if not failed:
            return
        takers = self.takers(("pair",))
        safe = [name for name in takers if not takers[name]]
        taking = [(len(self.taken(verdict)), verdict.case.words) for verdict, _ in failed if self.taken(verdict)]
        spared = f" Survive every pair: {self.customers(safe)}." if safe else ""
        yield f"At least one circuit is lost in {len(taking)} of {count_of(len(failed), 'pair')} of spans.{spared}"
        if taking:
            most = max(count for count, _ in taking)
            worst = [words for count, words in taking if count == most]
            yield html("<strong>The worst pairs</strong>, with {} lost: {}.", count_of(most, "circuit"), names(worst, 12))

    def words_on_model(self):
        differ = [verdict for verdict in self.all if verdict.differs]
        if differ:
            each = "; ".join(f"{verdict.case.words}: {', '.join(verdict.differs[:3])}" for verdict in differ[:20])
            yield html("<strong>In {} the program's text and the restoration model differ</strong>: {}.", count_of(len(differ), "case"), each)
        reports = sum(len(verdict.stages) for verdict in self.all if not verdict.differs)
        wanted = sum(len(verdict.case.stages) for verdict in self.all)
        if reports:
            yield f"{reports} of the {wanted} reports that were asked for came and agree with the restoration model."
        elif differ:
            yield f"None of the {wanted} reports that were asked for agrees with the restoration model."
        else:
            yield "No report came, so nothing is said of any failure."

    def words(self):
        parts = [self.words_on_ends(), self.words_on_runs(), self.words_on_spans(), self.words_on_nodes(), self.words_on_pairs(), self.words_on_model()]
        return [sentence for part in parts for sentence in part]

    def sorted_of(self, kinds):
        """What isn't Ok first, then the failures in which most are lost."""
        def key(verdict):
            stage = verdict.stage("failed")
            return (verdict.ok, -len(self.taken(verdict)) - stage.count("odd"), -stage.count("over")) if stage else (False, 0, 0)

        return sorted(self.of_kinds(kinds), key=key)
