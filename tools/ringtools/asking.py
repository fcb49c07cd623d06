"""What both forms of sdhring-whatif share: how they end, the plan that they ask about, and where they keep what they write."""

import re
import shlex
import unicodedata
from dataclasses import dataclass
from functools import cached_property
from pathlib import Path

from . import shown
from .answers import limit_advice
from .failures import read_beforehand
from .fibre import read_lengths
from .files import FileProblem, read_input
from .origin import sum_of
from .plan import PlanProblem, enough, read_plan, write_plan
from .plans import stem_of, tell_unnamed
from .tables import TableProblem
from .writing import Folder, named_folder, own_folder

FAILED, NOT_SETTLED, DIFFERS, INTERRUPTED = 1, 3, 4, 130
QUESTION = "question"  # the file of a folder that says what its answers are about
LONGEST_QUESTION = 1 << 20  # bytes of it
SLUG = 48  # characters of an order in the name of a folder


def say(what: object) -> None:
    shown.say("sdhring-whatif", what)


class Stop(Exception):
    """Ends the work on a plan with a status and a line."""

    def __init__(self, what, status=FAILED):
        super().__init__(what)
        self.status = status


@dataclass(frozen=True)
class Subject:
    """A plan that is asked about: its file and bytes, the steps before each failure, and the document that these make."""

    name: str
    data: bytes
    beforehand: object
    document: bytes

    @property
    def plan(self):
        return self.beforehand.plan

    @cached_property
    def asked(self):
        """The plan as it is asked about, with the script of the document."""
        return read_plan(self.document)

    @property
    def title(self):
        return Path(self.name).name

    @property
    def order(self):
        """The works order in its own words."""
        return "; ".join(self.beforehand.order)


def subject_of(name, also, works, without_script):
    """The plan of this file, after its own script or without it."""
    try:
        data = read_input(name)
        plan = read_plan(data)
        tell_unnamed("sdhring-whatif", name, plan)
        own = [step.text for step in plan.steps if step.word != "settle"]
        left_out = own if without_script else ()
        beforehand = read_beforehand(plan, also, works, () if without_script else plan.steps, left_out)
    except FileProblem as problem:
        raise Stop(str(problem)) from None
    except PlanProblem as problem:
        raise Stop(f"{name}: {problem}") from None
    if left_out:
        say(f"{name}: the plan's own script is left out: {'; '.join(left_out)}")
    as_it_is = not (also or works or left_out)
    return Subject(name, data, beforehand, data if as_it_is else write_plan(plan, beforehand.settled_texts()).encode())


def lengths_for(asked, plan):
    """The lengths of the fibres by --spans, or None."""
    if asked.spans is None:
        return None
    try:
        lengths, notes = read_lengths(asked.spans, plan)
    except (FileProblem, TableProblem) as problem:
        raise Stop(str(problem)) from None
    for note in notes:
        say(note)
    return lengths


def slug(words: str) -> str:
    """Returns words as a part of a file's name: small letters, digits and hyphens, at most SLUG of them."""
    plain = "".join(letter for letter in unicodedata.normalize("NFKD", words).casefold() if not unicodedata.combining(letter))
    made = "-".join(re.findall("[a-z0-9]+", plain)) or "order"
    return made if len(made) <= SLUG else f"{made[: SLUG - 9]}-{sum_of(words.encode())[:8]}"


def question_name(asked) -> str:
    """Returns what the name of a folder has of the question, so that each works order has a folder of its own."""
    parts = [slug(asked.title)] if asked.works and asked.title else []
    parts += [slug(asked.works)] if asked.works else []
    parts += [f"after-{slug(asked.also)}"] if asked.also else []
    return "".join(f".{part}" for part in parts + ["without-script"] * asked.without_script)


def place_of(asked, name: str) -> Folder:
    """Returns where all of a plan and a question is kept, be it there or not. Several plans have a folder each, in that of --dir."""
    own = f"{stem_of(name)}{question_name(asked)}.whatif"
    if asked.dir is None:
        return Folder(Path(own), is_own=True)
    return Folder(Path(asked.dir), (own,) if asked.many else ())


def folder_of(asked, name: str) -> Folder:
    """Returns the same folder, which is there then."""
    place = place_of(asked, name)
    made = own_folder(place.base) if place.is_own else named_folder(place.base)
    return made.inside(*place.below) if place.below else made


def question_of(asked, subject: Subject) -> str:
    """Returns what is asked besides the plan, as the words that ask for it, with the steps that an order stands for."""
    before, words = subject.beforehand, []
    words += ["--works", "; ".join(before.works_texts())] if before.works else []
    words += ["--title", asked.title] if before.works and asked.title else []
    words += ["--also", "; ".join(before.also_texts())] if before.also else []
    return shlex.join(words + ["--without-script"] * asked.without_script) + "\n"


def check_question(asked, subject: Subject) -> None:
    """Raises where the folder has answers to another question, which would be written over."""
    folder = place_of(asked, subject.name)
    if not folder.path.is_dir() or QUESTION not in folder.names():
        return
    kept = folder.read(QUESTION, LONGEST_QUESTION)
    if kept != question_of(asked, subject).encode("utf-8", "replace"):
        words = "which can't be read" if kept is None else kept.decode("utf-8", "replace").strip()
        other = words or "without --works, --also and --without-script"
        raise Stop(f"{folder.path} has the answers to another question, {other}, and they would be written over: --dir names another folder, or remove this one")


def keep_question(asked, subject: Subject) -> None:
    """Writes the question into its folder."""
    folder_of(asked, subject.name).write(QUESTION, question_of(asked, subject))


def warn_of(program, plan=None):
    """Warns of what would spoil a run of hours."""
    if not program.proved:
        say(f"warning: the program {shlex.join(program.words)} is {program.proof}")
    if plan is not None and plan.limit < enough(plan.size):
        say(f"warning: cases may not settle: {limit_advice(plan)}")
