"""Mutants of the plain node: its source with one rule changed in one place, by its syntax tree. Each knows the rule that it breaks, by the comment at
the end of the line, or of the last line before it in the same function that has one."""

import ast
import copy
import re
import types
from collections import Counter
from dataclasses import dataclass, field
from pathlib import Path

from remade import SECOND, SOURCE_OF
from ringtools.conform import node as plain

SOURCE = Path(plain.__file__).read_text(encoding="utf-8")
TREE = ast.parse(SOURCE)
TAG = re.compile(r"  # ((?:[0-9]\.|path\.)[a-z0-9.|-]+)$")
TEXT = re.compile(r"['\"](?:[0-9]\.|path\.|origin/)[a-z0-9.-]+/?")
# What only says which rule decides, and what only shows.
SILENT = {"note", "append", "note_hold"}
SHOWN = {"rule", "rules", "row", "reading", "why", "found", "filtered"}
WITHOUT = {"carried", "count", "counted", "note_hold", "word_rules", "origin_rule", "why_not", "defect_rules", "offset_rule", "rules_of", "compared", "hexadecimal", "lines", "note"}
TURNED = {ast.Eq: [ast.NotEq], ast.NotEq: [ast.Eq], ast.Lt: [ast.LtE, ast.Gt], ast.LtE: [ast.Lt, ast.Gt], ast.Gt: [ast.GtE, ast.Lt], ast.GtE: [ast.Gt, ast.Lt],
          ast.In: [ast.NotIn], ast.NotIn: [ast.In], ast.Is: [ast.IsNot], ast.IsNot: [ast.Is]}
SWAPPED = {"WEST": "EAST", "EAST": "WEST", "BRIDGED": "SWITCHED", "SWITCHED": "BRIDGED", "RDI": "IDLE", "IDLE": "RDI", "SF": "FS", "SD": "MS", "MS": "SD", "FS": "SF", "WTR": "MS",
           "LONG": "SHORT", "SHORT": "LONG", "NORM": "AIS", "LOST": "AIS", "max": "min", "min": "max", "first": "last", "any": "all", "all": "any"}


@dataclass
class Site:
    """A place that can be changed, and how."""

    rules: tuple
    line: int
    place: str  # the function
    what: str
    path: tuple  # of the node in the tree
    change: object
    key: str  # by which it is known, wherever its line is

    @property
    def tops(self):
        return {self.place.partition(".")[0]}

    def tree(self):
        """The changed definition at the top."""
        changed = ast.Module([copy.deepcopy(TREE.body[self.path[0][1]])], [])
        put(changed, (("body", 0), *self.path[1:]), copy.deepcopy(self.change))
        return changed


@dataclass
class Remade:
    """A wrong body of the proved crates, as a change of the source's text."""

    rules: tuple
    line: int
    place: str
    what: str
    tops: set
    text: str

    @property
    def key(self):
        return self.place

    def tree(self):
        return ast.Module([top for top in ast.parse(self.text).body if getattr(top, "name", None) in self.tops], [])


def wrong_bodies():
    """All of these, in the order in which they are listed."""
    before = {top.name: ast.dump(top) for top in TREE.body if hasattr(top, "name")}
    for name, (rules, old, new) in SOURCE_OF.items():
        text = SOURCE.replace(old, new)
        if name in SECOND:
            text = text.replace(*SECOND[name])
        tops = {top.name for top in ast.parse(text).body if hasattr(top, "name") and ast.dump(top) != before[top.name]}
        yield Remade(tuple(rules.split("|")), SOURCE[: SOURCE.index(old)].count("\n") + 1, name, old.strip().splitlines()[0][:70], tops, text)


def tags():
    """The rules of each line that names some."""
    return {number: tuple(found[1].split("|")) for number, line in enumerate(SOURCE.splitlines(), 1) if (found := TAG.search(line))}


TAGS = tags()


def rules_at(statement, function):
    """The rules of a statement: those on its lines, else those of the last line before it in the function, else of the first after it."""
    end = getattr(statement, "end_lineno", statement.lineno)
    if isinstance(statement, (ast.If, ast.For, ast.While, ast.With)):
        end = (statement.test if hasattr(statement, "test") else statement.body[0]).lineno
    for line in range(statement.lineno, end + 1):
        if line in TAGS:
            return TAGS[line]
    before = [line for line in TAGS if function.lineno <= line <= statement.lineno]
    after = [line for line in TAGS if statement.lineno <= line <= function.end_lineno]
    return TAGS[max(before)] if before else TAGS[min(after)] if after else ()


def targets(statement):
    """The names that a statement assigns to."""
    found = statement.targets if isinstance(statement, ast.Assign) else [statement.target] if isinstance(statement, (ast.AugAssign, ast.AnnAssign)) else []
    return {name.id for target in found for name in ast.walk(target) if isinstance(name, ast.Name)}


def is_silent(node):
    """Whether a node of the tree changes no answer: it notes a rule, or is a text."""
    if isinstance(node, ast.Expr) and isinstance(node.value, ast.Call) and isinstance(node.value.func, ast.Attribute):
        return node.value.func.attr in SILENT
    if isinstance(node, ast.Call) and isinstance(node.func, ast.Attribute) and node.func.attr == "note":
        return True
    if isinstance(node, (ast.Assign, ast.AugAssign)) and targets(node) and targets(node) <= SHOWN:
        return True
    if isinstance(node, ast.AugAssign) and "trace" in ast.dump(node.target):
        return True
    if isinstance(node, ast.Tuple) and ast.unparse(node) == "(WEST, EAST)":
        return True  # both sides, one after the other: no rule
    if isinstance(node, ast.If):
        return all(map(is_silent, [*node.body, *node.orelse]))
    if isinstance(node, ast.IfExp) and all(isinstance(one, (ast.JoinedStr, ast.IfExp, ast.List)) or isinstance(getattr(one, "value", None), str) for one in (node.body, node.orelse)):
        return TEXT.search(ast.unparse(node)) is not None
    return isinstance(node, ast.JoinedStr)


def walk(node, path=()):
    """The nodes of a tree with their paths, without the silent ones."""
    yield node, path
    for name, value in ast.iter_fields(node):
        if isinstance(value, ast.AST) and not is_silent(value):
            yield from walk(value, (*path, name))
        elif isinstance(value, list):
            for at, one in enumerate(value):
                if isinstance(one, ast.AST) and not is_silent(one):
                    yield from walk(one, (*path, (name, at)))


def at(tree, path):
    for step in path:
        tree = getattr(tree, step) if isinstance(step, str) else getattr(tree, step[0])[step[1]]
    return tree


def put(tree, path, new):
    above, step = at(tree, path[:-1]), path[-1]
    if isinstance(step, str):
        setattr(above, step, new)
    else:
        getattr(above, step[0])[step[1]] = new


def shown(node):
    return ast.unparse(node).splitlines()[0][:70]


def changes(node):
    """What can be done to a node of the tree, as words and new nodes."""
    if isinstance(node, ast.Compare):
        for number, operator in enumerate(node.ops):
            for other in TURNED.get(type(operator), ()):
                new = copy.deepcopy(node)
                new.ops[number] = other()
                yield f"{shown(node)} -> {shown(new)}", new
    elif isinstance(node, ast.Constant) and type(node.value) is int:
        for more in (1, -1) if node.value else (1,):
            yield f"{node.value} -> {node.value + more}", ast.Constant(node.value + more)
    elif isinstance(node, ast.Name) and node.id in SWAPPED and isinstance(node.ctx, ast.Load):
        yield f"{node.id} -> {SWAPPED[node.id]}", ast.Name(SWAPPED[node.id], ast.Load())
    elif isinstance(node, ast.BinOp) and isinstance(node.op, ast.Sub) and shown(node) == "1 - d":
        yield "1 - d -> d", ast.Name("d", ast.Load())
    elif isinstance(node, ast.BoolOp):
        for number in range(len(node.values)):
            left = node.values[:number] + node.values[number + 1 :]
            new = left[0] if len(left) == 1 else ast.BoolOp(node.op, left)
            yield f"{shown(node)} -> {shown(new)}", new
    elif isinstance(node, ast.If):
        yield f"if {shown(node.test)}: left out", ast.If(ast.Constant(False), node.body, node.orelse)
    elif isinstance(node, ast.IfExp):
        yield f"{shown(node)} -> {shown(node.orelse)}", node.orelse
        yield f"{shown(node)} -> {shown(node.body)}", node.body
    elif isinstance(node, ast.Constant) and node.value in ("w", "p", "a", "b", "up", "down") and type(node.value) is str:
        other = {"w": "p", "p": "w", "a": "b", "b": "a", "up": "down", "down": "up"}[node.value]
        yield f"{node.value!r} -> {other!r}", ast.Constant(other)


def functions(tree):
    """The functions and methods of the module, with their paths and the definitions at the top that they belong to."""
    for number, top in enumerate(tree.body):
        if isinstance(top, ast.FunctionDef):
            yield top, (("body", number),), top.name
        elif isinstance(top, ast.ClassDef):
            for inner, method in enumerate(top.body):
                if isinstance(method, ast.FunctionDef):
                    yield method, (("body", number), ("body", inner)), top.name


def statement_of(tree, path):
    """The innermost statement that a path leads through."""
    found, here = None, tree
    for step in path:
        here = getattr(here, step) if isinstance(step, str) else getattr(here, step[0])[step[1]]
        found = here if isinstance(here, ast.stmt) else found
    return found


def sites():
    """All places that can be changed, and how, in the order of the source."""
    tree, seen = ast.parse(SOURCE), Counter()
    for function, path, top in functions(tree):
        if function.name in WITHOUT or (top, function.name) == ("Node", "__init__"):
            continue
        for node, below in walk(function):
            if not below or below[0] in ("args", "returns") or below[0][0] == "decorator_list":
                continue
            for what, new in changes(node):
                statement = statement_of(tree, (*path, *below))
                rules = rules_at(statement, function)
                place = f"{top}.{function.name}" if top != function.name else top
                seen[place, what] += 1
                if rules:
                    yield Site(rules, statement.lineno, place, what, (*path, *below), new, f"{place}: {what} ({seen[place, what]})")


def used_by():
    """For each definition at the top, all that it uses, itself among them."""
    tree = ast.parse(SOURCE)
    tops = {top.name: top for top in tree.body if isinstance(top, (ast.FunctionDef, ast.ClassDef))}
    direct = {name: {one.id for one in ast.walk(top) if isinstance(one, ast.Name)} & set(tops) for name, top in tops.items()}
    found = {}
    for name in tops:
        reached, left = {name}, [name]
        while left:
            more = direct[left.pop()] - reached
            reached |= more
            left += more
        found[name] = reached
    return found


USED = used_by()
# Functions of values alone by which all others are used: where a mutant's give the same for all that the plain node asked them, its answers are the same.
ENTRIES = ("opened", "violations", "decoded", "hears", "step", "interpret", "generate", "sent_frame", "aus_of")
OF_HEARING = {"Inlet", "Side"}


def entries_of(site):
    """The functions of values that a change is in, where it is in nothing else; or nothing."""
    if site.tops & {"Node", "Inlet", "Side", "Clock", "Stream"} or not any(site.tops & USED[name] for name in ENTRIES):
        return ()
    return tuple(name for name in ENTRIES if site.tops & USED[name])


class Quiet(ast.NodeTransformer):
    """Leaves out what only notes rules."""

    def visit_AugAssign(self, node):
        return ast.Pass() if "trace" in ast.dump(node.target) else node

    def visit_Expr(self, node):
        return ast.Pass() if isinstance(node.value, ast.Call) and "'trace'" in ast.dump(node.value.func) else node


QUIET = compile(ast.fix_missing_locations(Quiet().visit(ast.parse(SOURCE))), "mutant", "exec")


def made(site):
    """The module of a mutant. What doesn't use the changed definition is shared with the plain node, with all that was computed by it."""
    module = types.ModuleType("mutant")
    module.__package__ = plain.__package__
    exec(QUIET, module.__dict__)
    exec(compile(ast.fix_missing_locations(Quiet().visit(site.tree())), "mutant", "exec"), module.__dict__)
    for name, used in USED.items():
        if not site.tops & used:
            module.__dict__[name] = getattr(plain, name)
    return module
