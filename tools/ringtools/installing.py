"""What a release has, where each file of it is installed, and how it gets there and away again."""

import grp
import os
import pwd
import re
import shlex
import stat
from collections.abc import Iterable, Mapping
from contextlib import suppress
from dataclasses import dataclass, field
from pathlib import Path

from .build import HOME, PROGRAMS, sum_of, version, write_build
from .origin import LONGEST_PROGRAM, launched_record
from .shown import shown
from .writing import Folder, NotThere, WriteProblem, named_folder, parts_of

TOOLS = (
    *("sdhring-availability", "sdhring-bench", "sdhring-capture", "sdhring-compare-node", "sdhring-conform", "sdhring-desk", "sdhring-explain", "sdhring-network", "sdhring-now", "sdhring-plan"),
    *("sdhring-report", "sdhring-view", "sdhring-whatif"),
)
DOCUMENTS = (
    *("AVAILABILITY.md", "BENCH.md", "DESK.md", "FORMATS.md", "LOOKING.md", "NETWORKS.md", "NOW.md", "NODE.md", "OUTAGES.md", "PATHS.md", "RETIMING.md", "RING.md", "SECURITY.md", "TABLES.md", "WATCHING.md"),
    *("LIBRARY.md", "ROUTES.md", "SIGNALLED.md", "SIGNALLING.md", "WHATIF.md"),
)
LIB, DOC, MAN = "lib/sdhring", "share/doc/sdhring", "share/man/man1"
COMPLETIONS = "share/bash-completion/completions"
FILES = f"{LIB}/FILES"
LONGEST_LIST = 1 << 20  # bytes of it
LIST_LINE = re.compile(r"([0-9a-f]{64}|-> \S+|folder)  (\S.*)")
CACHE = "__pycache__"
FEW = 8  # names that are told
# What an install puts below a prefix, and so all that may be taken away from there.
OURS = re.compile(rf"bin/sdh[a-z-]+|include/sdhnode\.h|lib/libsdhnode\.a|{LIB}/.+|{DOC}/.+|{MAN}/sdh[a-z-]+\.1|{COMPLETIONS}/sdh[a-z-]+")
OUR_FOLDERS = re.compile(rf"bin|include|lib|share|share/(?:doc|man|bash-completion)|{MAN}|{COMPLETIONS}|(?:{LIB}|{DOC})(?:/.+)?")
# What is about the repository alone, from the one comment to the other, of a document, a man page or a script.
OF_REPOSITORY = re.compile(r"^<!-- repository -->.*?<!-- end -->\n?\n?|<!-- repository -->.*?<!-- end -->|^(?:\.\\\"|#) repository\n.*?^(?:\.\\\"|#) end\n\n?", re.M | re.S)
# What is of use only before it is installed.
OF_UNPACKED = re.compile(r"<!-- unpacked -->.*?<!-- end -->\n?\n?|^\.\\\" unpacked\n.*?^\.\\\" end\n", re.M | re.S)
TEXTS = {".md", ".1", ".toml", ".json", ""}
EXAMPLE = r"examples/(?:[\w./-]*[\w/-])?"


class InstallProblem(Exception):
    """It can't be installed, or taken away again."""


@dataclass(frozen=True)
class Piece:
    """One file of what is installed: its bytes, or where it leads as a link."""

    data: bytes = b""
    link: str = ""
    is_run: bool = False


def unlinked(found):
    """The words of a link to a document that a release doesn't have. Nothing remains of brackets that only name such a document."""
    before, words, name = found[1] or "", found[2], found[3]
    if name in DOCUMENTS or name in ("README.md", "CHANGELOG.md", "WORDS.md"):
        return found[0]
    return "" if before and words.endswith(".md") else f"{before}{words}{before and ')'}"


def released(text):
    """A text as a release has it: without what is about the repository alone, and without links to documents of it."""
    text = OF_REPOSITORY.sub("", text).replace("](MAP.md#the-words-of-the-field)", "](WORDS.md)")
    text = re.sub(r"((?:\n *| )\()\[([^]]*)\]\((?:docs/|\.\./)?([A-Z]+\.md)[^)]*\)\)", unlinked, text)
    return re.sub(r"()\[([^]]*)\]\((?:docs/|\.\./)?([A-Z]+\.md)[^)]*\)", unlinked, text).rstrip("\n") + "\n"


def glossary():
    """The words of the field, which the documents of a release lead to."""
    words = (HOME / "docs" / "MAP.md").read_text(encoding="utf-8").split("## The words of the field\n")[1].split("\n## ")[0]
    return f"# The words of the field\n{words}"


def with_places(text, files, doc):
    """A text in which the names of these files, a form without groups, lead to the folder of the documents from wherever a command is typed."""
    return re.sub(rf"(?<![\w/(])({files})", lambda found: shlex.quote(f"{doc}/{found[1].removeprefix('docs/')}"), text)


def installed(text, name, doc):
    """A text of a release as it is installed: commands are on the PATH, and documents and examples stand in one folder."""
    text = re.sub(r"\\&\./(?=sdh)|(?<![\w.])\./(?=sdh)", "", OF_UNPACKED.sub("", released(text)))
    if name.endswith(".1"):
        text = text.replace("man \\-l docs/", "man ").replace("man -l docs/", "man ")
        text = with_places(text, rf"docs/[\w.-]*\w|{EXAMPLE}", doc)
        return re.sub(r'^(\.TH .*)"sdhring(?: [0-9.]+)?"', rf'\1"sdhring {version()}"', text, flags=re.M)
    text = re.sub(r"man -l docs/([\w-]+)\.1", r"man \1", text)
    text = re.sub(r"\[([\w-]+)\.1\]\((?:docs/)?[\w-]+\.1\)", r"\1(1)", text)
    text = re.sub(r"\]\((?:docs|\.\.)/", "](", text)
    return with_places(re.sub(r"(?<![\w/])docs/(?=\w)", "", text), EXAMPLE, doc)


def words_of_the_field():
    """The glossary: in an unpacked release a document, in a checkout a section."""
    path = HOME / "docs" / "WORDS.md"
    return path.read_bytes() if path.is_file() else glossary().encode("utf-8")


def texts():
    """Documents, man pages and examples, each with its folder below that of the documents or of the man pages."""
    for name in ("README.md", "CHANGELOG.md"):
        yield HOME / name, DOC
    for name in (*DOCUMENTS, "plan.schema.json"):
        yield HOME / "docs" / name, DOC
    for path in sorted((HOME / "docs").glob("sdh*.1")):
        yield path, MAN
    for path in sorted(path for path in (HOME / "examples").rglob("*") if path.is_file() and "__pycache__" not in path.parts):
        yield path, f"{DOC}/{path.parent.relative_to(HOME)}"


def modules():
    """What the tools are made of, by their names below the folder of the tools."""
    for name in (*TOOLS, "install"):
        yield Path(name)
    for path in sorted((HOME / "tools" / "ringtools").rglob("*")):
        if path.is_file() and path.suffix in (".py", ".css", ".js", ".lua") and path.name not in ("benching.py", "nodelibrary.py", "opened.py", "rows.py", "releasing.py", "symbols.py"):
            yield path.relative_to(HOME / "tools")


def programs(places):
    """The programs' files by name, and the BUILD that names all of them. `places` has the file of each, which is read once."""
    data = {name: places[name].read_bytes() for name in PROGRAMS}
    records = [launched_record(places[name], sum_of(data[name])) for name in PROGRAMS]
    if None in records:
        raise InstallProblem(f"no BUILD names {places[PROGRAMS[records.index(None)]]}")
    return {name: Piece(data[name], is_run=True) for name in PROGRAMS}, write_build(records)


def is_run(path):
    return os.access(path, os.X_OK)


def of_library():
    """The node as a library, and its header, by path; nothing where dist/ has none."""
    places = {"include/sdhnode.h": HOME / "library" / "sdhnode.h", "lib/libsdhnode.a": HOME / "dist" / "libsdhnode.a"}
    return {name: Piece(path.read_bytes()) for name, path in places.items()} if all(path.is_file() for path in places.values()) else {}


def pieces(places, prefix):
    """All that is installed below a prefix, by path."""
    files, build = programs(places)
    found = {f"{LIB}/{name}": piece for name, piece in files.items()}
    found[f"{LIB}/BUILD"] = Piece(build.encode("ascii"))
    found[f"{LIB}/VERSION"] = Piece((HOME / "VERSION").read_bytes())
    for name in modules():
        found[f"{LIB}/tools/{name}"] = Piece((HOME / "tools" / name).read_bytes(), is_run=is_run(HOME / "tools" / name))
    found |= of_library()
    found["bin/sdhring"] = Piece((HOME / "sdhring").read_bytes(), is_run=True)
    found |= {f"bin/{name}": Piece(link="sdhring") for name in PROGRAMS[1:]}
    found |= {f"bin/{name}": Piece(link=f"../{LIB}/tools/{name}") for name in TOOLS}
    for path, folder in texts():
        text = path.read_bytes()
        if path.suffix in TEXTS:
            text = installed(text.decode("utf-8"), path.name, f"{prefix}/{DOC}").encode("utf-8")
        found[f"{folder}/{path.name}"] = Piece(text, is_run=is_run(path))
    found[f"{DOC}/WORDS.md"] = Piece(words_of_the_field())
    for path in sorted((HOME / "docs").glob("*.svg")):
        found[f"{DOC}/{path.name}"] = Piece(path.read_bytes())
    found[f"{COMPLETIONS}/sdhring"] = Piece(released((HOME / "tools" / "completion.bash").read_text(encoding="utf-8")).encode("utf-8"))
    found |= {f"{COMPLETIONS}/{name}": Piece(link="sdhring") for name in (*PROGRAMS[1:], *TOOLS)}
    return found


def put(root: Folder, path: str, piece: Piece) -> None:
    """Puts one file in place, with the mode of a release; a program that runs meanwhile goes on as it was."""
    folder, name = root.place_of(path, 0o755)
    if piece.link:
        folder.write_link(name, piece.link)
    else:
        folder.write(name, piece.data, 0o755 if piece.is_run else 0o644)


@dataclass
class List:
    """What an install has put below a prefix: each path with its checksum or where it leads as a link, and the folders that it has made.

    A list of names alone is of an earlier release: their marks are empty then, and nothing says which folders it made.
    """

    marks: dict[str, str] = field(default_factory=dict)
    folders: set[str] = field(default_factory=set)

    def written(self) -> bytes:
        lines = [f"{mark}  {path}" for path, mark in sorted(self.marks.items())]
        return "".join(f"{line}\n" for line in [*lines, *(f"folder  {path}" for path in sorted(self.folders))]).encode("utf-8")

    def take(self, line: str) -> bool:
        """Takes a line of the file; whether it can be one."""
        mark, path = found.groups() if (found := LIST_LINE.fullmatch(line)) else ("", line)
        is_below = not {"", ".", ".."} & set(path.split("/"))
        if mark == "folder":
            self.folders.add(path)
        else:
            self.marks[path] = mark
        return is_below and (OUR_FOLDERS if mark == "folder" else OURS).fullmatch(path) is not None


def listed(root: Folder) -> List:
    """Returns what an earlier install has listed. Raises InstallProblem where something of that can't be of an install."""
    found = List()
    try:
        folder, name = inner(root, FILES)
        data = folder.read(name, LONGEST_LIST)
    except WriteProblem:
        return found
    for line in data.decode("utf-8", "replace").splitlines() if data is not None else []:
        if not found.take(line):
            raise InstallProblem(f"{root.path / FILES} names `{shown(line)}`, which no install puts there; nothing is taken away")
    if not any(found.marks.values()):  # of an earlier release, which listed itself
        found.folders = {str(parent) for name in found.marks for parent in Path(name).parents} - {"."}
    return found


def inner(root: Folder, path: str) -> tuple[Folder, str]:
    """Returns the folder of a file below a root, and the file's own name. Neither has to be there."""
    *names, name = parts_of(path)
    return Folder(root.base, (*root.below, *names)), name


def stands(root: Folder, path: str) -> str:
    """Returns what stands at a path below a root, as the list has it; nothing where nothing does."""
    folder, name = inner(root, path)
    try:
        return folder.mark(name, LONGEST_PROGRAM)
    except NotThere:
        return ""


def mark_of(piece: Piece) -> str:
    return f"-> {piece.link}" if piece.link else sum_of(piece.data)


def check_places(root: Folder, found: Mapping[str, Piece], before: List) -> None:
    """Raises InstallProblem where something would be replaced that no install has put there, or that was changed since."""
    strange = []
    for path, piece in found.items():
        there = stands(root, path)
        if there not in ("", mark_of(piece)) and not (path in before.marks and before.marks[path] in ("", there)):
            strange.append(path)
    if strange:
        more = f" and {len(strange) - FEW} more" if len(strange) > FEW else ""
        what = "is there, and no install put it there as it is" if len(strange) == 1 else "are there, and no install put them there as they are"
        raise InstallProblem(f"{', '.join(strange[:FEW])}{more} below {root.path} {what}; nothing is installed: --replace after PREFIX replaces them")


def new_folders(root: Folder, paths: Iterable[str]) -> set[str]:
    """Returns the folders on the way to these paths that aren't there yet."""
    folders = {str(parent) for path in paths for parent in Path(path).parents} - {"."}
    return {path for path in folders if not stands(root, path)}


def has_others(group: int) -> bool:
    """Whether a group has other members than this user."""
    own = pwd.getpwuid(os.geteuid()).pw_name if os.geteuid() in (one.pw_uid for one in pwd.getpwall()) else ""
    with suppress(KeyError):
        if set(grp.getgrgid(group).gr_mem) - {own}:
            return True
    return any(one.pw_gid == group and one.pw_name != own for one in pwd.getpwall())


def may_others_write(there: os.stat_result) -> bool:
    """Whether others than this user and root can put something in the place of what is in a folder."""
    if there.st_uid not in (0, os.geteuid()):
        return True
    is_open = there.st_mode & stat.S_IWOTH or there.st_mode & stat.S_IWGRP and has_others(there.st_gid)
    return bool(is_open and not there.st_mode & stat.S_ISVTX)


def open_to_others(prefix: Path) -> list[Path]:
    """Returns the folders on the way to a prefix, and of it, in which others than this user and root can put something in another's place."""
    real = Path(os.path.realpath(prefix))
    below = [real / path for path in ("bin", "lib", LIB, f"{LIB}/tools", f"{LIB}/tools/ringtools")]
    found = []
    for path in (*reversed(real.parents), real, *below):
        with suppress(OSError):
            if may_others_write(path.stat()):
                found.append(path)
    return found


@dataclass
class Taken:
    """What was taken away: how many files, which were changed since and stay, and which couldn't be, each with the reason."""

    files: int = 0
    changed: list[str] = field(default_factory=list)
    failed: list[str] = field(default_factory=list)

    def take(self, root: Folder, path: str, mark: str) -> None:
        """Takes a file away, if it is what was put there."""
        try:
            there = stands(root, path)
            if mark and there not in ("", mark):
                self.changed.append(path)
            elif there:
                folder, name = inner(root, path)
                folder.remove(name)
                self.files += 1
        except WriteProblem as problem:
            self.failed.append(str(problem))


def remove_compiled(root: Folder, path: str, names: Iterable[str]) -> None:
    """Takes away what Python has left of these modules in a folder below a root."""
    stems = {Path(name).stem for name in names if name.endswith(".py") and str(Path(name).parent) == path}
    folder, _ = inner(root, f"{path}/{CACHE}/x")
    with suppress(WriteProblem):
        for name in folder.names():
            if name.endswith(".pyc") and name.split(".")[0] in stems:
                folder.remove(name)
        inner(root, f"{path}/x")[0].remove_folder(CACHE)


def remove(root: Folder, marks: Mapping[str, str], folders: Iterable[str]) -> Taken:
    """Takes files away that are as they were put there, and of these folders those that are empty then. No link is followed on the way to any."""
    taken = Taken()
    for path, mark in marks.items():
        taken.take(root, path, mark)
    for path in sorted(folders, key=lambda path: -path.count("/")):
        folder, name = inner(root, path)
        remove_compiled(root, path, marks)
        with suppress(WriteProblem):
            folder.remove_folder(name)
    return taken


def install(places: Mapping[str, Path], prefix: Path, root: Path | None = None, with_list: bool = True, replaces: bool = False) -> Taken:
    """Puts everything below a prefix, or below a root that stands for it, and removes what only an earlier install had. Returns what that was."""
    folder, found = named_folder(root or prefix, 0o755), pieces(places, prefix)
    before = listed(folder)
    if not replaces:
        check_places(folder, found, before)
    made = new_folders(folder, [*found, FILES])
    for name, piece in found.items():
        put(folder, name, piece)
    if not with_list:
        return Taken()
    put(folder, FILES, Piece(List({name: mark_of(piece) for name, piece in found.items()}, made | before.folders).written()))
    return remove(folder, {name: mark for name, mark in before.marks.items() if name not in found and name != FILES}, ())


def uninstall(prefix: Path) -> Taken:
    """Takes away what an install has put below a prefix. The list stays where something of it couldn't be taken away."""
    folder = Folder(prefix)
    before = listed(folder)
    if not before.marks:
        raise InstallProblem(f"{prefix / FILES} isn't there, which lists what --install has put there")
    before.marks.pop(FILES, None)
    taken = remove(folder, before.marks, ())
    if not taken.failed:
        taken.take(folder, FILES, "")
    remove(folder, {path: mark for path, mark in before.marks.items() if path not in taken.changed}, before.folders)
    return taken
