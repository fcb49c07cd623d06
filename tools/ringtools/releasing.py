"""A release: programs with their BUILD in dist/, and the archives of it, the same bytes from the same commit."""

import gzip
import hashlib
import io
import lzma
import os
import re
import shutil
import subprocess
import tarfile
import tempfile
from dataclasses import replace
from pathlib import Path

from .build import HOME, PROGRAMS, Record, read_build, sum_of, version, write_build
from .files import read_path
from .installing import DOC, LIB, MAN, TOOLS, Piece, is_run, modules, pieces, put, released, texts, words_of_the_field
from .nodelibrary import LIBRARY, OURS, PROGRAM, LibraryProblem, LibraryRecord, compiler, library_sources, of_kit, put_together, read_record
from .symbols import LoadedSymbols, without_symbols
from .writing import Folder, named_folder

DIST = HOME / "dist"
SUMS = "SHA256SUMS"
SUM_LINE = re.compile(r"([0-9a-f]{64})  ([A-Za-z0-9][A-Za-z0-9._+~-]*)")
LONGEST_ARCHIVE = 1 << 30  # bytes
LONGEST_SUMS = 65_536
LIBC = "2.34"  # the C library's version that the programs need
# What begins the first line of a script, and what stands there in the Debian package.
INTERPRETERS = (
    (b"/usr/bin/env bash\n", b"/bin/bash\n"),
    (b"/usr/bin/env -S python3 -I\n", b"/usr/bin/python3 -I\n"),
)
PLATFORM = "x86_64-linux"
OF_SOURCES = ("crates", "crates.txt", "HANDLES", "VERSION", "library")
OF_LIBRARY = "LIBRARY"  # the record of the library, beside BUILD
MAINTAINER = "The sdhring project <sdhring@example.org>"
SUMMARY = "SDH ring in software, proved: run plans, read what customers get"
ABOUT = """\
 Runs a two-fibre MS-SPRing (after ITU-T G.841) of a plan frame by frame, STM-4
 or STM-16, and reports which customers keep their traffic under cuts,
 degradations and switch commands. The programs are proved to report what the
 restoration rules say. With tools that draw runs, ask what fails when, and
 explain plans."""
COPYRIGHT = """\
Format: https://www.debian.org/doc/packaging-manuals/copyright-format/1.0/
Upstream-Name: sdhring

Files: *
Copyright: 2026 the authors of sdhring
License: none-chosen
 No licence has been chosen yet. All rights are with the authors.
"""
# What Python leaves beside the modules when the administrator starts a tool.
PRERM = """\
#!/bin/sh
set -e
rm -rf /usr/lib/sdhring/tools/ringtools/__pycache__ /usr/lib/sdhring/tools/ringtools/bench/__pycache__ /usr/lib/sdhring/tools/ringtools/conform/__pycache__ /usr/lib/sdhring/tools/ringtools/network/__pycache__ /usr/lib/sdhring/tools/ringtools/now/__pycache__
"""


class ReleaseProblem(Exception):
    """No release can be made of this."""


def said_by(*words, cwd=HOME):
    ended = subprocess.run(words, cwd=cwd, stdin=subprocess.DEVNULL, stdout=subprocess.PIPE, text=True)
    if ended.returncode:
        raise ReleaseProblem(f"{' '.join(map(str, words))} ended with status {ended.returncode}")
    return ended.stdout.strip()


def sources_of(name):
    """The checksum of a program's sources as they stand."""
    return said_by(HOME / name, "--sources")


def in_dist():
    """The records of dist/BUILD by the programs' names; none where there is no release yet."""
    path = DIST / "BUILD"
    return {record.name: record for record in read_build(path.read_text(encoding="ascii"))} if path.is_file() else {}


def built(name):
    """The program that the gate has built."""
    return HOME / "crates" / name / "out" / name


# -- dist/


def newest_source():
    """When a source was changed last, as far as the machine knows."""
    parts = [path for crate in (HOME / "crates").iterdir() for part in ("src", "specs", "proofs") if (path := crate / part).is_dir()]
    return max(path.stat().st_mtime for part in parts for path in part.rglob("*") if path.is_file())


def found_programs(folder):
    """The built programs: of a folder, or of the gate, which has to have built them after the last change of a source."""
    files = {name: folder / name if folder else built(name) for name in PROGRAMS}
    missing = [str(path) for path in files.values() if not path.is_file()]
    if missing:
        raise ReleaseProblem(f"{missing[0]} isn't there: rt ci builds it")
    if not folder and min(path.stat().st_mtime for path in files.values()) < newest_source():
        raise ReleaseProblem("a source is newer than a built program: rt ci builds them again, and --from DIR takes programs without this look")
    return {name: path.read_bytes() for name, path in files.items()}


def refresh(folder=None):
    """Puts the built programs into dist/, with the commit of the sources that they were built of."""
    if changed := said_by("git", "status", "--porcelain", "--", *OF_SOURCES):
        raise ReleaseProblem(f"what programs are built of isn't committed:\n{changed}")
    commit, kit = said_by("git", "rev-parse", "HEAD"), said_by("rt", "version")
    files = found_programs(folder)
    records = [Record(name, sum_of(files[name]), sources_of(name), version(), commit, kit) for name in PROGRAMS]
    for name, data in files.items():
        put(named_folder(DIST), name, Piece(data, is_run=True))
    put(named_folder(DIST), "BUILD", Piece(write_build(records).encode("ascii")))
    if OURS.is_dir():
        refresh_library(commit, kit, folder)
    return records


def refresh_library(commit: str, kit: str, folder: Path | None = None) -> None:
    """Puts the library together out of what rt ci has compiled of the program, with its record."""
    proved = folder / PROGRAM.name if folder else PROGRAM
    if not proved.is_file() or not folder and proved.stat().st_mtime < newest_source():
        raise ReleaseProblem(f"{proved} isn't there, or older than a source: rt ci builds it")
    with tempfile.TemporaryDirectory() as place:
        made = Path(place) / LIBRARY
        try:
            put_together(proved, of_kit(), made)
            record = LibraryRecord(version(), commit, kit, compiler(), sum_of(made.read_bytes()), library_sources(sources_of("sdhnode")))
        except LibraryProblem as problem:
            raise ReleaseProblem(str(problem)) from None
        put(named_folder(DIST), LIBRARY, Piece(made.read_bytes()))
        put(named_folder(DIST), OF_LIBRARY, Piece(record.text().encode("utf-8")))


def said_of_library() -> tuple[list[str], bool]:
    """Returns what is said of the library in dist/, and whether it isn't the one that its record names."""
    file, record = DIST / LIBRARY, read_record((DIST / OF_LIBRARY).read_text(encoding="utf-8")) if (DIST / OF_LIBRARY).is_file() else None
    if record is None or not file.is_file() or sum_of(file.read_bytes()) != record.sum:
        return [f"dist/{LIBRARY}: isn't the library that dist/{OF_LIBRARY} names"], True
    if record.sources != library_sources(sources_of("sdhnode")):
        return [f"dist/{LIBRARY}: of release {record.version}, commit {record.commit[:12]}; the sources have changed since"], False
    return [f"dist/{LIBRARY}: of these sources"], False


def compare():
    """What is said of each program of dist/ beside the one that the gate has built; and whether one differs."""
    records, differs = in_dist(), False
    if not records:
        return ["dist/: there is no release yet"], False
    said = []
    for name in PROGRAMS:
        record, file = records.get(name), DIST / name
        if record is None or not file.is_file() or sum_of(file.read_bytes()) != record.sum:
            said.append(f"dist/{name}: isn't the program that dist/BUILD names")
            differs = True
        elif record.sources != sources_of(name):
            said.append(f"dist/{name}: of release {record.version}, commit {record.commit[:12]}; the sources have changed since")
        elif built(name).read_bytes() != file.read_bytes():
            said.append(f"dist/{name}: DIFFERS from what these sources build, though its sources are these")
            differs = True
        else:
            said.append(f"dist/{name}: the same bytes as these sources build")
    words, is_other = said_of_library() if OURS.is_dir() else ([], False)
    return [*said, *words], differs or is_other


# -- archives


def unpacked(commit, folder):
    """The files of a commit, below a folder."""
    data = subprocess.run(["git", "archive", "--format=tar", commit], cwd=HOME, stdout=subprocess.PIPE, check=True).stdout
    with tarfile.open(fileobj=io.BytesIO(data)) as archive:
        archive.extraction_filter = getattr(tarfile, "data_filter", None)  # Python 3.11 has it from 3.11.4 on
        archive.extractall(folder)


def tree():
    """What the tarball has, by path: a checkout without sources, where launchers, tools and documents lie as they do there."""
    found = {name: Piece((HOME / name).read_bytes(), is_run=True) for name in (*PROGRAMS, *TOOLS)}
    found["VERSION"] = Piece((HOME / "VERSION").read_bytes())
    found |= {f"dist/{name}": Piece((DIST / name).read_bytes(), is_run=True) for name in PROGRAMS}
    found["dist/BUILD"] = Piece((DIST / "BUILD").read_bytes())
    found |= {f"dist/{name}": Piece((DIST / name).read_bytes()) for name in (LIBRARY, OF_LIBRARY) if (DIST / name).is_file()}
    found |= {f"library/{path.name}": Piece(path.read_bytes()) for path in sorted(OURS.glob("sdhnode.*"))}
    found["tools/completion.bash"] = Piece(released((HOME / "tools" / "completion.bash").read_text(encoding="utf-8")).encode("utf-8"))
    for name in map(str, modules()):
        found[f"tools/{name}"] = Piece((HOME / "tools" / name).read_bytes(), is_run=is_run(HOME / "tools" / name))
    for path, _ in texts():
        text = path.read_bytes()
        if path.suffix in (".md", ".1"):
            text = released(text.decode("utf-8")).encode("utf-8")
        found[str(path.relative_to(HOME))] = Piece(text, is_run=is_run(path))
    found["docs/WORDS.md"] = Piece(words_of_the_field())
    found |= {f"docs/{path.name}": Piece(path.read_bytes()) for path in sorted((HOME / "docs").glob("*.svg"))}
    return found


def member(name, piece, moment):
    """The head of one file in an archive: nothing of it is this machine's or this user's."""
    head = tarfile.TarInfo(name)
    head.mtime, head.mode, head.size = moment, 0o755 if piece.is_run else 0o644, len(piece.data)
    if piece.link:
        head.type, head.linkname, head.mode = tarfile.SYMTYPE, piece.link, 0o777
    return head


def folder_member(name: str, moment: int) -> tarfile.TarInfo:
    """Returns the head of a folder in an archive, without which it would get what rights the user's mask leaves."""
    head = tarfile.TarInfo(name)
    head.type, head.mtime, head.mode = tarfile.DIRTYPE, moment, 0o755
    return head


def tarball(moment: int) -> bytes:
    """Returns the tarball's bytes."""
    top, whole, files = f"sdhring-{version()}-{PLATFORM}", io.BytesIO(), tree()
    folders = {str(parent) for name in files for parent in Path(f"{top}/{name}").parents} - {"."}
    with tarfile.open(fileobj=whole, mode="w", format=tarfile.GNU_FORMAT) as archive:
        for name in sorted(folders):
            archive.addfile(folder_member(name, moment))
        for name, piece in sorted(files.items()):
            archive.addfile(member(f"{top}/{name}", piece, moment), io.BytesIO(piece.data))
    return lzma.compress(whole.getvalue(), preset=9 | lzma.PRESET_EXTREME)


def packed(data):
    """As gzip does without a name and a time."""
    whole = io.BytesIO()
    with gzip.GzipFile(filename="", mode="wb", compresslevel=9, fileobj=whole, mtime=0) as file:
        file.write(data)
    return whole.getvalue()


def control(root):
    size = sum(path.stat().st_size for path in root.rglob("*") if path.is_file() and not path.is_symlink()) // 1024
    return f"""\
Package: sdhring
Version: {version()}
Section: science
Priority: optional
Architecture: amd64
Maintainer: {MAINTAINER}
Installed-Size: {size}
Depends: libc6 (>= {LIBC}), python3 (>= 3.11)
Suggests: parallel
Description: {SUMMARY}
{ABOUT}
"""


def changelog(moment):
    """Debian's form of it; CHANGELOG.md says what changed."""
    date = said_by("date", "-u", "-R", "-d", f"@{moment}")
    return f"sdhring ({version()}) unstable; urgency=medium\n\n  * Release {version()}; CHANGELOG.md has what changed.\n\n -- {MAINTAINER}  {date}\n"


def with_place(script: bytes) -> bytes:
    """Returns a script whose first line names bash or Python by its place in Debian."""
    for name, place in INTERPRETERS:
        script = script.replace(b"#!" + name, b"#!" + place, 1) if script.startswith(b"#!" + name) else script
    return script


def without_their_symbols(found: dict[str, Piece]) -> dict[str, Piece]:
    """Returns the programs of these pieces as a package has them, and a BUILD with the checksums of these. Raises ReleaseProblem."""
    try:
        programs = {name: Piece(without_symbols(found[f"{LIB}/{name}"].data), is_run=True) for name in PROGRAMS}
    except LoadedSymbols as problem:
        raise ReleaseProblem(f"a program of dist/: {problem}") from problem
    records = read_build(found[f"{LIB}/BUILD"].data.decode("ascii"))
    build = write_build([replace(record, sum=sum_of(programs[record.name].data)) for record in records])
    return {f"{LIB}/{name}": piece for name, piece in programs.items()} | {f"{LIB}/BUILD": Piece(build.encode("ascii"))}


def debian_pieces(root: Folder, moment: int) -> None:
    """Puts below a root what the package has."""
    usr = root.inside("usr", 0o755)
    found = pieces({name: DIST / name for name in PROGRAMS}, Path("/usr"))
    for name, piece in (found | without_their_symbols(found)).items():
        if name.startswith(f"{MAN}/") and not piece.link:
            put(usr, f"{name}.gz", Piece(packed(piece.data)))
        else:
            put(usr, name, replace(piece, data=with_place(piece.data)))
    put(usr, f"{DOC}/copyright", Piece(COPYRIGHT.encode()))
    put(usr, f"{DOC}/changelog.gz", Piece(packed(changelog(moment).encode())))


def debian_package(path: Path, folder: Path, moment: int) -> None:
    """Builds the package out of a folder that is empty."""
    root = named_folder(folder).inside("root", 0o755)
    debian_pieces(root, moment)
    put(root, "DEBIAN/control", Piece(control(root.path).encode()))
    put(root, "DEBIAN/prerm", Piece(PRERM.encode(), is_run=True))
    files = sorted(file for file in (root.path / "usr").rglob("*") if file.is_file() and not file.is_symlink())
    sums = [f"{hashlib.md5(file.read_bytes()).hexdigest()}  {file.relative_to(root.path)}\n" for file in files]
    put(root, "DEBIAN/md5sums", Piece("".join(sums).encode()))
    for each in [root.path, *root.path.rglob("*")]:
        os.utime(each, (moment, moment), follow_symlinks=False)
    words = ["dpkg-deb", "--root-owner-group", "-Zxz", "-z9", "--build", str(root.path), str(path)]
    subprocess.run(words, env={**os.environ, "SOURCE_DATE_EPOCH": str(moment)}, stdout=subprocess.DEVNULL, check=True)


def pack_here(to: Path, moment: int) -> list[Path]:
    """Both archives of the release that stands where this module is, and their checksums."""
    if {name for name, record in in_dist().items() if sum_of((DIST / name).read_bytes()) == record.sum} != set(PROGRAMS):
        raise ReleaseProblem("dist/ doesn't have the programs that dist/BUILD names")
    folder = named_folder(to)
    names = [f"sdhring-{version()}-{PLATFORM}.tar.xz"]
    folder.write(names[0], tarball(moment))
    if shutil.which("dpkg-deb"):
        names.append(f"sdhring_{version()}_amd64.deb")
        with tempfile.TemporaryDirectory(prefix=".package-", dir=to) as place:
            debian_package(to / names[1], Path(place), moment)
    folder.write(SUMS, "".join(f"{sum_of((to / name).read_bytes())}  {name}\n" for name in names))
    return [to / name for name in (*names, SUMS)]


def verified(folder: Path) -> list[str]:
    """Returns the names of a release's archives in a folder, all of which are what its SHA256SUMS says. Raises ReleaseProblem."""
    lines = read_path(folder / SUMS, LONGEST_SUMS).decode("ascii", "replace").splitlines()
    found = [SUM_LINE.fullmatch(line) for line in lines]
    if not found or None in found:
        raise ReleaseProblem(f"{folder / SUMS}: a checksum and a file's name are wanted in each line")
    for line in found:
        data = read_path(folder / line[2], LONGEST_ARCHIVE + 1)
        if sum_of(data) != line[1]:
            raise ReleaseProblem(f"{folder / line[2]}: isn't the file that {SUMS} names")
    names = [line[2] for line in found]
    if unnamed := sorted({path.name for path in folder.iterdir() if path.suffix in (".deb", ".xz")} - set(names)):
        raise ReleaseProblem(f"{folder / unnamed[0]}: {SUMS} doesn't name it")
    return names
