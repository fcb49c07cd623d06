"""Files and folders that the tools write.

A file is written beside its place, under a name that nobody can guess, and put there once it is whole: so no link is
written through, and no reader sees a part of it. Below a folder that is written to no link is followed either. A folder
that the tool chose by itself has to be the user's own; one that the user named may be another's. On the way to it a link
is followed only where it is the user's own or root's: another user's link would choose what is written over.
"""

import errno
import hashlib
import io
import os
import pwd
import secrets
import stat
from collections.abc import Iterator
from contextlib import contextmanager, suppress
from dataclasses import dataclass, replace
from pathlib import Path
from typing import BinaryIO, TextIO

from .files import FileProblem, read_most

FOLDER = os.O_RDONLY | os.O_DIRECTORY | os.O_NOFOLLOW | os.O_CLOEXEC
NEW = os.O_WRONLY | os.O_CREAT | os.O_EXCL | os.O_NOFOLLOW | os.O_CLOEXEC
NO_LINKS = (errno.EPERM, errno.EOPNOTSUPP, errno.ENOSYS)  # of file systems that have no second names
KEPT = os.O_RDONLY | os.O_NOFOLLOW | os.O_NONBLOCK | os.O_CLOEXEC
MOST_LINKS = 40  # on the way to a folder, as the system has it


class WriteProblem(FileProblem):
    """A file can't be written where it was to be, or isn't for safety."""


class NotThere(WriteProblem):
    """A folder isn't there."""


class IsThere(WriteProblem):
    """A new file was to be written, and one of this name is there already."""

    def __init__(self, path: str | os.PathLike[str], why: str = "") -> None:
        super().__init__(f"{os.fspath(path)} is there, and is left alone{why}: name another file, or remove this one")


def part_name() -> str:
    """Returns a name that nobody can guess, for what isn't whole yet."""
    return f".{secrets.token_hex(12)}.part"


def parts_of(path: str) -> list[str]:
    """Returns the names of a path that leads downwards. Raises WriteProblem for any other."""
    parts = path.split("/")
    if not all(parts) or {".", ".."} & set(parts) or "\0" in path:
        raise WriteProblem(f"`{path}` isn't a path that leads downwards from a folder")
    return parts


def problem_of(path: Path, error: OSError) -> WriteProblem:
    """Returns what to say of an error at a path."""
    if path.is_symlink() and error.errno in (errno.ELOOP, errno.ENOTDIR):
        return WriteProblem(f"{path} is a link to {os.readlink(path)}, and nothing is written through links; name that folder itself")
    return (NotThere if error.errno == errno.ENOENT else WriteProblem)(f"{path}: {error.strerror}")


def open_inner(path: Path, name: str, within: int) -> int:
    """Returns a descriptor of the folder of this name within another; the path is for words. Raises WriteProblem, for a link too."""
    try:
        return os.open(name, FOLDER, dir_fd=within)
    except OSError as error:
        raise problem_of(path, error) from None


def name_of_user(uid: int) -> str:
    try:
        return pwd.getpwuid(uid).pw_name
    except KeyError:
        return f"user {uid}"


@dataclass
class Way:
    """The way to a folder, step by step. `left` are the parts that are still to be gone, the next one last; `links` counts those that were followed."""

    path: Path
    descriptor: int
    left: list[str]
    may_end_in_link: bool = False  # whether the named path's own last part may be one
    mode: int | None = None  # of folders that are made on the way, the last one apart, whatever the user's mask is
    last_mode: int | None = None  # of the last one; None where nothing is to be made
    links: int = 0

    def goto(self, descriptor: int) -> None:
        os.close(self.descriptor)
        self.descriptor = descriptor

    def follow(self, name: str) -> None:
        """Puts what a link leads to in its place. Raises WriteProblem for one of another user, and for one that is the last part."""
        owner, target = os.stat(name, dir_fd=self.descriptor, follow_symlinks=False).st_uid, os.readlink(name, dir_fd=self.descriptor)
        if not self.left and not self.may_end_in_link:
            raise WriteProblem(f"{self.path} is a link to {target}, and nothing is written through links; name that folder itself")
        if owner not in (0, os.geteuid()):
            raise WriteProblem(f"{self.path}: `{name}` on the way is a link to {target} that belongs to {name_of_user(owner)}, and nothing is written through it; name that folder itself")
        self.links += 1
        if self.links > MOST_LINKS:
            raise OSError(errno.ELOOP, os.strerror(errno.ELOOP))
        self.left += reversed(target.split("/"))
        if target.startswith("/"):
            self.goto(os.open("/", FOLDER))

    def make(self, name: str) -> None:
        """Makes the folder of this name, which isn't there."""
        exact = self.mode
        with suppress(FileExistsError):
            os.mkdir(name, 0o700 if exact is not None else self.last_mode if not self.left else 0o777, dir_fd=self.descriptor)
            if exact is not None:
                with suppress(OSError):
                    os.chmod(name, exact, dir_fd=self.descriptor, follow_symlinks=False)

    def step(self, name: str) -> None:
        try:
            self.goto(os.open(name, FOLDER, dir_fd=self.descriptor))
        except FileNotFoundError:
            if self.last_mode is None or name == "..":
                raise
            self.make(name)
            self.goto(os.open(name, FOLDER, dir_fd=self.descriptor))
        except OSError as error:
            if error.errno not in (errno.ELOOP, errno.ENOTDIR) or not stat.S_ISLNK(os.stat(name, dir_fd=self.descriptor, follow_symlinks=False).st_mode):
                raise
            self.follow(name)

    def gone(self) -> int:
        """Goes the way to its end, and returns the descriptor of the folder there."""
        try:
            while self.left:
                if (name := self.left.pop()) not in ("", "."):
                    self.step(name)
            return self.descriptor
        except BaseException:
            os.close(self.descriptor)
            raise


def open_way(path: Path, may_end_in_link: bool = False, mode: int | None = None, last_mode: int | None = None) -> int:
    """Returns a descriptor of the folder at a path; where `last_mode` is given it and those above it are made. Raises WriteProblem."""
    text = os.fspath(path)
    try:
        begin = os.open("/" if text.startswith("/") else ".", FOLDER)
        return Way(path, begin, list(reversed(text.split("/"))), may_end_in_link, mode, last_mode).gone()
    except OSError as error:
        raise (NotThere if error.errno == errno.ENOENT else WriteProblem)(f"{path}: {error.strerror}") from None
    except ValueError:
        raise WriteProblem(f"{text!r}: this is no name of a folder") from None


def put_new(folder: int, name: str, data: bytes, mode: int) -> None:
    """Writes a file that isn't there yet into the folder of this descriptor."""
    with os.fdopen(os.open(name, NEW, mode, dir_fd=folder), "wb") as file:
        file.write(data)


def need_own(descriptor: int, path: Path) -> None:
    """Raises WriteProblem where a folder is another user's, or one that everybody may write to."""
    found = os.fstat(descriptor)
    if found.st_uid != os.geteuid():
        raise WriteProblem(f"{path} belongs to another user, so nothing is written there unasked; --dir or --to names a folder")
    if found.st_mode & stat.S_IWOTH:
        raise WriteProblem(f"{path} can be written by everybody, so nothing is written there unasked; --dir or --to names a folder")


@dataclass(frozen=True)
class Folder:
    """A folder that is written to: the path that was named, and the names below it. `is_own` says that it has to be the user's own.

    `may_end_in_link` is of the folder of a file that was named: a link may lead to it, if it is the user's own or root's.
    """

    base: Path
    below: tuple[str, ...] = ()
    is_own: bool = False
    may_end_in_link: bool = False

    @property
    def path(self) -> Path:
        """The folder's path, for words and for programs that are given it."""
        return self.base.joinpath(*self.below)

    @contextmanager
    def opened(self) -> Iterator[int]:
        """Gives a descriptor of the folder, once each folder on the way to it below the base is one and no link."""
        descriptor, path = open_way(self.base, self.may_end_in_link), self.base
        try:
            for name in self.below:
                path = path / name
                inner = open_inner(path, name, descriptor)
                os.close(descriptor)
                descriptor = inner
            if self.is_own:
                need_own(descriptor, path)
            yield descriptor
        finally:
            os.close(descriptor)

    def inside(self, name: str, mode: int | None = None) -> "Folder":
        """Returns the folder of this name below, and makes it where it isn't there; with this mode, whatever the user's mask is."""
        found, is_new = replace(self, below=(*self.below, name)), True
        with self.opened() as descriptor:
            try:
                os.mkdir(name, dir_fd=descriptor)
            except FileExistsError:
                is_new = False
            except OSError as error:
                raise problem_of(self.path / name, error) from None
        with found.opened() as descriptor:
            if is_new and mode is not None:
                os.fchmod(descriptor, mode)
        return found

    def place_of(self, path: str, mode: int) -> tuple["Folder", str]:
        """Returns the folder of a file that is named from here, made with this mode where it isn't there, and the file's own name."""
        *names, name = parts_of(path)
        folder = self
        for inner in names:
            folder = folder.inside(inner, mode)
        return folder, name

    @contextmanager
    def writing(self, name: str, mode: int | None = None) -> Iterator[BinaryIO]:
        """Gives a new file, which stands in place of the one of this name once all of it is written. What was there stays where that fails.

        It gets this mode, or what the user's mask leaves.
        """
        part = part_name()
        with self.opened() as folder:
            try:
                file = os.fdopen(os.open(part, NEW, 0o666 if mode is None else 0o600, dir_fd=folder), "wb")
                try:
                    with file:
                        yield file
                        if mode is not None:
                            os.fchmod(file.fileno(), mode)
                    os.replace(part, name, src_dir_fd=folder, dst_dir_fd=folder)
                except BaseException:
                    with suppress(OSError):
                        os.unlink(part, dir_fd=folder)
                    raise
            except OSError as error:
                raise problem_of(self.path / name, error) from None

    @contextmanager
    def writing_text(self, name: str) -> Iterator[TextIO]:
        """Gives the same for text, whose line ends stay as they are written. What isn't a letter of UTF-8 becomes a question mark."""
        with self.writing(name) as file:
            text = io.TextIOWrapper(file, encoding="utf-8", errors="replace", newline="")
            yield text
            text.flush()
            text.detach()

    def write(self, name: str, data: bytes | str, mode: int | None = None) -> None:
        """Puts a whole file in place."""
        with self.writing(name, mode) as file:
            file.write(data.encode("utf-8", "replace") if isinstance(data, str) else data)

    def write_link(self, name: str, target: str) -> None:
        """Puts a link in place."""
        part = part_name()
        with self.opened() as folder:
            try:
                os.symlink(target, part, dir_fd=folder)
                os.replace(part, name, src_dir_fd=folder, dst_dir_fd=folder)
            except OSError as error:
                with suppress(OSError):
                    os.unlink(part, dir_fd=folder)
                raise problem_of(self.path / name, error) from None

    def write_new(self, name: str, data: bytes, mode: int = 0o666) -> None:
        """Writes a whole file that isn't there yet; one that is there, be it a link, stays. Raises IsThere then."""
        part = part_name()
        with self.opened() as folder:
            try:
                put_new(folder, part, data, mode)
                try:
                    os.link(part, name, src_dir_fd=folder, dst_dir_fd=folder, follow_symlinks=False)
                except OSError as error:
                    if error.errno not in NO_LINKS:
                        raise
                    put_new(folder, name, data, mode)
            except FileExistsError:
                raise IsThere(self.path / name) from None
            except OSError as error:
                raise problem_of(self.path / name, error) from None
            finally:
                with suppress(OSError):
                    os.unlink(part, dir_fd=folder)

    def read(self, name: str, most: int) -> bytes | None:
        """Returns the bytes of a file here; None where there is none, where it is a link or no file, or longer than this."""
        with self.opened() as folder:
            try:
                descriptor = os.open(name, KEPT, dir_fd=folder)
            except OSError:
                return None
            try:
                data = read_most(descriptor, most + 1) if stat.S_ISREG(os.fstat(descriptor).st_mode) else None
            except OSError:
                return None
            finally:
                os.close(descriptor)
        return None if data is None or len(data) > most else data

    def mark(self, name: str, most: int) -> str:
        """Returns what stands at a name: the checksum of a file, `->` and where a link leads, or `other`; nothing where nothing does."""
        with self.opened() as folder:
            try:
                mode = os.stat(name, dir_fd=folder, follow_symlinks=False).st_mode
                if stat.S_ISLNK(mode):
                    return f"-> {os.readlink(name, dir_fd=folder)}"
            except FileNotFoundError:
                return ""
            except OSError as error:
                raise problem_of(self.path / name, error) from None
        data = self.read(name, most) if stat.S_ISREG(mode) else None
        return "other" if data is None else hashlib.sha256(data).hexdigest()

    def remove(self, name: str) -> None:
        """Takes a file or a link away, where there is one."""
        with self.opened() as folder:
            try:
                os.unlink(name, dir_fd=folder)
            except FileNotFoundError:
                pass
            except OSError as error:
                raise problem_of(self.path / name, error) from None


    def remove_folder(self, name: str) -> None:
        """Takes a folder away that is empty; any other stays."""
        with self.opened() as folder, suppress(OSError):
            os.rmdir(name, dir_fd=folder)

    def names(self) -> list[str]:
        """Returns the names of what is in the folder."""
        with self.opened() as folder:
            return sorted(os.listdir(folder))


def named_folder(path: str | os.PathLike[str], mode: int | None = None) -> Folder:
    """Returns the folder that the user named, and makes it and those above it where they aren't there; with this mode, whatever the user's mask is."""
    return made(Folder(Path(path)), mode=mode)


def own_folder(path: str | os.PathLike[str], mode: int = 0o777) -> Folder:
    """Returns a folder that the tool chose by itself, and makes it where it isn't there. It has to be the user's own."""
    return made(Folder(Path(path), is_own=True), mode)


def made(folder: Folder, last_mode: int = 0o777, mode: int | None = None) -> Folder:
    """Returns the folder, which is there then and may be written to."""
    os.close(open_way(folder.base, mode=mode, last_mode=last_mode))
    with folder.opened():
        return folder


def folder_of_file(path: str | os.PathLike[str]) -> tuple[Folder, str]:
    """Returns the folder of a file that the user named, which is there, and the file's name in it."""
    return Folder(Path(path).parent, may_end_in_link=True), Path(path).name
