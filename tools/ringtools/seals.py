"""The seal by which a tool knows what it has written itself on this account, be it in a folder that somebody else sends.

The key is a file of this account alone: `sdhring/seal.key` in the folder of XDG_STATE_HOME, or else in `~/.local/state`.
Where neither that variable nor HOME names a folder, or the file can't be kept, a key lasts as long as the tool runs.

FORM stands before each text that is sealed. It changes with what a seal says: the first said less of a plan that somebody
changed while its case ran, so what has that seal is run anew.
"""

import hashlib
import hmac
import os
import secrets
import stat
from functools import cache
from pathlib import Path

from .files import FileProblem
from .writing import Folder, own_folder

BYTES, NAME = 32, "seal.key"
FORM = b"sdhring seal 2\n"


def absolute(variable: str) -> Path | None:
    """Returns the folder that a variable of the environment names; None where it names none, or by a relative path."""
    value = os.environ.get(variable, "")
    return Path(value) if value.startswith("/") else None


def state_folder() -> Path | None:
    """Returns where this account's tools keep what lasts from one run to the next, or None."""
    home = absolute("HOME")
    state = absolute("XDG_STATE_HOME") or (home and home / ".local" / "state")
    return state and state / "sdhring"


def is_alone(folder: Folder) -> bool:
    """Whether nobody else can read the key or put another in its place."""
    with folder.opened() as descriptor:
        try:
            key = os.stat(NAME, dir_fd=descriptor, follow_symlinks=False)
        except FileNotFoundError:
            return False
        place = os.fstat(descriptor)
    owned = key.st_uid == place.st_uid == os.geteuid()
    return owned and not key.st_mode & (stat.S_IRWXG | stat.S_IRWXO) and not place.st_mode & (stat.S_IWGRP | stat.S_IWOTH)


def kept_key() -> bytes | None:
    """Returns this account's key, which is made where there is none; None where it can't be kept."""
    place = state_folder()
    if place is None:
        return None
    folder = own_folder(place, mode=0o700)
    if folder.read(NAME, BYTES) is None:
        try:
            folder.write_new(NAME, secrets.token_bytes(BYTES), mode=0o600)
        except FileProblem:
            pass  # another start has made it meanwhile, or there is something that is no key
    found = folder.read(NAME, BYTES) if is_alone(folder) else None
    return found if found is not None and len(found) == BYTES else None


@cache
def key() -> bytes:
    """Returns the key of this account, or of this run."""
    try:
        return kept_key() or secrets.token_bytes(BYTES)
    except FileProblem:
        return secrets.token_bytes(BYTES)


def seal_of(text: str) -> str:
    """Returns the seal of a text, 64 hexadecimal digits."""
    return hmac.new(key(), FORM + text.encode("utf-8", "surrogateescape"), hashlib.sha256).hexdigest()


def has_key() -> bool:
    """Whether anything can have been sealed: in this run, or on this account. To look makes no key."""
    place = state_folder()
    return key.cache_info().currsize > 0 or place is not None and place.is_dir()


def is_sealed(text: str, seal: str) -> bool:
    """Whether this is the seal of a text."""
    return has_key() and hmac.compare_digest(seal_of(text), seal)
