"""What the tools share: plans and their checks, texts, rows, the restoration model, drawings."""

import os
import stat
import sys
from pathlib import Path

if sys.version_info < (3, 11):
    sys.exit("{}: Python 3.11 or later is wanted, and this is {}.{}".format(Path(sys.argv[0]).name, *sys.version_info))

OTHERS = stat.S_IWGRP | stat.S_IWOTH
MASKS: list[int] = []  # the user's own mask, as long as modules are loaded


def is_as_safe(cache: Path) -> bool:
    """Whether nobody can put compiled modules into a folder who can't change the modules beside it; also where it isn't there."""
    beside = cache.parent.stat()
    try:
        found = cache.lstat()
    except OSError:
        return True
    owned = found.st_uid in (0, os.geteuid(), beside.st_uid)
    return stat.S_ISDIR(found.st_mode) and owned and not found.st_mode & OTHERS & ~beside.st_mode


def choose_compiled() -> None:
    """Has Python keep compiled modules where that is safe, with rights that no mask of the user's widens; else it reads and writes none.

    The tools start with `-B`, so that nothing is written before this is known.
    """
    here = Path(__file__).resolve().parent
    folders = [here, *(path.parent for path in here.glob("*/__init__.py"))]
    if all(is_as_safe(folder / "__pycache__") for folder in folders):
        MASKS.append(os.umask(0o022))
        os.umask(MASKS[0] | 0o022)
        sys.dont_write_bytecode = False
    else:
        sys.pycache_prefix = os.devnull


def modules_are_loaded() -> None:
    """Gives the user's own mask back."""
    if MASKS:
        os.umask(MASKS.pop())


if sys.flags.dont_write_bytecode:
    choose_compiled()
