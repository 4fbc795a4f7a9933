"""Files that are written: by a temporary file beside them, which is renamed."""

from __future__ import annotations

import os
import tempfile


def write_over(path: str | os.PathLike[str], content: bytes) -> None:
    """Writes a file whole or not at all. Raises `OSError` where it can't be."""
    folder = os.path.dirname(os.path.abspath(path))
    handle, made = tempfile.mkstemp(prefix=".chainlat-", dir=folder)
    try:
        with os.fdopen(handle, "wb") as file:
            file.write(content)
        mask = os.umask(0)
        os.umask(mask)
        os.chmod(made, 0o666 & ~mask)
        os.replace(made, path)
    except BaseException:
        os.unlink(made)
        raise
