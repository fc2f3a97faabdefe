"""Files kept by their content: each has the name of its SHA-256, so none is kept twice and none can change unseen.

Files are written whole under another name and renamed, so whoever is stopped leaves no half of one. A large text is
kept compressed; its name is the sum of what it holds.
"""

from __future__ import annotations

import gzip
import hashlib
import os
import tempfile
from pathlib import Path

COMPRESSED_FROM = 4096
"""Bytes from which on a file is kept compressed."""


class Damaged(Exception):
    """A kept file that isn't there or isn't what its name says."""


def digest_of(content: bytes) -> str:
    """The SHA-256 in hexadecimal digits."""
    return hashlib.sha256(content).hexdigest()


def digest_of_file(path: Path) -> str:
    """The SHA-256 of a file."""
    with open(path, "rb") as file:
        return hashlib.file_digest(file, "sha256").hexdigest()


def write_whole(path: Path, content: bytes) -> None:
    """Writes a file so that it is there whole or not at all."""
    path.parent.mkdir(parents=True, exist_ok=True)
    handle, name = tempfile.mkstemp(prefix=".new-", dir=path.parent)
    try:
        with os.fdopen(handle, "wb") as file:
            file.write(content)
        os.chmod(name, 0o644)
        os.replace(name, path)
    except BaseException:
        os.unlink(name)
        raise


class Store:
    """A folder of files by content."""

    def __init__(self, folder: Path) -> None:
        self.folder = folder

    def path(self, digest: str, is_compressed: bool) -> Path:
        """Where a content is kept."""
        return self.folder / digest[:2] / (digest[2:] + (".gz" if is_compressed else ""))

    def put(self, content: bytes) -> str:
        """Keeps a content and gives its sum."""
        digest, is_compressed = digest_of(content), len(content) >= COMPRESSED_FROM
        path = self.path(digest, is_compressed)
        if not path.exists():
            write_whole(path, gzip.compress(content, compresslevel=1, mtime=0) if is_compressed else content)
        return digest

    def has(self, digest: str) -> bool:
        """Whether a content is kept."""
        return any(self.path(digest, it).exists() for it in (False, True))

    def get(self, digest: str) -> bytes:
        """The content of a sum; raises Damaged."""
        for is_compressed in (True, False):
            path = self.path(digest, is_compressed)
            if path.exists():
                content = path.read_bytes()
                try:
                    content = gzip.decompress(content) if is_compressed else content
                except (OSError, EOFError, ValueError) as bad:
                    raise Damaged(f"{path}: {bad}") from None
                if digest_of(content) != digest:
                    raise Damaged(f"{path}: its content isn't that of its name")
                return content
        raise Damaged(f"{self.folder}: has no file {digest}")
