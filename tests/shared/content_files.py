"""Files for a program that is tried: what has the same content is one file."""
from __future__ import annotations

import os


class ContentFiles:
    """Files in a folder, one for each content."""

    def __init__(self, folder: str) -> None:
        self.folder = folder
        self.paths: dict[bytes, str] = {}

    def put(self, data: bytes) -> str:
        if data not in self.paths:
            self.paths[data] = os.path.join(self.folder, str(len(self.paths)))
            with open(self.paths[data], "wb") as file:
                file.write(data)
        return self.paths[data]
