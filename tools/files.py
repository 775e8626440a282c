"""Prints what each file is about, by its own first sentence.

usage: python3 tools/files.py [FOLDER..]

Those of crates/, deploy/, tests/, tools/, bench/ and examples/, or below the folders that are named: code, scripts and
settings. With a file that says nothing of itself the status is 1, and its name goes to standard error.
"""
from __future__ import annotations

import ast
import re
import sys
from pathlib import Path

ROOT = Path(__file__).resolve().parent.parent
sys.path.insert(0, str(ROOT / "tools/lint"))

from texts import Text, texts_below  # noqa: E402

FOLDERS = ("crates", "deploy", "tests", "tools", "bench", "examples")
# What is made or read by others, and can't say what it is.
SILENT = re.compile(r"/(fixtures|debian|completions|data|must-fail|old|proofs|specs)/|/__init__\.py$"
                    r"|/(args|stdout|ssh)$|\.(antt|edit|export|json|md|service|socket|sql|sysusers|timer|toml|txt)$")
SENTENCE = re.compile(r".*?[.](?= [A-Z`]|$)")


def comment_of(text: str, mark: str) -> str:
    """The first lines that are a comment, without their mark."""
    found: list[str] = []
    for line in text.splitlines():
        if line.startswith(mark) and not line.startswith(("#!", "# shellcheck")):
            found.append(line[len(mark):].strip())
        elif found:
            break
    return "\n".join(found)


def about(text: Text) -> str:
    """The first sentence that a file says of itself, after the lines that say how it is called."""
    if text.kind == "python":
        told = ast.get_docstring(ast.parse(text.content)) or ""
    elif text.path.endswith((".c", ".h")):
        told = re.sub(r"^ ?\* ?", "", text.content.partition("/*")[2].partition("*/")[0], flags=re.MULTILINE)
    else:
        told = comment_of(text.content, "//!" if text.path.endswith(".rt") else "#")
    parts = [" ".join(part.split()) for part in told.strip().split("\n\n")]
    first = next((part for part in parts if not part.startswith("usage: ")), "")
    match = SENTENCE.match(first)
    return (match[0] if match else first).rstrip(".:")


def main(folders: list[str]) -> int:
    if folders[:1] in (["-h"], ["--help"]):
        sys.exit(__doc__)
    status = 0
    for folder in folders or FOLDERS:
        for text in texts_below(str(ROOT / folder)):
            path = f"{folder}/{text.path}"
            if SILENT.search("/" + path):
                continue
            if told := about(text):
                print(f"{path}: {told}")
            else:
                print(f"{path} doesn't say what it is about", file=sys.stderr)
                status = 1
    return status


if __name__ == "__main__":
    sys.exit(main(sys.argv[1:]))
