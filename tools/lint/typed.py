"""Public functions of Python say their types."""

from __future__ import annotations

import ast
from collections.abc import Iterator

from texts import Mistake, Text


def mistakes_in_types(text: Text) -> Iterator[Mistake]:
    if text.kind != "python":
        return
    try:
        module = ast.parse(text.content)
    except SyntaxError as it:
        yield Mistake(text.path, it.lineno or 1, "types", f"it isn't Python: {it.msg}")
        return
    for function in _public(module.body):
        if missing := _untyped(function):
            yield Mistake(text.path, function.lineno, "types", f"{function.name} has no type for {', '.join(missing)}")


def _public(body: list[ast.stmt]) -> Iterator[ast.FunctionDef | ast.AsyncFunctionDef]:
    """The functions of a module whose names don't begin with _, and those of its classes; with what makes a value."""
    for it in body:
        if isinstance(it, ast.ClassDef) and not it.name.startswith("_"):
            yield from _public(it.body)
        if isinstance(it, ast.FunctionDef | ast.AsyncFunctionDef) and (it.name == "__init__" or it.name[0] != "_"):
            yield it


def _untyped(function: ast.FunctionDef | ast.AsyncFunctionDef) -> list[str]:
    given = function.args
    others = [it for it in (given.vararg, given.kwarg) if it is not None]
    every = [*given.posonlyargs, *given.args, *given.kwonlyargs, *others]
    missing = [it.arg for it in every if it.annotation is None and it.arg not in ("self", "cls")]
    return [*missing, *(["what it returns"] if function.returns is None else [])]
