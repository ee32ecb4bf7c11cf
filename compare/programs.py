"""Where the proved programs lie: `rt run` in the crate of a program builds it there."""

from __future__ import annotations

from collections.abc import Iterable
from pathlib import Path

CRATES = Path(__file__).resolve().parent.parent / "crates"
CRATE_OF = {"check": "checker"}
"""A program whose crate has another name; the toolchain has a library `check`."""


def crate(program: str) -> str:
    return CRATE_OF.get(program, program)


def executable(program: str) -> Path:
    return CRATES / crate(program) / "out" / crate(program)


def building(program: str) -> str:
    return f"(cd crates/{crate(program)} && rt run < stdin)"


def missing(programs: Iterable[str]) -> list[str]:
    return [program for program in programs if not executable(program).is_file()]
