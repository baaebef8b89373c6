"""The planted faults: a fault replaces methods of the model, and names the chapters of which one has to find it."""
from __future__ import annotations

from collections.abc import Callable
from dataclasses import dataclass
from typing import Any

from psxgpu.conformance.packets import Kind
from suite_trials.kinds import planted
from suite_trials.model import Machine, Model


@dataclass(frozen=True)
class Fault:
    """A fault, the chapters of which one has to find it, and what makes the model that has it."""
    name: str
    chapters: tuple[str, ...]
    make: Callable[[], Model]


FAULTS: list[Fault] = []
M = Machine


def fault(name: str, chapters: str, **changes: Callable[..., Any]) -> None:
    """Plants a fault: methods of the model that are replaced."""
    FAULTS.append(Fault(name, tuple(chapters.split()), lambda: Model(**changes)))


def fault_in(name: str, chapters: str, is_it: Callable[[Kind], bool], method: str, broken: Callable[..., Any]) -> None:
    """Plants a fault of some kinds of packet alone: see `kinds.planted`."""
    FAULTS.append(Fault(name, tuple(chapters.split()), lambda: planted(is_it, method, broken)))
