"""The kinds of case of each program, each with the function that carries it out, and what the program tells before them."""

from collections.abc import Callable
from dataclasses import dataclass, field

from . import adapters, answers, built, fonts, leaves, numbers, rows, runs, shapes, spans, steps, styles, tables


@dataclass
class Kinds:
    """Kinds with one answer each, kinds that tell how a run ended, and what it wrote, and what is told before all cases."""

    one_answer: dict
    runs: dict = field(default_factory=dict)
    before: Callable = lambda data: b""


# The programs are crates. A module for another crate's calls adds its own, as **MODULE.KINDS.
PROGRAMS = {
    "cases": Kinds(
        {
            **answers.KINDS, **fonts.KINDS, **numbers.KINDS, **styles.KINDS,  # base_kinds
            **shapes.KINDS, **leaves.KINDS, **rows.KINDS, **tables.KINDS, **spans.KINDS, **built.KINDS,  # box_kinds
            **steps.KINDS,  # step_kinds
        },
        before=adapters.told),
    "run_cases": Kinds(runs.FAILING, runs.RUNS),
}
