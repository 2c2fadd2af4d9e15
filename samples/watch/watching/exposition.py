"""Metrics in the text format of Prometheus, and files that are whole before they are seen."""
from __future__ import annotations

import json
import os
from typing import Sequence


class Metrics:
    """Families of metrics by name, each with its type and its help."""

    def __init__(self) -> None:
        self.families: dict[str, tuple[str, str, list[tuple[str, dict[str, object], object]]]] = {}

    def add(self, name: str, kind: str, about: str, value: object, /, **labels: object) -> None:
        """Adds a sample. A family has one type and one help: those of its first sample."""
        family = self.families.setdefault(name, (kind, about, []))
        family[2].append(("", labels, value))

    def add_histogram(
        self,
        name: str,
        about: str,
        bounds: Sequence[float],
        counts: Sequence[int],
        total: float,
        /,
        **labels: object,
    ) -> None:
        """Adds a histogram: how many values every bound has below it, and above the one before; the last count is of those above all bounds."""
        family = self.families.setdefault(name, ("histogram", about, []))
        below = 0
        for bound, count in zip([*(f"{bound:g}" for bound in bounds), "+Inf"], counts):
            below += count
            family[2].append(("_bucket", {**labels, "le": bound}, below))
        family[2].extend([("_sum", labels, round(total, 6)), ("_count", labels, below)])

    def text(self) -> str:
        parts = []
        for name, (kind, about, samples) in sorted(self.families.items()):
            parts += [f"# HELP {name} {about}", f"# TYPE {name} {kind}"]
            parts += [f"{name}{end}{labels_text(labels)} {value}" for end, labels, value in samples]
        return "\n".join(parts) + "\n"


def labels_text(labels: dict[str, object]) -> str:
    quoted = ",".join(
        f"{name}={json.dumps(str(value), ensure_ascii=False)}" for name, value in labels.items()
    )
    return f"{{{quoted}}}" if quoted else ""


def replace_file(path: str, text: str, mode: int = 0o644) -> None:
    """Writes a file that takes the place of the old one when it is whole on the disk. Until then its name doesn't end as the old one's."""
    new = f"{path}.new"
    try:
        with open(new, "w", encoding="utf-8") as file:
            os.fchmod(file.fileno(), mode)
            file.write(text)
            file.flush()
            os.fsync(file.fileno())
        os.replace(new, path)
    except OSError:
        if os.path.exists(new):
            os.unlink(new)
        raise
