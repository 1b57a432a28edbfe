"""Comparisons of which all are made, and those that differ told together."""

from __future__ import annotations


class Differences:
    """What was compared and differs."""

    def __init__(self) -> None:
        self.number = 0
        self.told: list[str] = []

    def compare(self, name: str, got: object, wanted: object) -> None:
        self.number += 1
        if got != wanted:
            self.told.append(f"{name}\n got  {got!r}\n want {wanted!r}")

    def check(self) -> None:
        """Fails where anything differs."""
        assert not self.told, "\n".join([f"{len(self.told)} of {self.number} differ", *self.told])
