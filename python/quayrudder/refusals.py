"""What is raised: `Refusal` for the numbered refusals, `Error` for the rest."""
from __future__ import annotations

import functools
import pathlib
import re
from typing import Any, NamedTuple


class Error(Exception):
    """Something was not done; a `Refusal` where the library refused it.

    `kind` is what the command calls it: "declined" is its own no (a file that exists, a date that needs `shorten`), "damaged" a holding whose
    files are not what they must be, "failed" the machine, "usage" an argument that is none.
    """

    def __init__(self, message: str, kind: str) -> None:
        super().__init__(message)
        self.kind = kind

    def __reduce__(self) -> tuple[Any, ...]:
        """Errors pass between processes."""
        return Error, (str(self), self.kind)


class Refusal(Error):
    """The library refused.

    >>> import quayrudder
    >>> frame = bytearray(open("example.sfrm", "rb").read())
    >>> frame[20 * 80 + 8:21 * 80] = b"many".ljust(72)
    >>> try:
    ...     quayrudder.read(frame)
    ... except quayrudder.Refusal as caught:
    ...     refusal = caught
    >>> refusal.number, refusal.case, refusal.line, refusal.place
    (3, 'BadField', 20, None)
    >>> print(refusal)
    refusal 3: a field is missing or no such number (header line 20)

    number: as in REFUSALS.md
    case: the refusal's name there
    meaning: what it says
    advice: what to look at, or what to do
    line: the header line that is refused (number 3), else None
    place: the table entry or pair that is refused, from 0 (number 13), else None
    file: the file that is refused, or None for bytes
    """

    def __init__(self, number: int, place: int = 0, file: str | None = None, meaning: str = "", advice: str = "") -> None:
        known = _table().get(number, _Row("", f"refusal {number} is not known here", ""))
        self.number, self.case, self.file = number, known.case, file
        self.meaning, self.advice = meaning or known.meaning, advice or known.advice
        self.line = place if number == 3 else None
        self.place = place if number == 13 else None
        super().__init__(self._sentence(), "refused")

    def _sentence(self) -> str:
        of = f"{self.file}: " if self.file else ""
        places = {"header line": self.line, "entry": self.place}
        where = "".join(f" ({name} {number})" for name, number in places.items() if number is not None)
        return f"{of}refusal {self.number}: {self.meaning}{where}"

    def of(self, file: str) -> Refusal:
        """The same refusal, of this file."""
        return Refusal(self.number, self.line or self.place or 0, file, self.meaning, self.advice)

    def __reduce__(self) -> tuple[Any, ...]:
        return Refusal, (self.number, self.line or self.place or 0, self.file, self.meaning, self.advice)


class _Row(NamedTuple):
    case: str
    meaning: str
    advice: str


@functools.lru_cache(maxsize=None)
def _table() -> dict[int, _Row]:
    """The rows of REFUSALS.md, by their number."""
    text = pathlib.Path(__file__).with_name("refusals.md").read_text("utf-8")
    rows = re.findall(r"^\| (\d+) \| `(\w+)` \| (.*) \| (.*?) ?\|$", text, re.MULTILINE)
    return {int(number): _Row(case, meaning, advice) for number, case, meaning, advice in rows}
