"""Held frames with their ledgers, by the command `quayrudder`."""
from __future__ import annotations

import datetime
import json
import os
import pathlib
import subprocess
from typing import Any, List, NamedTuple, Optional, Sequence, Union

from . import places
from .images import Image, read
from .refusals import Error, Refusal

Path = Union[str, "os.PathLike[str]"]
Day = Union[str, datetime.date]

# The refusals that are an answer to the question whether a purge is allowed: no keep line stands, and not yet.
_NO_KEEP_LINE, _NOT_YET = 26, 27


class Line(NamedTuple):
    """A line of a ledger.

    number: from 1
    kind: "correct", "keep" or "withdraw"
    withdrawn: whether a later line takes it back
    pixel, old, new: of a correction the pixel's number and its counts
    date: of a keep line the last day on which the frame must be kept
    """

    number: int
    kind: str
    withdrawn: bool = False
    pixel: Optional[int] = None
    old: Optional[int] = None
    new: Optional[int] = None
    date: Optional[datetime.date] = None


class PurgeAnswer(NamedTuple):
    """Whether a frame may be purged on a day, and why. It is true exactly where the answer is yes, so that an `if` may ask it.

    may_purge: the answer
    line: the keep line that decides, the last that stands, or None where none does
    """

    may_purge: bool
    line: Optional[Line] = None

    def __bool__(self) -> bool:
        return self.may_purge


class Holding:
    """A held frame and its ledger: the files NAME.held, NAME.ledger and those beside them.

    Every method runs the command, which locks the holding, checks it against its sums and makes a change as a whole or not at all. It waits `wait`
    seconds for another process that is at work on the holding, and without end if that is None.

    >>> holding = Holding.open("example.sfrm", "lyso2", form="1+2")
    >>> holding.correct(38650, 90).old
    4000000
    >>> holding.amend(95).new
    95
    >>> holding.keep(datetime.date(2031, 11, 2)).number
    4
    >>> holding.withdraw().kind
    'keep'
    >>> [(line.kind, line.withdrawn) for line in holding.list()]
    [('correct', True), ('withdraw', False), ('correct', False), ('keep', True), ('withdraw', False)]
    >>> holding.may_purge("2031-11-03")
    False
    >>> holding.kept_until() is None
    True
    >>> holding.compact()
    1
    >>> holding.list()
    [Line(number=1, kind='correct', withdrawn=False, pixel=38650, old=4000000, new=95, date=None)]
    """

    def __init__(self, name: Path, wait: int | None = None) -> None:
        self.name = os.fspath(name)
        self.wait = wait

    def __repr__(self) -> str:
        return f"Holding({self.name!r})"

    @classmethod
    def open(cls, frame: Path, name: Path, form: str, room: int = 4096) -> Holding:
        """Opens a frame: makes the holding `name` of it in this form, with so many bytes to grow by. A holding that exists is kept.

        >>> Holding.open("example.sfrm", "lyso3", form="1+2")
        Holding('lyso3')
        >>> Holding.open("example.sfrm", "lyso3", form="1+2")
        Traceback (most recent call last):
        quayrudder.refusals.Error: lyso3.held: exists already and is kept. Give the new holding another name
        """
        _run("open", f"--form={form}", f"--room={room}", f"--output={os.fspath(name)}", "--", os.fspath(frame))
        return cls(name)

    def correct(self, pixel: int | tuple[int, int], count: int) -> Line:
        """Gives a pixel, by its number or its row and column, another count. The answer is the ledger's new line.

        The last correction of a pixel decides. Corrections of different pixels leave the same frame in either order, and other ledgers.

        >>> one, two = (Holding.open("example.sfrm", name, form="1+2") for name in ("lyso6", "lyso7"))
        >>> one.correct((100, 250), 90).number, one.correct(7, 12).number
        (1, 2)
        >>> two.correct(7, 12).number, two.correct((100, 250), 95).number, two.correct((100, 250), 90).number
        (1, 2, 3)
        >>> bool((one.read().pixels == two.read().pixels).all())
        True
        """
        return _line(self._run("correct", _place(pixel), str(count))["appended"])

    def amend(self, count: int) -> Line:
        """Takes back the last line that stands, a correction, and gives its pixel this count instead. The answer is the new correction."""
        return _line(self._run("amend", str(count))["appended"])

    def keep(self, until: Day, shorten: bool = False) -> Line:
        """Keeps the frame until this day. A day before the one that stands, or before today, needs `shorten`."""
        return _line(self._run("keep", str(until), options=["--shorten"] if shorten else [])["appended"])

    def withdraw(self) -> Line:
        """Takes back the last correction or keep date that stands. The answer is the line that was taken back."""
        return _line(self._run("withdraw")["withdraws"])

    def compact(self, log: bool = True) -> int:
        """Leaves the lines that stand alone, and says how many they are. What the ledger said before is kept in NAME.compacted, unless `log` is false."""
        return int(self._run("compact", options=[] if log else ["--no-log"])["lines"])

    def list(self) -> List[Line]:
        """The lines of the ledger, in their order."""
        return [_line(line) for line in self._run("list")["lines"]]

    def may_purge(self, day: Day) -> bool:
        """May the frame be purged on this day? Only where a keep date stands, from the day after it.

        Raises Refusal for a ledger that is malformed (20) and for a day that is none (25).
        """
        answer = self._run("may-purge", str(day))
        if answer["may_purge"] is not True and answer["refusal"] not in (_NO_KEEP_LINE, _NOT_YET):
            raise Refusal(answer["refusal"], file=self.name)
        return answer["may_purge"] is True

    def why_day(self, day: Day) -> PurgeAnswer:
        """May the frame be purged on this day, and which keep line decides? Numbers are those of `list`.

        Raises Refusal for a ledger that is malformed (20) and for a day that is none (25).

        >>> holding = Holding.open("example.sfrm", "lyso4", form="1+2")
        >>> holding.why_day("2031-11-03")
        PurgeAnswer(may_purge=False, line=None)
        >>> holding.keep("2040-01-01").number, holding.keep("2031-11-02", shorten=True).number
        (1, 2)
        >>> answer = holding.why_day("2031-11-02")
        >>> answer.may_purge, answer.line.number, answer.line.date
        (False, 2, datetime.date(2031, 11, 2))
        >>> "may go" if holding.why_day("2031-11-03") else "stays"
        'may go'
        """
        answer = self._run("why", options=[f"--day={day}"])
        return PurgeAnswer(answer["may_purge"] is True, _deciding(answer))

    def why_pixel(self, pixel: int | tuple[int, int]) -> Line | None:
        """The correction that stands and set this pixel last, or None where the pixel is as opened.

        Only the ledger is asked for a number, so any is a fair question; a row and column are looked up in the held frame, and
        Refusal 24 is raised where it has no such pixel. A ledger that is malformed raises Refusal 20.

        >>> holding = Holding.open("example.sfrm", "lyso5", form="1+2")
        >>> holding.correct((100, 250), 90).number, holding.correct(7, 12).number
        (1, 2)
        >>> holding.why_pixel((100, 250))
        Line(number=1, kind='correct', withdrawn=False, pixel=38650, old=4000000, new=90, date=None)
        >>> holding.why_pixel(8) is None
        True
        """
        return _deciding(self._run("why", options=[f"--pixel={_place(pixel)}"]))

    def kept_until(self) -> datetime.date | None:
        """The keep date that counts, the last one that stands, or None."""
        line = self.why_day(datetime.date.min).line
        return line.date if line else None

    def verify(self) -> None:
        """Checks the files against their sums and the held frame against its ledger, to its last byte. Raises what is wrong."""
        self._run("verify")

    def read(self) -> Image:
        """The frame with its corrections, as `quayrudder.read` gives it."""
        return read(self._held())

    def _held(self) -> pathlib.Path:
        path = pathlib.Path(self.name)
        return path.with_suffix(".held") if path.suffix in (".held", ".ledger") else path.with_name(path.name + ".held")

    def _run(self, command: str, *words: str, options: Sequence[str] = ()) -> Any:
        wait = [] if self.wait is None else ["--wait", str(self.wait)]
        return _run(command, *wait, *options, "--", self.name, *words)


def _place(pixel: int | tuple[int, int]) -> str:
    return f"{pixel[0]},{pixel[1]}" if isinstance(pixel, tuple) else str(pixel)


def _deciding(answer: dict[str, Any]) -> Line | None:
    """The line that decides, where one does."""
    return _line(answer["deciding_line"]) if "deciding_line" in answer else None


def _line(value: dict[str, Any]) -> Line:
    fields = {key: value[key] for key in Line._fields if key in value}
    if "date" in fields:
        fields["date"] = datetime.date.fromisoformat(fields["date"])
    return Line(number=value["line"], **fields)


def _run(*words: str) -> Any:
    """The command's answer to these words, which is its last line; a failure is raised."""
    ran = subprocess.run([places.command(), "--json", *words], stdin=subprocess.DEVNULL, capture_output=True)
    lines = [json.loads(line) for line in ran.stdout.splitlines()]
    if not lines:
        raise Error(ran.stderr.decode(errors="replace").strip() or f"the command ended with status {ran.returncode}", "failed")
    if ran.returncode and "may_purge" not in lines[-1]:
        raise _failure(lines[-1])
    return lines[-1]


def _failure(value: dict[str, Any]) -> Error:
    """What the command says of a failure, as an exception."""
    file = value.get("file")
    if "refusal" in value:
        return Refusal(value["refusal"], value["place"], file, value["meaning"], value["advice"])
    kind = next(kind for kind in ("declined", "damaged", "failed", "usage") if kind in value)
    named = f"{file}: " if file and kind != "failed" else ""
    return Error(named + value[kind], kind)
