"""What stands in a file: problems as records of YACPDB (YAML), or as Popeye has printed them."""

from __future__ import annotations

import re
from collections.abc import Iterator
from dataclasses import dataclass, field
from typing import Any

from ..errors import NotFound
from .faults import NotARecord, ProblemFault

Value = str | list[Any] | dict[str, Any]
PARTS = re.compile(rb"^---[ \t]*\r?\n?", re.MULTILINE)
DEEPEST = 4


@dataclass
class Record:
    """A problem: its number in the file, its line there, and its fields. `text_line` is the line of the file at which the text of the
    solution begins, where its lines are lines of the file."""

    number: int
    line: int
    white: tuple[str, ...] = ()
    black: tuple[str, ...] = ()
    stipulation: str = ""
    solution: str = ""
    text_line: int | None = None
    authors: tuple[str, ...] = ()
    source: str = ""
    source_number: str = ""
    date: str = ""
    award: str = ""
    keywords: tuple[str, ...] = ()
    options: tuple[str, ...] = ()
    twins: dict[str, str] = field(default_factory=dict)


@dataclass
class Unread:
    """A part of a file that is no record."""

    number: int
    line: int
    fault: ProblemFault


def _yaml() -> Any:
    """The module, which is asked for where records are read, since it may be missing."""
    try:
        import yaml
    except ImportError as fault:
        raise NotFound("reading records needs PyYAML: `apt-get install python3-yaml`") from fault
    return yaml


def _value(yaml: Any, events: Iterator[Any], event: Any, lines: dict[str, int], depth: int) -> Value:
    """The value that begins with an event: a text, a list or a map. Lines of block texts are noted by the names of their fields."""
    if depth > DEEPEST:
        raise NotARecord("nested too deep")
    if isinstance(event, yaml.AliasEvent) or event.tag is not None:
        raise NotARecord("an alias or a tag of YAML")
    if isinstance(event, yaml.ScalarEvent):
        return str(event.value)
    if isinstance(event, yaml.SequenceStartEvent):
        items: list[Any] = []
        while not isinstance(event := next(events), yaml.SequenceEndEvent):
            items.append(_value(yaml, events, event, lines, depth + 1))
        return items
    mapping: dict[str, Any] = {}
    while not isinstance(event := next(events), yaml.MappingEndEvent):
        name = _value(yaml, events, event, lines, depth + 1)
        event = next(events)
        if not isinstance(name, str) or name in mapping:
            raise NotARecord("a name that stands twice or is no text")
        if isinstance(event, yaml.ScalarEvent) and event.style == "|":
            lines[name] = event.start_mark.line + 1
        mapping[name] = _value(yaml, events, event, lines, depth + 1)
    return mapping


def _fields(text: str) -> tuple[dict[str, Any], dict[str, int]]:
    """The fields of a record, and the lines of those that are blocks, counted from 0 at the beginning of the text."""
    yaml = _yaml()
    lines: dict[str, int] = {}
    try:
        events = yaml.parse(text, Loader=getattr(yaml, "CBaseLoader", yaml.BaseLoader))
        found = [event for _, event in zip(range(3), events)]
        value = _value(yaml, events, found[2], lines, 0) if len(found) == 3 and hasattr(found[2], "anchor") else ""
        rest = [event for _, event in zip(range(3), events)]
    except yaml.YAMLError as fault:
        mark = getattr(fault, "problem_mark", None)
        raise NotARecord(f"not YAML: {getattr(fault, 'problem', None) or fault}", mark.line if mark else None) from fault
    if not isinstance(value, dict) or len(rest) != 2:
        raise NotARecord("no map of fields")
    return value, lines


class _Form:
    """The fields of a record by their names, each in the form that it must have."""

    def __init__(self, fields: dict[str, Any]) -> None:
        self.fields = fields

    def text(self, name: str) -> str:
        """A text; the empty one if there is none."""
        value = self.fields.get(name, "")
        if not isinstance(value, str):
            raise NotARecord(f"the field {name} is no text")
        return value

    def texts(self, name: str) -> tuple[str, ...]:
        """A list of texts, or one text alone."""
        value = self.fields.get(name, "")
        if isinstance(value, str):
            return (value,) if value else ()
        if not isinstance(value, list) or not all(isinstance(one, str) for one in value):
            raise NotARecord(f"the field {name} is no list of texts")
        return tuple(value)

    def map(self, name: str) -> dict[str, Any]:
        """A map; the empty one if there is none."""
        value = self.fields.get(name) or {}
        if not isinstance(value, dict):
            raise NotARecord(f"the field {name} is no map")
        return value


def record(text: str, number: int, line: int) -> Record:
    """The record that a text of YAML has."""
    fields, lines = _fields(text)
    form, men = _Form(fields), _Form(_Form(fields).map("algebraic"))
    twins = _Form(form.map("twins")) if isinstance(fields.get("twins"), dict) else _Form({})
    return Record(
        number,
        line,
        white=men.texts("white"),
        black=men.texts("black"),
        stipulation=" ".join(form.text("stipulation").replace('"', "").split()),
        solution=form.text("solution"),
        text_line=line + lines["solution"] if "solution" in lines else None,
        authors=form.texts("authors"),
        source=form.text("source"),
        source_number=form.text("source-id"),
        date=form.text("date"),
        award=form.text("distinction"),
        keywords=form.texts("keywords"),
        options=form.texts("options"),
        twins={name: twins.text(name) for name in twins.fields},
    )


def _parts(data: bytes) -> Iterator[tuple[int, bytes]]:
    """The parts of a file between lines `---` that are not empty, with the line, from 1, at which each begins."""
    line, at = 1, 0
    for end, go_on in [*(found.span() for found in PARTS.finditer(data)), (len(data), len(data))]:
        if data[at:end].strip():
            yield line, data[at:end]
        line += data.count(b"\n", at, go_on)
        at = go_on


def records(data: bytes) -> Iterator[Record | Unread]:
    """The records of a file of YAML."""
    for number, (line, part) in enumerate(_parts(data), 1):
        try:
            yield record(part.decode(), number, line)
        except UnicodeDecodeError as fault:
            yield Unread(number, line, NotARecord(f"not UTF-8 at byte {fault.start} of the record"))
        except ProblemFault as fault:
            yield Unread(number, line + (fault.at or 0), fault)
