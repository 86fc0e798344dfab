"""Validation of GraphQL schemas and documents, over the calls of include/graphql_validation.h.

A wheel has the shared object in it. GRAPHQL_VALIDATION_LIBRARY in the environment names another one.
"""

from __future__ import annotations

import ctypes
import json
import os
import threading
from collections.abc import Mapping
from dataclasses import dataclass

__all__ = [
    "Location",
    "Note",
    "Options",
    "Report",
    "Schema",
    "SchemaReported",
    "validate",
    "validate_all",
    "validate_schema",
]

_VERSION = 2
_REPORTED_IN_SCHEMA = 1
_STATUS_ACCEPTED, _STATUS_REPORTED, _STATUS_NO_MEMORY = 0, 1, 3
_ROOM = 4096


@dataclass(frozen=True)
class Location:
    """A line and a column, from 1. A column counts characters."""

    line: int
    column: int


@dataclass(frozen=True)
class Note:
    """A note on another place of a report."""

    message: str
    location: Location
    span: tuple[int, int]
    """The bytes of the text, in UTF-8, that it is about."""
    file: str | None = None
    """Its file, as of a report."""


@dataclass(frozen=True)
class Report:
    """What is wrong with a text."""

    message: str
    rule: str
    """The name of the broken rule; `Syntax` where the text is no document."""
    locations: tuple[Location, ...]
    """Where it is, if it has a place: one location."""
    span: tuple[int, int] | None
    """The bytes of the text, in UTF-8, that it is about."""
    in_schema: bool
    """Whether it is about the schema. The document was then not looked at."""
    file: str | None = None
    """The file of the schema, if it has a name; `<built-in>` for the definitions that every schema has."""
    related: tuple[Note, ...] = ()
    """Notes on other places."""
    help: tuple[str, ...] = ()
    """What helps, in words."""


@dataclass(frozen=True)
class Options:
    """What a call may take. 0 says the default, which include/graphql_validation.h states."""

    depth: int = 0
    """How many brackets and braces open in one another. A thread with a small stack passes a lower one."""
    tokens: int = 0
    reach: int = 0
    work: int = 0
    max_reports: int = 0
    """How many reports a call gives at most: the first ones."""


class SchemaReported(Exception):
    """No document was looked at, since the schema has reports."""

    def __init__(self, reports: list[Report]):
        super().__init__("; ".join(report.message for report in reports))
        self.reports = reports


class _Outcome(ctypes.Structure):
    _fields_ = [
        ("status", ctypes.c_uint32),
        ("reported", ctypes.c_uint32),
        ("length", ctypes.c_size_t),
    ]


class _Handle(ctypes.Structure):
    _fields_ = [("at", ctypes.c_void_p)]


class _File(ctypes.Structure):
    _fields_ = [
        ("name", ctypes.c_char_p),
        ("name_length", ctypes.c_size_t),
        ("text", ctypes.c_char_p),
        ("text_length", ctypes.c_size_t),
    ]


class _Options(ctypes.Structure):
    _fields_ = [(name, ctypes.c_size_t) for name in ("size", "depth", "tokens", "reach", "work", "max_reports")]


def _load() -> ctypes.CDLL:
    beside = os.path.join(os.path.dirname(os.path.abspath(__file__)), "libgraphql_validation.so.2")
    library = ctypes.CDLL(os.environ.get("GRAPHQL_VALIDATION_LIBRARY", beside))
    text = [ctypes.c_char_p, ctypes.c_size_t]
    ends = [ctypes.POINTER(ctypes.c_size_t), ctypes.c_size_t]
    handle, options = ctypes.POINTER(_Handle), ctypes.POINTER(_Options)
    for name, given in [
        ("graphql_validate", text + text),
        ("graphql_validate_schema", text),
        ("graphql_validate_all", text + text + ends),
        ("graphql_schema_read", [ctypes.POINTER(_File), ctypes.c_size_t, options, handle]),
        ("graphql_schema_validate", [handle] + text + [options]),
    ]:
        function = getattr(library, name)
        function.argtypes = given + [ctypes.c_char_p, ctypes.c_size_t]
        function.restype = _Outcome
    library.graphql_schema_share.argtypes = [handle, handle]
    library.graphql_schema_share.restype = ctypes.c_uint32
    library.graphql_schema_answer.argtypes = [handle, ctypes.c_size_t, ctypes.c_char_p, ctypes.c_size_t]
    library.graphql_schema_answer.restype = ctypes.c_size_t
    library.graphql_schema_free.argtypes = [handle]
    library.graphql_schema_free.restype = None
    library.graphql_abi_version.restype = ctypes.c_uint32
    if library.graphql_abi_version() != _VERSION:
        raise ImportError("the library has another version of its calls")
    return library


_library = _load()


def _check(status: int) -> None:
    """Raises if there is no answer."""
    if status == _STATUS_NO_MEMORY:
        raise MemoryError
    if status > _STATUS_REPORTED:
        raise ValueError(f"the library refused what it was given: status {status}")


def _call(function, *given) -> tuple[_Outcome, object]:
    """Calls with as much room as the answer needs."""
    room = _ROOM
    while True:
        out = ctypes.create_string_buffer(room)
        outcome = function(*given, out, room)
        _check(outcome.status)
        if outcome.length <= room:
            return outcome, json.loads(out.raw[: outcome.length])
        room = outcome.length


def _note(note: dict) -> Note:
    span = note["span"]
    return Note(
        message=note["message"],
        location=Location(note["line"], note["column"]),
        span=(span["start"], span["end"]),
        file=note.get("file"),
    )


def _report(error: dict, in_schema: bool) -> Report:
    extensions = error["extensions"]
    span = extensions.get("span")
    return Report(
        message=error["message"],
        rule=extensions["rule"],
        locations=tuple(Location(it["line"], it["column"]) for it in error.get("locations", [])),
        span=(span["start"], span["end"]) if span else None,
        in_schema=in_schema,
        file=extensions.get("file"),
        related=tuple(_note(note) for note in extensions.get("related", [])),
        help=tuple(extensions.get("help", [])),
    )


def _reports(outcome: _Outcome, answer: dict) -> list[Report]:
    in_schema = outcome.reported == _REPORTED_IN_SCHEMA
    return [_report(error, in_schema) for error in answer["errors"]]


def validate(schema: str, document: str) -> list[Report]:
    """What is reported of a document against a schema: nothing, where both are valid."""
    texts = [schema.encode(), document.encode()]
    return _reports(*_call(_library.graphql_validate, texts[0], len(texts[0]), texts[1], len(texts[1])))


def validate_schema(schema: str) -> list[Report]:
    """What is reported of a schema."""
    text = schema.encode()
    return _reports(*_call(_library.graphql_validate_schema, text, len(text)))


def validate_all(schema: str, documents: list[str]) -> list[list[Report]]:
    """What is reported of each of these documents against one schema, which is read once."""
    text = schema.encode()
    texts = [document.encode() for document in documents]
    ends = (ctypes.c_size_t * max(len(texts), 1))()
    end = 0
    for position, it in enumerate(texts):
        end += len(it)
        ends[position] = end
    whole = b"".join(texts)
    outcome, answer = _call(
        _library.graphql_validate_all, text, len(text), whole, len(whole), ends, len(texts)
    )
    if outcome.reported == _REPORTED_IN_SCHEMA:
        raise SchemaReported(_reports(outcome, answer))
    return [_reports(outcome, it) for it in answer]


class _Kept:
    """A handle of the library, and room for the beginning of an answer. It is used by one call at a time."""

    def __init__(self) -> None:
        self._handle = _Handle()
        self._out = ctypes.create_string_buffer(_ROOM)

    def __del__(self) -> None:
        _library.graphql_schema_free(self._handle)

    def read(self, files: list[tuple[bytes, bytes]], options: _Options) -> list[Report]:
        given = (_File * max(len(files), 1))()
        for it, (name, content) in zip(given, files):
            it.name, it.name_length, it.text, it.text_length = name, len(name), content, len(content)
        outcome = _library.graphql_schema_read(given, len(files), options, self._handle, self._out, _ROOM)
        return self._answer(outcome)

    def share(self) -> _Kept:
        other = _Kept()
        _check(_library.graphql_schema_share(self._handle, other._handle))
        return other

    def validate(self, text: bytes, options: _Options) -> list[Report]:
        outcome = _library.graphql_schema_validate(self._handle, text, len(text), options, self._out, _ROOM)
        return self._answer(outcome)

    def _answer(self, outcome: _Outcome) -> list[Report]:
        _check(outcome.status)
        if outcome.status == _STATUS_ACCEPTED:
            return []
        written = ctypes.string_at(self._out, min(outcome.length, _ROOM))
        if outcome.length > _ROOM:
            rest = ctypes.create_string_buffer(outcome.length - _ROOM)
            _library.graphql_schema_answer(self._handle, _ROOM, rest, len(rest))
            written += rest.raw
        return _reports(outcome, json.loads(written))


class Schema:
    """A schema that is read once, and documents against it.

    Threads may share it and call it at once: the schema is in memory once, and a call lets other threads run.
    """

    def __init__(
        self,
        text: str | None = None,
        *,
        files: Mapping[str, str] | None = None,
        options: Options = Options(),
    ):
        """Reads a schema from one text, or from files, by their names. Raises SchemaReported if it has reports.

        `options` hold for this call, and for each document that is validated without options of its own.
        """
        if (text is None) == (files is None):
            raise TypeError("a schema has either a text or files")
        self._lock = threading.Lock()
        self._options = _options(options)
        given = [("", text)] if files is None else list(files.items())
        root = _Kept()
        reports = root.read([(name.encode(), content.encode()) for name, content in given], self._options)
        if reports:
            raise SchemaReported(reports)
        self._root: _Kept | None = root
        self._idle: list[_Kept] = []

    def validate(self, document: str, options: Options | None = None) -> list[Report]:
        """What is reported of a document against this schema: nothing, if it is valid."""
        text = document.encode()
        kept = self._take()
        reports = kept.validate(text, self._options if options is None else _options(options))
        self._give(kept)
        return reports

    def close(self) -> None:
        """Gives back the memory of the schema, once the calls that are under way have ended. It cannot be used again."""
        with self._lock:
            self._root = None
            self._idle.clear()

    def __enter__(self) -> Schema:
        return self

    def __exit__(self, *_: object) -> None:
        self.close()

    def _take(self) -> _Kept:
        """A handle for one call: one that no call uses, or another one over the same schema."""
        with self._lock:
            if self._root is None:
                raise ValueError("the Schema is closed")
            return self._idle.pop() if self._idle else self._root.share()

    def _give(self, kept: _Kept) -> None:
        with self._lock:
            if self._root is not None:
                self._idle.append(kept)


def _options(options: Options) -> _Options:
    return _Options(
        ctypes.sizeof(_Options), options.depth, options.tokens, options.reach, options.work, options.max_reports
    )
