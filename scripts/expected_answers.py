"""Prints the JSON that the library has to answer on examples/faulty.graphql, by what docs/CLI.md states of the program: the
annotations there have the rule, the message and both ends of each report, in lines and columns. What follows a line end in an
annotation is a help, or a note. The notes there are on places in the schema, whose text a call on a document does not have."""

import json
import re
from pathlib import Path

ANNOTATION = re.compile(
    r"^::error file=examples/faulty\.graphql,line=(\d+),endLine=(\d+),col=(\d+),endColumn=(\d+),title=(\w+)::(.+)$", re.M
)

lines = Path("examples/faulty.graphql").read_bytes().split(b"\n")


def byte(line, column):
    text = lines[line - 1].decode()
    assert column <= len(text) + 1, f"line {line} has no column {column}"
    before = sum(len(it) + 1 for it in lines[: line - 1])
    return before + len(text[: column - 1].encode())


def error(line, end_line, column, end_column, rule, message):
    span = {"start": byte(line, column), "end": byte(end_line, end_column)}
    place = {"line": line, "column": column}
    message, *others = message.split("%0A")
    help = [other.removeprefix("help: ") for other in others if other.startswith("help: ")]
    notes = [other for other in others if not other.startswith("help: ")]
    assert all(note.startswith("examples/schema.graphql:") for note in notes), "a note is not on the schema"
    extensions = {"rule": rule, "span": span} | ({"help": help} if help else {})
    return {"message": message, "locations": [place], "extensions": extensions}


found = ANNOTATION.findall(Path("docs/CLI.md").read_text())
assert len(found) == 4, "docs/CLI.md has no four annotations"
errors = [error(*map(int, it[:4]), *it[4:]) for it in found]
print(json.dumps({"errors": errors}, separators=(",", ":"), ensure_ascii=False), end="")
