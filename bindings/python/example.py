"""Validates documents against a schema, and prints what is reported of each: example.py SCHEMA DOCUMENT.."""

import sys
from pathlib import Path

from graphql_validation import Schema

text, *documents = (Path(path).read_bytes().decode() for path in sys.argv[1:])
with Schema(text) as schema:
    for document in documents:
        for report in schema.validate(document):
            place = report.locations[0]
            print(f"{place.line}:{place.column}: {report.message}")
