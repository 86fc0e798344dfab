"""Prints the microseconds that each document takes against a schema that is kept: measure.py SCHEMA DOCUMENT.."""

import sys
from pathlib import Path
from time import perf_counter

from graphql_validation import Schema

ROUNDS, CALLS = 20, 200

text, *documents = (Path(path).read_bytes().decode() for path in sys.argv[1:])
with Schema(text) as schema:
    for document in documents:
        least = float("inf")
        for _ in range(ROUNDS):
            begun = perf_counter()
            for _ in range(CALLS):
                schema.validate(document)
            least = min(least, (perf_counter() - begun) * 1e6 / CALLS)
        print(f"{least:.2f}")
