#!/usr/bin/env python3
"""Compares docs/input.schema.json with the stored examples of `simplex_net`: an input that the program reads is to be of the schema,
and one that it answers with status 3 is not. The schema has the ranges of single members too, so an input that is refused as
`BadSetup` may be of it or not. Needs the package jsonschema. Usage: schema.py [FOLDER..], by default examples/net."""
import json
import pathlib
import sys

import jsonschema

ROOT = pathlib.Path(__file__).resolve().parent.parent


def status_of(path):
    """The status that the program ends with on this input."""
    file = path.with_suffix(".status")
    return int(file.read_text()) if file.exists() else 0


def main():
    schema = json.loads((ROOT / "docs" / "input.schema.json").read_text())
    jsonschema.Draft202012Validator.check_schema(schema)
    validator = jsonschema.Draft202012Validator(schema)
    seen, wrong = 0, 0
    for folder in sys.argv[1:] or [ROOT / "examples" / "net"]:
        for path in sorted(pathlib.Path(folder).glob("*.json")):
            status = status_of(path)
            try:
                fault = next(iter(validator.iter_errors(json.loads(path.read_text()))), None)
            except ValueError:
                fault = "no JSON"
            told = path.with_suffix(".out")
            if status == 1 and told.exists() and "BadSetup" in told.read_text():
                continue
            seen += 1
            if (fault is None) != (status != 3):
                wrong += 1
                print(f"schema: {path.name} ends with status {status}, and {'is of the schema' if fault is None else fault}")
    print(f"schema: {seen} inputs, {wrong} told otherwise")
    return bool(wrong)


if __name__ == "__main__":
    sys.exit(main())
