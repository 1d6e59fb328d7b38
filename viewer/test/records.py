#!/usr/bin/env python3
"""Makes the records of all inputs in examples/net of which there is one, as unproved/records/NAME.json, which the tests read."""
import pathlib
import sys

ROOT = pathlib.Path(__file__).resolve().parent.parent.parent
sys.path.insert(0, str(ROOT / "viewer"))
import record  # noqa: E402

TO = ROOT / "unproved" / "records"


def main():
    TO.mkdir(parents=True, exist_ok=True)
    count = 0
    for source in sorted((ROOT / "examples" / "net").glob("*.json")):
        made, _ = record.record_of(source.read_bytes())
        if made is not None:
            (TO / source.name).write_text(made)
            count += 1
    print(f"records: {count} in {TO.relative_to(ROOT)}/")


if __name__ == "__main__":
    main()
