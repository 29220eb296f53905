#!/usr/bin/env python3
"""The source of the crates, before anything is proved: no line of src/ is over 140 characters, and no public function requires anything.

docs/TRUST.md tells a caller that a contract holds of every call. The prover does not see to that: a `requires` on a public function is
proved like any other. `pub(crate)` is not public. Usage: source.py, in the repository. Exit 1 where a place is wrong.
"""
import glob, re, sys

LONGEST = 140
FUNCTION = re.compile(r'^\s*(?P<seen>pub(?:\([^)]*\))? )?(?:extern "C" )?fn (?P<name>\w+)')

bad = functions = 0
for path in sorted(glob.glob("crates/*/src/**/*.rt", recursive=True)):
    public = None  # the public function whose head or body this line is in
    for at, line in enumerate(open(path, encoding="utf-8").read().split("\n"), 1):
        if len(line) > LONGEST:
            print(f"{path}:{at}: {len(line)} characters"); bad += 1
        if head := FUNCTION.match(line):
            public = head["name"] if head["seen"] == "pub " else None
            functions += public is not None
        elif public and re.match(r"\s*requires\b", line):
            print(f"{path}:{at}: the public function {public} requires something"); bad += 1
print(f"{functions} public functions, {bad} faults in src/")
sys.exit(bad > 0 or functions == 0)
