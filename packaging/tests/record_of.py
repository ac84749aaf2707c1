#!/usr/bin/env python3
"""Whether the record in a dist/ names each file there, what it is made of, and what was checked: `record_of.py DIST`,
as packaging/test calls it."""

import json
import subprocess
import sys
from pathlib import Path

dist = Path(sys.argv[1])
record = json.loads((dist / "build-record.json").read_text())
named = {it["name"]: it["digest"]["sha256"] for it in record["subject"]}
sums = dict(line.split()[::-1] for line in (dist / "SHA256SUMS").read_text().splitlines())
assert {**named, "build-record.json": sums["build-record.json"]} == sums, "other files than SHA256SUMS"
build = record["predicate"]["buildDefinition"]
materials = {it["name"]: it for it in build["resolvedDependencies"]}
assert len(materials["repository"]["digest"]["gitCommit"]) == 40
kit = subprocess.run(["rt", "version"], capture_output=True, text=True).stdout.strip()
assert materials["toolchain"]["annotations"]["rt version"] == kit
assert any(it.startswith("ARM64") for it in materials) == any("aarch64" in it for it in named)
checked = record["predicate"]["runDetails"]["byproducts"][0]["annotations"]["checks"]
assert {"gate", "embed", "server"} <= {it["check"] for it in checked}
