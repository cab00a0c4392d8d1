#!/usr/bin/env python3
"""Writes crates/model/proofs/Checked/Compute.antt: one name that opens every shut definition of crate model. Run it at the repository's root."""
import re
from pathlib import Path

specs = Path("crates/model/specs")
modules = re.findall(r"^pub mod (\w+)", (specs / "Lib.antt").read_text(), re.M)
lines = ["-- To compute with the definitions, name `computing` on an `unfolding` line. Written by tools/gen_compute.py."]
lines.append("use mathlib.Core.List.{flat_map}")
names = ["flat_map"]
for module in modules:
    shut = re.findall(r"^unfoldable pub (\S+) :", (specs / f"{module}.antt").read_text(), re.M)
    if shut:
        lines.append(f"use Rattle.model.specs.{module}." + "{" + ", ".join(shut) + "}")
        names += shut
assert len(set(names)) == len(names)
lines += ["", "unfoldable pub computing : Unit {0}", "unfolding " + " ".join(names), "computing = tt", ""]
Path("crates/model/proofs/Checked/Compute.antt").write_text("\n".join(lines))
