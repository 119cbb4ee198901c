#!/usr/bin/env python3
"""Run once after tools/port_names.py: plain structs and enums are Copy, as every value was in the older Rattle, and each crate asks for tactics."""

import glob
import re

for path in sorted(glob.glob("crates/*/src/*.rt")):
    with open(path, encoding="utf-8") as f:
        text = f.read()
    new = text.replace("#[derive(Drop)]", "#[derive(Clone, Copy)]")
    if path.endswith(("/lib.rt", "/main.rt")) and "#![tactic(auto)]" not in new:
        lines = new.split("\n")
        at = next(i for i, l in enumerate(lines) if not l.startswith("//"))
        lines[at:at] = ["#![tactic(auto)]", ""]
        new = "\n".join(lines)
    if new != text:
        with open(path, "w", encoding="utf-8") as f:
            f.write(new)
