#!/usr/bin/env python3
"""Run once at the top of the repository before /opt/rattle/port/port.py.

port.py takes a tree for half turned where a proof file has a name of today's library as a word of its own, and then leaves out the steps for the
older spelling. Two proof files named an import after the function that they cite, `field_step` and `byte_step`: here the import gets another name.
"""

import re

for function in ("byte", "field"):
    path = f"crates/records/proofs/reader/{function}/Proof.antt"
    with open(path, encoding="utf-8") as f:
        text = f.read()
    name = f"{function}_step"
    text = text.replace(f"as {name}\n", f"as {function}Step-module\n")
    text = re.sub(rf"(?<![\w.·`]){name}\.(ended|clauses)", rf"{function}Step-module.\1", text)
    with open(path, "w", encoding="utf-8") as f:
        f.write(text)
    print(f"{path}: the import {name} is {function}Step-module")
