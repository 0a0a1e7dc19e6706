#!/usr/bin/env python3
# The gate of document 01's part alone: copies the repository to a new folder DIR without the crates that only the orders of document 02 brought, and runs the gate there.
#     bench/base.py DIR
# What stays: the programs of document 01, the theory beside them, and every crate that one of these stands on. What these crates have learnt with the orders stays in them.
import re, shutil, subprocess, sys, time
from pathlib import Path

BASE = ["trial", "byvalue", "tried", "recount", "checker", "lister", "made", "refuted"]

root = Path(__file__).resolve().parent.parent
to = Path(sys.argv[1]).resolve()
shutil.copytree(root, to, ignore=shutil.ignore_patterns("target", ".git"))
lines = (to / "crates.txt").read_text().splitlines()
deps = {m[1]: m[2].split() for line in lines if (m := re.match(r"(\w+):(.*)", line))}
keep = set()
todo = list(BASE)
while todo:
    crate = todo.pop()
    if crate in deps and crate not in keep:
        keep.add(crate)
        todo += deps[crate]
for crate in deps:
    if crate not in keep:
        shutil.rmtree(to / "crates" / crate)
(to / "crates.txt").write_text("".join(line + "\n" for line in lines if not (m := re.match(r"(\w+):", line)) or m[1] in keep))
print("left out:", " ".join(crate for crate in deps if crate not in keep), flush=True)
start = time.time()
code = subprocess.run([str(to / ".ci" / "run")]).returncode
print(f"{time.time() - start:.0f} s")
sys.exit(code)
