"""Writes the kit's name and the sum of its logic, as `rt version` prints them, where README.md, docs/GATE.md and docs/PROOFS.md name them: kit.py, at the root of the clone."""
import pathlib
import re
import subprocess

name, sum_of_logic = re.search(r"(rattle-kit-\w+) logic (\w+)", subprocess.run(["rt", "version"], capture_output=True, text=True, check=True).stdout).groups()
for page in map(pathlib.Path, ("README.md", "docs/GATE.md", "docs/PROOFS.md")):
    text = page.read_text()
    told = re.sub(r"\b[0-9a-f]{16}\b", sum_of_logic, re.sub(r"rattle-kit-\w+", name, text))
    if told != text:
        page.write_text(told)
        print(f"{page}: {name}")
