"""Sees that each command of the README is a case, with the same words and text: readme_cases.py ROOT."""
import pathlib
import re
import sys

root = pathlib.Path(sys.argv[1])


def cases():
    """The words and the lines of the text of each question in the data of vpf_cases."""
    found = []
    for path in sorted((root / "crates/vpf_cases/data").glob("*.txt")):
        words = lines = None
        for line in path.read_text().splitlines():
            if line.startswith("> "):
                words = line[2:].split()
            elif line.startswith("= ") and words is not None:
                lines = [line.split(" ", 2)[2]] if line.count(" ") > 1 else []
                found.append((words, lines))
            elif line.startswith("| ") and lines is not None:
                lines.append(line[2:])
            elif not line:
                words = lines = None
    return found


def asked(page):
    """The words after `vpf`, what of the text is kept, and the lines that follow it on the page."""
    lines = [line[4:] if line.startswith("    ") else None for line in page.splitlines()]
    for at, line in enumerate(lines):
        if line is None or not line.startswith("$ vpf "):
            continue
        command, _, kept = line[6:].partition(" | ")
        answer = []
        for told in lines[at + 1 :]:
            if told is None or told.startswith("$ "):
                break
            answer.append(told)
        yield command.split(), kept, answer


def keep(lines, kept):
    """The lines that `head -n K` or `tail -n K` keeps; all where nothing is asked."""
    cut = re.fullmatch(r"(head|tail) -n (\d+)", kept)
    if not cut:
        return lines
    count = int(cut[2])
    return lines[:count] if cut[1] == "head" else lines[-count:]


known = cases()
lacks = [
    " ".join(words)
    for words, kept, answer in asked((root / "README.md").read_text())
    if not any(words == others and keep(text, kept) == answer for others, text in known)
]
for words in lacks:
    print(f"no case says what the README says of: vpf {words}", file=sys.stderr)
if lacks:
    sys.exit(1)
print("each command of the README is a case")
