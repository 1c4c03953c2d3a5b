"""Sees that the pages of docs/ name what is there, and that specs/ is laid out as they say, and tells what is lacking: pages.py, at the root of the clone.

DEFINITIONS: each word stands in a module of `specs/` that is named beside it. What the contract of `run` reaches, definition by definition, are exactly the modules outside of the folders `Inner`, lists of modules
apart; how many it reached is printed. Its table of clauses has the definitions that each comes to. No name has two definitions in `specs/`. No file names lemmas of another crate's `proofs/`, but for those of vpf_base. ARCHITECTURE: each crate stands in one layer and in one
family, above none that it names, and has a row with the crates right below it. Each crate has a README. REFUSALS: each code of FORMAT, each rule of AGREEMENT, and each refusal and bound of COMMANDS, has a row.
HEADLINE and CALLING: what is quoted is the source's. README: at most 130 lines, of at most 100 characters but for rows of tables. No sentence has more than 50 words. Links of the READMEs and of docs/ lead to files
and headings that are there."""
import functools
import pathlib
import re
import sys

lacks = []


def page(name):
    return pathlib.Path("docs", name).read_text()


def rows(text):
    """The rows of the tables of a page, cell by cell."""
    lines = [line for line in text.splitlines() if line.startswith("|")]
    return [[cell.strip() for cell in line.strip("|").split("|")] for line in lines]


def ticked(text):
    return re.findall(r"`([^`]+)`", text)


def modules_named(cell):
    """The modules that a cell names: a crate, and behind it modules in ticks."""
    return [(crate, module) for crate, rest in re.findall(r"(vpf\w*)(.*?)(?=vpf_|vpf `|$)", cell) for module in ticked(rest) if module[0].isupper()]


below = {}
for line in pathlib.Path("crates.txt").read_text().splitlines():
    if ":" in line and not line.startswith("#"):
        crate, names = line.split(":")
        below[crate] = names.split()


def module_of(path):
    """The name of a module of `specs/` below its crate: `Tilings.Cutting` stands in the folder Tilings."""
    return ".".join(path.with_suffix("").parts[3:])


modules = {(path.parts[1], module_of(path)): path.read_text() for path in pathlib.Path().glob("crates/*/specs/**/*.antt")}
USE = re.compile(r"^(?:ghost )?use Rattle\.(vpf\w*)\.specs\.([\w.]+)\.\{([^}]*)\}", re.M)
CALLED = re.compile(r"^use Rattle\.(vpf\w*)\.specs\.([\w.]+) as (\w+)", re.M)
PASSED = re.compile(r"^pub use Rattle\.(vpf\w*)\.specs\.([\w.]+)(?: as (\w+))?$", re.M)
HEAD = re.compile(r"(?:(?:abbrev|unfoldable|pub|record|data) )*([^\s:()]+)")


# what a crate passes on of a lower one, by the name under which the crates above take it
passed = {(at, name or module.split(".")[-1]): (crate, module) for (at, root), text in modules.items() if root == "Lib" for crate, module, name in PASSED.findall(text)}


def home(crate, module):
    """Where the text of a module stands that is taken from this crate, which may pass it on."""
    key = (crate, module)
    while key in passed:
        key = passed[key]
    return key


def imports(text):
    """Where each name comes from that a module, or the code, takes from another module."""
    return {name.strip(" ◌"): home(crate, module) for crate, module, names in USE.findall(text) for name in names.split(",") if home(crate, module) in modules}


def definitions(text):
    """What a module defines: a name, and its lines up to the next name."""
    found, name = {}, None
    for line in re.sub(r"--.*", "", text).splitlines():
        head = HEAD.match(line)
        if head and not line.startswith("use "):
            name = head[1].strip("◌")
        if name:
            found[name] = found.get(name, "") + line + "\n"
    return found


taken = {key: imports(text) for key, text in modules.items()}
called = {key: {name: home(crate, module) for crate, module, name in CALLED.findall(text) if home(crate, module) in modules}
          for key, text in modules.items()}
defined = {key: definitions(text) for key, text in modules.items()}


RUN = pathlib.Path("crates/vpf_run/src/running.rt").read_text()
WORD = re.compile(r"(?:(\w+)\.)?([^\s(){}\[\],.;:→λ×]+)")


def closed(todo):
    """The definitions that some come to, each in its module, themselves among them."""
    seen = set()
    while todo:
        key, name = todo.pop()
        if (key, name) in seen:
            continue
        seen.add((key, name))
        for alias, word in set(WORD.findall(defined[key].get(name, ""))):
            if alias in called[key]:
                todo.append((called[key][alias], word))
            elif word in defined[key]:
                todo.append((key, word))
            elif word in taken[key]:
                todo.append((taken[key][word], word))
    return {(key, name) for key, name in seen if name in defined[key]}


@functools.cache
def reached():
    """The definitions that the contract of `run` comes to."""
    return closed([(key, name) for name, key in imports(RUN).items()])


def clauses():
    """The clauses of `run`, by their names."""
    contract = RUN[RUN.index("pub fn run<"):]
    found = {}
    for head in re.finditer(r"^    ensures (\w+) \{", contract[: contract.index("\n{\n")], re.M):
        at, depth = head.end(), 1
        while depth:
            depth += {"{": 1, "}": -1}.get(contract[at], 0)
            at += 1
        found[head[1]] = contract[head.end() : at - 1]
    return found


def is_reading(key, name):
    """Whether a definition says how files are read, and not what they hold: its name begins with `read_`, or it stands in a module on reading."""
    return name.startswith("read_") or key[1].split(".")[-1] in ("Reading", "Opening", "Walking", "Loading")


def see_clauses():
    """The table of DEFINITIONS: of each clause of `run` how many definitions its words come to, and how many of these read."""
    taken_by_run = imports(RUN)
    wanted = []
    for clause, text in clauses().items():
        words = closed([(taken_by_run[word], word) for _, word in WORD.findall(text) if word in taken_by_run])
        if words:
            wanted.append([f"`{clause}`", str(len(words)), str(sum(is_reading(*word) for word in words))])
    told = [cells for cells in rows(page("DEFINITIONS.md")) if len(cells) == 3 and cells[1].isdigit() and cells[2].isdigit()]
    if told != wanted:
        lacks.append("DEFINITIONS counts otherwise than the clauses of `run`:\n" + "\n".join(f"| {' | '.join(cells)} |" for cells in wanted))


def is_list(text):
    """Whether a module has no definition, and only lists others or passes them on."""
    return not re.search(r"^(?!--|pub mod |pub use )\S", text, re.M)


def see_inner():
    found = reached()
    read = {key for key, _ in found}
    outside = {key for key, text in modules.items() if not is_list(text) and "Inner" not in key[1].split(".")}
    lacks.extend(f"{crate} {module} stands outside of Inner, and `run` doesn't reach it" for crate, module in sorted(outside - read))
    lacks.extend(f"{crate} {module} stands in Inner, and `run` reaches it" for crate, module in sorted(read - outside))
    if not found:
        lacks.append("the contract of `run` reaches no definition")
    return f"the contract of `run` reaches {len(found)} definitions in {len(read)} modules"


def see_names():
    meant = {}
    for key, text in modules.items():
        heads = re.findall(r"^(?:pub )?(?:unfoldable |abbrev )?(?:pub )?(?:lemma )?([A-Za-z_◌][\w\-◌|&=<>+*/%^]*) : .", text, re.M)
        for name in heads + re.findall(r"^pub (?:record|data) ([A-Z]\w*)", text, re.M):
            meant.setdefault(name, set()).add(" ".join(key))
    lacks.extend(f"{name} is defined in {', '.join(sorted(places))}" for name, places in sorted(meant.items()) if len(places) > 1)


def see_proofs():
    for folder in ("src", "specs", "proofs"):
        for path in sorted(it for end in ("rt", "antt") for it in pathlib.Path().glob(f"crates/*/{folder}/**/*.{end}")):
            named = set(re.findall(r"\b(vpf\w*)(?:\.|::)proofs(?:\.|::)", path.read_text())) - {path.parts[1], "vpf_base"}
            lacks.extend(f"{path} names lemmas of {crate}" for crate in sorted(named))


def see_definitions():
    for cells in rows(page("DEFINITIONS.md")):
        named = modules_named(cells[-1])
        lacks.extend(f"DEFINITIONS names {crate} {module}, which isn't there" for crate, module in named if (crate, module) not in modules)
        text = "\n".join(modules.get(key, "") for key in named)
        lacks.extend(f"DEFINITIONS: {word} isn't in {named}" for words in ticked(cells[1]) for word in re.findall(r"[A-Za-z_]\w*", words) if named and not re.search(rf"\b{word}\b", text))


@functools.cache
def all_below(crate):
    return {it for name in below.get(crate, ()) for it in {name} | all_below(name)}


def see_places(what, lines):
    """Sees that each crate stands in a line of a picture, and names none of a line above it."""
    place = {crate: k for k, line in enumerate(lines) for crate in line}
    twice = {crate for k, line in enumerate(lines) for crate in line if place[crate] != k}
    lacks.extend(f"ARCHITECTURE: the {what} of {crate}" for crate, names in below.items()
                 if crate in twice or any(place.get(it, len(lines)) < place.get(crate, -1) for it in names) or crate not in place)


def see_architecture():
    text = page("ARCHITECTURE.md")
    see_places("layer", [line.split()[1:] for line in re.findall(r"^    (?:commands|libraries|topology|tables|bytes) .*$", text, re.M)])
    see_places("family", [re.findall(r"\bvpf\w*", line) for line in re.findall(r"^    [1-9] \w+ .*$", text, re.M)])
    says = {name: cells[2] for cells in rows(text) if len(cells) == 3 for name in re.findall(r"vpf\w*", cells[0])}
    for crate, names in below.items():
        right_below = {name for name in names if not name.startswith("vpf") or not any(name in all_below(other) for other in names)}
        if set(re.findall(r"\w+", says.get(crate, "no row"))) != right_below:
            lacks.append(f"ARCHITECTURE: {crate} stands on {sorted(right_below)}")


def see_readmes():
    for crate in below:
        readme = pathlib.Path("crates", crate, "README.md")
        if not readme.exists() or not readme.read_text().startswith(f"# {crate}\n"):
            lacks.append(f"{crate} has no README that begins with its name")


def see_refusals():
    told, asked = page("REFUSALS.md"), page("COMMANDS.md")
    for code in re.findall(r"^\| `([a-z-]+)` \|", page("FORMAT.md"), re.M):
        row = f"`limit {code[6:]} " if code.startswith("limit-") else f"`{code}`"
        if row not in told:
            lacks.append(f"REFUSALS: no row of {code}")
    rules = told.partition("| Rule |")[2]
    lacks.extend(f"REFUSALS: no row of rule {k}" for k in sorted(set(re.findall(r"^\| ([1-8]) \|", page("AGREEMENT.md"), re.M))) if f"\n| {k} |" not in rules)
    lacks.extend(f"REFUSALS: no row of {line}" for line in sorted(set(re.findall(r"`((?:refused|limit) [a-z-]+) ", asked))) if f"`{line} " not in told)


def anchor(heading):
    """What a link to a heading ends in."""
    return re.sub(r"[^\w\- ]", "", heading.replace("`", "").lower()).replace(" ", "-")


def see_links():
    for path in [pathlib.Path("README.md"), *sorted(pathlib.Path("docs").glob("*.md")), pathlib.Path("examples/README.md"), *sorted(pathlib.Path("crates").glob("*/README.md"))]:
        for link in re.findall(r"\]\(([^)\s]+)\)", path.read_text()):
            name, _, heading = link.partition("#")
            target = path.parent / name if name else path
            if link.startswith("http"):
                continue
            if not target.exists():
                lacks.append(f"{path}: {link} leads nowhere")
            elif heading and heading not in {anchor(it) for it in re.findall(r"^#+ (.*)$", target.read_text(), re.M)}:
                lacks.append(f"{path}: {link} names no heading")


def quoted(text):
    """The indented blocks of a page, without their indentation."""
    return [re.sub(r"^    ", "", block, flags=re.M).strip("\n") for block in re.findall(r"(?:^(?:    .*)?\n)+", text, re.M) if block.strip()]


def see_quotes():
    plain = lambda text: " ".join(re.sub(r"^\s*//(?!/).*$", "", text, flags=re.M).split())
    for name, folder, starts in (("HEADLINE.md", "vpf_run", ("ensures",)), ("CALLING.md", "vpf_calling", ("pub fn", "fn", "///")), ("../README.md", "vpf_calling", ("fn",))):
        sources = [plain(path.read_text()) for path in pathlib.Path("crates", folder, "src").glob("*.rt")]
        blocks = [block for block in quoted(page(name)) if block.startswith(starts)]
        lacks.extend(f"{name}: {block.splitlines()[0]} .. isn't so in the source" for block in blocks if not any(plain(block) in source for source in sources))
        if not blocks:
            lacks.append(f"{name} quotes nothing")


def sentences(text):
    """The sentences of a page: those of its paragraphs, of the items of its lists and of the cells of its tables."""
    text = re.sub(r"```.*?```", "", text, flags=re.S)
    parts, block = [], []
    for line in text.splitlines() + [""]:
        if not line.strip() or line.startswith(("#", "    ", "!", "|")) or re.match(r"\s*([-*]|\d+\.) ", line):
            parts.append(" ".join(block))
            block = [line] if re.match(r"\s*([-*]|\d+\.) ", line) else []
            parts.extend(line.split("|") if line.startswith("|") else [])
        else:
            block.append(line)
    return [it for part in parts for it in re.split(r"(?<=[.?!:])\s+(?=[A-Z`\[(])", part)]


def see_sentences():
    for path in [pathlib.Path("README.md"), pathlib.Path("CONTRIBUTING.md"), *sorted(pathlib.Path("docs").glob("*.md"))]:
        for it in sentences(path.read_text()):
            if len(it.split()) > 50:
                lacks.append(f"{path}: {len(it.split())} words: {' '.join(it.split()[:8])} ..")


def see_front():
    lines = pathlib.Path("README.md").read_text().splitlines()
    lacks.extend(f"README: line {k} is too long" for k, line in enumerate(lines, 1) if len(line) > 100 and not line.startswith("|"))
    if len(lines) > 130:
        lacks.append(f"README has {len(lines)} lines")


told = see_inner()
see_names()
see_clauses()
see_proofs()
see_definitions()
see_architecture()
see_quotes()
see_sentences()
see_front()
see_readmes()
see_refusals()
see_links()
print(told)
print("\n".join(lacks) or "the pages name what is there")
sys.exit(bool(lacks))
