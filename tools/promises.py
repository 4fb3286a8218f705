"""The rows of docs/promises.md, and what they name: functions with clauses, edits, tests."""
import glob
import os
import re

from contracts import items_of, product_crates, public_functions
from crates_txt import ROOT, read_listed

PAGE = "docs/promises.md"
LIMITS = "docs/limits.md"
MOST_WORDS = 25
IDENTIFIER = re.compile(r"[PTN]-[A-Z]+-\d+")
HEADING = re.compile(r"## .*: ([A-Z]+) \((.*)\)")
NAMED = re.compile(r"`([\w:*]+)`(?: \(((?:`\w+`(?:, )?)+)\))?")


class Row:
    """A row of the page: a promise (P), what is tested only (T), or what is not claimed (N)."""

    def __init__(self, line, crates, cells):
        self.line, self.crates = line, crates
        self.name, self.says, *self.cells = cells
        self.clauses = []  # each with the function, type or trait that it is of
        self.edits = []
        self.tests = []  # of crates

    def kind(self):
        return self.name[0]


def read_rows(faults):
    """The rows of the page, in order. Adds to the faults what is no row, or no identifier of its section."""
    rows, group, crates, expected = [], None, [], {}
    with open(f"{ROOT}/{PAGE}", encoding="utf-8") as file:
        for number, line in enumerate(file, 1):
            line = line.rstrip("\n")
            heading = HEADING.fullmatch(line)
            if heading:
                group, crates = heading[1], re.findall(r"`(\w+)`", heading[2])
            if not line.startswith("|") or line.startswith(("| Id |", "|---")):
                continue
            row = Row(number, crates, [cell.strip() for cell in line[1:-1].split("|")])
            if not re.fullmatch(rf"[PTN]-{group}-\d+", row.name) or row.name in expected:
                faults.append(f"{PAGE}:{number}: {row.name} is no identifier of {group} that stands once")
            if len(row.says.split()) > MOST_WORDS:
                faults.append(f"{PAGE}:{number}: {row.name} has {len(row.says.split())} words, of at most {MOST_WORDS}")
            if len(row.cells) != (2 if row.kind() == "P" else 1):
                faults.append(f"{PAGE}:{number}: {row.name} has {len(row.cells) + 2} cells")
                row.cells = [*row.cells, "", ""][:2]
            expected[row.name] = row
            rows.append(row)
    return rows


def named_items(name, crates):
    """What a name of the page is: functions, the calls of a type or trait (`Type::*`), or what is said of a type in proofs."""
    parts = name.split("::")
    if parts[0] in read_listed():
        crates, parts = [parts[0]], parts[1:]
    items = [item for crate in crates for item in items_of(crate)]
    if parts[-1] == "*":
        return [item for item in items if item.name and item.is_public and item.promised() and item.owner == parts[0]]
    if len(parts) == 2:
        return [item for item in items if item.name == parts[1] and parts[0] in (item.owner, item.trait)]
    functions = [item for item in items if item.name == parts[0] and not item.owner]
    return functions or [item for item in items if not item.name and parts[0] in (item.owner, item.trait)]


def named_clauses(items, names):
    """The clauses of these items that have one of the names, or all that a promise can mean; and the names that none has."""
    if names:
        found = [(item, clause) for item in items for clause in item.clauses if clause.name in names]
        return found, set(names) - {clause.name for _, clause in found}
    return [(item, clause) for item in items for clause in (item.promised() if item.name else item.clauses)], set()


def resolve_contract(row, faults):
    """Finds the clauses that a promise names."""
    where = f"{PAGE}:{row.line}: {row.name}"
    if ", ".join(found[0] for found in NAMED.finditer(row.cells[0])) != row.cells[0]:
        faults.append(f"{where}: the contract is not written as functions with clauses in parentheses")
    for name, listed in NAMED.findall(row.cells[0]):
        found, lacking = named_clauses(named_items(name, row.crates), re.findall(r"\w+", listed))
        faults += [f"{where}: there is no clause {clause} of {name} in {', '.join(row.crates)}" for clause in sorted(lacking)]
        if not found and not lacking:
            faults.append(f"{where}: there is no {name} with a clause in {', '.join(row.crates)}")
        row.clauses += found
    if not row.clauses:
        faults.append(f"{where}: no clause carries it")


def edit_files():
    """All edits, by their names."""
    paths = [path for pattern in ("crates/*/must-fail/*.edit", "tests/wrong/*/*.edit") for path in glob.glob(pattern, root_dir=ROOT)]
    return {os.path.basename(path)[:-len(".edit")]: path for path in sorted(paths)}


def resolve_edits(row, edits, faults):
    for name in re.findall(r"`([^`]*)`", row.cells[1]):
        if name in edits:
            row.edits.append(edits[name])
        else:
            faults.append(f"{PAGE}:{row.line}: {row.name}: there is no edit {name}")


def cited_in(path):
    """The identifiers that a file cites, with their lines."""
    with open(f"{ROOT}/{path}", encoding="utf-8", errors="replace") as file:
        return [(name, number) for number, line in enumerate(file, 1) for name in IDENTIFIER.findall(line)]


def tests_citing():
    """Of each identifier, where tests cite it."""
    cited = {}
    for path in sorted(glob.glob("tests/*", root_dir=ROOT) + glob.glob("tests/cases/*", root_dir=ROOT)):
        if os.path.isfile(f"{ROOT}/{path}"):
            for name, line in cited_in(path):
                cited.setdefault(name, []).append((path, line))
    return cited


def wrong_in_the_edits(rows, edits):
    """Each edit cites the promises of whose rows it is one, in lines of its own, and stands in one row at least."""
    breaches = []
    for name, path in edits.items():
        listed, cited = [row.name for row in rows if path in row.edits], [found for found, _ in cited_in(path)]
        if not listed:
            breaches.append(f"{path}: no promise names the edit")
        elif sorted(cited) != sorted(listed):
            breaches.append(f"{path}: it cites {', '.join(cited) or 'nothing'}, and stands at {', '.join(listed)}: tools/trace --cite")
    return breaches


def resolve_tests(row, faults):
    """Finds the tests of crates that a row of what is tested only names."""
    for crate, name in re.findall(r"`(rbc_\w+)::(\w+)`", row.cells[0]):
        found = [item for item in items_of(crate) if item.name == name]
        row.tests += found
        if not found:
            faults.append(f"{PAGE}:{row.line}: {row.name}: there is no test {name} in {crate}")


def wrong_in_the_tests(rows, cited):
    """What is tested only names tests, each of which cites it if it is a script; no test cites what the page has not."""
    breaches = [f"{path}:{line}: there is no {name} in {PAGE}" for name, places in cited.items() for path, line in places
                if name not in {row.name for row in rows}]
    for row in rows:
        if row.kind() != "T":
            continue
        named = re.findall(r"`([^`]*)`", row.cells[0])
        if not named:
            breaches.append(f"{PAGE}:{row.line}: {row.name} names no test")
        for path in [word for word in named if word.startswith("tests/")]:
            if path not in [place for place, _ in cited.get(row.name, [])]:
                breaches.append(f"{PAGE}:{row.line}: {path} does not cite {row.name}")
    return breaches


def cited_in_vain(rows):
    """What other pages cite that the page has not."""
    pages = ["README.md", "CONTRIBUTING.md", *sorted(glob.glob("docs/*.md", root_dir=ROOT))]
    return [f"{path}:{line}: there is no {name} in {PAGE}" for path in pages if path != PAGE
            for name, line in cited_in(path) if name not in {row.name for row in rows}]


def wrong_in_the_limits(rows):
    """docs/limits.md tells of each test in which sections of the page rows of what is only tested name it. Cases are those of `tests/program`."""
    sections = {}
    for row in rows:
        for named in re.findall(r"`([^`]*)`", row.cells[0]) if row.kind() == "T" else []:
            test = "tests/program" if named.startswith("tests/cases/") else named.split("::")[0]
            sections.setdefault(test, set()).add(row.name.rpartition("-")[0])
    with open(f"{ROOT}/{LIMITS}", encoding="utf-8") as file:
        told = {test: listed for tests, listed in re.findall(r"^\| ((?:`[\w/]+`(?:, )?)+) \| .* \| (.*) \|$", file.read(), re.M)
                for test in re.findall(r"`([^`]*)`", tests)}
    return [f"{LIMITS}: {test} stands at {', '.join(sorted(names))}" for test, names in sections.items()
            if names - set(re.findall(r"T-[A-Z]+", told.get(test, "")))]


def promised_nowhere(rows):
    """The clauses of functions that crates of the product hand out, which stand under no promise."""
    covered = {(clause.path, clause.line) for row in rows for _, clause in row.clauses}
    return [f"{clause.path}:{clause.line}: no promise of {PAGE} has {crate}::{item.called()}" + (f" ({clause.name})" if clause.name else "")
            for crate in product_crates() for item in public_functions(crate) for clause in item.promised()
            if (clause.path, clause.line) not in covered]


def read_page():
    """The rows of the page with what they name, and each fault of it in a line."""
    faults, edits, cited = [], edit_files(), tests_citing()
    rows = read_rows(faults)
    for row in rows:
        if row.kind() == "P":
            resolve_contract(row, faults)
            resolve_edits(row, edits, faults)
        elif row.kind() == "T":
            resolve_tests(row, faults)
    faults += wrong_in_the_edits(rows, edits) + wrong_in_the_tests(rows, cited) + cited_in_vain(rows)
    return rows, cited, faults + wrong_in_the_limits(rows) + promised_nowhere(rows)
