"""The contracts of the sources: the functions of a crate with their clauses, and its types and traits with what is said of them in
proofs, with files and lines. Files are read line by line, as `rt fmt` lays them out."""
import functools
import glob
import os
import re

from crates_txt import ROOT, read_listed

NO_PRODUCT = re.compile(r"rbc_(\w+_)?examples|rbc_test_levels")  # worked examples and tests
BLOCK = re.compile(r"(?:pub(?:\(crate\))? )?(impl|trait|struct|enum)\b(.*)")
FUNCTION = re.compile(r"( *)(pub )?(?:pub\(crate\) )?(?:const )?fn (\w+)")
CLAUSE = re.compile(r" +(requires|ensures)(?: (\w+))? \{")
SIZE = re.compile(r"const _: \(\) = prove!\(size_of::<(\w+)>")
GHOST = re.compile(r"    (?:pub(?:\(crate\))? )?ghost (?!use\b)(\w+)")


class Clause:
    """A clause of a function, what is said in proofs of a type or trait, or a proof of a type's size."""

    def __init__(self, kind, name, path, line):
        self.kind, self.name, self.path, self.line = kind, name, path, line
        self.text = ""


class Item:
    """A function; or, with the empty name, a type or trait, or an impl of one."""

    def __init__(self, crate, block, name, is_open, path, line):
        self.crate, self.name, self.path, self.line = crate, name, path, line
        self.kind, self.owner, self.trait = block
        self.is_open = is_open or self.trait is not None or self.kind == "trait"
        self.is_public = False
        self.clauses = []

    def called(self):
        return "::".join(part for part in (self.owner, self.name) if part)

    def promised(self):
        """What a function ensures."""
        return [clause for clause in self.clauses if clause.kind == "ensures"]


def product_crates():
    """The crates of the product, lowest first: all but those for tests alone."""
    return [crate for crate in read_listed() if not NO_PRODUCT.fullmatch(crate)]


def without_bounds(text):
    """A text without what stands at its start between < and >."""
    depth = 0
    for at, letter in enumerate(text):
        depth += (letter == "<") - (letter == ">" and text[at - 1] != "-")
        if depth == 0:
            return text[at + (letter == ">"):].lstrip()
    return text


def read_block(kind, head):
    """What a block is of: its kind, its type or trait, and the trait that it is an impl of, if it is of one."""
    head = re.split(r" for (?!<)", without_bounds(head.strip()))
    names = [re.match(r"(?:&(?:'\w+ )?(?:mut )?)?(?:\w+::)*(\w+)", part.strip()) for part in head]
    names = [found[1] for found in names if found]
    return kind, names[-1] if names else None, names[0] if len(names) > 1 else None


class Reader:
    """Reads the items of a file, line by line."""

    def __init__(self, crate, path):
        self.crate, self.path = crate, path
        self.items = []
        self.block = (None, None, None)
        self.function = self.of_block = self.clause = None

    def read(self, number, line):
        begun, found, size = BLOCK.match(line), FUNCTION.match(line), SIZE.match(line)
        if size:
            self.block = ("const", size[1], None)
            self.begin("", False, number).clauses.append(Clause("size", "size_of", self.path, number))
            self.block = (None, None, None)
        if begun:
            self.block = read_block(*begun.groups())
            self.of_block = self.begin("", bool(line.startswith("pub ")), number)
            self.function = self.clause = None
        elif found and len(found[1]) == (4 if self.block[0] else 0):
            self.function = self.begin(found[3], bool(found[2]), number)
            self.clause = None
        self.read_clause(number, line)
        if line in ("}", "{}"):
            self.block = (None, None, None)
            self.of_block = None

    def begin(self, name, is_open, number):
        self.items.append(Item(self.crate, self.block, name, is_open, self.path, number))
        return self.items[-1]

    def read_clause(self, number, line):
        """Reads what a line has of the clauses of the function that is begun, or of its block."""
        found, ghost = CLAUSE.match(line), GHOST.match(line)
        if self.function and found:
            self.clause = Clause(found[1], found[2] or "", self.path, number)
            self.function.clauses.append(self.clause)
        elif not self.function and self.of_block and ghost:
            self.clause = Clause("ghost", ghost[1], self.path, number)
            self.of_block.clauses.append(self.clause)
        elif line.strip() == "" or line.lstrip().startswith("//"):
            self.clause = None
        elif line.strip() in ("{", "{}") or line.endswith(("{", "{}", ";")) and not self.clause:
            self.function = self.clause = None
        if self.clause:
            self.clause.text += line + "\n"
        if line.endswith("};"):
            self.function = self.clause = None


def handed_out(crate):
    """The names that a crate's src/lib.rt hands out, and the modules that it hands out whole."""
    path = f"{ROOT}/crates/{crate}/src/lib.rt"
    if not os.path.exists(path):
        return set(), set()
    with open(path, encoding="utf-8") as file:
        text = file.read()
    names = set(re.findall(r"^pub (?:fn|struct|enum|trait) (\w+)", text, re.M))
    for used in re.findall(r"^pub use ([^;]*);", text, re.M):
        names.update(re.findall(r"\w+", used.partition("{")[2] or used.rpartition("::")[2]))
    return names, set(re.findall(r"^pub mod (\w+);", text, re.M))


@functools.cache
def items_of(crate):
    """The items of a crate. Public are the functions that it hands out, by themselves or with their type or trait."""
    names, modules = handed_out(crate)
    items = []
    for path in sorted(glob.glob(f"crates/{crate}/src/**/*.rt", root_dir=ROOT, recursive=True)):
        reader = Reader(crate, path)
        with open(f"{ROOT}/{path}", encoding="utf-8") as file:
            for number, line in enumerate(file, 1):
                reader.read(number, line.rstrip("\n"))
        for item in reader.items:
            item.is_public = item.is_open and ((item.owner or item.name) in names or os.path.basename(path)[:-3] in modules)
        items += reader.items
    return items


def public_functions(crate):
    return [item for item in items_of(crate) if item.name and item.is_public]
