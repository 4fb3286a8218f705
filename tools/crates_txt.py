"""The crates of crates.txt, which stand on which, and trees of hard links in which some of them can be checked apart."""
import os
import shutil

ROOT = os.path.dirname(os.path.dirname(os.path.realpath(__file__)))
PARTS = ["src", "specs", "proofs"]


def read_listed():
    """The crates of crates.txt, lowest first, each with the libraries that it lists."""
    with open(f"{ROOT}/crates.txt") as file:
        lines = [line.split("#")[0].strip() for line in file]
    return {name.split()[0]: listed.split() for name, listed in (line.split(":") for line in lines if line)}


def read_crates():
    """The crates of crates.txt, lowest first, each with those of them that it lists."""
    listed = read_listed()
    return {name: [crate for crate in lower if crate in listed] for name, lower in listed.items()}


def with_those_below(top, crates):
    """The crates that a crate stands on and the crate itself, lowest first."""
    order = []

    def visit(name):
        if name not in order:
            for lower in crates[name]:
                visit(lower)
            order.append(name)

    visit(top)
    return order


def link_crate(name, room, parts):
    """Gives a tree these folders of a crate, as far as they are there, by hard links: rt replaces files, and changes none."""
    for part in parts:
        if os.path.isdir(f"{ROOT}/crates/{name}/{part}"):
            shutil.copytree(f"{ROOT}/crates/{name}/{part}", f"{room}/crates/{name}/{part}", copy_function=os.link)


def list_crates(names, room):
    """Gives a tree the lines of crates.txt that are of these crates."""
    with open(f"{ROOT}/crates.txt") as file, open(f"{room}/crates.txt", "w") as out:
        out.writelines(line for line in file if line.split(":")[0].split(" ")[0] in names)
