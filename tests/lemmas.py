"""Lemmas that nothing names: the prover's steps use lemmas by name alone, so such a lemma proves nothing that is claimed."""
import glob
import itertools
import os
import re
from collections import Counter, defaultdict

BEGINS = re.compile(r"( *)(?:abbrev )?(?:pub )?([^\s(){}:◌]+) : ")
WORDS = re.compile(r"[^\s(){}\[\],;.:\"`]+")
IMPORT = re.compile(r"\b(pub )?(?:ghost )?use Rattle\.([\w.]*\w)(?:\.\{(.*)\}| as \w+);?$", re.M)


def words_of(text):
    """How often a text has each word, but for its imports; `-` and `_` are one, since code writes `_` for both."""
    return Counter(word.replace("-", "_") for word in WORDS.findall(IMPORT.sub("", text)))


def own_lines(lines, depth, name):
    """The lines that belong to what the first of them begins: its type, and the equations that begin with its name."""
    def belongs(line):
        set_in = len(line) - len(line.lstrip())
        return not line or set_in > depth or set_in == depth and re.match(rf"({re.escape(name)}(\s|$)|unfolding |[}}\])])", line.lstrip())

    return [lines[0], *itertools.takewhile(belongs, lines[1:])]


def lemmas_of(text):
    """The lemmas of a proof file, each with the words of its own lines. The fields of records are none."""
    lines, lemmas, record = text.splitlines(), {}, None
    for at, line in enumerate(lines):
        depth = len(line) - len(line.lstrip())
        if line and record is not None and depth <= record:
            record = None
        begun = BEGINS.match(line)
        if re.match(r" *(pub )?(record|data) ", line):
            record = depth
        elif begun and record is None:
            lemmas[begun[2]] = words_of("\n".join(own_lines(lines[at:], depth, begun[2])))
    return lemmas


def read_texts(root):
    """The texts that may name a lemma, without comments, by path."""
    texts = {}
    for pattern in ("crates/*/**/*.antt", "crates/*/**/*.rt", "crates/*/must-fail/*.edit", "tests/wrong/*/*.edit"):
        for path in glob.glob(f"{root}/{pattern}", recursive=True):
            if "/out/" not in path:
                with open(path, encoding="utf-8") as file:
                    texts[path] = re.sub(r"( |^)--( .*|$)", "", file.read(), flags=re.M)
    return texts


def used_from(text, words):
    """The names that a text uses or passes on from other files, each behind its file; and the files that it imports whole."""
    names, whole = set(), set()
    for passed_on, path, listed in IMPORT.findall(text):
        file = path.rpartition(".")[2]
        if not listed:
            whole.add(file)
        for name, _, renamed in (item.strip().partition(" as ") for item in listed.split(",")):
            if passed_on or words[(renamed or name).replace("-", "_")]:
                names.add((file, name.replace("-", "_")))
    return names, whole


def named_nowhere(root, passed_over):
    """The lemmas that no other lemma, answer, invariant, tactic of the code or page names, but for those of the crates passed over."""
    texts = read_texts(root)
    words = {path: words_of(text) for path, text in texts.items()}
    used, whole = set(), defaultdict(list)
    for path, text in texts.items():
        names, files = used_from(text, words[path])
        used |= names
        used |= {(file, name) for file, name in re.findall(r"(\w+)::(\w+)", text)}
        for file in files:
            whole[file].append(words[path])
    pages = "".join(open(path, encoding="utf-8").read() for path in glob.glob(f"{root}/docs/*.md"))
    told = set(re.findall(r"`([\w-]+)`", pages))
    breaches = []
    for path, text in texts.items():
        file = os.path.basename(path)[:-len(".antt")]
        if not path.endswith("Lemmas.antt") or path.split("/")[-3] in passed_over:
            continue
        for name, own in lemmas_of(text).items():
            word = name.replace("-", "_")
            if words[path][word] == own[word] and name not in told and (file, word) not in used \
                    and not any(others[word] for others in whole[file]):
                breaches.append(f"{os.path.relpath(path, root)}: nothing names {name}")
    return breaches
