"""What is written by hand and repeats what stands elsewhere: a sentence for each thing that does not agree."""

import re

from . import c
from .crossing import ROOT, text

RULES = "crates/rules/specs/Rules.antt"
LINES = "crates/lines/src/lib.rt"
# 01's words where docs/codes.txt has others.
WORDS_OF_01 = {5: "never given where a timestamp is needed"}


def functions(crossing):
    """The header has each function under a comment of its own."""
    wanted = [c.prototype(function) for function in crossing.functions]
    found = [" ".join(each.split()) for each in re.findall(r"^\w+ desk_\w+\([^;]*\);", text("include/desk.h"), re.M)]
    for each in wanted:
        if each not in found:
            yield f"include/desk.h has no '{each}', which crates/lent_c exports; write it there by hand, with its comment"
    for each in found:
        if each not in wanted:
            yield f"include/desk.h has '{each}', which crates/lent_c does not export; mend it there by hand"


def sentences(crossing):
    """Examples and tests show refusals as docs/codes.txt has them."""
    told = {code.number: f"{code.meaning}; {code.advice}" for code in crossing.refusals}
    compared = 0
    for path in [ROOT / "README.md", *sorted((ROOT / "hosts").glob("**/*.*"))]:
        if path.suffix not in (".md", ".out", ".c", ".rs", ".py"):
            continue
        for number, rest in re.findall(r"refused \((\d+)\): (\w.*)", text(path)):
            sentence, name = told.get(int(number), "no such code"), path.relative_to(ROOT)
            compared += 1
            if not rest.startswith(sentence):
                yield f"{name} has another sentence for code {number} than docs/codes.txt; mend it by hand to '{sentence}'"
    if not compared:
        yield "README.md and hosts/ show no refusal in a form that is read here, 'refused (CODE): SENTENCE'"


def words(crossing):
    """The rules have each refusal under its number and 01's words."""
    beside = dict(re.findall(r'^-- (\d+): "([^"]*)"', text(RULES), re.M))
    for code in crossing.refusals:
        meaning = WORDS_OF_01.get(code.number, code.meaning)
        if beside.get(str(code.number)) != meaning:
            yield f"{RULES} has no '-- {code.number}: \"{meaning}\"', as docs/codes.txt has it; mend the one that is not 01's"


def letters(crossing):
    """The README has a line for each letter, with as many numbers as the code reads."""
    code = text(LINES)
    most = re.search(r"const MOST_NUMBERS: usize = (\d);", code)
    read = dict.fromkeys(re.findall(r"b'(\w)' => Some\(Call::", code), "0")
    for arm, limits, number in re.findall(r"((?:b'\w'[ |]*)+)=> &(\[LARGEST_NUMBER(?:; (\d))?\]|WITH_TICKET)", code):
        read |= dict.fromkeys(re.findall(r"b'(\w)'", arm), number or (most[1] if limits == "WITH_TICKET" else "1"))
    told = {letter: str(len(numbers)) for letter, *numbers in map(str.split, lines_of("README.md"))}
    if not read:
        yield f"{LINES} has no letters in a form that is read here"
    if read != told:
        apart = sorted(letter for letter in read.keys() | told.keys() if read.get(letter) != told.get(letter))
        yield f"the table of lines in README.md and {LINES} differ in {', '.join(apart)}; mend README.md by hand"


def lines_of(path):
    """The lines of a session in a document's table, by their letters."""
    cells = " ".join(re.findall(r"^\| (`\w[ `].*?) \|", text(path), re.M))
    return sorted(re.findall(r"`([^`]*)`", cells))


def lines(crossing):
    """RULES has the lines that README has."""
    if lines_of("docs/RULES.md") != lines_of("README.md"):
        yield "docs/RULES.md has other lines of a session in its table than README.md; mend the wrong one by hand"


def limits(crossing):
    """README and RULES tell the limits of the desk."""
    for path in ("README.md", "docs/RULES.md"):
        for name, number in crossing.limits:
            wanted = f"{number} {name.lower()}" if number < 1000 else str(number)
            if not re.search(rf"\b{wanted}\b", text(path)):
                yield f"{path} does not tell '{wanted}', a limit of the desk; mend it by hand"


def paths(crossing):
    """The files and folders that README names are there: from the top, or in a crate, as 'specs/'. target/ is made later."""
    prose = re.sub(r"^```.*?^```$", "", text("README.md"), flags=re.M | re.S)
    quoted = re.findall(r"[\w.*-]+(?:/[\w.*-]+)*/?", " ".join(re.findall(r"`([^`\n]+)`", prose)))
    for name in sorted({*re.findall(r"\]\(([^)]+)\)", prose), *(name for name in quoted if "/" in name)}):
        path = name.removeprefix("./").rstrip("/")
        if not (path.startswith("target") or list(ROOT.glob(path)) or list(ROOT.glob(f"crates/*/{path}"))):
            yield f"README.md names {name}, and there is no such file or folder; mend README.md by hand"
