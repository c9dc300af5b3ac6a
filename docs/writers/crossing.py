"""All that crosses between a host and the desk, read from where it stands once."""

import re
from pathlib import Path
from typing import List, NamedTuple, Tuple

ROOT = Path(__file__).resolve().parents[2]
STATES = "crates/calls/src/states.rt"
ARRAY = re.compile(r"\[(.+); (.+)\]")
SLICE = re.compile(r"&(mut )?\[(\w+)\]")
REFERENCE = re.compile(r"&(mut )?(\w+)")
BYTES = {"u8": 1, "u16": 2, "u32": 4, "u64": 8}


class Wrong(Exception):
    """What does not agree, in a sentence."""


def text(path):
    if not (ROOT / path).is_file():
        raise Wrong(f"there is no file {path}")
    return (ROOT / path).read_text(encoding="utf-8")


def rows(path, columns):
    """The rows of a plain table; a line that begins with # is a comment."""
    lines = [line for line in text(path).splitlines() if line and not line.startswith("#")]
    parted = [[field.strip() for field in line.split("|")] for line in lines]
    for line, fields in zip(lines, parted):
        if len(fields) != columns:
            raise Wrong(f"{path} has {columns} columns, and {len(fields)} in the line '{line}'")
    if not parted:
        raise Wrong(f"{path} has no rows")
    return parted


class Code(NamedTuple):
    number: int
    constant: str
    meaning: str
    advice: str


class Field(NamedTuple):
    name: str
    kind: str
    offset: int
    size: int


class Struct(NamedTuple):
    name: str
    size: int
    alignment: int
    fields: List[Field]


class Function(NamedTuple):
    name: str
    parameters: Tuple[Tuple[str, str], ...]
    result: str

    def takes_slice(self):
        return any(SLICE.fullmatch(kind) for _, kind in self.parameters)


class Sources:
    """The code below crates/, with its constants and its names for types."""

    def __init__(self):
        paths = sorted((ROOT / "crates").glob("*/src/**/*.rt"))
        self.code = "\n".join(map(text, paths))
        self.constants = [constant for path in paths for constant in constants_of(path)]
        self.types = re.findall(r"^pub type (\w+) = (.+);$", self.code, re.M)

    def number(self, expression):
        """What stands in the code for a number: digits, or a constant by its path, as rows::sizes::THREADS."""
        name = expression.removesuffix(" as usize")
        if re.fullmatch(r"\d+", name):
            return int(name)
        return self.number(only("const", name, self.constants))

    def kind(self, written):
        """A type without names for arrays and for their lengths: Times is [u32; 16]."""
        if array := ARRAY.fullmatch(written):
            return f"[{self.kind(array[1])}; {self.number(array[2])}]"
        if written in dict(self.types):
            return self.kind(only("type", written, self.types))
        return written


def constants_of(path):
    """The constants of a file, by their paths: those of a type, and those of the module."""
    crate, *modules = path.relative_to(ROOT / "crates").with_suffix("").parts
    module = "::".join([crate, *(name for name in modules if name not in ("src", "lib", "main"))])
    of_types = re.findall(r"^impl (\w+) \{(.*?)^\}", text(path), re.M | re.S)
    of_module = re.sub(r"^ .*", "", text(path), flags=re.M)
    for holder, declared in [*of_types, (module, of_module)]:
        for name, value in re.findall(r"^ *pub const (\w+): \w+ = (.+);$", declared, re.M):
            yield f"{holder}::{name}", value


def only(what, name, declared):
    """What is declared under a name, which must be declared once."""
    found = [value for each, value in declared if each == name]
    if len(found) != 1:
        raise Wrong(f"the code below crates/ must have one pub {what} {name}, by its whole path, and has {len(found)}")
    return found[0]


class Crossing:
    def __init__(self):
        self.sources = Sources()
        self.codes = codes()
        self.refusals = [code for code in self.codes if code.number != 0 and code.constant != "-"]
        if not self.refusals:
            raise Wrong("docs/codes.txt has no refusals")
        self.words = {name: (fresh, words) for name, fresh, words in rows("docs/fields.txt", 3)}
        self.limits = self.limits_of_the_desk()
        self.states = states()
        self.functions = self.exported()
        self.structs = {}
        for function in self.functions:
            for kind in (function.result, *(kind for _, kind in function.parameters)):
                self.lay_out(re.sub(r"&(mut )?|[\[\]]", "", kind))
        self.compare_words()

    def limits_of_the_desk(self):
        of_the_desk = "".join(re.findall(r"^impl Desk \{.*?^\}", self.sources.code, re.M | re.S))
        found = re.findall(r"pub const (\w+): u32 = (.+);", of_the_desk)
        if not found or len(found) != of_the_desk.count("pub const "):
            raise Wrong("Desk must have constants, all of the form 'pub const NAME: u32 = NUMBER;', which is read here")
        return [(name, self.sources.number(value)) for name, value in found]

    def exported(self):
        """The functions of the library, in the order in which the header has them."""
        code = "\n".join(map(text, sorted((ROOT / "crates/lent_c/src").glob("**/*.rt"))))
        found = re.findall(r'pub extern "C" fn (\w+)\(([^)]*)\) -> (\w+)', code)
        if not found or len(found) != code.count('pub extern "C" fn '):
            raise Wrong("crates/lent_c must export functions, all of the form 'NAME(NAME: TYPE, ..) -> TYPE', which is read here")
        parted = re.compile(r"(\w+): ([^,\n]+)")
        functions = [Function(name, tuple(parted.findall(parameters)), result) for name, parameters, result in found]
        header = text("include/desk.h")
        return sorted(functions, key=lambda function: header.find(function.name + "("))

    def lay_out(self, kind):
        """Size and alignment of a type, as C lays it out. A struct is kept, after those that it is made of."""
        if kind in BYTES:
            return BYTES[kind], BYTES[kind]
        if array := ARRAY.fullmatch(kind):
            size, alignment = self.lay_out(array[1])
            return size * int(array[2]), alignment
        if kind not in self.structs:
            declared = re.findall(rf"#\[repr\(C\)\]\s*(?:#\[derive\([\w, ]*\)\]\s*)?pub struct {kind} \{{(.*?)\n\}}", self.sources.code, re.S)
            if len(declared) != 1:
                raise Wrong(f"the code below crates/ must have one #[repr(C)] pub struct {kind}, and has {len(declared)}")
            self.structs[kind] = self.laid_out(kind, re.findall(r"^ *([^/\s].*),$", declared[0], re.M))
        return self.structs[kind].size, self.structs[kind].alignment

    def laid_out(self, name, declared):
        fields, end, widest = [], 0, 1
        for each in declared:
            field = re.fullmatch(r"pub (\w+): (.+)", each)
            if not field:
                raise Wrong(f"struct {name} of the code has a field in another form than 'pub NAME: TYPE', which is read here")
            kind = self.sources.kind(field[2])
            size, alignment = self.lay_out(kind)
            end += -end % alignment
            fields.append(Field(field[1], kind, end, size))
            end, widest = end + size, max(widest, alignment)
        return Struct(name, end + -end % widest, widest, fields)

    def compare_words(self):
        for struct in self.structs.values():
            for name in (struct.name, *(f"{struct.name}.{field.name}" for field in struct.fields)):
                if name not in self.words:
                    raise Wrong(f"docs/fields.txt has no line for {name} of the code; write one and run docs/generate")
        for name in self.words:
            struct, _, field = name.partition(".")
            if struct not in self.structs or (field and field not in [each.name for each in self.structs[struct].fields]):
                raise Wrong(f"docs/fields.txt has a line for {name}, which does not cross; take it out and run docs/generate")


def codes():
    found = rows("docs/codes.txt", 4)
    for number, constant, *_ in found:
        if not re.fullmatch(r"\d+", number):
            raise Wrong(f"docs/codes.txt has '{number}' for the number of {constant}")
    return [Code(int(number), *words) for number, *words in found]


def states():
    found = re.findall(r"\bState::(\w+) => (\d+),", text(STATES))
    if not found or len(found) != len(dict(found)):
        raise Wrong(f"{STATES} must have one number for each state, in the form 'State::NAME => NUMBER,', which is read here")
    return found
