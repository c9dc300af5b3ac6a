"""What hosts/python repeats."""

from .crossing import ARRAY, BYTES, REFERENCE, SLICE

# What the package hands out beside numbers and refusals, which are generated.
DESK = ["Answer", "Attached", "Desk", "Got", "HandedBack", "Swept"]

# What a class says of its refusal beside meaning and advice.
BESIDE = {
    "ITEMS_FULL": [
        "A sweep does not help where every item can still be got, and the threads of a line then wait for each other: a cutter that",
        "runs ahead fills the desk with photographs, and the finder, who holds one OPEN, has no place for its signs. Begin a line only",
        "where all the items of the lines at work have a place, as hosts/python/threaded_line.py of the repository does.",
    ],
}


def type_of(kind):
    if array := ARRAY.fullmatch(kind):
        return f"{type_of(array[1])} * {array[2]}"
    return f"c_uint{8 * BYTES[kind]}" if kind in BYTES else kind


def parameter(name, kind):
    if lent := SLICE.fullmatch(kind):
        return f'"{name}": POINTER({type_of(lent[2])}), "length": c_size_t'
    if lent := REFERENCE.fullmatch(kind):
        return f'"{name}": POINTER({lent[2]})'
    return f'"{name}": {type_of(kind)}'


def class_name(code):
    """NO_THREAD is raised as NoThread."""
    return "".join(word.capitalize() for word in code.constant.split("_"))


def sentence(words):
    return words[:1].upper() + words[1:] + "."


def numbered(name, words, members):
    yield ""
    yield ""
    yield f"class {name}(enum.IntEnum):"
    yield f'    """{words}"""'
    yield ""
    for member, number in members:
        yield f"    {member} = {number}"


def numbers(crossing):
    for name, number in crossing.limits:
        yield f"{name} = {number:_}"
    codes = [(code.constant, code.number) for code in crossing.codes if code.constant != "-"]
    yield from numbered("Code", "The codes of an answer.", codes)
    states = [(name.upper(), number) for name, number in crossing.states]
    yield from numbered("State", "What a timestamp is on an input connection.", states)


def refusal(code):
    yield f"class {class_name(code)}(Refused):"
    first = f'    """{sentence(code.meaning)} {sentence(code.advice)}'
    if code.constant in BESIDE:
        yield first
        yield ""
        yield from (f"    {line}" for line in BESIDE[code.constant])
        yield '    """'
    else:
        yield f'{first}"""'
    yield ""
    yield f"    code = Code.{code.constant}"
    yield f'    meaning = "{code.meaning}"'
    yield f'    advice = "{code.advice}"'


def refusals(crossing):
    for code in crossing.refusals:
        yield from refusal(code)
        yield ""
        yield ""


def names(crossing):
    """What the package hands out of its modules of constants and refusals."""
    limits = [name for name, _ in crossing.limits]
    modules = {"constants": [*limits, "Code", "State"], "refusals": ["Refused", *map(class_name, crossing.refusals)]}
    for module, shown in modules.items():
        yield f"from .{module} import ("
        yield from (f"    {name}," for name in shown)
        yield ")"
    yield ""
    yield "__all__ = ["
    yield from (f'    "{name}",' for name in sorted([*DESK, *modules["constants"], *modules["refusals"]]))
    yield "]"


def is_question(function):
    """A question is lent a desk that it may not change."""
    return any(REFERENCE.fullmatch(kind) and not kind.startswith("&mut ") for _, kind in function.parameters)


def structs(crossing):
    for struct in crossing.structs.values():
        yield f"class {struct.name}(Structure):"
        yield "    _fields_ = ["
        for field in struct.fields:
            words = crossing.words[f"{struct.name}.{field.name}"][1]
            yield f'        ("{field.name}", {type_of(field.kind)}),  # {words}'
        yield "    ]"
        yield ""
        yield ""
    yield "# The library was compiled with this layout: for each struct its size and the offsets of its fields."
    yield "LAYOUT: dict[type[Structure], tuple[int, list[int]]] = {"
    for struct in crossing.structs.values():
        yield f"    {struct.name}: ({struct.size}, {[field.offset for field in struct.fields]}),"
    yield "}"
    yield ""
    yield "# For each function what it returns and what it takes."
    yield "FUNCTIONS: dict[str, tuple[type[Structure], dict[str, Any]]] = {"
    for function in crossing.functions:
        parameters = ", ".join(parameter(*each) for each in function.parameters)
        yield f'    "{function.name.removeprefix("desk_")}": ({function.result}, {{{parameters}}}),'
    yield "}"
    yield ""
    yield "# The functions that change nothing."
    questions = [f'"{function.name.removeprefix("desk_")}"' for function in crossing.functions if is_question(function)]
    yield f"QUESTIONS = frozenset([{', '.join(questions)}])"
