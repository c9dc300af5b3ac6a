"""What include/desk.h and hosts/c repeat."""

from .crossing import ARRAY, BYTES, REFERENCE, SLICE, Wrong


def type_of(kind):
    if kind in BYTES:
        return f"uint{8 * BYTES[kind]}_t"
    return kind if kind == "Desk" else "Desk" + kind


def field_of(kind, name):
    if array := ARRAY.fullmatch(kind):
        return field_of(array[1], f"{name}[{array[2]}]")
    return f"{type_of(kind)} {name}"


def parameter(name, kind):
    if lent := SLICE.fullmatch(kind):
        return f"{'' if lent[1] else 'const '}{type_of(lent[2])} *{name}, size_t length"
    if lent := REFERENCE.fullmatch(kind):
        return f"{'' if lent[1] else 'const '}{type_of(lent[2])} *{name}"
    return f"{type_of(kind)} {name}"


def prototype(function):
    parameters = ", ".join(parameter(*each) for each in function.parameters)
    return f"{type_of(function.result)} {function.name}({parameters or 'void'});"


def numbers(crossing):
    small = [f"DESK_{name} = {number}" for name, number in crossing.limits if number < 1 << 31]
    yield from (f"#define DESK_{name} UINT32_C({number})" for name, number in crossing.limits if number >= 1 << 31)
    yield f"enum {{ {', '.join(small)} }};"
    yield ""
    yield "/* The code of an answer. */"
    yield "enum {"
    codes = [code for code in crossing.codes if code.constant != "-"]
    widest = max(len(f"{code.constant}{code.number}") for code in codes)
    for code in codes:
        comma = " " if code is codes[-1] else ","
        space = " " * (widest - len(f"{code.constant}{code.number}"))
        yield f"    DESK_{code.constant} = {code.number}{comma}{space} /* {code.meaning} */"
    yield "};"
    yield ""
    yield "/* A timestamp's state on an input connection, as desk_state gives it in the value. */"
    yield f"enum {{ {', '.join(f'DESK_{name.upper()} = {number}' for name, number in crossing.states)} }};"


def structs(crossing):
    for struct in crossing.structs.values():
        name = type_of(struct.name)
        yield f"/* {crossing.words[struct.name][1]} */"
        yield f"typedef struct {name} {{"
        declared = [field_of(field.kind, field.name) + ";" for field in struct.fields]
        for field, each in zip(struct.fields, declared):
            yield f"    {each:<{max(map(len, declared))}} /* {crossing.words[f'{struct.name}.{field.name}'][1]} */"
        yield f"}} {name};"
        yield f"DESK_LAYOUT(sizeof({name}) == {struct.size});"
        for field in struct.fields:
            yield f"DESK_LAYOUT(offsetof({name}, {field.name}) == {field.offset});"
        yield ""


def refusals(crossing):
    for code in crossing.refusals:
        yield f'    case DESK_{code.constant}: return "{code.meaning}; {code.advice}";'


def argument(name, kind, number):
    if SLICE.fullmatch(kind):
        return "slice, length"
    if kind in BYTES:
        return f"numbers[{number}]" if kind == "u64" else f"({type_of(kind)})numbers[{number}]"
    return name


def slice_of(functions):
    """The type of the slices that are lent: the table of calls has room for one."""
    kinds = sorted({kind for function in functions for _, kind in function.parameters if SLICE.fullmatch(kind)})
    if len(kinds) != 1:
        raise Wrong(f"hosts/c/calls.h makes calls with slices of one type, and crates/lent_c has {' and '.join(kinds) or 'none'}")
    return kinds[0]


def calls(crossing):
    """A table of the functions that are lent a desk, and a function that makes the call in a place of it."""
    lent = [function for function in crossing.functions if function.parameters]
    lent_slice = parameter("slice", slice_of(lent))
    numbers_of = {call: [name for name, kind in call.parameters if kind in BYTES] for call in lent}
    yield f"enum {{ CALLS = {len(lent)}, MOST_NUMBERS = {max(map(len, numbers_of.values()))} }};"
    yield ""
    yield "static const struct call calls[CALLS] = {"
    for call in lent:
        of_connection = numbers_of[call][:2] == ["thread", "connection"]
        is_question = call.parameters[0][1] == "&Desk"
        facts = ", ".join(str(fact).lower() for fact in (of_connection, call.takes_slice(), is_question))
        yield f'    {{"{call.name.removeprefix("desk_")}", {len(numbers_of[call])}, {facts}}},'
    yield "};"
    yield ""
    yield "/* Makes the call in this place of the table; the slice is for a sweep. */"
    yield "static inline DeskAnswer perform("
    yield f"    size_t call, Desk *desk, const uint64_t *numbers, {lent_slice})"
    yield "{"
    yield "    switch (call) {"
    for place, call in enumerate(lent):
        arguments = ", ".join(argument(name, kind, number) for number, (name, kind) in enumerate(call.parameters, -1))
        yield f"    {'default' if place + 1 == len(lent) else f'case {place}'}: return {call.name}({arguments});"
    yield "    }"
    yield "}"
