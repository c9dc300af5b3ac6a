"""What hosts/rust repeats."""

from .crossing import ARRAY, SLICE


def limits(crossing):
    for name, number in crossing.limits:
        yield f"pub const {name}: u32 = {number:_};"


def case(constant):
    """The name of a case of an enum: NO_THREAD is NoThread."""
    return constant.title().replace("_", "")


def codes(crossing):
    """The enum of the codes. A library of another version may have a code that is not here: it is met, and not a panic."""
    yield "#[derive(Clone, Copy, PartialEq, Eq, Hash, Debug)]"
    yield "#[non_exhaustive]"
    yield "pub enum Code {"
    for code in crossing.refusals:
        yield f"    /// {code.number}: {code.meaning}"
        yield f"    {case(code.constant)},"
    yield "    /// a number that is none of these"
    yield "    Unknown(u32),"
    yield "}"
    yield ""
    yield "#[rustfmt::skip]"
    yield "impl Code {"
    yield "    /// The code with this number."
    yield "    pub fn of(number: u32) -> Code {"
    yield "        match number {"
    for code in crossing.refusals:
        yield f"            {code.number} => Code::{case(code.constant)},"
    yield "            number => Code::Unknown(number),"
    yield "        }"
    yield "    }"
    yield ""
    yield "    /// Its number, what it means, and what to do about it."
    yield "    fn row(self) -> (u32, &'static str, &'static str) {"
    yield "        match self {"
    for code in crossing.refusals:
        yield f'            Code::{case(code.constant)} => ({code.number}, "{code.meaning}", "{code.advice}"),'
    yield '            Code::Unknown(number) => (number, "no such code", "the library is of another version than this host; run hosts/build"),'
    yield "        }"
    yield "    }"
    yield "}"


def states(crossing):
    yield "#[derive(Clone, Copy, PartialEq, Eq, Hash, Debug)]"
    yield "pub enum State {"
    for name, number in crossing.states:
        yield f"    {name} = {number},"
    yield "}"
    yield ""
    yield "impl State {"
    yield "    /// The state that has this number."
    yield "    pub fn of(number: u64) -> Option<State> {"
    yield "        match number {"
    for name, number in crossing.states:
        yield f"            {number} => Some(State::{name}),"
    yield "            _ => None,"
    yield "        }"
    yield "    }"
    yield "}"


def layout(struct):
    """Asserts that a struct lies as the library has it: a 1 in the byte where a field begins is a 1 in the field."""
    yield "const _: () = {"
    yield f"    const fn one_at(byte: usize) -> {struct.name} {{"
    yield f"        let mut bytes = [0; {struct.size}];"
    yield "        bytes[byte] = 1;"
    yield "        // SAFETY: the struct holds numbers alone, and any bytes are numbers."
    yield f"        unsafe {{ transmute::<[u8; {struct.size}], {struct.name}>(bytes) }}"
    yield "    }"
    yield f"    assert!(align_of::<{struct.name}>() == {struct.alignment});"
    for field in struct.fields:
        first = f"{field.name}[0]" if ARRAY.fullmatch(field.kind) else field.name
        yield f"    assert!(one_at({field.offset}).{first} == 1);"
    yield "};"


def structs(crossing):
    for struct in crossing.structs.values():
        yield f"/// {crossing.words[struct.name][1]}"
        yield "#[repr(C)]"
        yield "#[derive(Clone, Copy, PartialEq, Eq, Hash, Debug)]"
        yield f"pub struct {struct.name} {{"
        for field in struct.fields:
            yield f"    /// {crossing.words[f'{struct.name}.{field.name}'][1]}"
            yield f"    pub {field.name}: {field.kind},"
        yield "}"
        yield from layout(struct)
        yield ""


def declared(name, kind):
    """A parameter as it crosses: a slice is its start and its length."""
    if lent := SLICE.fullmatch(kind):
        return f"{name}: *{'mut' if lent[1] else 'const'} {lent[2]}, length: usize"
    return f"{name}: {kind}"


def passed(name, kind):
    if lent := SLICE.fullmatch(kind):
        return f"{name}.as_{'mut_' if lent[1] else ''}ptr(), {name}.len()"
    return name


def declarations(crossing):
    for function in crossing.functions:
        parameters = ", ".join(declared(*each) for each in function.parameters)
        yield f"        pub fn {function.name}({parameters}) -> {function.result};"


def functions(crossing):
    for function in crossing.functions:
        parameters = ", ".join(f"{name}: {kind}" for name, kind in function.parameters)
        arguments = ", ".join(passed(*each) for each in function.parameters)
        yield f"    pub fn {function.name}({parameters}) -> {function.result} {{"
        yield f"        unsafe {{ library::{function.name}({arguments}) }}"
        yield "    }"
        yield ""
