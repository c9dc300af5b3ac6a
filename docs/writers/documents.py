"""The tables of README.md and docs/BOUNDARY.md."""


def codes(crossing):
    yield "| code | meaning | what to do |"
    yield "|---|---|---|"
    for code in crossing.codes:
        yield f"| {code.number} | {code.meaning} | {code.advice} |".replace("|  |", "| |")


def fields(crossing):
    yield "| struct | field | type | offset | size | fresh | what it is |"
    yield "|---|---|---|---|---|---|---|"
    for name in crossing.words:
        if "." in name:
            continue
        struct = crossing.structs[name]
        yield f"| `{name}` | whole | aligned to {struct.alignment} | 0 | {struct.size} | | {crossing.words[name][1]} |"
        for field in struct.fields:
            fresh, words = crossing.words[f"{name}.{field.name}"]
            cells = [f"`{name}`", f"`{field.name}`", f"`{field.kind}`", field.offset, field.size, fresh, words]
            yield f"| {' | '.join(map(str, cells))} |".replace("|  |", "| |")
