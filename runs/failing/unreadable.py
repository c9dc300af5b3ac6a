"""Lines that are answered 99: how many, the first, and why, in words; and nothing of it in the answers."""

from .running import SHORT, STORED, complete, hold, on_file, run, same

# For each reason a word of its sentence, and lines that have it.
REASONS = {
    "it is empty": [b""],
    "more than 80 bytes": [b"c " + b"0" * 79, b"q" * 81],
    "begins with a byte order mark": [b"\xef\xbb\xbfc 0"],
    "Windows line ends": [b"c 0\r", b"w\r"],
    "has a tab": [b"c\t0"],
    "space at its end": [b"c 0 ", b"w "],
    "one of the letters": [b"q 0", b"C 0", b"# a remark"],
    "too many or too few numbers": [b"c", b"c 0 0", b"w 0"],
    "where a number belongs": [b"c  0", b"c -1", b"c +1", b"c x", b"c 1x"],
    "too large": [b"c 4294967296", b"p 0 0 0 18446744073709551616"],
}


def test_each_reason(work):
    for word, lines in REASONS.items():
        for line in lines:
            ended = run(input=b"w\nw\n" + line + b"\nw\n" + line + b"\n")
            same(complete(ended), b"0 0 0\n0 0 0\n99 0 0\n0 0 0\n99 0 0\n", f"the answers with {line!r}")
            said_once(ended.said, "2 of 5 lines", "answered 99", "The first is line 3: ", word)


def said_once(said, *words):
    hold(said.count("\n") == 1 and said.startswith("session: "), f"not one sentence of the session: {said!r}")
    for word in words:
        hold(word in said, f"it does not say '{word}', but: {said!r}")


def test_the_reasons_are_ten(work):
    """No two reasons have one sentence."""
    hold(len(REASONS) == 10, f"{len(REASONS)} reasons are tested")
    sentences = {run(input=lines[0] + b"\n").said for lines in REASONS.values()}
    hold(len(sentences) == len(REASONS), f"{len(sentences)} sentences for {len(REASONS)} reasons")


def test_quiet(work):
    """--quiet leaves out the sentence, and changes no answer and no status."""
    for lines in REASONS.values():
        data = b"w\n" + b"\n".join(lines)
        ended = run("--quiet", input=data + b"\n")
        same(complete(ended), b"0 0 0\n" + b"99 0 0\n" * len(lines), f"the answers to {lines!r} with --quiet")
        hold(ended.said == "", f"--quiet says: {ended.said!r}")


def test_a_file_from_windows(work):
    """Every line ends with a carriage return."""
    path = work / "windows"
    data = SHORT.read_bytes()
    path.write_bytes(data.replace(b"\n", b"\r\n"))
    count = data.count(b"\n")
    ended = run(path)
    same(complete(ended), b"99 0 0\n" * count, "a file with Windows line ends")
    said_once(ended.said, f"{count} of {count} lines", "The first is line 1: ", "save it with Unix line ends")


def test_the_first_of_several_reasons(work):
    """The reason is that of the first line; the count is of all, the last among them without its newline."""
    ended = run(input=b"w\nw 1\nq\n\nc 0\r\nw\nw ")
    same(complete(ended), b"0 0 0\n" + b"99 0 0\n" * 4 + b"0 0 0\n99 0 0\n", "several reasons")
    said_once(ended.said, "5 of 7 lines", "The first is line 2: ", "too many or too few numbers")


def test_nothing_is_said_of_readable_lines(work):
    """A refusal is an answer like any other."""
    for path in STORED:
        answers = path.with_suffix(".out").read_bytes()
        ended = on_file(path)
        same(complete(ended), answers, path.name)
        count = answers.splitlines().count(b"99 0 0")
        hold(f"{count} of " in ended.said if count else ended.said == "", f"of {count} lines answered 99 it says: {ended.said!r}")
