"""How ./session is called: a file, options, links to it, a terminal."""

import os
import pty
import re
import string

from .running import ENVIRONMENT, ROOT, SESSION, SHORT, SHORT_ANSWERS, complete, end, failed, hold, on_file, run, same, start, take

LETTER = re.compile(r"^  (\w)((?: [a-z]+)*) {2,}\S", re.M)


def test_a_file(work):
    dashed = work / "-file"
    dashed.write_bytes(SHORT.read_bytes())
    for arguments in ([SHORT], ["--quiet", SHORT], [SHORT, "--quiet"], ["--", SHORT], ["--quiet", "--", "-file"]):
        ended = run(*arguments, input=b"q\n", cwd=work)
        same(complete(ended), SHORT_ANSWERS, f"session {arguments}")
        hold(ended.said == "", f"it says where every line was readable: {ended.said!r}")


def test_a_file_that_cannot_be_read(work):
    failed(run(work / "missing"), f"{work / 'missing'} could not be opened: No such file or directory")
    failed(run(work), f"{work} is a directory")
    (work / "circle").symlink_to("circle")
    failed(run(work / "circle"), "could not be opened: Too many levels of symbolic links")
    failed(run(""), "could not be opened")


def test_wrong_arguments(work):
    for arguments in (["--unknown"], ["-q"], ["-"], ["--help=letters"], [SHORT, SHORT], ["--", SHORT, "--quiet"]):
        ended = run(*arguments, input=b"c 0\n")
        failed(ended, "Usage: ./session", status=2)
        same(ended.answers, b"", f"answers to wrong arguments {arguments}")
    failed(run("--unknown"), "there is no option --unknown", status=2)
    failed(run(SHORT, SHORT), "one file at a time", status=2)


def test_help_has_the_letters(work):
    """What --help shows is what the program reads: each letter with as many numbers, and no other."""
    ended = run("--help")
    shown = complete(ended).decode()
    hold(ended.said == "", f"--help says on standard error: {ended.said!r}")
    for words in ("./session [--quiet] < FILE", "./session [--quiet] FILE", "--quiet leaves that out"):
        hold(words in shown, f"--help does not say '{words}'")
    told = {(letter, len(numbers.split())) for letter, numbers in LETTER.findall(shown)}
    hold(len(told) == 15, f"--help has {len(told)} letters")
    tried = [(letter, count) for letter in string.ascii_letters for count in range(6)]
    answers = complete(run("--quiet", input="".join(letter + " 0" * count + "\n" for letter, count in tried).encode())).splitlines()
    read = {one for one, answer in zip(tried, answers, strict=True) if answer != b"99 0 0"}
    hold(read == told, f"--help and the program differ in {sorted(read ^ told)}")


def test_links(work):
    """A link, also a relative one, a link to a link, a link in another folder on the path, a link to the repository."""
    (work / "absolute").symlink_to(SESSION)
    (work / "relative").symlink_to(os.path.relpath(SESSION, work))
    (work / "chain").symlink_to("relative")
    (work / "repository").symlink_to(ROOT)
    for link in ("absolute", "relative", "chain", "repository/session"):
        same(complete(on_file(SHORT, program=work / link, cwd="/")), SHORT_ANSWERS, f"the link {link} by its whole path")
        same(complete(on_file(SHORT, program=f"./{link}", cwd=work)), SHORT_ANSWERS, f"the link {link} from beside it")
    path = {**ENVIRONMENT, "PATH": f"{work}:{os.environ['PATH']}"}
    same(complete(on_file(SHORT, "-c", "chain", program="bash", env=path)), SHORT_ANSWERS, "a link on the path")
    same(complete(on_file(SHORT, "session", program="bash", cwd=ROOT)), SHORT_ANSWERS, "bash session")


def test_a_terminal(work):
    """At a terminal one line says how to use it; each line typed is answered at once, and Ctrl-D ends."""
    keyboard, terminal = pty.openpty()
    talk = start(stdin=terminal)
    os.close(terminal)
    for typed in (b"c 0\n", b"i 0 0\n"):
        os.write(keyboard, typed)
        same(take(talk, 1), b"0 0 0\n", f"the answer to {typed!r} at a terminal")
    os.write(keyboard, b"\x04")
    ended = end(talk)
    same(complete(ended), b"", "answers after Ctrl-D")
    os.close(keyboard)
    lines = ended.said.splitlines()
    hold(len(lines) == 1, f"not one line at a terminal: {ended.said!r}")
    for word in ("session: ", "Ctrl-D", "--help"):
        hold(word in lines[0], f"at a terminal it does not say '{word}': {lines[0]!r}")
    hold(on_file(SHORT).said == "", "it speaks of a terminal where there is none")
