"""./session with stand-ins for its program and for the toolchain: what the real ones cannot be brought to do."""

import os
import shutil
from dataclasses import dataclass
from pathlib import Path

from .running import ENVIRONMENT, SESSION, complete, failed, hold, run, same, start, until

# rt doc names a file of the toolchain; rt run takes all the input that it can get, and then does what the test says.
TOOLCHAIN = """case $1 in
    doc) echo "$KIT/START" ;;
    run) cat >"$KIT/taken" && eval "$BUILD" ;;
esac"""
EMULATOR = """shift 3
exec "$@" """
# The whole input as answers, and the report of a complete end.
ECHO = "cat; echo 0 0 1 0 >&3"


@dataclass
class Alone:
    """A folder with ./session, sources, and stand-ins."""

    root: Path
    kit: Path
    environment: dict

    def run(self, input=b"", **environment):
        return run(program=self.root / "session", input=input, env={**self.environment, **environment})

    @property
    def program(self):
        return self.root / "target/bin/talk"

    @property
    def built(self):
        """What the toolchain has built, proved or not."""
        return self.root / "crates/talk/out/talk"


def script(path, text):
    path.parent.mkdir(parents=True, exist_ok=True)
    path.write_text(f"#!/bin/sh\n{text}\n")
    path.chmod(0o755)


def alone(work, program=None, machine="x86_64"):
    root, kit, tools = work / "root", work / "kit", work / "tools"
    kit.mkdir(parents=True, exist_ok=True)
    for source in (root / "crates/talk/source", root / "crates.txt"):
        source.parent.mkdir(parents=True, exist_ok=True)
        source.write_text("")
    shutil.copy(SESSION, root)
    script(tools / "rt", TOOLCHAIN)
    script(tools / "uname", f"echo {machine}")
    script(tools / "qemu-x86_64", EMULATOR)
    found = Alone(root, kit, {**ENVIRONMENT, "KIT": str(kit), "BUILD": "false", "PATH": f"{tools}:{os.environ['PATH']}"})
    if program:
        script(found.program, program)
    return found


def writing(program):
    """A build that writes this program."""
    return f"mkdir -p out && printf '#!/bin/sh\\n{program}\\n' >out/talk && chmod +x out/talk"


def test_an_end_without_a_report(work):
    """Status 0 of the program is no complete end, and neither is half a report or something else."""
    same(complete(alone(work, "echo 0 0 0; echo 0 0 1 0 >&3").run()), b"0 0 0\n", "a complete end")
    reports = ("", "echo 0 0 1 >&3", "echo 0 0 1 0 0 >&3", "echo nothing >&3", "echo 0 0 1 0 >&3; exit 3")
    for report in reports:
        ended = alone(work, f"echo 0 0 0; {report}").run()
        failed(ended, "the run did not come to its end; answers may be missing")
        same(ended.answers, b"0 0 0\n", "the answers before")


def test_a_program_that_cannot_be_run(work):
    standing = alone(work, ECHO)
    standing.program.write_text("#!/there/is/no/such/interpreter\n")
    failed(standing.run(), "No such file or directory", "the run did not come to its end")


def test_the_program_has_four_ends(work):
    """Nothing that ./session has open for itself reaches the program."""
    ended = alone(work, 'exec python3 -c "import os; print(os.listdir(\'/proc/self/fd\'))"').run()
    # The last is the folder itself, open while it is read.
    same(ended.answers, b"['0', '1', '2', '3', '4']\n", "the program's descriptors")


def test_a_build_takes_no_input(work):
    standing = alone(work)
    ended = standing.run(b"c 0\no 0 0\n", BUILD=writing(ECHO))
    same(complete(ended), b"c 0\no 0 0\n", "the input after a build")
    hold("proving and building the program" in ended.said, f"of the build it says: {ended.said!r}")
    hold((standing.kit / "taken").read_bytes() == b"", "the build took the input")
    hold(standing.run().said == "", "it builds what it has built")


def test_what_is_wrong_is_told_before_a_build(work):
    """Nobody waits some minutes for the proofs, to learn then of a closed end or of a file that is not there."""
    standing = alone(work)
    for ends, sentence in (("<&-", "standard input is closed"), (">&-", "standard output is closed"), ("missing", "could not be opened")):
        ended = run("-c", f'exec "$0" {ends}', standing.root / "session", program="bash", env=standing.environment)
        failed(ended, sentence)
        hold("proving" not in ended.said, f"it builds first: {ended.said!r}")


def test_a_build_that_fails(work):
    ended = alone(work).run(b"c 0\n", BUILD="echo the reason; false")
    failed(ended, "the program could not be built; target/session-build.log says why")
    hold("the reason\n" in (work / "root/target/session-build.log").read_text(), "the log does not say why")
    failed(alone(work).run(b"c 0\n", BUILD="true"), "the program could not be built")


def test_sources_that_are_newer(work):
    """They are built once: also where the program is what they say already, and is not written again."""
    standing = alone(work, ECHO)
    for program in (standing.program, standing.built):
        script(program, ECHO)
        os.utime(program, (1, 1))
    failed(standing.run(b"c 0\n", BUILD="false"), "the program could not be built")
    for count in (1, 0):
        ended = standing.run(b"c 0\n", BUILD="true")
        same(complete(ended), b"c 0\n", "the answers after a build")
        hold(ended.said.count("proving and building") == count, f"of the build it says: {ended.said!r}")


def test_a_program_that_was_not_checked(work):
    """Where it is linked, and the check fails or is broken off, it is never run."""
    standing = alone(work)
    wrong = writing("echo wrong")
    failed(standing.run(b"c 0\n", BUILD=f"{wrong}; false"), "the program could not be built")
    hold(os.access(standing.built, os.X_OK), "the stand-in has written no program")
    failed(standing.run(b"c 0\n", BUILD="false"), "the program could not be built")
    standing.built.unlink()
    broken = start(program=standing.root / "session", env={**standing.environment, "BUILD": f"{wrong}; sleep 1"})
    until(lambda: os.access(standing.built, os.X_OK))
    broken.kill()
    broken.wait()
    failed(standing.run(b"c 0\n", BUILD="false"), "the program could not be built")
    ended = standing.run(b"c 0\n", BUILD=writing(ECHO))
    same(complete(ended), b"c 0\n", "the answers after a good build")


def test_a_source_that_is_saved_amid_a_build(work):
    standing = alone(work)
    source = standing.root / "crates/talk/source"
    complete(standing.run(BUILD=f"sleep 0.1; echo >{source}; {writing(ECHO)}"))
    hold("proving and building" in standing.run(BUILD="true").said, "it does not build what was saved amid the last build")
    hold(standing.run().said == "", "it builds what it has built")


def test_a_folder_that_cannot_be_written(work):
    standing = alone(work)
    (standing.root / "target").write_text("")
    failed(standing.run(b"c 0\n"), "target cannot be written")


def bare(work, machine="x86_64"):
    """A path on which there is little."""
    script(work / "bare/uname", f"echo {machine}")
    for tool in ("bash", "cat", "find"):
        (work / "bare" / tool).symlink_to(shutil.which(tool))
    return str(work / "bare")


def test_no_toolchain(work):
    failed(alone(work).run(PATH=bare(work)), "the Rattle toolchain (rt) is not on the path", status=2)


def test_no_toolchain_on_another_processor(work):
    ended = alone(work, ECHO, machine="other").run(PATH=bare(work, "other"))
    failed(ended, "the Rattle toolchain (rt) is not on the path", "on this processor, other", status=2)


def test_no_setpriv(work):
    """It is not needed for a run, only to end the program where ./session is ended."""
    same(complete(alone(work, ECHO).run(b"c 0\n", PATH=bare(work))), b"c 0\n", "the answers without setpriv")


def test_another_processor(work):
    """An emulator runs the program, and passes on how it ended."""
    standing = alone(work, ECHO, machine="other")
    same(complete(standing.run(b"c 0\n")), b"c 0\n", "the answers under the emulator")
    script(standing.program, "kill -9 $$")
    failed(standing.run(), "ended by a signal (KILL)", status=137)
    (work / "tools/qemu-x86_64").unlink()
    failed(standing.run(PATH=f"{work / 'tools'}:{bare(work, 'other')}"), "no emulator for this processor, other", status=2)
