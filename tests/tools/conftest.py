"""What the tests of the tools share: the program, the command line, and a few runs."""
import contextlib
import io
import os
import pathlib
import subprocess
import sys

import pytest

TOP = pathlib.Path(__file__).resolve().parents[2]
TOOLS = TOP / "tools" / "gadget-tools"
sys.path.insert(0, str(TOP / "tools"))
sys.dont_write_bytecode = True


class Answer:
    def __init__(self, status, out, err):
        self.status, self.out, self.err = status, out.strip(), err.strip()


def call(words, folder):
    done = subprocess.run([str(word) for word in words], cwd=folder, stdin=subprocess.DEVNULL, capture_output=True, text=True)
    return Answer(done.returncode, done.stdout, done.stderr)


def call_within(words, folder):
    """The same of the tools' command line, in this process: its packages take seconds to load."""
    from gadget_tools.command_line import main
    out, err, here = io.StringIO(), io.StringIO(), os.getcwd()
    os.chdir(folder)
    try:
        with contextlib.redirect_stdout(out), contextlib.redirect_stderr(err):
            status = main([str(word) for word in words])
    except SystemExit as end:
        status = end.code
    finally:
        os.chdir(here)
    return Answer(status, out.getvalue(), err.getvalue())


@pytest.fixture(scope="session")
def program():
    """A call of the program: words and the folder to run in; the status, what was printed."""
    path = os.environ.get("GADGET_PROGRAM") or str(TOP / "gadget")
    return lambda folder, *words: call((path, *words), folder)


@pytest.fixture(scope="session")
def tools():
    """A call of the command line of the tools."""
    return lambda folder, *words: call_within(words, folder)


@pytest.fixture(scope="session")
def made(tools):
    """The same, where it is to end well; what was printed."""
    def run(folder, *words):
        answer = tools(folder, *words)
        assert answer.status == 0, answer.err
        return answer.out
    return run


@pytest.fixture(scope="session")
def sphere(made, program, tmp_path_factory):
    """A run of 150 bodies with finer steps, snapshots, restart files and a bin file: (folder, the printed line)."""
    folder = tmp_path_factory.mktemp("sphere")
    made(folder, "start", "sphere", "ics.dat", "param.txt", "--bodies", 150, "--seed", 3, "--falls", 0.95, "--max-step", 0.17,
         "--accuracy", 20000, "--softening", 0.004, "--snapshots", 3, "--restart-every", 2, "--bin-file", "bins.dat")
    answer = program(folder, "run", "param.txt", "1")
    assert answer.status == 0, answer.out
    return folder, answer.out
