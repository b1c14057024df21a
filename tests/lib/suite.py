"""The common part of every suite: where things are in the repository, whether a program is built, and the last line,
which counts."""

import pathlib
import sys

TOP = pathlib.Path(__file__).resolve().parents[2]
CRATES = TOP / "crates"
TESTS = TOP / "tests"
NAME = pathlib.Path(sys.argv[0]).name  # of the script that runs


def built(name):
    """The program of a crate, as it was built."""
    return CRATES / name / "out" / name


def are_built(*programs):
    """Whether the programs exist; if they do not, it reports that as a failure."""
    missing = [str(program) for program in programs if not pathlib.Path(program).is_file()]
    if missing:
        print(f"{NAME}: {', '.join(missing)} is not built, so nothing was tried\n0 passed, 1 failed")
    return not missing


def examples():
    """The stored scripts of all folders, by their names. No two have the same."""
    return sorted((TESTS / "examples").glob("*/*.txt"), key=lambda script: script.name)


def counted(told):
    """Prints how many passed and how many failed, and returns the exit status: 1 if one failed, or none was tried."""
    told = list(told)
    print(f"{told.count(True)} passed, {told.count(False)} failed")
    return 0 if told and all(told) else 1
