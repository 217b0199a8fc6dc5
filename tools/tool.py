"""What several tools share."""
import argparse
import importlib.machinery
import importlib.util
import multiprocessing
import os
import pathlib
import re
import shutil
import subprocess
import time
from concurrent.futures import ProcessPoolExecutor
from types import ModuleType
from typing import Any, Callable, Dict, Iterable, Sequence, Set, TypeVar, Union

ROOT = pathlib.Path(__file__).resolve().parent.parent
Found = TypeVar("Found")


class Failed(SystemExit):
    """What a check finds to be wrong. If nothing catches it, the tool prints it and ends with status 1, as after `sys.exit`."""


def tool(name: str) -> ModuleType:
    """Returns one of the tools, whose names have no ending, as a module."""
    loader = importlib.machinery.SourceFileLoader(name, str(ROOT / "tools" / name))
    spec = importlib.util.spec_from_loader(name, loader)
    assert spec is not None
    module = importlib.util.module_from_spec(spec)
    loader.exec_module(module)
    return module


def of_makefile(name: str) -> str:
    """Returns the value of a variable of the Makefile."""
    [value] = re.findall(rf"^{name} = (.*)$", (ROOT / "Makefile").read_text(), re.MULTILINE)
    return str(value)


def ran(words: Sequence[Union[str, pathlib.Path]], **options: Any) -> str:
    """Runs a command, at the top of the repository if no folder is given, and returns what it prints. Raises Failed, with that, if it fails."""
    how = {"cwd": ROOT, "stdin": subprocess.DEVNULL, "stdout": subprocess.PIPE, "stderr": subprocess.STDOUT, "text": True}
    done = subprocess.run(words, **{**how, **options})
    if done.returncode:
        raise Failed(f"{done.stdout}{done.stderr or ''}\n{' '.join(map(str, words[:4]))} .. ended with status {done.returncode}")
    return str(done.stdout)


def check_fails(what: str, words: Sequence[Union[str, pathlib.Path]], told: str, first: bool = False, **options: Any) -> None:
    """Checks that a command fails, and that its errors have this text, or begin with it."""
    done = subprocess.run(words, capture_output=True, text=True, **options)
    if done.returncode == 0 or not (done.stderr.startswith(told) if first else told in done.stderr):
        raise Failed(f"{what} ends with status {done.returncode}, {done.stderr!r}")


def tested(words: Sequence[Union[str, pathlib.Path]], **options: Any) -> str:
    """Runs Python's unittest as `ran` runs a command. If it finds no test, which isn't a failure before Python 3.12, it fails too."""
    told = ran(words, **options)
    if re.search(r"^Ran 0 tests", told, re.MULTILINE):
        raise Failed(f"{told}\n{' '.join(map(str, words))} finds no test")
    return told


def waited(is_there: Callable[[], Found], seconds: float, pause: float = 0.03) -> Found:
    """Waits until a function returns something, at most so many seconds, and returns what it returned last."""
    deadline = time.monotonic() + seconds
    while not (found := is_there()) and time.monotonic() < deadline:
        time.sleep(pause)
    return found


def workers(**options: Any) -> ProcessPoolExecutor:
    """Returns processes that begin as copies of this one. If one of them is killed, whoever waits for its result gets an exception."""
    return ProcessPoolExecutor(mp_context=multiprocessing.get_context("fork"), **options)


def mirrored(top: pathlib.Path, names: Iterable[Union[str, pathlib.Path]], *without: str) -> None:
    """Copies files and folders of the repository to the same places below another folder. Files of folders may be left out by patterns."""
    for name in names:
        (top / name).parent.mkdir(parents=True, exist_ok=True)
        if (ROOT / name).is_dir():
            shutil.copytree(ROOT / name, top / name, ignore=shutil.ignore_patterns("__pycache__", *without))
        else:
            shutil.copyfile(ROOT / name, top / name)


def given(**others: Any) -> argparse.Namespace:
    """Returns the options of a tool that checks the program: --program, which is ./shamir if it isn't given, and others with these values
    if they aren't given. An option that is False otherwise takes no value."""
    parser = argparse.ArgumentParser()
    options: Dict[str, Any] = {"program": str(ROOT / "shamir"), **others}
    for name, otherwise in options.items():
        how: Dict[str, Any] = {"action": "store_true"} if otherwise is False else {"type": type(otherwise), "default": otherwise}
        parser.add_argument(f"--{name}", **how)
    found = parser.parse_args()
    found.program = os.path.abspath(found.program)
    return found


def commands_of(program: Union[str, pathlib.Path]) -> Set[str]:
    """Returns the commands that the help of the program names."""
    return set(re.findall(r"^  ([a-z]+)  ", ran([program, "--help"]), re.MULTILINE))


def options_of(program: Union[str, pathlib.Path], *words: str) -> Set[str]:
    """Returns the options that the help of the program or of a command names."""
    return set(re.findall(r"^ +(?:-\w, )?(--[a-z-]+)", ran([program, *words, "--help"]), re.MULTILINE))


def symbols_of(file: Union[str, pathlib.Path], *options: str, nm: str = "nm") -> Set[str]:
    """Returns the symbols of a compiled file that nm shows with these options, without their versions."""
    return {line.split()[-1].partition("@")[0] for line in ran([nm, *options, file]).splitlines()}


def faults_library(folder: str, compiler: Sequence[str]) -> str:
    """Compiles tools/faults.c as a library in a folder, and returns its path. A program into which it is preloaded has calls that fail."""
    made = f"{folder}/faults.so"
    ran([*compiler, "-O1", "-Wall", "-Wextra", "-shared", "-fPIC", "-o", made, ROOT / "tools" / "faults.c", "-ldl"])
    return made
