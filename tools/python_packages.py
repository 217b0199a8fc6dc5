"""Checks of tools/packages for what is made of the Python package: the wheel of `make wheel`, which is installed in a fresh environment
without a network, tried, and uninstalled; and an archive of the sources."""
import pathlib
import re
import shutil
import subprocess
import sys
import tempfile

import packed
from left_out import left_out
from packed import check_command, check_papers, kept
from tool import ROOT, check_fails, mirrored, of_makefile, ran, tested

BINDING = pathlib.Path("bindings", "python")
# What the archive of the sources has, and where the repository has the same.
CARRIED = {**{f"c/{name}": f"dist/c/{name}" for name in ["program.c", "shamir.c", "shamir.h"]}, "shamir/papers/texts.js": "page/texts.js"}
CARRIED |= {name: name for name in ["LICENSE", "NOTICE"]}
CARRIED |= {name: str(BINDING / name) for name in ["setup.py", "pyproject.toml", "README.md", "MANIFEST.in", "tests/test_shamir.py"]}
CARRIED |= {f"shamir/{name}": str(BINDING / "shamir" / name) for name in ["__init__.py", "mnemonic.py", "py.typed"]}


def made(python, folder, *words):
    """Makes a wheel, or with the word --sources an archive, under two umasks. Returns it: both must have the same bytes."""
    [one], [other] = (packed.made(f"{folder}/{umask:o}", [python, "tools/wheel", *words], umask=umask) for umask in (0o022, 0o077))
    if (one.name, one.read_bytes()) != (other.name, other.read_bytes()):
        sys.exit(f"under two umasks, the same files give two packages {one.name}")
    return one


def installed(python, archive, folder, *options):
    """Installs an archive of the package in a fresh environment in a folder, without a network. Returns the folder of its programs."""
    programs = pathlib.Path(folder, "venv", "bin")
    ran([python, "-m", "venv", *options, programs.parent])
    ran([programs / "pip", "--disable-pip-version-check", "install", "--no-index", "--no-build-isolation", "--no-deps", archive])
    return programs


def check_installed(programs, folder):
    """Runs the tests of the package, in a folder that isn't in the repository, and its commands where they are installed."""
    shutil.copytree(ROOT / BINDING / "tests", pathlib.Path(folder, "tests"), ignore=shutil.ignore_patterns("__pycache__"))
    tested([programs / "python", "-B", "-m", "unittest", "discover", "-s", "tests"], cwd=folder, env=kept())
    check_papers([programs / "shamir-papers"], kept())
    check_command([programs / "shamir"], kept())


def check_wheel(python):
    """Builds the wheel, installs it in a fresh environment without a network, runs the binding's tests with it, and uninstalls it."""
    with tempfile.TemporaryDirectory() as folder:
        wheel = made(python, folder)
        if not re.fullmatch(r"shamir-[0-9.]+-py3-none-manylinux_2_\d+_x86_64\.whl", wheel.name):
            sys.exit(f"the wheel is named {wheel.name}")
        programs = installed(sys.executable, wheel, folder)
        check_installed(programs, folder)
        files = ran([programs / "pip", "show", "-f", "shamir"])
        if "LICENSE" not in files or "NOTICE" not in files or "py.typed" not in files or f"Version: {of_makefile('VERSION')}\n" not in files:
            sys.exit(f"the wheel lacks something: {files}")
        ran([programs / "pip", "uninstall", "-y", "shamir"])


def check_sources(python):
    """Builds the archive of the package's sources. It must have what is compiled, as dist/c has it, and no built
    library. If what is compiled is missing, an installation must say so. tools/alone installs the archive."""
    with tempfile.TemporaryDirectory() as folder:
        archive = made(python, folder, "--sources")
        shutil.unpack_archive(archive, f"{folder}/there")
        [there] = pathlib.Path(folder, "there").iterdir()
        differ = [name for name, taken in CARRIED.items() if not (there / name).is_file() or (there / name).read_bytes() != (ROOT / taken).read_bytes()]
        built = [str(path) for path in there.rglob("*.so")]
        if differ or built:
            sys.exit(f"the archive of the package's sources hasn't {differ} as the repository has it, and has {built}")
        (there / "c" / "shamir.c").unlink()
        told = "c/shamir.c isn't here, and the package is made with it"
        check_fails("an installation without what is compiled", [python, "setup.py", "-q", "build"], told, cwd=there)


def check_no_library(python):
    """Checks that building a wheel without the library fails, and that the message says why."""
    with tempfile.TemporaryDirectory() as folder:
        mirrored(pathlib.Path(folder), ["bindings/python", "page", "tools"], "*.so", "NOTICE", "out")
        told = "libshamir.so isn't here, and a wheel has it"
        check_fails("tools/wheel without the library", [python, f"{folder}/tools/wheel", folder], told)


def check_no_setuptools(python):
    """Checks that a Python without setuptools makes no wheel, and that the message says how to take another Python."""
    with tempfile.TemporaryDirectory() as folder:
        subprocess.run([python, "-m", "venv", "--without-pip", folder], check=True)
        told = "'make wheel PYTHON=PATH' takes another Python"
        check_fails("tools/wheel without setuptools", [f"{folder}/bin/python", ROOT / "tools" / "wheel", folder], told)


def check():
    """Makes all these checks."""
    python = packed.interpreter()
    if python is None:
        left_out("no Python here has setuptools and wheel, so no wheel is made")
        return
    check_wheel(python)
    check_no_library(python)
    check_no_setuptools(python)
    check_sources(python)
