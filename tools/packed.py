"""Makes packages, and runs what they install, for the tools that pack and those that check what is packed. Nothing is left in the folders of the packages."""
import os
import pathlib
import shutil
import subprocess
import sys
import tempfile

from left_out import is_here, python_with
from tool import ROOT, mirrored, of_makefile, ran

BINDINGS = ROOT / "bindings"
# The compilers for the other processors of which there are packages for Debian, by Debian's names for these; and what makes packages.
TARGETS = {"arm64": "aarch64-linux-gnu", "armhf": "arm-linux-gnueabihf", "riscv64": "riscv64-linux-gnu", "s390x": "s390x-linux-gnu"}
DEB_TOOLS = ["dpkg-deb", "dpkg-shlibdeps", "dpkg-gencontrol", "dpkg-gensymbols", "dpkg-architecture", "strip"]
# The archive of the crate has these files, and the repository has the same.
OF_CRATE = {**{f"c/{name}": f"dist/c/{name}" for name in ["program.c", "shamir.c", "shamir.h"]}, "LICENSE": "LICENSE", "NOTICE": "NOTICE"}
OF_CRATE |= {"tests/given/published_vectors": "crates/s39_tests_backups/src/published.rt"}
# The modules in npm's archive: the library and the program.
MODULES = ["shamir32.wasm", "program.wasm"]
# These variables in the environment change what make does, and which library the commands take.
FOLDERS = ["BINDIR", "LIBDIR", "INCLUDEDIR", "MANDIR", "DOCDIR", "PAGEDIR", "PYTHONDIR", "BASHDIR", "ZSHDIR", "FISHDIR"]
VARIABLES = {"DESTDIR", "PREFIX", *FOLDERS, "INSTALL", "LDCONFIG", "CFLAGS", "LDFLAGS", "MAKEFLAGS", "MFLAGS", "MAKELEVEL", "PYTHONPATH", "SHAMIR_LIBRARY"}
# What the drill of examples/three-groups.txt lists.
QUORUMS = ["0.0+0.1+1.0", "0.0+0.1+2.0", "0.0+0.2+1.0", "0.0+0.2+2.0", "0.1+0.2+1.0", "0.1+0.2+2.0", "1.0+2.0"]

# A project that uses the library as plain C, where CMake installed it.
USER = """
cmake_minimum_required(VERSION 3.16)
project(user C)
find_package(shamir 1 REQUIRED)
foreach(kind %s)
  add_executable(with_${kind} %s)
  target_link_libraries(with_${kind} PRIVATE shamir::${kind})
endforeach()
"""


def only_one(folder, pattern):
    [found] = pathlib.Path(folder).glob(pattern)
    return found


def made(folder, words, **how):
    """Runs a tool that leaves packages in the folder which it gets last, and which isn't there yet. Returns them in order."""
    pathlib.Path(folder).mkdir(parents=True)
    ran([*words, str(folder)], **how)
    return sorted(pathlib.Path(folder).iterdir())


def put(result, make):
    """Lets a function make a folder that isn't there yet. Once it is whole, puts it in place of the one that was there."""
    with tempfile.TemporaryDirectory(dir=ROOT, prefix=f"{result.name}.") as name:
        whole = pathlib.Path(name, "made")
        make(whole)
        shutil.rmtree(result, ignore_errors=True)
        whole.rename(result)


def interpreter(*more):
    """Returns a Python that can build wheels, and has more modules if they are named, or None."""
    return python_with("setuptools.command.bdist_wheel", *more) or python_with("setuptools", "wheel.bdist_wheel", *more)


def python_sources(python, folder):
    """Writes the archive of the Python package's sources to a folder, by a Python that has setuptools and wheel, and returns it."""
    ran([python, "tools/wheel", "--sources", str(folder)])
    return only_one(folder, "shamir-*[0-9].tar.gz")


def staged_crate(here, *without):
    """Copies the crate to a folder that isn't there yet, without these of its folders, but with what it takes from elsewhere."""
    shutil.copytree(BINDINGS / "rust", here, ignore=shutil.ignore_patterns("target", *without))
    for name, taken in OF_CRATE.items():
        (here / name).parent.mkdir(parents=True, exist_ok=True)
        shutil.copyfile(ROOT / taken, here / name)


def crate(folder):
    """Writes the archive of the crate to a folder, with copies of what the crate takes from elsewhere, and returns it."""
    with tempfile.TemporaryDirectory() as target:
        here = pathlib.Path(target, "crate")
        staged_crate(here)
        words = ["cargo", "package", "--quiet", "--offline", "--locked", "--allow-dirty", "--no-verify"]
        ran(words, cwd=here, env={**os.environ, "CARGO_TARGET_DIR": target})
        return pathlib.Path(shutil.copy(only_one(target, "package/shamir-*.crate"), folder))


def npm_settings(folder):
    """Returns the environment in which npm uses no network, and keeps nothing outside a folder."""
    return {**os.environ, "npm_config_cache": f"{folder}/cache", "npm_config_offline": "true", "npm_config_update_notifier": "false"}


def lacking_modules():
    """Names the modules that npm's archive can't have, because they are neither built nor in dist/, or returns an empty text."""
    return " and ".join(it for it in MODULES if not (ROOT / it).exists() and not (ROOT / "dist" / it).exists())


def npm_archive(folder):
    """Writes npm's archive of the JavaScript package to a folder, and returns it. Each module is that of make, or else that of dist/."""
    with tempfile.TemporaryDirectory() as top:
        mirrored(pathlib.Path(top), ["bindings/js"], "*.wasm", "LICENSE", "NOTICE")
        mirrored(pathlib.Path(top), [name for name in ["LICENSE", "NOTICE", *MODULES, *(f"dist/{it}" for it in MODULES)] if (ROOT / name).exists()])
        ran(["npm", "pack", "--pack-destination", str(folder)], cwd=f"{top}/bindings/js", env=npm_settings(top))
    return only_one(folder, "shamir-*.tgz")


def install_by_cmake(source, built, settings, *words):
    """Builds the library as plain C in a folder, tries it, and installs it, with these settings of the build and words of the installation."""
    ran(["cmake", "-S", source, "-B", built, *settings])
    ran(["cmake", "--build", built])
    ran(["ctest", "--output-on-failure", "--test-dir", built])
    ran(["cmake", "--install", built, *words])


def use_by_cmake(program, folder, prefix, kinds):
    """Builds a program in a new folder with each kind of the library that is installed there. Returns what it prints with each."""
    pathlib.Path(folder).mkdir()
    pathlib.Path(folder, "CMakeLists.txt").write_text(USER % (" ".join(kinds), program))
    ran(["cmake", "-S", folder, "-B", f"{folder}/built", f"-DCMAKE_PREFIX_PATH={prefix}"])
    ran(["cmake", "--build", f"{folder}/built"])
    return [ran([f"{folder}/built/with_{kind}"]) for kind in kinds]


def flags_of(pages, **variables):
    """Returns the flags of the compiler that pkg-config finds in a folder, with these variables in its environment."""
    return ran(["pkg-config", "--cflags", "--libs", "shamir"], env={**os.environ, "PKG_CONFIG_PATH": pages, **variables}).split()


def kept(*without):
    """Returns the environment without VARIABLES, which an outer make may have passed on, and without these."""
    return {name: value for name, value in os.environ.items() if name not in {*VARIABLES, *without}}


def check_papers(command, environment):
    """Checks that shamir-papers runs where it is installed: its version, its help, and what it says where there is no terminal."""
    how = {"env": environment, "stdin": subprocess.DEVNULL, "capture_output": True, "text": True}
    told = [subprocess.run([*command, *words], **how) for words in (["--version"], ["new", "--help"], ["check"])]
    version = f"shamir-papers {of_makefile('VERSION')}\n"
    if [it.returncode for it in told] != [0, 0, 2] or told[0].stdout != version or "PLAN" not in told[1].stdout or "terminal" not in told[2].stderr:
        sys.exit(f"shamir-papers where it is installed: {told}")


def check_command(command, environment=None, examples=ROOT / "examples", cwd=None):
    """Checks that a command `shamir` runs where it is installed: its version, the drill of an example, and its first two quorums."""
    words = ["drill", "--expect", "df41d8fe", "--passphrase-file", str(examples / "passphrase.txt")]
    mnemonics, listed = (examples / "three-groups.txt").read_bytes(), [f"{names} as expected\n" for names in QUORUMS]
    for given, lines in [
        (["--version"], [f"shamir {of_makefile('VERSION')}\n"]),
        (words, [*listed, "end\n"]),
        ([*words, "--limit", "2"], [*listed[:2], f"more after {QUORUMS[1]}\n"]),
    ]:
        done = subprocess.run([*command, *given], env=environment, cwd=cwd, input=mnemonics, capture_output=True)
        if (done.returncode, done.stdout, done.stderr) != (0, "".join(lines).encode(), b""):
            sys.exit(f"the command shamir where it is installed: {done}")


def check_lint(debs):
    """Lets lintian look at packages for Debian."""
    if is_here("lintian", f"it doesn't look at {', '.join(it.name for it in debs)}"):
        done = subprocess.run(["lintian", "--allow-root", "--fail-on=error", "--no-cfg", *map(str, debs)], capture_output=True, text=True)
        if done.returncode:
            sys.exit(f"lintian: {done.stdout}{done.stderr}")
