"""The builds of the library as plain C: for each processor and system, with each compiler and sanitizer."""
import functools
import pathlib
import re
import shutil
import subprocess
import threading
from collections import defaultdict
from dataclasses import dataclass, field
from typing import DefaultDict, Dict, List, Optional, Tuple

import driver
from driver import Failed as Failed

ROOT = pathlib.Path(__file__).resolve().parents[2]
HERE = ROOT / "tools" / "check_portable"
COMMITTED = ROOT / "dist" / "c"
# What is checked: what `make portable` makes of shamir32.wasm. `use` sets the folder, and that of the compiled files.
DIST = OBJECTS = COMMITTED
STRICT = ["-Wall", "-Wextra", "-Wconversion", "-Werror"]
SANITIZED = ["-g", "-fsanitize=address,undefined", "-fno-sanitize-recover=all", "-fno-omit-frame-pointer"]


def use(folder: pathlib.Path) -> None:
    """Lets the files to check, and what is compiled of them, be in parts of this folder."""
    global DIST, OBJECTS
    DIST, OBJECTS = folder / "c", folder / "objects"
    DIST.mkdir()
    OBJECTS.mkdir()


@dataclass(frozen=True)
class Target:
    """A build for one processor and system, and what runs it."""

    name: str
    compiler: str
    words: List[str] = field(default_factory=list)
    emulators: List[str] = field(default_factory=list)
    environment: Dict[str, str] = field(default_factory=dict)

    def missing(self) -> Optional[str]:
        """Returns the program that isn't here, or None."""
        if not shutil.which(self.compiler):
            return self.compiler
        if self.emulators and not self.emulator():
            return self.emulators[0]
        return None

    def emulator(self) -> Optional[str]:
        return next((it for it in self.emulators if shutil.which(it)), None)


NATIVE = [
    Target("x86-64 with gcc -O2", "gcc", ["-O2"]),
    Target("x86-64 with clang -O2", "clang", ["-O2"]),
    Target("x86-64 with SHAMIR_CHECKED", "gcc", ["-O2", "-DSHAMIR_CHECKED"]),
]
SLOW = [Target("x86-64 with gcc -O0", "gcc", ["-O0"])]
EMULATED = [
    Target("arm64", "aarch64-linux-gnu-gcc", ["-O2", "-static"], ["qemu-aarch64", "qemu-aarch64-static"]),
    Target("32-bit ARM", "arm-linux-gnueabihf-gcc", ["-Os", "-static"], ["qemu-arm", "qemu-arm-static"]),
    Target("RISC-V 64", "riscv64-linux-gnu-gcc", ["-O2", "-static"], ["qemu-riscv64", "qemu-riscv64-static"]),
    Target("s390x", "s390x-linux-gnu-gcc", ["-O2", "-static"], ["qemu-s390x", "qemu-s390x-static"]),
    Target("Windows", "x86_64-w64-mingw32-gcc", ["-O2", "-static"], ["wine", "wine64"], {"WINEDEBUG": "-all"}),
]
# A report of a leak would be about driver.c, which keeps its calls until it ends.
NO_LEAKS = {"ASAN_OPTIONS": "detect_leaks=0"}
# With optimisation, compiling the instrumented code takes more than a minute. Without it, it takes five seconds.
SANITIZERS = [
    Target("gcc with its sanitizers", "gcc", ["-O0", *SANITIZED, "-DSHAMIR_CHECKED"], [], NO_LEAKS),
    Target("clang with its sanitizers", "clang", ["-O0", *SANITIZED, "-DSHAMIR_CHECKED"], [], NO_LEAKS),
]
THREADS = [
    Target("threads with gcc", "gcc", ["-O1", "-g", "-fsanitize=thread", "-DTHREADED", "-pthread"]),
    Target("threads with clang", "clang", ["-O1", "-g", "-fsanitize=thread", "-DTHREADED", "-pthread"]),
]


def run(words: List[str], **options: object) -> bytes:
    """Runs a command and returns what it writes. If it fails, says what it said."""
    done = subprocess.run(words, stdout=subprocess.PIPE, stderr=subprocess.PIPE, **options)  # type: ignore[call-overload]
    if done.returncode:
        said = (done.stdout[-1000:] + done.stderr)[-3000:].decode(errors="replace")
        raise Failed(f"{' '.join(map(str, words))} ends with status {done.returncode}: {said}")
    output: bytes = done.stdout
    return output


LOCKS: DefaultDict[Tuple[str, ...], threading.Lock] = defaultdict(threading.Lock)


def compiled(compiler: str, *words: str) -> str:
    """Compiles shamir.c without a warning, once for each compiler and its words. Returns the file, or says what is wrong. The frames of
    its functions are in a file beside it."""
    with LOCKS[(compiler, *words)]:
        return compiled_once(compiler, *words)


@functools.cache
def compiled_once(compiler: str, *words: str) -> str:
    to = str(OBJECTS / (re.sub("[^A-Za-z0-9]+", "-", " ".join([compiler, *words])) + ".o"))
    run([compiler, "-std=c99", "-pedantic", *STRICT, *words, "-fstack-usage", "-c", str(DIST / "shamir.c"), "-o", to])
    return to


def program_of(kind: str, target: Target, folder: str) -> str:
    return f"{folder}/{kind}-{re.sub('[^a-z0-9]', '-', target.name.lower())}.exe"


def built(target: Target, folder: str) -> str:
    """Builds driver.c with dist/c for a target, and returns the program."""
    program = program_of("driver", target, folder)
    return driver.built(program, [target.compiler, *target.words, f"-I{DIST}"], compiled(target.compiler, *target.words))


def with_vectors(target: Target, folder: str) -> str:
    """Builds test.c, which has the vectors, with dist/c for a target, and returns the program."""
    program = program_of("test", target, folder)
    words = ["-std=c99", *STRICT, "-Wno-overlength-strings", *target.words, f"-I{DIST}", str(DIST / "test.c")]
    run([target.compiler, *words, compiled(target.compiler, *target.words), "-o", program])
    return program


def native(folder: str) -> str:
    """Builds driver.c with libshamir.so, and returns the program."""
    library = [str(ROOT / "libshamir.so"), f"-Wl,-rpath,{ROOT}"]
    return driver.built(f"{folder}/native", ["gcc", "-O1", f"-I{ROOT}/include"], *library)


def words_of(target: Target, program: str, folder: str) -> List[str]:
    """Returns the words that run a program that was built, with its emulator."""
    emulator = target.emulator()
    environment = {**target.environment, "WINEPREFIX": f"{folder}/wine"}
    return ["env", *(f"{name}={value}" for name, value in environment.items()), *([emulator] if emulator else []), program]
