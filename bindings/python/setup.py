"""The package holds its library and the program shamir. If libshamir.so stands beside the modules, as for `make wheel`, the native ones are taken, and
otherwise both are compiled from plain C. No Python extension is built, so a wheel is for Python 3.8 and every later Python 3, and its tag names the platform.
"""
import os
import pathlib
import re
import shutil
import sys
import tempfile
from typing import TYPE_CHECKING, List, Mapping, NoReturn, Tuple, Type

if TYPE_CHECKING:
    # Not every version of setuptools has types. So a type checker takes these declarations.
    class build_py:
        build_lib: str

        def run(self) -> None: ...

    class Extension:
        export_symbols: List[str]

        def __init__(self, name: str, sources: List[str], *, extra_compile_args: List[str], export_symbols: List[str]) -> None: ...

    class CCompiler:
        def compile(self, sources: List[str], output_dir: str, extra_postargs: List[str]) -> List[str]: ...
        def link_executable(self, objects: List[str], output_progname: str, output_dir: str) -> None: ...

    def new_compiler() -> CCompiler: ...
    def customize_compiler(compiler: CCompiler) -> None: ...

    class build_ext:
        def build_extension(self, ext: Extension) -> None: ...

    class build_scripts:
        build_dir: str

        def run(self) -> None: ...

    class sdist:
        def make_release_tree(self, base_dir: str, files: List[str]) -> None: ...

    class bdist_wheel:
        def get_tag(self) -> Tuple[str, str, str]: ...

    class Distribution: ...

    class CCompilerError(Exception): ...

    def setup(*, distclass: Type[Distribution], cmdclass: Mapping[str, type], ext_modules: List[Extension], scripts: List[str]) -> None: ...

else:
    # The import of setuptools lets those of distutils find its own.
    from setuptools import Extension, setup  # isort: skip
    from distutils.ccompiler import new_compiler
    from distutils.command.build_scripts import build_scripts
    from distutils.sysconfig import customize_compiler

    from setuptools.command.build_ext import build_ext
    from setuptools.command.build_py import build_py
    from setuptools.command.sdist import sdist
    from setuptools.dist import Distribution
    from setuptools.errors import CCompilerError

    try:
        from setuptools.command.bdist_wheel import bdist_wheel
    except ImportError:
        try:
            from wheel.bdist_wheel import bdist_wheel
        except ImportError:
            sys.exit("shamir: a wheel needs the package wheel, or setuptools 70.1 or later (Debian: python3-setuptools and python3-wheel)")

HERE = pathlib.Path(__file__).resolve().parent
# An archive of the sources (sdist) has these files under the first name, and the repository has them under the second.
CARRIED = {
    "c/program.c": "dist/c/program.c",
    "c/shamir.c": "dist/c/shamir.c",
    "c/shamir.h": "dist/c/shamir.h",
    "shamir/papers/texts.js": "page/texts.js",
    "LICENSE": "LICENSE",
    "NOTICE": "NOTICE",
}
TERMS = ["LICENSE", "NOTICE"]
NATIVE, COMPILED = "libshamir.so", "portable.so"
# Only Microsoft's compiler doesn't know these options. By default, it optimizes as much.
OPTIONS = [] if sys.platform == "win32" else ["-O2", "-g0"]
IS_ARCHIVE = (HERE / "PKG-INFO").is_file()


def found(name: str) -> pathlib.Path:
    """Returns where a file is that the package has from elsewhere in the repository."""
    place = HERE / name if IS_ARCHIVE else HERE.parents[1] / CARRIED[name]
    if not place.is_file():
        sys.exit(f"shamir: {place} isn't here, and the package is made with it (a pip before 21.3 copies bindings/python alone)")
    return place


def copied(name: str, folder: pathlib.Path) -> None:
    there = folder / name
    there.parent.mkdir(parents=True, exist_ok=True)
    if not (there.exists() and there.samefile(found(name))):
        there.unlink(missing_ok=True)
        shutil.copyfile(found(name), there)


def has_native() -> bool:
    return (HERE / "shamir" / NATIVE).is_file()


def libraries() -> List[Extension]:
    """Returns what has to be compiled, which is nothing if the native library is here."""
    if has_native():
        return []
    calls = re.findall(r"^(?:shamir_answer|void) (shamir_\w+)\(", found("c/shamir.h").read_text(), re.MULTILINE)
    return [Extension("shamir.portable", [str(found("c/shamir.c"))], extra_compile_args=OPTIONS, export_symbols=calls)]


def not_compiled(what: str, error: CCompilerError) -> NoReturn:
    sys.exit(f"shamir: the {what} as plain C isn't compiled, which needs a C compiler (CC names one): {error}")


class WithTexts(build_py):
    def run(self) -> None:
        built = pathlib.Path(self.build_lib)
        # An earlier build may have left the other library there.
        for name in [NATIVE, COMPILED]:
            (built / "shamir" / name).unlink(missing_ok=True)
        super().run()
        copied("shamir/papers/texts.js", built)


class OfPlainC(build_ext):
    """Compiles a library that is loaded by its name, in place of a Python extension."""

    def build_extension(self, ext: Extension) -> None:
        try:
            super().build_extension(ext)
        except CCompilerError as error:
            not_compiled("library", error)

    def get_ext_filename(self, fullname: str) -> str:
        return os.path.join(*fullname.split(".")[:-1], COMPILED)

    def get_export_symbols(self, ext: Extension) -> List[str]:
        return ext.export_symbols

    def get_source_files(self) -> List[str]:
        return []


class WithProgram(build_scripts):
    """Puts the program where scripts are built. It comes from there into the wheel, and into the folder of the environment's programs."""

    def run(self) -> None:
        built = pathlib.Path(self.build_dir)
        built.mkdir(parents=True, exist_ok=True)
        # `make` leaves the native program at the top of the repository.
        if has_native() and (HERE.parents[1] / "shamir").is_file():
            shutil.copyfile(HERE.parents[1] / "shamir", built / "shamir")
            return
        compiler = new_compiler()
        customize_compiler(compiler)
        try:
            with tempfile.TemporaryDirectory() as folder:
                objects = compiler.compile([str(found("c/program.c"))], output_dir=folder, extra_postargs=OPTIONS)
                compiler.link_executable(objects, "shamir", output_dir=str(built))
        except CCompilerError as error:
            not_compiled("program", error)

    def get_source_files(self) -> List[str]:
        return []


class WithSources(sdist):
    def make_release_tree(self, base_dir: str, files: List[str]) -> None:
        super().make_release_tree(base_dir, files)
        for name in CARRIED:
            copied(name, pathlib.Path(base_dir))


class OfPlatform(bdist_wheel):
    def get_tag(self) -> Tuple[str, str, str]:
        return "py3", "none", super().get_tag()[2]


class NotPure(Distribution):
    def has_ext_modules(self) -> bool:
        return True


for terms in TERMS:
    copied(terms, HERE)
# If there is a script, whatever its name is, setuptools builds scripts.
commands = {"build_py": WithTexts, "build_ext": OfPlainC, "build_scripts": WithProgram, "sdist": WithSources, "bdist_wheel": OfPlatform}
setup(distclass=NotPure, cmdclass=commands, ext_modules=libraries(), scripts=["shamir"])
