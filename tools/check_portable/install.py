"""Builds and installs dist/c with CMake, and uses it by find_package and by pkg-config."""
import pathlib
import shutil

import builds
import packed
from builds import Failed, run


def is_installed(folder: str) -> None:
    """Installs the library, and builds test.c over what was installed: by CMake with each library, and by pkg-config."""
    prefix, test = f"{folder}/prefix", str(builds.DIST / "test.c")
    packed.install_by_cmake(builds.DIST, f"{folder}/build", ["-DCMAKE_INSTALL_LIBDIR=lib"], "--prefix", prefix)
    terms = ["share/doc/shamir/LICENSE", "share/doc/shamir/NOTICE"]
    static = ["include/shamir.h", "include/shamir.hpp", "lib/libshamir.a", "lib/pkgconfig/shamir.pc", *terms]
    for name in [*static, "lib/libshamir.so.1", "lib/libshamir.so"]:
        if not pathlib.Path(prefix, name).exists():
            raise Failed(f"CMake doesn't install {name}")
    has_less(f"{folder}/less", static)
    packed.use_by_cmake(test, f"{folder}/user", prefix, ["shamir", "static"])
    if shutil.which("pkg-config"):
        flags = packed.flags_of(f"{prefix}/lib/pkgconfig")
        run(["cc", "-O2", test, "-o", f"{folder}/configured", *flags, f"-Wl,-rpath,{prefix}/lib"])
        run([f"{folder}/configured"])


def has_less(folder: str, static: list[str]) -> None:
    """Builds and installs the library without the shared one and without tests, and as a part of another project."""
    run(["cmake", "-S", str(builds.DIST), "-B", f"{folder}/build", "-DSHAMIR_SHARED=OFF", "-DSHAMIR_TESTS=OFF", "-DCMAKE_INSTALL_LIBDIR=lib"])
    run(["cmake", "--build", f"{folder}/build"])
    run(["cmake", "--install", f"{folder}/build", "--prefix", f"{folder}/prefix"])
    found = {str(path.relative_to(f"{folder}/prefix")) for path in pathlib.Path(folder, "prefix").rglob("*") if path.is_file()}
    shared = {name for name in found if ".so" in name}
    if shared or not found.issuperset(static) or list(pathlib.Path(folder, "build").rglob("shamir_test*")):
        raise Failed(f"without a shared library and tests, CMake installs {sorted(found)}, or builds the tests")
    whole = pathlib.Path(folder, "whole")
    whole.mkdir()
    (whole / "CMakeLists.txt").write_text(
        f"cmake_minimum_required(VERSION 3.16)\nproject(whole C)\nadd_subdirectory({builds.DIST} part)\n"
        f"add_executable(user {builds.DIST}/test.c)\ntarget_link_libraries(user PRIVATE shamir::static)\n"
    )
    run(["cmake", "-S", str(whole), "-B", f"{folder}/joined"])
    run(["cmake", "--build", f"{folder}/joined"])
    run([f"{folder}/joined/user"])
    if list(pathlib.Path(folder, "joined").rglob("shamir_test*")):
        raise Failed("as a part of another project, dist/c builds its tests without being asked to")
