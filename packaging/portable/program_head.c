/*
 * program.c: the program shamir, for SLIP-0039 backups of a master secret, in one file of C99.
 *
 * `cc -O2 program.c -o shamir` gives the program shamir @VERSION@ on every system that gcc, clang or MSVC knows (MSVC wasn't tried).
 *
 * It has three parts. The runtime and the adapter are written by hand. The generated part comes from program.wasm, which was compiled from
 * the proved sources of the program:
 *
 *     sha256 of program.wasm    @SUM@
 *     made for WebAssembly by   the clang and the linker of the kit, from the LLVM module that the kit makes of the program, and by
 *                               wasm-opt @WASM_OPT@ (binaryen); tools/wasm of the sources of shamir says how
 *     made into C by            wasm2c @WASM2C@ (wabt), then by tools/portable of the sources of shamir
 *
 * What is proved, and what is trusted: the proofs of shamir are about the sources of the program. The kit's compiler, its clang, wasm-opt,
 * wasm2c, tools/portable, the two parts written by hand and your C compiler aren't proved. Tests compare this file with the native program.
 *
 * Macros for a build:
 *
 *     SHAMIR_MEMORY_BYTES_MAX   how much memory the program takes at most for its heap, stack and constants: a multiple of 65536
 *     SHAMIR_CHECKED            checks each address of the generated part, and stops the program at one that is out of range. Tests use
 *                               it. The program is slower with it.
 *
 * License: LICENSE of shamir. The generated part has the form that wasm2c gives it, and wabt has the Apache License 2.0; see NOTICE.
 * SPDX-License-Identifier: MIT AND Apache-2.0
 */

/* strerror_r has the form of POSIX. */
#undef _GNU_SOURCE
#if !defined(_WIN32) && !defined(_POSIX_C_SOURCE)
#define _POSIX_C_SOURCE 200809L
#endif
#define _CRT_SECURE_NO_WARNINGS
#include <errno.h>
#include <fcntl.h>
#include <math.h>
#include <signal.h>
#include <stdint.h>
#include <stdlib.h>
#include <string.h>
#ifdef _WIN32
#include <io.h>
#include <windows.h>
#include <shellapi.h>
#ifdef _MSC_VER
#pragma comment(lib, "shell32.lib")
#endif
#else
#include <unistd.h>
#endif
