/*
 * shamir.c: SLIP-0039 backups of a master secret in one file of C99. shamir.h says what each call does.
 *
 * This is the library shamir @VERSION@ for every processor that gcc, clang or MSVC knows. It exports the calls of shamir.h alone, and
 * takes memcpy, memmove, memset, malloc and free of the C library. `cc -O2 -c shamir.c` compiles it.
 *
 * It has three parts. The runtime and the adapter are written by hand. The generated part comes from shamir32.wasm, the module of the
 * library for WebAssembly, which was compiled from proved sources:
 *
 *     sha256 of shamir32.wasm   @SUM@
 *     made into C by            wasm2c @WASM2C@ (wabt), then by tools/portable of the sources of shamir
 *
 * What is proved, and what is trusted: the proofs of shamir are about the sources of the module. wasm-opt, wasm2c, tools/portable, the
 * two parts written by hand and your C compiler aren't proved. Tests compare this file with the native library.
 *
 * Macros for a build:
 *
 *     SHAMIR_ALLOCATE(bytes), SHAMIR_RELEASE(memory)   are used instead of malloc and free. Define both. Declare their
 *                                                      functions too, such as by -include my_alloc.h.
 *     SHAMIR_CHECKED                                   checks each address of the generated part, and stops the program at one
 *                                                      that is out of range. Tests use it. A call is slower with it.
 *
 * SPDX-License-Identifier: MIT AND Apache-2.0
 *
 * LICENSE and NOTICE of shamir have the terms. The generated part has the form that wasm2c gives it, and wabt has the Apache License 2.0.
 */

#include "shamir.h"

#include <string.h>
#ifndef SHAMIR_ALLOCATE
#include <stdlib.h>
#define SHAMIR_ALLOCATE(bytes) malloc(bytes)
#define SHAMIR_RELEASE(memory) free(memory)
#endif
