#!/usr/bin/env node
/** The program `shamir` in Node: program.wasm, and what it takes of the system. */
import { closeSync, constants, openSync, readFileSync, readSync, writeSync } from "node:fs";
import { constants as system } from "node:os";
import { isatty } from "node:tty";
import { getSystemErrorMap } from "node:util";

const PAGE_BYTES = 65536;
const LEAST_BLOCK_BYTES = 16;
/** No read or write moves more at a time. */
const MOVED_BYTES_MAX = 2 ** 30;
const WAIT_MILLISECONDS = 10;
const NO_MEMORY = 4;
/** The status of a program that stops itself. Only an error of a compiler can lead to it. */
const STOPPED = 134;
/** What the C library on Linux says of these errors, as the native program does. Of others, Node's own texts are told. */
const TEXTS = /** @type {Record<string, string>} */ ({
  EACCES: "Permission denied",
  EINVAL: "Invalid argument",
  EIO: "Input/output error",
  EISDIR: "Is a directory",
  ELOOP: "Too many levels of symbolic links",
  EMFILE: "Too many open files",
  ENAMETOOLONG: "File name too long",
  ENODEV: "No such device",
  ENOENT: "No such file or directory",
  ENOMEM: "Cannot allocate memory",
  ENOTDIR: "Not a directory",
  ENXIO: "No such device or address",
  EPERM: "Operation not permitted",
});

/** Blocks of the module's memory. Each has a power of two as its length, so a free one serves the next of this length. */
class Heap {
  /** @param {WebAssembly.Memory} memory */
  constructor(memory) {
    this.memory = memory;
    this.end = memory.buffer.byteLength;
    // The lengths of the blocks in use, by their addresses.
    /** @type {Map<number, number>} */
    this.lengths = new Map();
    // The addresses of free blocks, by their lengths.
    /** @type {Map<number, number[]>} */
    this.free = new Map();
  }

  /**
   * Returns the address of a new block, or 0 if there is no memory.
   *
   * @param {number} bytes
   */
  take(bytes) {
    let length = LEAST_BLOCK_BYTES;
    while (length < bytes) length *= 2;
    const at = this.free.get(length)?.pop() ?? this.grow(length);
    if (at) this.lengths.set(at, length);
    return at;
  }

  /** @param {number} length */
  grow(length) {
    const at = this.end;
    const lacking = at + length - this.memory.buffer.byteLength;
    try {
      if (lacking > 0) this.memory.grow(Math.ceil(lacking / PAGE_BYTES));
    } catch {
      return 0;
    }
    this.end += length;
    return at;
  }

  /** @param {number} at */
  give(at) {
    const length = this.length(at);
    this.lengths.delete(at);
    const others = this.free.get(length);
    if (others) others.push(at);
    else this.free.set(length, [at]);
  }

  /**
   * Returns the address of a block with at least so many bytes, and with the contents of this one, which is then free; or 0.
   *
   * @param {number} at
   * @param {number} bytes
   */
  change(at, bytes) {
    const length = this.length(at);
    if (bytes <= length) return at;
    const to = this.take(bytes);
    if (!to) return 0;
    const memory = new Uint8Array(this.memory.buffer);
    memory.copyWithin(to, at, at + length);
    // What was moved stays nowhere else.
    memory.fill(0, at, at + length);
    this.give(at);
    return to;
  }

  /** @param {number} at */
  length(at) {
    const length = this.lengths.get(at);
    if (!length) throw new RangeError("no block in use is at this address");
    return length;
  }
}

/** @type {WebAssembly.Memory} */
let memory;
/** @type {Heap} */
let heap;
let lastError = 0;

const bytes = () => new Uint8Array(memory.buffer);

/**
 * Writes two numbers of 64 bits.
 *
 * @param {bigint} at
 * @param {bigint} first
 * @param {bigint} second
 */
function answer(at, first, second) {
  const view = new DataView(memory.buffer);
  view.setBigUint64(Number(at), BigInt.asUintN(64, first), true);
  view.setBigUint64(Number(at) + 8, BigInt.asUintN(64, second), true);
}

/**
 * Writes whether there is memory, and where. An address is given in any case, as no reference of the module is null.
 *
 * @param {bigint} to
 * @param {number} at
 */
const answerAddress = (to, at) => answer(to, at ? 1n : 0n, BigInt(at || LEAST_BLOCK_BYTES));

/**
 * @param {bigint} low
 * @param {bigint} high
 */
const wide = (low, high) => BigInt.asUintN(64, low) | (BigInt.asUintN(64, high) << 64n);

/**
 * @param {bigint} at
 * @param {bigint} number
 */
const answerWide = (at, number) => answer(at, number, number >> 64n);

/**
 * Makes a call of the system, again and again while a stream that doesn't block has nothing, or takes nothing. If it fails, keeps its
 * error and returns -1.
 *
 * @param {() => number} call
 */
function called(call) {
  for (;;) {
    try {
      return call();
    } catch (error) {
      const { code, syscall } = /** @type {{ code: string, syscall?: string }} */ (error);
      if (!syscall) throw error;
      // Windows says so at the end of a pipe.
      if (code === "EOF") return 0;
      if (code !== "EAGAIN") {
        lastError = system.errno[code] ?? system.errno.EIO;
        return -1;
      }
      Atomics.wait(new Int32Array(new SharedArrayBuffer(4)), 0, 0, WAIT_MILLISECONDS);
    }
  }
}

/**
 * Returns the text of an error.
 *
 * @param {number} number
 */
function textOf(number) {
  const name = Object.keys(system.errno).find((it) => system.errno[it] === number) ?? "";
  const [, text] = [...getSystemErrorMap().values()].find(([it]) => it === name) ?? [];
  return TEXTS[name] ?? text ?? `Unknown error ${number}`;
}

/**
 * Copies bytes into a part of the memory, as many as it takes. Returns whether it takes all.
 *
 * @param {Uint8Array} from
 * @param {bigint} at
 * @param {bigint} room
 */
function copied(from, at, room) {
  bytes().set(from.subarray(0, Number(room)), Number(at));
  return from.length <= room;
}

/** Node puts U+FFFD where a word isn't UTF-8. In its place, the program gets a word that isn't, and refuses it. */
const words = ["shamir", ...process.argv.slice(2)].map((it) => (it.includes("\uFFFD") ? Uint8Array.of(0xff) : new TextEncoder().encode(it)));

// What the module imports. Addresses, lengths and positions are numbers of 64 bits.
/** @type {Record<string, (...given: any[]) => any>} */
const env = {
  rattle_alloc: (to, length, _align) => answerAddress(to, heap.take(Number(length))),
  rattle_realloc: (to, at, _kept, length, _align) => answerAddress(to, heap.change(Number(at), Number(length))),
  rattle_dealloc: (at) => heap.give(Number(at)),
  rattle_arg(index, at, room) {
    const word = words[Number(index)];
    if (!word) return -1n;
    return copied(word, at, room) ? BigInt(word.length) : -2n;
  },
  rattle_errno: () => lastError,
  rattle_set_errno(number) {
    lastError = number;
  },
  // The program opens files to read them, and nothing else.
  open(path, _flags, _more) {
    const name = bytes().slice(Number(path), bytes().indexOf(0, Number(path)));
    return called(() => openSync(name, constants.O_RDONLY | (constants.O_NOCTTY ?? 0)));
  },
  close: (file) => called(() => (closeSync(file), 0)),
  isatty: (file) => Number(isatty(file)),
  read: (file, at, length) => BigInt(called(() => readSync(file, bytes(), Number(at), Math.min(Number(length), MOVED_BYTES_MAX), null))),
  write: (file, at, length) => BigInt(called(() => writeSync(file, bytes(), Number(at), Math.min(Number(length), MOVED_BYTES_MAX)))),
  __xpg_strerror_r: (number, at, room) => (copied(new TextEncoder().encode(`${textOf(number)}\0`), at, room) ? 0 : system.errno.ERANGE),
  // The program ignores the signal of a pipe that nobody reads, as Node does from the start.
  __sysv_signal: (_number, _handler) => 0n,
  __multi3: (to, low, high, byLow, byHigh) => answerWide(to, wide(low, high) * wide(byLow, byHigh)),
  __ashlti3: (to, low, high, by) => answerWide(to, wide(low, high) << BigInt(by & 127)),
  __lshrti3: (to, low, high, by) => answerWide(to, wide(low, high) >> BigInt(by & 127)),
};

/** Returns the module with its memory, or nothing if there is no memory. */
function begun() {
  const module = new WebAssembly.Module(readFileSync(new URL("program.wasm", import.meta.url)));
  try {
    return new WebAssembly.Instance(module, { env });
  } catch (error) {
    if (!(error instanceof RangeError)) throw error;
    return null;
  }
}

/** Runs the program, and returns its exit status. */
function run() {
  const instance = begun();
  if (!instance) {
    called(() => writeSync(2, "shamir: out of memory\n"));
    return NO_MEMORY;
  }
  const { main, memory: own } = /** @type {{ main: (count: number, words: bigint) => number, memory: WebAssembly.Memory }} */ (
    /** @type {unknown} */ (instance.exports)
  );
  memory = own;
  heap = new Heap(memory);
  try {
    return main(0, 0n);
  } catch (error) {
    console.error(error);
    return STOPPED;
  } finally {
    bytes().fill(0);
  }
}

process.exitCode = run();
