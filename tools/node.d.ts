declare module "node:fs" {
  export const constants: { O_RDONLY: number; O_NOCTTY?: number };
  export function closeSync(file: number): void;
  export function openSync(path: Uint8Array, flags: number): number;
  export function readFileSync(path: URL): Uint8Array;
  export function readSync(file: number, buffer: Uint8Array, offset: number, length: number, position: null): number;
  export function writeSync(file: number, buffer: Uint8Array, offset: number, length: number): number;
  export function writeSync(file: number, text: string): number;
}
declare module "node:os" {
  export const constants: { errno: Record<string, number> };
}
declare module "node:tty" {
  export function isatty(file: number): boolean;
}
declare module "node:util" {
  export function getSystemErrorMap(): Map<number, [name: string, text: string]>;
}
declare const process: { argv: string[]; exitCode: number };
