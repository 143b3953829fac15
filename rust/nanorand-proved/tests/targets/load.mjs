// Runs a WebAssembly program, and exits with the program's status: node load.mjs PROGRAM. A program for WASI gets only
// WASI as imports, any other program gets none.
import { readFile } from "node:fs/promises";
import { WASI } from "node:wasi";

const wasi = new WASI({ version: "preview1", returnOnExit: true });
const module = await WebAssembly.compile(await readFile(process.argv[2]));
const needsWasi = WebAssembly.Module.imports(module).length > 0;
const instance = await WebAssembly.instantiate(module, needsWasi ? { wasi_snapshot_preview1: wasi.wasiImport } : {});
process.exitCode = needsWasi ? wasi.start(instance) : instance.exports.main(0, 0);
