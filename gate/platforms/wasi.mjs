// Runs a WASI program by Node, as cargo calls it for `run`: `node wasi.mjs PROGRAM ARGS...`. The
// program gets the environment, and access to all files by their paths.
import { readFileSync } from "node:fs";
import { WASI } from "node:wasi";

const args = process.argv.slice(2);
const wasi = new WASI({ version: "preview1", args, env: process.env, preopens: { "/": "/" } });
const imports = wasi.getImportObject();
const noThread = () => { throw new Error("WASI has no threads"); };
// What Rust's library links to, and Debian's C library for WASI lacks.
imports.env = {
    // the tag that a panic is thrown with
    __cpp_exception: new WebAssembly.Tag({ parameters: ["i32"] }),
    pthread_join: noThread,
    pthread_detach: noThread,
};
const { instance } = await WebAssembly.instantiate(readFileSync(args[0]), imports);
process.exitCode = wasi.start(instance);
