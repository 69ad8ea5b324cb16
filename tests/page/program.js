#!/usr/bin/env node
// tests/page/program.js FILE: runs a program that mk/bin/wasm made, with this process's standard input and output.
"use strict";
const fs = require("fs");
let memory;
// a pipe that is not ready is tried again
const patiently = action => {
    for (;;) {
        try {
            return action();
        } catch (error) {
            if (error.code === "EOF") return 0;
            if (error.code !== "EAGAIN") throw error;
        }
    }
};
const bytes = (at, length) => new Uint8Array(memory.buffer, at, length);
const env = {
    read: (file, to, most) => patiently(() => fs.readSync(file, bytes(to, most))),
    write: (file, from, length) => patiently(() => fs.writeSync(file, bytes(from, length))),
    exit: status => process.exit(status),
};
const program = new WebAssembly.Instance(new WebAssembly.Module(fs.readFileSync(process.argv[2])), { env });
memory = program.exports.memory;
process.exitCode = program.exports.main(0, 0);
