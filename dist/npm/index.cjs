// The program as a function: the words of a command line, and the files that they name, as texts or bytes.
const fs = require("fs");
const path = require("path");
const { call } = require("./call.js");

let compiled;

// Answers { status, out, faults, recorded }, the last three in bytes. `tell` hears once a second how far a search has come.
exports.run = async (words, files = {}, limit, tell) => {
    compiled ??= await WebAssembly.compile(fs.readFileSync(path.join(__dirname, "l4run.wasm")));
    return call(compiled, words, files, limit, tell);
};
