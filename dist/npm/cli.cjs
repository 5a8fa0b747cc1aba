#!/usr/bin/env node
// The program over the files that its words name. It writes what it is to record, and what it prints.
const fs = require("fs");
const { run } = require("./index.cjs");

const words = process.argv.slice(2);
// A file is named by a word, behind `@`, or behind the `=` of an option.
const names = words.flatMap((word) => [word, word.replace(/^@/, ""), word.replace(/^--[\w-]+=@?/, "")]);
const files = {};
// By device and number: a file that has two names here is read once, so that the program knows it again.
const known = new Map();
for (const name of names) {
    if (name === "-") files["/dev/stdin"] ??= fs.readFileSync(0);
    if (!name || !fs.existsSync(name)) continue;
    const told = fs.statSync(name);
    if (!told.isFile()) continue;
    const key = `${told.dev}:${told.ino}`;
    if (!known.has(key)) known.set(key, fs.readFileSync(name));
    files[name] = known.get(key);
}
const at = words.findIndex((word) => word === "--record" || word.startsWith("--record="));
const record = at < 0 ? null : words[at].split("=")[1] ?? words[at + 1];

function writeAll(fd, bytes) {
    for (let done = 0; done < bytes.length; ) {
        try {
            done += fs.writeSync(fd, bytes, done);
        } catch (fault) {
            if (fault.code === "EPIPE") return;
            if (fault.code !== "EAGAIN") throw fault;
        }
    }
}

// How far a search has come, where that can be shown.
const tell = process.stderr.isTTY && process.env.TERM !== "dumb" ? (line) => fs.writeSync(2, line) : undefined;
run(words, files, undefined, tell).then(({ status, out, faults, recorded }) => {
    if (record && recorded.length) fs.writeFileSync(record, recorded);
    writeAll(1, out);
    writeAll(2, faults);
    process.exitCode = status;
});
