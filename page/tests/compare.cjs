// node compare.cjs MODULE.wasm PROGRAM TOP: each command of all cases, by the module and by the program, byte by byte. Where something stands on
// standard error, so it is once more with a terminal there, which is told more of a fault.
const fs = require("fs");
const { call } = require("../module/call.js");
const { allCommands } = require("./cases.cjs");
const { printedBy, printedOnTerminal, isSame } = require("./native.cjs");

async function main([module, program, top]) {
    const compiled = new WebAssembly.Module(fs.readFileSync(module));
    const made = ({ words, files }, tell) =>
        call(compiled, words, files, undefined, tell).catch((trap) => ({ status: String(trap), out: "", faults: "" }));
    const { commands, left } = allCommands(top);
    const others = [];
    const took = { module: 0n, program: 0n };
    const compare = (where, it, found, wanted) => {
        if (isSame(found, wanted)) return;
        others.push(`${it.name}: ${it.words.join(" ").slice(0, 200)}${where}: ${found.status} in place of ${wanted.status}`);
    };
    const faulty = [];
    for (const it of commands) {
        const began = process.hrtime.bigint();
        const found = await made(it);
        const between = process.hrtime.bigint();
        const wanted = printedBy(program, it);
        took.program += process.hrtime.bigint() - between;
        took.module += between - began;
        compare("", it, found, wanted);
        if (wanted.faults.length) faulty.push(it);
    }
    const onTerminal = printedOnTerminal(program, faulty);
    for (const [place, it] of faulty.entries()) compare(", on a terminal", it, await made(it, () => {}), onTerminal[place]);
    for (const other of others) console.log(other);
    const seconds = (time) => `${(Number(time) / 1e9).toFixed(1)} s`;
    const times = `module ${seconds(took.module)}, program ${seconds(took.program)}`;
    const count = `${commands.length} commands of the cases and ${faulty.length} of them on a terminal`;
    console.log(`the module: ${count}, ${others.length} differ, ${left} left out; ${times}`);
    process.exitCode = others.length || !faulty.length ? 1 : 0;
}
main(process.argv.slice(2));
