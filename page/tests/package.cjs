// node package.cjs MODULE.wasm PROGRAM TOP: the command of the npm package and the program, each in a folder of its own: do they print the
// same, and leave the same files?
const { spawnSync } = require("child_process");
const fs = require("fs");
const os = require("os");
const path = require("path");

const [, , module_, program, top] = process.argv;
const text = fs.readFileSync(path.join(top, "examples", "first.l4"));

// The command of each line, with the text as its standard input, one behind the other in one folder.
const COMMANDS = [
    "run m.l4 --record new.list",
    "replay m.l4 --schedule @new.list --report --waits",
    "run m.l4 --record old.list --report",
    "run m.l4 --record=named.list",
    "run m.l4 --record ./m.l4",
    "run m.l4 --record link.l4",
    "run ./m.l4 --record m.l4",
    "replay m.l4 --schedule 0 --then-rest --record rest.list",
    "replay m.l4 --schedule 0 --next",
    "run - --report",
    "run nowhere.l4",
    "lint m.l4",
];

const filled = (folder) => {
    fs.writeFileSync(path.join(folder, "m.l4"), text);
    fs.writeFileSync(path.join(folder, "old.list"), "c0,c0,c0,c0,c0,c0,c0,c0,c0\n");
    fs.symlinkSync("m.l4", path.join(folder, "link.l4"));
};
const left = (folder) => fs.readdirSync(folder).sort().map((name) => `${name}: ${fs.readFileSync(path.join(folder, name))}`).join("\n");

function done(folder, command, words) {
    const { status, stdout, stderr } = spawnSync(command[0], [...command.slice(1), ...words], { cwd: folder, argv0: "l4run", input: text });
    return JSON.stringify([status, `${stdout}`, `${stderr}`, left(folder)]);
}

const work = fs.mkdtempSync(path.join(os.tmpdir(), "page-package-"));
try {
    const [package_, one, other] = ["package", "one", "other"].map((name) => path.join(work, name));
    for (const folder of [package_, one, other]) fs.mkdirSync(folder);
    for (const file of ["dist/npm/cli.cjs", "dist/npm/index.cjs", "page/module/call.js"]) {
        fs.copyFileSync(path.join(top, file), path.join(package_, path.basename(file)));
    }
    fs.copyFileSync(module_, path.join(package_, "l4run.wasm"));
    filled(one);
    filled(other);
    let bad = 0;
    for (const line of COMMANDS) {
        const words = line.split(" ");
        const made = done(one, [process.execPath, path.join(package_, "cli.cjs")], words);
        const wanted = done(other, [path.resolve(program)], words);
        if (made === wanted) continue;
        bad += 1;
        console.log(`the package: other: ${line}: ${made.slice(0, 300)} in place of ${wanted.slice(0, 300)}`);
    }
    console.log(`the package: ${COMMANDS.length} commands, ${bad} differ`);
    process.exitCode = bad ? 1 : 0;
} finally {
    fs.rmSync(work, { recursive: true });
}
