// The commands of the cases, each with the files that it names and its standard input. examples/README.md has the form of a case.
const fs = require("fs");
const path = require("path");

// The words of a line. Between quotes a word may have blanks, or be empty.
function wordsOf(line) {
    return line.split("'").flatMap((part, place) => (place % 2 ? [part] : part.split(/\s+/).filter(Boolean)));
}

// What a case repeats, written out: {TEXT*M..N} and {TEXT*M..N by K}.
function writtenOut(text) {
    return text.replace(/\{([^{}]*?)\*(\d+)\.\.(\d+)(?: by (\d+))?\}/g, (_, part, from, to, by) => {
        let all = "";
        for (let number = Number(from); number <= Number(to); number += Number(by ?? 1)) all += part.replaceAll("%", number);
        return all;
    });
}

// The commands of a text whose lines have this mark before them.
function commandsOf(lines, mark) {
    return lines.split(`\n${mark}$ `).slice(1).map((block) => {
        const [line, ...said] = block.split("\n");
        const with_ = (sign) => said.filter((it) => it.startsWith(`${mark}${sign} `)).map((it) => it.slice(mark.length + sign.length + 1));
        const input = with_("<");
        return { words: wordsOf(line).slice(1), input: input.map((it) => `${it}\n`).join(""), onTerminal: with_(">").length > 0 };
    });
}

// The file that a word names: behind `@`, or behind the `=` of an option.
const namesOf = (word) => [word, word.replace(/^@/, ""), word.replace(/^--\w+=@?/, "")];

function caseInComments(folder, name) {
    const text = fs.readFileSync(path.join(folder, name), "utf8");
    return commandsOf(text, "; ").map(({ words, input, onTerminal }) => {
        const files = {};
        for (const file of words.flatMap(namesOf)) {
            const at = path.join(folder, file);
            if (file && fs.existsSync(at) && fs.statSync(at).isFile()) files[file] = fs.readFileSync(at);
        }
        files["/dev/stdin"] = Buffer.from(input);
        return { name, words, files, onTerminal };
    });
}

// A case whose commands read its text, whatever file they name.
function caseApart(folder, name) {
    const whole = writtenOut(fs.readFileSync(path.join(folder, name), "utf8"));
    const at = whole.indexOf("\n---\n");
    const text = whole.slice(at + 5);
    return commandsOf(whole.slice(0, at), "").map(({ words, input, onTerminal }) => {
        const files = { "/dev/stdin": Buffer.from(input) };
        const [verb, file, trace] = words.filter((word) => !word.startsWith("--"));
        if (file) files[file === "-" ? "/dev/stdin" : file] = Buffer.from(text);
        if (trace && trace !== "-" && (verb === "audit" || verb === "chart")) files[trace] = Buffer.from(input);
        return { name, words, files, onTerminal };
    });
}

// A run on several processors may take one order or another. Its place takes the replay that goes on in rounds.
function inOneOrder(it) {
    const { words, files } = it;
    const cpus = Number(/^cpus (\S+)/m.exec(files[words[1]] ?? "")?.[1] ?? 1);
    if (words[0] !== "run" || cpus === 1 || words.includes("--record")) return it;
    return { ...it, words: ["replay", words[1], "--schedule", "", "--then-rest", ...words.slice(2)] };
}

// The longest word of a command line that the system takes.
const LONGEST_WORD = 2 ** 17 - 1;
const isTaken = ({ words, onTerminal }) => !onTerminal && !words.includes("--record") && words.every((word) => word.length < LONGEST_WORD);

// All commands of all cases, but those whose output is a terminal, that write a file, or with too long a word.
function allCommands(top) {
    const folder = path.join(top, "crates", "l4_cases", "data");
    const names = [...fs.readdirSync(folder), ...fs.readdirSync(path.join(folder, "examples")).map((name) => `examples/${name}`)].sort();
    const commands = names.flatMap((name) => {
        if (name.endsWith(".l4")) return caseInComments(folder, name);
        return name.endsWith(".case") ? caseApart(folder, name) : [];
    });
    const taken = commands.filter(isTaken);
    return { commands: taken.map(inOneOrder), left: commands.length - taken.length };
}

module.exports = { allCommands };
