// Reads machine texts, and what the program prints, as far as the page shows it. docs/FORMATS.md has each line.

const CODES = {
    0: "it ended well",
    2: "time of the send over, or not admitted",
    3: "time of the receive over",
    4: "send to nobody",
    5: "receive from nobody",
    6: "send cancelled",
    7: "receive cancelled",
};
const STATUS = { 0: "0, ended", 1: "1, a fault", 2: "2, wrong usage", 3: "3, more could come", 4: "4, not as expected" };

// A status of a command whose output is no answer.
const isFault = (made) => made.status === 1 || made.status === 2;
// The line of a fault, behind which lines may explain it.
const faultOf = (made) => made.faults.split("\n")[0];

const linesOf = (out) => out.split("\n").slice(0, -1);

// The steps of a replay, as `--json` tells them: each as a line of a trace, with the line of the instruction that it runs, or 0, and where a send
// goes to.
function toldOf(out) {
    return linesOf(out).map((text) => {
        const { kind, to, line = 0, ...words } = JSON.parse(text);
        return { step: [kind, ...Object.values(words).flat()].join(" "), line: Number(line), to };
    });
}

// The steps of a trace, each with what the rows of its chart tell of it: the line of the instruction that it runs, or 0, and where a send goes to. A
// step that is refused has no row.
function toldOfChart(steps, svg) {
    const titles = [...svg.matchAll(/<g class="row[^"]*"><title>([^<]*)<\/title>.*<text class="number"/g)].map(([, title]) => title);
    return steps.map((step, place) => {
        const [, to, line = 0] = titles[place]?.match(/^\S+ \S+(?: to (\S+))?.*?(?:\(line (\d+)[^()]*\))?$/) ?? [];
        return { step, line: Number(line), to };
    });
}

// The line of the instruction that each thread is in, or ran last; 0 of one that ran none.
function placesOf(machine, told) {
    const lines = new Map(machine.threads.map(({ id }) => [id, 0]));
    for (const { step, line } of told) if (line) lines.set(step.split(" ")[1].split("#")[0], line);
    return [...lines].map(([id, line]) => ({ id, line }));
}

// Processors, and threads with their scripts by lines. A text with a fault is read as far as it goes. Names of version 2 are left out: ids stand for
// those of ids, places of the script for those of its instructions.
function machineOf(text) {
    const machine = { cpus: 0, bits: 64, isOfTwo: false, threads: [], byId: new Map() };
    const names = new Map();
    text.split("\n").forEach((line, place) => {
        const { label, words } = saidOf(line);
        const script = machine.threads.at(-1)?.script;
        if (label && script) script.labels.set(label, script.length);
        const [word] = words;
        if (word === "l4") Object.assign(machine, { bits: Number(words[2]) || 64, isOfTwo: Number(words[3]) === 2 });
        else if (word === "cpus") machine.cpus = Number(words[1]) || 0;
        else if (word === "name") names.set(words[1], names.get(words[2]) ?? words[2]);
        else if (word === "thread") addThreads(machine, words.map((it) => names.get(it) ?? it), place + 1);
        else if (word && script) script.push({ line: place + 1, words: words.map((it, at) => (at && names.get(it)) || it) });
    });
    for (const { script } of machine.threads) for (const { words } of script) words.push(...placed(script.labels, words.pop()));
    for (const [name, id] of names) if (machine.byId.has(id)) machine.byId.get(id).name = name;
    return machine;
}
const placed = (labels, word) => [labels.has(word) ? `${labels.get(word)}` : word];

// The processor of the thread that a step names first.
const cpuOf = (machine, step) => machine.byId.get(step.split(" ")[1].split("#")[0])?.cpu;

// What a line says: the name of an instruction in front of it, without blanks around and comments behind.
function saidOf(line) {
    const said = line.split(";")[0].trim();
    const [, label, rest] = /^(\S*):(?:\s+(.*))?$/.exec(said) ?? [undefined, undefined, said];
    return { label, words: rest ? rest.split(" ") : [] };
}

// The thread whose id a register has as its word. In scripts of version 2 alone a word can be one.
function idOfWord({ bits, isOfTwo, byId }, word) {
    const [number, version] = [BigInt(`0x${word}`), bits === 32 ? 14n : 32n];
    const id = `${number >> version}.${number & ((1n << version) - 1n)}`;
    return isOfTwo && byId.has(id) ? id : "";
}

// The threads of a line: one, or those of many numbers.
function addThreads(machine, words, line) {
    const [, last] = words[2] === "to" ? words.splice(2, 2) : [];
    const [, first = "", , cpu, , space, , source] = words;
    const script = machine.byId.get(source)?.script ?? Object.assign([], { labels: new Map() });
    for (const id of last ? idsBetween(first, last) : [first]) {
        const thread = { id, cpu: Number(cpu), space, line, script };
        machine.threads.push(thread);
        machine.byId.set(id, thread);
    }
}
function idsBetween(first, last) {
    const [[number, version], [end]] = [first, last].map((id) => id.split(".").map(Number));
    return Array.from({ length: Math.min(1024, Math.max(0, end - number + 1)) }, (_, more) => `${number + more}.${version}`);
}

// How long a finite time is, in microseconds: so many of them, or ten bits times two to the power of the next five. Of other words it is 0.
function periodOf(time) {
    const counted = /^(\d+)(us|ms|s)$/.exec(time);
    if (counted) return Number(counted[1]) * { us: 1, ms: 1000, s: 1000000 }[counted[2]];
    const word = Number(time) || 0;
    return word === 1024 ? 0 : (word & 1023) * 2 ** ((word >> 10) & 31);
}

// Threads, who waits for whom, circles and deadlocks, sends that are held, and how it ended.
function reportOf(out) {
    const report = { threads: [], byId: new Map(), circles: [], deadlocks: [], ending: "" };
    const waits = new Map();
    const held = new Map();
    for (const line of out.split("\n")) {
        const [word, ...rest] = line.split(" ");
        if (word === "thread") {
            const [id, state, code, from, actual, ...registers] = rest;
            const thread = { id, state, code, from, actual, registers, line, called: id, heard: from };
            report.threads.push(thread);
            report.byId.set(id, thread);
        } else if (word === "waits") {
            waits.set(rest[0], { to: rest[1], phase: rest[2], called: rest[1] });
        } else if (word === "circle") {
            report.circles.push(rest);
        } else if (word === "deadlock") {
            report.deadlocks.push(rest);
        } else if (word === "held") {
            held.set(rest[0].split("#")[0], rest[0]);
        } else if (word === "ending") {
            report.ending = rest[0];
        }
    }
    for (const thread of report.threads) {
        thread.wait = waits.get(thread.id);
        thread.held = held.get(thread.id);
        thread.isDead = report.deadlocks.some((ids) => ids.includes(thread.id));
        thread.isCaught = thread.isDead || (report.ending === "quiet" && isClosed(thread.wait));
    }
    letRest(report, []);
    return report;
}

// Who is caught is stuck, but for those that may rest where they are.
function letRest(report, ids) {
    for (const thread of report.threads) {
        thread.isResting = thread.isCaught && ids.includes(thread.id);
        thread.isStuck = thread.isForever || (thread.isCaught && !thread.isResting);
    }
}

// An id, with the name behind it that the text gives its thread.
function calledIn({ byId }, id) {
    const { name } = byId.get(id) ?? {};
    return name ? `${id} (${name})` : id;
}
// The threads of a report are called as the text has them.
function nameThreads(report, machine) {
    for (const thread of report.threads) {
        const { name } = machine.byId.get(thread.id) ?? {};
        Object.assign(thread, { name, called: calledIn(machine, thread.id), heard: calledIn(machine, thread.from) });
        if (thread.wait) thread.wait.called = calledIn(machine, thread.wait.to);
    }
}

// A wait for one thread alone. Who waits for any message is a server that waits for its next client.
function isClosed(wait) {
    return !!wait && (wait.phase === "send" || (wait.to !== "any" && wait.to !== "anylocal"));
}

// What may come next behind a list, as `--next` prints it: each item, of which kind it is, and the steps that it would tell.
function nextOf(out) {
    const found = [];
    for (const line of linesOf(out)) {
        if (!line.startsWith("next ")) {
            found.at(-1).steps.push(line);
            continue;
        }
        const item = line.slice("next ".length);
        const [, cpu, from] = item.match(/(\d+)(?::(\d+))?$/);
        found.push({ cpu: Number(cpu), item, from, steps: [] });
    }
    const kindOf = ({ cpu, item, from, steps }) => {
        if (from) return "letter";
        if (item.startsWith("t")) return "tick";
        if (!steps.length) return "silent";
        return found.some((it) => it.from && it.cpu === cpu) ? "own" : "turn";
    };
    return found.map((choice) => ({ ...choice, kind: kindOf(choice) }));
}

// The head of an ending: its number, and either the items that lead there or the number of steps. No head has neither.
function headOf(line) {
    const [, number, steps, items] = line.match(/^ending (\d+)(?: steps (\d+)| (\S+))?$/) ?? [];
    if (number === undefined) return null;
    return steps === undefined ? { number, list: listOf(items ?? "") } : { number, steps: Number(steps) };
}

// The endings that a search printed, and its last line. `isEndless`: nothing ends at all. `forever`: the threads that may be stuck for ever,
// whether or not the others come to rest; their numbers count on behind those of the endings. `isByWalk`: a walk at random came to an ending, and no
// other was looked for. Threads that may rest are not stuck.
function endingsOf(out, rests = []) {
    const found = { endings: [], forever: [], isForeverCut: false, last: "", isEndless: false, isByWalk: false };
    for (const line of linesOf(out)) {
        const head = headOf(line);
        const [, id, steps] = line.match(/^stuck (\S+) for ever, steps (\d+)$/) ?? [];
        if (head) found.endings.push({ ...head, lines: [] });
        else if (id) found.forever.push({ number: `${found.endings.length + found.forever.length + 1}`, id, called: id, steps: Number(steps) });
        else if (line === "stuck for ever: cut") found.isForeverCut = true;
        else if (/^(states|worlds) /.test(line)) found.last = line;
        else if (line.startsWith("no ending")) found.isEndless = true;
        else if (line.startsWith("found by a walk")) Object.assign(found, { isByWalk: true, last: line });
        else found.endings.at(-1)?.lines.push(line);
    }
    for (const ending of found.endings) {
        ending.report = reportOf(ending.lines.join("\n"));
        letRest(ending.report, rests);
    }
    return found;
}

// Whether a world on the way has all lines that were asked for, and such a world: what threads are in, and to whom they send.
function momentOf(out) {
    const [head, ...lines] = linesOf(out);
    const [, steps, orFewer] = head.match(/^met, steps (\d+)( or fewer)?$/) ?? [];
    const report = reportOf(lines.join("\n"));
    for (const line of lines) {
        const [, id, to] = line.match(/^waiting (\S+)#\d+ (\S+)$/) ?? [];
        if (id && report.byId.has(id)) report.byId.get(id).wait = { to, phase: "send", called: to };
    }
    return { isMet: steps !== undefined, steps: Number(steps), isLeast: !orFewer, isCut: head === "not met: cut", report, last: lines.at(-1) ?? "" };
}

// The marks of `lint`: each has a line, a column, a word and what may stand there, or what is doubtful.
function marksOf(out) {
    const mark = /^line (\d+) column (\d+): (\w+)(?:: `(.*?)`)?: (.*)$/;
    return linesOf(out)
        .map((line) => line.match(mark))
        .filter(Boolean)
        .map(([, line, column, kind, word, hint]) => ({
            line: Number(line),
            column: Number(column),
            kind,
            word,
            hint,
            isDoubt: kind === "always" || kind === "perhaps",
        }));
}
// The mark of a fault of the text, as the program explains it on a terminal.
function faultMarkOf({ faults }) {
    const [, line, column, said] = faults.match(/^m\.l4:(\d+):(\d+): (.*)$/m) ?? [];
    return line && marksOf(`line ${line} column ${column}: ${said}\n`)[0];
}
function markText({ kind, word, hint, isDoubt }) {
    const named = word ? `\`${word}\`: ` : "";
    return isDoubt ? `${kind}${word ? ` \`${word}\`` : ""}: ${hint}` : `${named}${hint} (${kind})`;
}

// The items of a list that was typed, or recorded.
function listOf(text) {
    const lines = text.split("\n").filter((line) => !line.startsWith(";"));
    return lines.join("\n").split(/[\s,]+/).filter(Boolean);
}

// The steps of a trace that was typed, opened or printed.
const stepsOf = (text) => text.split("\n").map((line) => line.trim()).filter(Boolean);
// A list of items has no word of more than one letter.
const isTrace = (text) => /^\s*[a-z]{2}/.test(text);

// The words of a command line, as a shell takes them apart: by blanks, and by single and double quotes.
function wordsOf(line) {
    const words = [];
    for (const [, bare, single, double] of line.matchAll(/([^\s'"]+)|'([^']*)'|"([^"]*)"/g)) words.push(bare ?? single ?? double);
    return words;
}
const quoted = (word) => (/^[\w@%+=:,./-]+$/.test(word) ? word : `'${word}'`);
