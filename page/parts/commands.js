// The tab Output: what a command printed, and commands of one's own.

const MOST_COLOURED = 6000; // lines
const TONES = { deliver: "go", tick: "tick", local: "soft", counts: "soft", "l4run:": "bad", "error:": "bad" };
for (const word of ["deadlock", "circle", "held", "stuck", "stimeout", "snobody", "scancel", "rtimeout", "rnobody", "rcancel", "drop"]) TONES[word] = "bad";

let printed = "";

// The text at the left is m.l4 to the program, unless somebody types another name.
const namedAsHere = ({ faults }) => faults.replace(/^m\.l4:(?=\d+:\d+: )/m, `${doc.name}:`);

// Shows what a command printed: its faults, then its output.
function print(made) {
    printed = namedAsHere(made) + made.out;
    const lines = linesOf(printed);
    $("printedby").textContent = `${counted(lines.length, "line")}, status ${STATUS[made.status] ?? made.status}`;
    if (lines.length > MOST_COLOURED) $("out").textContent = printed;
    else $("out").replaceChildren(...lines.map((line) => el("span", { className: TONES[line.split(" ")[0]] ?? "", textContent: `${line}\n` })));
}

// A file of a command line: the text at the left by its name, `out`, `expected`, or a file of the examples.
function fileOf(name) {
    const base = name.replace(/^(\.\/)?(examples\/)?/, "");
    if (base === doc.name || base === "m.l4") return editor.text;
    if (base === "out") return printed;
    if (base === "expected") return expectations();
    return LESSON_FILES[base];
}

async function command(line) {
    const words = wordsOf(line.trim());
    if (/^(\.\/)?l4run$/.test(words[0])) words.shift();
    const files = {};
    for (const word of words) {
        const name = word.replace(/^@/, "");
        const text = fileOf(name);
        if (text !== undefined) files[name] = text;
    }
    const [made] = await program.perform("long", files, words);
    $("words").value = words.map(quoted).join(" ");
    print(made);
    tab("output");
    comeToRight();
    const begun = isFault(made) || fileOf(words[1]) !== editor.text ? null : sessionOf(words, made);
    if (begun) await begin(begun);
    tellCommand(made, []);
    document.body.dataset.did = "command";
}

// What can be stepped through of a command over the text at the left: a replay, an audit, or the trace of an ending.
function sessionOf(words, made) {
    const list = words[words.indexOf("--schedule") + 1];
    if (words[0] === "replay" && !list.startsWith("@")) return new Schedule(program, editor.text, listOf(list));
    if (words[0] === "audit") return new Trace(program, editor.text, stepsOf(fileOf(words[2]) ?? ""));
    return words[0] === "endings" && words.includes("--trace") ? new Trace(program, editor.text, stepsOf(made.out)) : null;
}
