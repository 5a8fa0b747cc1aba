// The tab Expectations: lines that a report must have, or must not have, judged at a state or at all endings.

const MOST_MISSING = 200;

// The expectations, with the line end that the last line has to have.
const expectations = () => $("wanted").value.replace(/\n*$/, "\n");

async function fillIn() {
    const exact = await session.exact();
    const [made] = await program.perform("step", exact.files(exact.at), exact.command("--report"));
    $("wanted").value = isFault(made) ? "" : made.out.replace(/^passed .*\n/, "");
    tellCommand(made, session.done);
}

async function judge(isOfAll) {
    if (!isOfAll && (session instanceof Trace || session.part)) {
        const lines = ["The program judges runs, lists of items, and all endings."];
        const head = session.part ? "A state in the middle of an item" : "A state of a trace";
        sayIn("judged", { tone: "fair", head: `${head} is judged by none of its commands.`, lines });
        return;
    }
    const wanted = expectations();
    const { text } = editor;
    const files = isOfAll ? { "m.l4": text, wanted } : { ...session.files(session.at), wanted };
    const words = isOfAll ? searchWords() : session.command("--report");
    const [made] = await program.perform("long", files, [...words, "--expect", "wanted"]);
    if (isFault(made)) sayFault("judged", made, isOfAll ? text : session.text);
    else sayIn("judged", judgement(made, isOfAll));
    const missing = made.status === 4 ? linesOf(made.faults).slice(0, MOST_MISSING) : [];
    const open = (ending) => openEnding(ending, words, text);
    $("missing").replaceChildren(...missing.map((line) => el("li", {}, missingLine(line, wanted, open))));
    print(made);
    tellCommand(made, isOfAll ? [] : session.done);
    document.body.dataset.did = "judge";
}

function judgement(made, isOfAll) {
    if (made.status === 4) {
        const lines = linesOf(made.faults);
        const unmet = lines.filter((line) => line.startsWith("line ")).length;
        const endings = lines.filter((line) => line.startsWith("ending ")).length;
        const where = isOfAll ? ` in ${counted(endings, "ending")}` : "";
        return { tone: "bad", head: `Not as expected: ${counted(unmet, "line does", "lines do")} not hold${where}.`, lines: [] };
    }
    if (!isOfAll) return { tone: "good", head: `As expected behind ${counted(session.at, "item")}.`, lines: [] };
    const isCut = made.status === 3;
    const more = isCut ? ["The search was cut off: there may be more endings."] : [];
    return { tone: isCut ? "fair" : "good", head: "As expected in all endings that were found.", lines: more };
}

// A line that does not hold leads to its expectation, the name of an ending to its steps.
function missingLine(line, wanted, open) {
    const ending = headOf(line);
    if (ending) return button(`ending ${ending.number}: step through it`, () => open(ending));
    return button(line, () => {
        const number = Number(line.match(/^line (\d+): /)?.[1] ?? 1);
        const lines = wanted.split("\n");
        const from = lines.slice(0, number - 1).reduce((sum, it) => sum + it.length + 1, 0);
        $("wanted").focus();
        $("wanted").setSelectionRange(from, from + lines[number - 1].length);
    });
}
