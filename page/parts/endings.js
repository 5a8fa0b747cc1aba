// The tab Endings: a search of all orders, and a card for each ending; and whether some lines of a report can hold at one moment on the way. Where
// it is whatever the scheduler does, an ending has a trace, which is asked for by its number. Of turns as the processors take them it has the list of
// items.

let searched = null; // the text that was searched last
// What was found in a text that is no longer at the left is pale.
function showWhetherOld() {
    const isOld = searched !== null && searched !== editor.text;
    $("oldsearch").hidden = !isOld;
    for (const id of ["found", "endinglist", "count"]) $(id).classList.toggle("old", isOld);
}

const MOST_CARDS = 300;
const MOST_THREADS = 14; // on a card

// The words of a search: of which kind, and within which limits.
const limitWords = () => ["--depth", $("depth").value, "--states", $("states").value, "--memory", $("counted").value];
const searchWords = () => ["endings", "m.l4", ...($("placed").checked ? ["--placed"] : []), ...limitWords()];

// Opens an ending that a search with these words found, at its end; where a thread comes to be stuck for ever; or a moment in which lines hold.
async function openEnding({ number, list, id, condition }, words, text) {
    if (list) {
        tab("steps");
        await begin(new Schedule(program, text, list));
        return;
    }
    const [made] = await program.perform("long", { "m.l4": text }, [...words, "--trace", number]);
    if (isFault(made)) throw new Error(faultOf(made));
    const trace = new Trace(program, text, stepsOf(made.out));
    if (id) trace.forever = { id, at: trace.at };
    if (condition) trace.moment = { condition, at: trace.at };
    tab("steps");
    await begin(trace);
}

// Searches the text at the left by these words. Nothing where it has a fault, which is said then.
async function searchedBy(words) {
    const { text } = editor;
    searched = text;
    showWhetherOld();
    sayIn("found", { tone: "", head: "Searching all orders ..", lines: [] });
    $("endinglist").replaceChildren();
    $("count").textContent = "";
    tab("endings");
    let made;
    try {
        [made] = await program.perform("long", { "m.l4": text }, words);
    } catch (trap) {
        const stopped = "Stopped. Smaller limits, or a question for one line, search less.";
        sayIn("found", { tone: "fair", head: trap instanceof Stopped ? stopped : trap.message, lines: [] });
        throw trap;
    }
    print(made);
    document.body.dataset.searched = text;
    if (!isFault(made)) return { made, text };
    sayFault("found", made, text);
    return null;
}

let searchAgain = () => {};
async function search(isStuckOnly) {
    searchAgain = () => search($("onlystuck").checked);
    $("onlystuck").checked = isStuckOnly;
    const asked = searchWords();
    const rests = resting();
    if (isStuckOnly) asked.push("--stuck", ...(rests.length ? ["--rests", rests.join(",")] : []));
    if ($("oneisenough").checked) asked.push("--none");
    for (const name of ["with", "never"]) if ($(name).value.trim()) asked.push(`--${name}`, $(name).value.trim());
    const answer = await searchedBy([...asked, "--waits"]);
    if (!answer) return;
    const { made, text } = answer;
    const found = endingsOf(made.out, rests);
    const machine = machineOf(text);
    for (const { report: ended } of found.endings) nameThreads(ended, machine);
    for (const thread of found.forever) thread.called = calledIn(machine, thread.id);
    const isPart = asked.includes("--with") || asked.includes("--never");
    if (isPart) $("bylines").open = true;
    sayIn("found", searchText({ ...found, isStuckOnly, isPart, rests, took: made.took }));
    const count = found.endings.length + found.forever.length;
    if (!count && / cut$/.test(found.last) && !$("placed").checked && !$("oneisenough").checked) offerWalks(isStuckOnly);
    $("count").textContent = count;
    showEndings(found, (ending) => openEnding(ending, asked, text));
    tellCommand(made, [], found.last.split(",")[0]);
}

// What the buttons at the top ask: not for one ending alone.
function searchAll(isStuckOnly) {
    $("oneisenough").checked = false;
    return search(isStuckOnly);
}

// A search that was cut and found nothing may have looked at too little: a walk at random goes far at once.
function offerWalks(isStuckOnly) {
    const walk = button("Look for one by walks at random", () => {
        $("oneisenough").checked = true;
        return search(isStuckOnly);
    });
    walk.className = "inline";
    $("found").append(el("p", {}, walk));
}

// Whether lines of a report can hold at one moment, in whatever order and time.
async function askForMoment() {
    const condition = $("together").value.trim();
    if (!condition) {
        sayIn("found", { tone: "fair", head: "Write lines first: the choice below the field does so.", lines: [] });
        return;
    }
    searchAgain = askForMoment;
    const asked = ["endings", "m.l4", ...limitWords(), "--always", `never ${condition}`];
    const answer = await searchedBy(asked);
    if (!answer) return;
    const { made, text } = answer;
    const moment = momentOf(made.out);
    nameThreads(moment.report, machineOf(text));
    sayIn("found", momentText({ ...moment, took: made.took }));
    const cards = moment.isMet ? [momentCard(moment, () => openEnding({ number: "1", condition }, asked, text))] : [];
    $("count").textContent = cards.length;
    $("endinglist").replaceChildren(...cards);
    letIdsFit([moment]);
    tellCommand(made, [], moment.last);
}

// What a line may say of a thread, in words.
const LINES = {
    "is ready": (id) => `thread ${id} ready ..`,
    "is sending": (id) => `thread ${id} sending ..`,
    "is receiving": (id) => `thread ${id} receiving ..`,
    "has ended": (id) => `thread ${id} ended ..`,
    "is deleted": (id) => `thread ${id} deleted ..`,
    "has a send under way": (id) => `waiting ${id}#* *`,
};
function offerLines() {
    const ids = machineOf(editor.text).threads.map(({ id }) => id);
    const chosen = $("lineof").value;
    $("lineof").replaceChildren(...ids.map((id) => el("option", { value: id, textContent: id })));
    if (ids.includes(chosen)) $("lineof").value = chosen;
    if (!$("linesays").length) $("linesays").append(...Object.keys(LINES).map((says) => el("option", { value: says, textContent: says })));
}
function writeLine(id) {
    const line = LINES[$("linesays").value]($("lineof").value);
    const before = id === "together" ? $(id).value.trim() : "";
    $(id).value = before ? `${before} & ${line}` : line;
    $(id).focus();
}

function showEndings({ endings, forever }, open) {
    const differs = differences(endings);
    const cards = endings.slice(0, MOST_CARDS).map((ending) => endingCard(ending, differs, () => open(ending)));
    const more = endings.length - cards.length;
    const rest = more > 0 ? [el("p", { className: "none", textContent: `${more} more are in the tab Output.` })] : [];
    const note = el("small", { textContent: "A card opens where that begins; the others may go on behind it." });
    const head = forever.length ? [el("h3", {}, "Stuck for ever, whatever the others do ", note)] : [];
    const threads = forever.slice(0, MOST_CARDS).map((thread) => foreverCard(thread, () => open(thread)));
    $("endinglist").replaceChildren(...cards, ...rest, ...head, ...threads);
    letIdsFit(endings);
}

// Ids with their names have one width on all cards, as far as there is room.
function letIdsFit(endings) {
    const longest = Math.max(0, ...endings.flatMap(({ report }) => report.threads.map(({ called }) => called.length)));
    $("endinglist").style.setProperty("--ids", `max(44px, ${Math.min(22, longest)}ch)`);
}

const opens = (open) => () =>
    guarded(async () => {
        await open();
        $("slider").focus();
        comeToRight();
    });

// A thread that may be stuck for ever, of which a search tells how many steps make it so.
function foreverCard({ called, steps }, open) {
    const name = el("span", { className: "name" }, el("b", { textContent: called }), "can never go on", el("small", { textContent: `after ${counted(steps, "step")}` }));
    return el("button", { className: "ending bad", onclick: opens(open) }, name);
}

const fieldsOf = ({ code, from, registers }) => [["error", code], ["heard from", from], ...registers.map((word, place) => [`MR${place}`, word])];

// Asks whether the endings differ in a field of a thread.
function differences(endings) {
    const values = new Map();
    for (const { report } of endings) {
        for (const thread of report.threads) {
            for (const [name, value] of [["state", thread.state], ...fieldsOf(thread)]) {
                const key = `${thread.id} ${name}`;
                values.set(key, (values.get(key) ?? new Set()).add(value));
            }
        }
    }
    return (id, name) => values.get(`${id} ${name}`)?.size > 1;
}

// The rows of a card, or of many threads those that matter.
function rowsOf(threads, differs) {
    const rows = threads.map((thread) => endingRow(thread, differs));
    const told = rows.length <= MOST_THREADS ? rows : rows.filter(({ matters }) => matters).slice(0, MOST_THREADS);
    const more = rows.length - told.length;
    return [...told.map(({ row }) => row), more > 0 && el("span", { className: "small", textContent: `and ${counted(more, "thread")} more` })];
}

function endingCard({ number, list, steps, report }, differs, open) {
    const isBad = report.threads.some((thread) => thread.isStuck);
    const deadlocks = report.deadlocks.map((ids) => el("span", { className: "circle", textContent: `deadlock of ${ids.map((id) => report.byId.get(id).called).join(", ")}` }));
    const held = report.threads.filter((thread) => thread.held).map(heldNote);
    const length = el("small", { textContent: list ? counted(list.length, "item") : counted(steps, "step") });
    const by = list && el("span", { className: "by", title: list.join(","), textContent: list.join(",") || "nothing happens" });
    const name = el("span", { className: "name" }, el("b", { textContent: `Ending ${number}` }), isBad ? "somebody is stuck" : "", length);
    return el("button", { className: `ending ${isBad ? "bad" : "good"}`, onclick: opens(open) }, name, ...deadlocks, ...rowsOf(report.threads, differs), ...held, by);
}
const heldNote = (thread) => el("span", { className: "held", title: heldText(thread), textContent: `${thread.held} is held: ${heldBecause(thread)}` });

// A moment in which lines of a report hold.
function momentCard({ steps, report }, open) {
    const length = el("small", { textContent: `after ${counted(steps, "step")}` });
    const name = el("span", { className: "name" }, el("b", { textContent: "Such a moment" }), length);
    return el("button", { className: "ending bad", onclick: opens(open) }, name, ...rowsOf(report.threads, () => false));
}

// A thread of an ending: its state, for whom it waits, and what is not the same in all endings.
function endingRow(thread, differs) {
    const isShown = ([name, value]) => differs(thread.id, name) && value !== "nil" && value !== "0";
    const own = fieldsOf(thread).filter(isShown).map(([name, value]) => el("span", { className: "differs", textContent: `${name} ${value}` }));
    const waits = thread.wait ? [el("span", { textContent: shortWait(thread.wait) })] : [];
    if (thread.isResting) waits.push(el("span", { className: "rests", textContent: "may rest" }));
    const row = el(
        "span",
        { className: `row${thread.isStuck ? " bad" : ""}` },
        el("span", {}, el("b", { textContent: thread.id }), thread.called.slice(thread.id.length)),
        el("span", { textContent: thread.state }),
        el("span", {}, ...waits, ...own),
    );
    return { row, matters: thread.isCaught || own.length > 0 || differs(thread.id, "state") };
}
