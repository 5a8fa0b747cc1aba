// The tab Steps: a session, step by step.

const ROWS = 250; // of the chart, in a page of it
const MOST_PLACES = 200; // threads, above which the text does not show where they are
const MANY = 12; // threads, above which they stand below the chart in one column

let session; // what is stepped through
let wanted = null; // a place that is asked for while another is shown
let showing = null;
let chartShown = ""; // which rows and columns the chart has

function begin(begun) {
    session = begun;
    chartShown = "";
    return view(session.at, session.part);
}

// Does items, or steps, behind those that are done.
function perform(...more) {
    if (more.length === 1 && session.list[session.at] === more[0]) return view(session.at + 1);
    return begin(session.with(more));
}

// Goes on in another way: by any step that may happen, from the state that is shown, or anew by turns of the processors.
async function goOnBy(way) {
    const left = session;
    const [{ told }] = await left.statesShown();
    const begun = way === "steps" ? new Trace(program, left.text, told.map(({ step }) => step)) : new Schedule(program, left.text);
    begun.left = left.list.length ? left : null;
    await begin(begun);
}

// Does another thing in the place of an item. The list that is left for it can be had again.
async function doInstead(place, item) {
    const made = session.with([item], place);
    made.left = session;
    await begin(made);
}

// Shows the state behind so many items, and so many steps of the next one. Where several are asked for at once, the last alone is shown.
function view(at, part = 0) {
    wanted = [at, part];
    nextIsOld();
    closeWays();
    program.stop("next");
    showing ??= showWanted().finally(() => (showing = null));
    return guarded(() => showing);
}
async function showWanted() {
    while (wanted !== null) {
        const [at, part] = wanted;
        wanted = null;
        await show(session, Math.min(at, session.list.length), part);
    }
    nextSoon();
    addressSoon();
}

async function show(shown, at, part) {
    Object.assign(shown, { at, part });
    const [now, before] = await shown.statesShown();
    const isOld = () => shown !== session || wanted !== null;
    if (isOld()) return;
    showTransport(shown);
    showStale(editor.text === shown.text);
    if (isFault(now.made)) {
        showFault(now.made);
        tellCommand(now.made, shown.list);
        return;
    }
    for (const { report } of [now, before].filter(Boolean)) {
        letRest(report, resting());
        nameThreads(report, shown.machine);
    }
    const told = before ? now.told.slice(before.told.length) : [];
    const steps = await shown.stepsOfItem();
    if (isOld()) return;
    showWhere(shown, steps, now.told.length);
    $("rest").disabled = now.report.ending === "quiet";
    // Lines are those of the text at the left, as long as that is the text that is stepped through.
    const places = shown.text === editor.text ? placesOf(shown.machine, now.told) : [];
    const lines = new Map(places.map(({ id, line }) => [id, line]));
    showVerdict(shown, now, lines);
    showCards(now.report, before?.report, lines);
    editor.stand(standing(places, now));
    tellCommand(now.made, shown.done);
    await draw(shown, now.told.length, told.length, isOld);
}

// Who may rest where it is, as the tab Endings asks it.
const resting = () => listOf($("rests").value);

// Whether the steps are those of the text at the left. What is said of another is pale.
function showStale(isOfText) {
    $("stale").hidden = isOfText;
    for (const id of ["verdict", "pane"]) $(id).classList.toggle("old", !isOfText);
}

// What has come of it, in a sentence; of each who waits the line at which that is; who waits for whom, in a picture; and what one may ask.
function showVerdict(shown, now, lines) {
    const { at, list, machine } = shown;
    const said = verdictOf(now, now.told.length === 0 && at === 0, shown.isCut && at === list.length ? at : 0);
    const withPlaces = said.lines.map((line) => (typeof line === "string" ? line : [line.text, ...placeIn(machine, line.id, lines.get(line.id))]));
    sayIn("verdict", { ...said, lines: withPlaces });
    const circle = said.circle ? circleTold(now.report, said.circle) : circleRead(now.report, machine);
    if (circle) $("verdict").append(...readText(circle, machine));
    const picture = circle && circlePicture(circle);
    if (picture) {
        $("verdict").append(picture);
        $("verdict").classList.add("drawn");
        $("verdict").style.setProperty("--wide", `${picture.getAttribute("width")}px`);
        $("verdict").style.setProperty("--tall", `${picture.getAttribute("height")}px`);
    }
    if (shown.moment?.at === at) $("verdict").append(el("p", {}, "Here all of these hold: ", el("code", { textContent: shown.moment.condition })));
    if (said.tone === "good" && hasOtherOrders(machine)) askForOthers();
    if (at === 0 && !list.length) offerHelp();
}

// The line at which a thread is, and what stands there.
function placeIn(machine, id, line) {
    const instruction = machine.byId.get(id)?.script.find((it) => it.line === line);
    return instruction ? [" ", lineButton(line), " ", el("code", { textContent: instruction.words.join(" ") })] : [];
}
const lineButton = (line) => Object.assign(button(`line ${line}`, () => editor.goTo(line)), { className: "inline" });

function showTransport(shown) {
    const { list, at, part } = shown;
    const { UNIT, NAME } = shown.constructor;
    $("slider").max = list.length;
    $("slider").value = at;
    $("slider").disabled = !list.length;
    $("slider").setAttribute("aria-valuetext", `${part ? `in item ${at + 1}` : at} of ${counted(list.length, UNIT)}`);
    for (const id of ["first", "back"]) $(id).disabled = at === 0 && !part;
    for (const id of ["forth", "last"]) $(id).disabled = at === list.length;
    $("rest").hidden = !shown.rested;
    $("way").value = `${UNIT}s`;
    $("listname").textContent = NAME;
    if (document.activeElement !== $("schedule")) $("schedule").value = shown.written(list);
}

// Which item was done last, or is under way, and the steps that it tells; each of several leads to the state behind it. `count` steps are done.
function showWhere(shown, steps, count) {
    const { list, at, part, left } = shown;
    const { UNIT } = shown.constructor;
    const place = part ? at + 1 : at;
    const item = list[place - 1];
    const first = count + 1 - (part || steps.length);
    const isOfText = shown.text === editor.text;
    const named = (name, meaning) => [name, meaning && ` (${meaning})`];
    const nameOf = (said, number) => (steps.length > 1 ? stepButton(said, number, count) : el("b", { textContent: said }));
    const placed = ({ step, to, line }, number) => {
        const said = named(nameOf(withReceiver(step, to), number), meaningOf(step));
        return line && isOfText ? [...said, " ", lineButton(line)] : said;
    };
    const tells = steps.flatMap((step, more) => [more ? ", " : ": ", ...placed(step, first + more)]);
    const did = !place ? [] : UNIT === "step" ? tells : [": ", ...named(el("b", { textContent: item }), itemText(item))];
    const numbers = steps.length > 1 ? `steps ${first}–${first + steps.length - 1}${part ? `, behind step ${count}` : ""}` : `step ${count}`;
    const all = UNIT === "step" || !place ? [] : [" · ", ...(steps.length ? [numbers, ...tells] : ["it tells nothing"])];
    const back = left ? [" ", backButton(left)] : [];
    $("where").replaceChildren(`${part ? "in " : ""}${UNIT} ${place} of ${list.length}`, ...did, ...all, ...back);
}
function backButton(left) {
    const { UNIT } = left.constructor;
    const text = `back to the ${UNIT === "step" ? "trace" : "list"} of ${counted(left.list.length, UNIT)}`;
    return Object.assign(button(text, () => begin(left)), { className: "inline", title: "that was left to do something else" });
}
function stepButton(textContent, number, count) {
    const made = Object.assign(button(textContent, () => toStep(number)), { className: "inline step", title: `the state behind step ${number}` });
    if (number === count) made.setAttribute("aria-current", "step");
    return made;
}

// The text or the list has a fault.
function showFault(made) {
    $("where").textContent = "";
    $("cards").replaceChildren();
    $("pager").hidden = true;
    $("rest").disabled = true;
    chart.clear(...(session.text.trim() ? ["No chart: the text or the list has a fault."] : ofNothing()));
    chartShown = "";
    editor.stand(new Map());
    sayFault("verdict", made, session.text);
}

// Says in the place of this id which fault the text or the list has: of the text at the left with a way there, of another one with the line itself
// and marks below it, as the program shows that on a terminal.
function sayFault(id, made, text) {
    const mark = faultMarkOf(made);
    const because = [...(made.out.match(/^because .*/m) ?? [])];
    if (/condition line/.test(made.faults)) because.push(...linesOf(made.faults).slice(1), "A line is one of a report, as the choice above writes it.");
    sayIn(id, { tone: "bad", head: mark ? `Line ${mark.line}: ${markText(mark)}` : faultOf(made) || "a fault", lines: because.map(withCode) });
    $(id).firstChild.replaceChildren(...withCode($(id).firstChild.textContent));
    if (!mark) return;
    const go = Object.assign(button(`go to line ${mark.line}`, () => editor.goTo(mark.line, mark.column)), { className: "inline" });
    const shown = () => el("pre", { textContent: linesOf(made.faults).slice(2).join("\n") });
    $(id).append(" ", editor.text === text ? go : shown());
}

// A run takes one order; what of the others?
const hasOtherOrders = ({ threads }) => threads.length > 1;
function askForOthers() {
    const ask = button("Is somebody stuck in another order?", () => verb("stuck"));
    ask.className = "inline";
    $("verdict").append(el("p", {}, "This is one order of many. ", ask));
}

// Who begins may not know what this is.
function offerHelp() {
    const help = button("What is this?", () => $("help").showModal());
    help.className = "inline";
    $("verdict").append(" ", help);
}

// For each line of the text the threads that are there.
function standing(places, now) {
    const there = new Map();
    if (places.length > MOST_PLACES) return there;
    for (const { id, line } of places) {
        const thread = now.report.byId.get(id);
        if (!line || !thread || isOver(thread)) continue;
        const tone = thread.isStuck ? "stuck" : thread.wait ? "wait" : "go";
        there.set(line, [...(there.get(line) ?? []), { id, tone, note: `${id} ${thread.state}${IN_ONE.includes(thread.state) ? "" : ", it did this line"}` }]);
    }
    return there;
}
const isOver = ({ state }) => state === "ended" || state === "deleted";
const IN_ONE = ["sending", "receiving", "ordering"]; // states of a thread that is in an instruction

// Cards of threads, and what changed by the last item.
function showCards(report, before, lines) {
    const only = $("filter").value;
    const drawn = listOf($("columns").value);
    const cards = report.threads
        .map((thread) => ({ thread, was: before?.byId.get(thread.id) }))
        .filter(({ thread, was }) => {
            if (only === "changed") return hasChanged(thread, was);
            if (only === "chart") return !drawn.length || drawn.includes(thread.id);
            return only === "waiting" ? thread.wait : only === "stuck" ? thread.isStuck : true;
        })
        .map(({ thread, was }) => card(thread, was, lines.get(thread.id)));
    const none = el("p", { className: "none", textContent: report.threads.length ? "None." : "The text has no thread." });
    $("cards").replaceChildren(...(cards.length ? cards : [none]));
    $("pane").classList.toggle("many", report.threads.length > MANY);
}
const hasChanged = (thread, was) => !!was && (was.line !== thread.line || waitKey(was) !== waitKey(thread));
const waitKey = ({ wait }) => (wait ? `${wait.to} ${wait.phase}` : "");

function card(thread, was, line) {
    const tone = thread.isStuck ? "stuck" : isOver(thread) ? "ended" : thread.wait ? "wait" : "ready";
    const { cpu = "?", space = "?", name: called } = session.machine.byId.get(thread.id) ?? {};
    const place = el("small", {}, called, el("span", { className: "place", textContent: `${called ? ", " : ""}cpu ${cpu}, space ${space}` }));
    const name = line ? button(thread.id, () => editor.goTo(line)) : thread.id;
    if (line) name.title = `${IN_ONE.includes(thread.state) ? "in" : "it did"} line ${line} of the text`;
    const from = thread.from !== "nil" && el(was && was.from !== thread.from ? "mark" : "span", { textContent: `heard from ${thread.heard}` });
    return el(
        "article",
        { className: `card ${tone}${hasChanged(thread, was) ? " changed" : ""}` },
        el("header", {}, el("b", {}, name), place, el("span", { className: "pill", textContent: thread.state })),
        thread.wait && el("p", { textContent: `${shortWait(thread.wait)}${thread.isResting ? ", and may rest" : ""}` }),
        thread.held && el("p", { className: "held", title: heldText(thread), textContent: `${thread.held} is held` }),
        thread.code !== "0" && el("p", { className: "error", textContent: `error ${thread.code}: ${CODES[thread.code] ?? ""}` }),
        from && el("p", {}, from, thread.actual !== thread.from ? `, by ${thread.actual}` : ""),
        registers(thread, was),
    );
}

// The registers that are not 0, and those that changed.
function registers(thread, was) {
    const shown = thread.registers
        .map((word, place) => ({ word, place, isNew: !!was && (was.registers[place] ?? "0") !== word }))
        .filter(({ word, isNew }) => word !== "0" || isNew);
    if (!shown.length) return null;
    const tag = BigInt(`0x${thread.registers[0] || "0"}`);
    const title = `MR0: label ${tag >> 16n}, ${counted(Number(tag & 63n), "untyped word")}`;
    const said = ({ word, place }) => [`MR${place} ${word}`, ...(place ? [idOfWord(session.machine, word)] : [])].filter(Boolean).join(" = ");
    return el("div", { className: "registers", title }, ...shown.map((register) => el(register.isNew ? "mark" : "span", { textContent: said(register) })));
}

// What one may do first, in the place of a chart.
const FIRST_LESSONS = {
    "first.l4": "One message",
    "callback.l4": "A deadlock of three",
    "lost-reply.l4": "A reply that is lost",
    "locks.l4": "Two locks, in opposite order",
};
function firstLessons() {
    const known = Object.entries(FIRST_LESSONS).filter(([name]) => name !== doc.name && LESSON_FILES[name]);
    return el("div", { className: "bar" }, "Lessons:", ...known.map(([name, what]) => button(what, () => openedLesson(name))));
}
function ofNothing() {
    const said = "A machine text has processors and threads, and the Ipc calls that each thread makes. Write one at the left, or begin with a lesson.";
    return [el("h3", { textContent: "The text is empty." }), el("p", { textContent: said }), firstLessons()];
}
function invitation() {
    return [
        el("h3", { textContent: "Nothing has happened yet." }),
        el("p", {}, "At the left is a ", el("b", { textContent: "machine text" }), ": threads, and the Ipc calls that each makes. Change it as you like."),
        el("p", {}, el("b", { textContent: "Run" }), " takes it to its end in one order. Or do one thing after the other under ", el("b", { textContent: "What next?" }), " Each step is a row here then, and each message an arrow."),
        el("p", {}, el("b", { textContent: "Who gets stuck?" }), " tries every order that a scheduler may take, and shows who waits for ever."),
        firstLessons(),
    ];
}

// The chart: a page of rows over all steps of the list, done or yet to come.
async function draw(shown, row, told, isOld) {
    const steps = await shown.told();
    if (isOld()) return;
    if (!steps.length) {
        chart.clear(...(shown.list.length ? ["No step yet."] : invitation()));
        chart.row = 0;
        chartShown = "";
        $("pager").hidden = true;
        return;
    }
    const from = Math.floor((Math.max(1, row) - 1) / ROWS) * ROWS + 1;
    const to = Math.min(steps.length, from + ROWS - 1);
    const columns = $("columns").value.trim();
    const wantedRows = `${from} ${to} ${columns}`;
    if (chartShown !== wantedRows) {
        const words = ["chart", "m.l4", "trace", "--svg", "--from", `${from}`, "--to", `${to}`, ...(columns ? ["--threads", columns] : [])];
        const [svg] = await program.perform("step", { "m.l4": shown.text, trace: steps.map(({ step }) => `${step}\n`).join("") }, words);
        if (isOld()) return;
        if (svg.status !== 0) {
            chart.clear(svg.faults.replace("threads item", "no thread of this text: item"));
            chartShown = "";
            return;
        }
        chartShown = wantedRows;
        chart.draw(svg.out, steps, new Map(shown.machine.threads.filter(({ name }) => name).map(({ id, name }) => [id, name])));
        showPager(from, to, steps.length);
    }
    fit();
    chart.choose(row, told ? row - told + 1 : row + 1);
}

// The threads stand beside the chart where there is room for both, else below it.
const ROOM_FOR_THREADS = 250; // pixels
const ROOM_FOR_BOTH = 900;
function fit() {
    const { clientWidth } = $("pane");
    $("pane").classList.toggle("beside", clientWidth >= ROOM_FOR_BOTH || clientWidth - chart.width >= ROOM_FOR_THREADS);
}

function showPager(from, to, total) {
    const go = (row) => toStep(Math.min(total, Math.max(1, row)));
    $("pager").hidden = total <= ROWS;
    const number = el("input", { value: from, inputMode: "numeric", title: "to step", onchange: () => go(Number(number.value) || 1) });
    const paged = (text, title, isDisabled, row) => Object.assign(button(text, () => go(row)), { title, ariaLabel: title, disabled: isDisabled });
    $("pager").replaceChildren(
        paged("|◀", "first rows", from === 1, 1),
        paged("◀", "earlier rows", from === 1, from - ROWS),
        number,
        el("span", { textContent: `to ${to} of ${total}` }),
        paged("▶", "later rows", to === total, to + 1),
        paged("▶|", "last rows", to === total, total),
    );
}

const toStep = (step) => guarded(async () => view(...(await session.partsOf(step))));

// What may happen next. What is shown of another state is greyed, and can't be pressed, until the new is there.
let nextTimer = 0;
function nextIsOld() {
    clearTimeout(nextTimer);
    $("next").classList.add("old");
    $("next").setAttribute("aria-busy", "true");
}
function nextIsNew() {
    $("next").classList.remove("old");
    $("next").removeAttribute("aria-busy");
}
function nextSoon() {
    clearTimeout(nextTimer);
    nextTimer = setTimeout(() => guarded(showNext), 30);
}

async function showNext() {
    const shown = session;
    const { at, part } = shown;
    const [state] = await shown.statesAt(at);
    const isOld = () => shown !== session || at !== session.at || part !== session.part;
    if (isOld()) return;
    if (isFault(state.made)) {
        $("next").replaceChildren();
    } else if (part) {
        drawRest(shown, await shown.stepsOfItem());
    } else {
        const found = await lookedFor(shown);
        if (!found || isOld()) return;
        drawNext(found, state);
    }
    waysSoon();
    nextIsNew();
    document.body.dataset.next = `${at}`;
}

// What may happen next, or nothing where that was stopped. It is told if it takes long.
async function lookedFor(shown) {
    const looking = setTimeout(() => $("next").replaceChildren(el("p", { className: "none", textContent: "looking .." })), 600);
    const began = performance.now();
    try {
        return await shown.next();
    } catch (trap) {
        if (trap instanceof Stopped) return null;
        throw trap;
    } finally {
        clearTimeout(looking);
        shown.nextTook = Math.max(shown.nextTook, performance.now() - began);
    }
}

const KINDS = {
    turn: () => "takes a turn",
    letter: ({ from }) => `handles the letter from cpu ${from}`,
    own: () => "takes a turn, letters wait",
    tick: () => "a clock goes on",
    silent: () => "works on",
    rest: () => "goes on with the item",
    local: () => "an instruction of its own",
    begin: () => "a send begins",
    queue: () => "waits at its receiver",
    deliver: () => "a message arrives",
    wait: () => "a receive begins",
    stimeout: () => "the time of a send is over",
    snobody: () => "a send to nobody fails",
    scancel: () => "a send is cancelled",
    rtimeout: () => "the time of a receive is over",
    rnobody: () => "a receive from nobody fails",
    rcancel: () => "a receive is cancelled",
    drop: () => "the send of a deleted thread goes",
    order: () => "it asks for a cancellation or deletion",
    obey: () => "what it asked for is done",
    retarget: () => "it waits for the thread that it was handed to",
};

// What a step is, and what an item is, in words.
const meaningOf = (step) => KINDS[step.split(" ")[0]]?.({}) ?? "";
function itemText(item) {
    const [, cpu] = item.match(/^c?(\d+)$/) ?? [];
    if (cpu) return `cpu ${cpu} takes a turn`;
    const [, to, from] = item.match(/^(\d+):(\d+)$/) ?? [];
    if (to) return `cpu ${to} handles the letter from cpu ${from}`;
    const [, of, clock] = item.match(/^t(\d+)(?::(\d+))?$/) ?? [];
    return of ? `the clock of cpu ${of} goes on${clock ? ` to ${clock}` : ""}` : "";
}

function drawNext(found, state) {
    const place = $("next");
    const focused = place.contains(document.activeElement) ? document.activeElement.dataset.cpu ?? "" : null;
    const choices = found.map((choice, number) => choiceButton(choice, number + 1));
    const isAtRest = state.report.ending === "quiet";
    const note = found.length ? [] : [el("p", { className: "none", textContent: "Nothing: all is at rest." })];
    const more = isAtRest ? [] : [otherItems()];
    place.replaceChildren(...choices, ...note, ...more);
    if (focused === null) return;
    const again = place.querySelector(`[data-cpu="${focused}"]`) ?? place.querySelector("[data-item]") ?? $("back");
    again.focus();
}

// A step as the chart has it: who gets a message, without the message.
const shortOf = (step) => step.replace(/^(deliver \S+) (\S+) .*$/, "$1 → $2");
// A step with where its send goes to, where that is told.
const withReceiver = (step, to) => (to ? `${step} → ${to}` : step);
const shortStep = (step) => el("span", { title: `${step}: ${meaningOf(step)}`, textContent: shortOf(step) });

// In the middle of an item: its other steps come next, or any step.
function drawRest({ list, at, part, machine }, steps) {
    const rest = steps.slice(part).map(({ step }) => step);
    const choice = { cpu: cpuOf(machine, rest[0]), item: list[at], kind: "rest", steps: rest };
    const any = Object.assign(button("Go on by any step", () => goOnBy("steps")), { className: "inline" });
    $("next").replaceChildren(choiceButton(choice, 1), el("p", { className: "none" }, `In the middle of item ${at + 1}. `, any));
}

function choiceButton(choice, number, work = () => perform(choice.item)) {
    const { cpu, item, kind, steps } = choice;
    const made = el(
        "button",
        { type: "button", className: `choice${steps.length ? "" : " silent"}`, title: `item ${item}`, onclick: () => guarded(work) },
        number > 0 && el("kbd", { textContent: number < 10 ? number : "·" }),
        el("span", { className: "told" }, ...(steps.length ? steps.map(shortStep) : [el("span", { textContent: "nothing to tell yet" })])),
        el("span", { className: "what", textContent: `${cpu === undefined ? "" : `cpu ${cpu} `}${steps[0] === item ? "· " : ""}${KINDS[kind](choice)}` }),
    );
    made.dataset.item = item;
    made.dataset.cpu = cpu;
    return made;
}

// Items or steps of one's own: a tick to another time, or what does nothing yet.
function otherItems() {
    const isSteps = session instanceof Trace;
    const typed = el("input", { placeholder: isSteps ? "tick 0 24" : "c0, 1:0, t0:24" });
    typed.setAttribute("aria-label", isSteps ? "another step" : "other items, joined by commas");
    const form = el("form", { className: "bar" }, isSteps ? "another step" : "other items", typed, el("button", { textContent: "Do" }));
    form.onsubmit = (event) => {
        event.preventDefault();
        const more = isSteps ? stepsOf(typed.value) : listOf(typed.value);
        if (more.length) perform(...more);
    };
    return el("details", { className: "others" }, el("summary", { textContent: isSteps ? "Another step" : "Other items" }), form);
}
