// The page: what is at the left, what the buttons and keys do, and the start.

const $ = (id) => document.getElementById(id);

// An element with these properties and children; those that are missing are left out.
function el(tag, properties = {}, ...children) {
    const made = Object.assign(document.createElement(tag), properties);
    made.append(...children.filter((child) => child !== null && child !== undefined && child !== false));
    return made;
}
const button = (textContent, work) => el("button", { type: "button", textContent, onclick: () => guarded(async () => work()) });

const { lessons, files: LESSON_FILES } = JSON.parse($("lessons").textContent);
const TABS = ["steps", "endings", "expect", "output"];
const LINT_AFTER = 250; // ms without a key
const ADDRESS_AFTER = 400; // ms without a change
const LONGEST_ADDRESS = 8000; // letters; a longer text is in the address only where a link is asked for
const MOST_LINES_OF_LINT = 200;

let program;
let editor;
let chart;
const doc = { name: "first.l4", tab: "steps" };

// The line at the bottom: what was asked, how it ended, how long it took.
let commandShown = "";
let told = [];
// What was done, which is cut where it is long, and what came of it.
function tell(...texts) {
    told = texts;
    $("status").replaceChildren(...texts.map((text) => el("span", { textContent: text })));
}
function tellCommand(made, list, note = "") {
    const names = { "m.l4": doc.name, "m.trace": `${stem()}.trace`, "@list": list.join(",") };
    const words = made.words.map((word) => names[word] ?? word);
    commandShown = `l4run ${words.map(quoted).join(" ")}`;
    const short = commandShown.length > 150 ? `${commandShown.slice(0, 110)} … ${commandShown.slice(-34)}` : commandShown;
    tell(short, [`status ${STATUS[made.status] ?? made.status}`, timeText(made.took), ...(note ? [note] : [])].join(" · "));
}

let busySince = 0;
let clock = 0;
// How far a search has come, as the program says that on a terminal: once a second, and at its end nothing.
function onTold(line) {
    const [, number, waiting, depth] = line.match(/looked at (\d+) states, (\d+) wait, depth (\d+)/) ?? [];
    if (number) $("sofar").textContent = `${sizeText(number, "state")} so far, ${Number(waiting).toLocaleString("en")} to go on from, ${depth} deep`;
}
function onBusy(isBusy) {
    $("stop").disabled = !isBusy;
    document.body.toggleAttribute("data-busy", isBusy);
    if (isBusy === (clock !== 0)) return;
    clearInterval(clock);
    clock = 0;
    $("sofar").textContent = "";
    tell(...told);
    if (!isBusy) return;
    busySince = performance.now();
    clock = setInterval(() => {
        const seconds = (performance.now() - busySince) / 1000;
        const sofar = $("sofar").textContent;
        const done = [`${seconds.toFixed(0)} s`, ...(sofar ? [sofar] : [])].join(", ");
        if (seconds > 0.6) $("status").replaceChildren(el("span", { textContent: `at work for ${done}; Stop ends it` }));
    }, 500);
}

// Does work, and tells where it was stopped or failed.
async function guarded(work) {
    try {
        return await work();
    } catch (trap) {
        nextIsNew();
        tell(trap.message);
        if (!(trap instanceof Stopped)) console.error(trap);
        return undefined;
    }
}

// Says something in the place of this id, in a tone: a sentence, and lines below it.
function sayIn(id, { tone, head, lines }) {
    $(id).className = `verdict ${tone} ${$(id).classList.contains("old") ? "old" : ""}`;
    $(id).replaceChildren(el("b", { textContent: head }));
    if (lines.length) $(id).append(el("ul", {}, ...lines.map((line) => el("li", {}, ...[line].flat()))));
}

// A text, with what stands between backticks as code.
const withCode = (text) => text.split("`").map((part, place) => (place % 2 ? el("code", { textContent: part }) : part));

function tab(name, withFocus = false) {
    for (const it of TABS) {
        const isChosen = it === name;
        $(it).hidden = !isChosen;
        $(`tab-${it}`).setAttribute("aria-selected", isChosen);
        $(`tab-${it}`).tabIndex = isChosen ? 0 : -1;
        if (isChosen && withFocus) $(`tab-${it}`).focus();
    }
    doc.tab = name;
    if (name !== "steps") return;
    fit();
    chart.choose(chart.row, chart.since);
}

// Lint, on each pause in typing.
let lints = 0;
async function lint() {
    lints += 1;
    const mine = lints;
    const { text } = editor;
    const [made] = await program.perform("lint", { "m.l4": text }, ["lint", "m.l4"]);
    if (mine !== lints || text !== editor.text) return;
    const marks = marksOf(made.out);
    editor.mark(marks);
    const lines = marks.slice(0, MOST_LINES_OF_LINT).map((mark) => {
        const go = button("", () => editor.goTo(mark.line, mark.column));
        go.append(...withCode(`line ${mark.line}: ${markText(mark)}`));
        return el("li", { className: mark.isDoubt ? "doubt" : "fault" }, go);
    });
    $("lint").replaceChildren(...lines);
    tellLine(editor.line());
    document.body.dataset.linted = `${mine}`;
}

// Tells what stands at the line of the caret: its marks, or what it says where the text has no fault.
function tellLine(line) {
    const marks = editor.marks.filter((mark) => mark.line === line);
    const all = editor.marks.length ? counted(editor.marks.length, "mark") : "no fault, no doubt";
    const meaning = editor.marks.every(({ isDoubt }) => isDoubt) ? lineMeaning(editor.text, line) : "";
    const said = [...(meaning ? [meaning] : []), ...marks.map(({ hint }) => hint)].join("; ");
    const text = said ? `line ${line}: ${said}` : `line ${line}; ${all}. Click a line to read what it says.`;
    $("atline").className = `atline ${marks.length ? Editor.tone(marks[0]) : ""}`;
    if ($("atline").textContent !== text) $("atline").textContent = text;
}

let typing = 0;
function onTyped() {
    clearTimeout(typing);
    typing = setTimeout(() => guarded(settled), LINT_AFTER);
    showStale(editor.text === session.text || !session.list.length);
    showWhetherOld();
    showLesson();
    keep();
}
async function settled() {
    await lint();
    // A text that nobody has stepped through yet is begun anew at once.
    if (editor.text !== session.text && !session.list.length) await begin(session.in(editor.text));
    showStale(editor.text === session.text);
    addressSoon();
}

// The menu names the lesson whose text is at the left, as it stands there.
const lessonOf = (name) => lessons.find((it) => it.name === name);
function showLesson() {
    $("examples").value = lessonOf(doc.name)?.text === editor.text ? doc.name : "";
}

// What is typed is kept, for when another text is opened, or the page again.
let own = null;
function keep() {
    own = { name: doc.name, text: editor.text };
    try {
        localStorage.setItem("l4run", JSON.stringify(own));
    } catch {
        // A browser that keeps nothing for a page.
    }
}
function kept(key) {
    try {
        return localStorage.getItem(key);
    } catch {
        return null;
    }
}

const lastOwn = () => own ?? JSON.parse(kept("l4run") ?? "null");

// The text in the address, so that who copies that shares it.
let ownAddress = "";
async function addressOf() {
    const way = { n: doc.name, t: editor.text, v: doc.tab };
    if (session.text === editor.text && session.list.length) {
        Object.assign(way, { [session instanceof Trace ? "h" : "s"]: session.written(session.list), i: session.at });
        if (session.part) way.j = session.part;
    }
    if ($("wanted").value) way.e = $("wanted").value;
    if (resting().length) way.r = $("rests").value;
    return `#z=${await packed(way)}`;
}
async function address() {
    const isLesson = lessonOf(doc.name)?.text === editor.text && !session.list.length;
    const found = isLesson ? `#example=${doc.name}` : await addressOf();
    go(found.length <= LONGEST_ADDRESS ? found : "#");
}
let addressing = 0;
function addressSoon() {
    clearTimeout(addressing);
    addressing = setTimeout(() => guarded(address), ADDRESS_AFTER);
}
function go(hash) {
    clearTimeout(addressing);
    // What is no more than its sign reads as nothing.
    ownAddress = hash === "#" ? "" : hash;
    if (location.hash !== ownAddress) location.replace(hash);
}
async function share() {
    go(await addressOf());
    await copied(location.href, `link copied: ${location.href.length} letters, the text is in it`);
}

// Opens what the address says: a text, an example, or what was kept.
async function follow() {
    const asked = new URLSearchParams(location.hash.slice(1));
    const way = await wayOf(asked);
    const lesson = lessonOf(way.n) ?? lessons[0];
    const text = way.t ?? lesson.text;
    forgetLines();
    $("wanted").value = way.e ?? "";
    $("rests").value = way.r ?? "";
    tab(TABS.includes(way.v) ? way.v : "steps");
    await opened(way.t === undefined ? lesson.name : way.n ?? "linked.l4", text, sessionBy(way.h ?? way.s ?? "", text, way.i, way.j));
    if (way.isDamaged) tell("This link is damaged: its text could not be read.");
    if (VERBS[asked.get("do")]) await verb(asked.get("do"));
}
async function wayOf(asked) {
    if (asked.has("z")) return unpacked(asked.get("z")).catch(() => ({ isDamaged: true }));
    if (asked.has("text")) return { n: "linked.l4", t: asked.get("text"), s: asked.get("schedule") ?? "" };
    if (asked.has("example")) return { n: asked.get("example"), s: asked.get("schedule") ?? "" };
    const last = lastOwn();
    return last ? { n: last.name, t: last.text } : {};
}

// A list that was typed, opened or linked: of items, or the steps of a trace.
function sessionBy(list, text, at, part = 0) {
    const begun = isTrace(list) ? new Trace(program, text, stepsOf(list), at) : new Schedule(program, text, listOf(list), at);
    return Object.assign(begun, { part });
}

// Shows a text at the left.
async function opened(name, text, begun) {
    doc.name = name;
    document.title = `${name} – l4run`;
    editor.text = text.replaceAll("\r\n", "\n");
    const lesson = lessonOf(name);
    showLesson();
    const about = lesson ? `${lesson.about[0].toUpperCase()}${lesson.about.slice(1)}` : name;
    $("about").replaceChildren(...withCode(about));
    $("tries").hidden = !lesson?.tries.length;
    $("trieslist").replaceChildren(...(lesson?.tries ?? []).map((line) => button(line, () => command(line))));
    $("endinglist").replaceChildren();
    $("count").textContent = "";
    searched = null;
    showWhetherOld();
    const both = ["Who gets stuck? and All endings try every order that a scheduler may take, not one alone as Run does."];
    sayIn("found", { tone: "", head: "No search yet.", lines: both });
    tellLine(1);
    await Promise.all([lint(), begin(begun?.in(editor.text) ?? new Schedule(program, editor.text))]);
}

// What was asked of another text names its threads.
function forgetLines() {
    for (const id of ["rests", "with", "never", "together"]) $(id).value = "";
}

async function openedLesson(name) {
    const lesson = lessonOf(name) ?? lastOwn();
    showLesson();
    if (!lesson) return;
    tab("steps");
    forgetLines();
    await opened(lesson.name, lesson.text);
}

// Opens a text; or a list or a trace, which is that of the text at the left.
async function openedFile(file) {
    if (!file) return;
    if (!/\.(list|trace)$/.test(file.name)) {
        forgetLines();
        await opened(file.name, await file.text());
        return;
    }
    tab("steps");
    await begin(sessionBy(await file.text(), editor.text));
}

function saved(name, text, type = "text/plain") {
    const url = URL.createObjectURL(new Blob([text], { type }));
    el("a", { href: url, download: name }).click();
    setTimeout(() => URL.revokeObjectURL(url), 1000);
}
const stem = () => doc.name.replace(/\.l4$/, "");

async function copied(text, said) {
    try {
        await navigator.clipboard.writeText(text);
    } catch {
        const area = el("textarea", { value: text });
        document.body.append(area);
        area.select();
        document.execCommand("copy");
        area.remove();
    }
    tell(said);
}

// A run: its list is recorded, and can be stepped through.
async function run() {
    const words = ["run", "m.l4", "--turns", $("turns").value, "--waits", "--counts", "--record", "list"];
    const [made] = await program.perform("long", { "m.l4": editor.text }, words);
    print(made);
    const recorded = new Schedule(program, editor.text, listOf(made.recorded));
    recorded.isCut = made.status === 3;
    await begin(recorded);
    tellCommand(made, [], isFault(made) ? "" : `${counted(session.list.length, "item")} recorded`);
}

// The report of the state that is shown.
async function report() {
    if (session.text !== editor.text || !session.list.length) await run();
    const exact = await session.exact();
    const [made] = await program.perform("long", exact.files(exact.at), exact.command("--report", "--waits", "--counts"));
    print(made);
    tellCommand(made, session.done);
    tab("output");
}

const VERBS = {
    run: async () => {
        tab("steps");
        await run();
    },
    stuck: () => searchAll(true),
    endings: () => searchAll(false),
    report,
};
// In one column what happens stands below the text.
function comeToRight() {
    if (matchMedia("(max-width:840px)").matches) document.querySelector(".right").scrollIntoView();
}
const verb = (name) =>
    guarded(async () => {
        await VERBS[name]();
        comeToRight();
        document.body.dataset.did = name;
    });

// On to rest, by items that can be stepped through.
async function toRest() {
    const begun = session;
    const { at, part } = begun;
    const rested = await begun.rested($("turns").value);
    if (session === begun && session.at === at && session.part === part) await begin(rested);
}

async function savedChart(kind) {
    const told = await session.told();
    const files = { "m.l4": session.text, trace: told.map(({ step }) => `${step}\n`).join("") };
    const [made] = await program.perform("long", files, ["chart", "m.l4", "trace", `--${kind}`]);
    const [ending, type] = { svg: ["svg", "image/svg+xml"], html: ["html", "text/html"], mermaid: ["mmd"] }[kind];
    saved(`${stem()}.${ending}`, made.out, type);
    tellCommand(made, []);
}

// Only the threads of the chosen step, or all again.
async function onlyConcerned() {
    const { step, to } = (await session.told())[(chart.row || 1) - 1] ?? { step: "" };
    const ids = [...withReceiver(step, to).matchAll(/\b(\d+\.\d+)(?=$|[ #])/g)].map(([, id]) => id).filter((id) => session.machine.byId.has(id));
    $("columns").value = $("columns").value ? "" : [...new Set(ids)].join(",");
    await view(session.at);
}

function stop() {
    const isLooking = $("next").classList.contains("old");
    program.stop();
    if (isLooking) {
        const again = button("look again", () => view(session.at));
        $("next").replaceChildren(el("p", { className: "none" }, "stopped ", again));
        nextIsNew();
    }
    tell("stopped");
}

const THEMES = ["auto", "light", "dark"];
let theme = "auto";
function colours() {
    const isDark = theme === "dark" || (theme === "auto" && matchMedia("(prefers-color-scheme: dark)").matches);
    document.documentElement.dataset.theme = isDark ? "dark" : "light";
    $("theme").title = `colours: ${theme}`;
}
function nextTheme() {
    theme = THEMES[(THEMES.indexOf(theme) + 1) % THEMES.length];
    try {
        localStorage.setItem("l4run-colours", theme);
    } catch {
        // Not kept.
    }
    colours();
    tell(`colours: ${theme}`);
}

// The width of the text, in parts of a hundred.
function setSplit(part) {
    document.querySelector("main").style.setProperty("--left", `${Math.min(75, Math.max(18, part))}%`);
}
function wireSplit() {
    const split = $("split");
    const partOf = (x) => (x / innerWidth) * 100;
    split.addEventListener("pointerdown", (event) => {
        split.setPointerCapture(event.pointerId);
        event.preventDefault();
    });
    split.addEventListener("pointermove", (event) => {
        if (split.hasPointerCapture(event.pointerId)) setSplit(partOf(event.clientX));
    });
    split.addEventListener("keydown", (event) => {
        const by = { ArrowLeft: -3, ArrowRight: 3 }[event.key];
        if (!by) return;
        event.preventDefault();
        setSplit(partOf(split.getBoundingClientRect().left) + by);
    });
}

function on(id, event, work) {
    $(id).addEventListener(event, (it) => guarded(async () => work(it)));
}
function onSubmit(id, work) {
    $(id).addEventListener("submit", (event) => {
        event.preventDefault();
        guarded(work);
    });
}

function wireExamples() {
    const short = (text) => (text.length > 62 ? `${text.slice(0, 60)} ..` : text);
    const options = lessons.map(({ name, about }) => el("option", { value: name, title: about, textContent: `${name.replace(/\.l4$/, "")}: ${short(about)}` }));
    $("examples").append(el("option", { value: "", textContent: "my own" }), ...options);
    on("examples", "change", async () => {
        await openedLesson($("examples").value);
    });
}

function wireSteps() {
    on("first", "click", () => view(0));
    on("back", "click", () => view(session.part ? session.at : Math.max(0, session.at - 1)));
    on("forth", "click", () => view(session.at + 1));
    on("last", "click", () => view(session.list.length));
    on("slider", "input", () => view(Number($("slider").value)));
    on("rest", "click", toRest);
    on("take", "click", () => begin(sessionBy($("schedule").value, session.text)));
    on("copylist", "click", () => copied(session.written(session.list), "list copied"));
    on("anew", "click", () => begin(session.in(editor.text)));
    on("zero", "click", () => begin(new session.constructor(program, editor.text)));
    on("way", "change", () => goOnBy($("way").value));
    on("filter", "change", () => view(session.at));
    on("columns", "change", () => view(session.at));
    on("concerned", "click", onlyConcerned);
    for (const it of document.querySelectorAll("[data-save]")) it.addEventListener("click", () => guarded(() => savedChart(it.dataset.save)));
}

function wireTabs() {
    for (const it of TABS) on(`tab-${it}`, "click", () => tab(it));
    document.querySelector(".tabs").addEventListener("keydown", (event) => {
        const by = { ArrowRight: 1, ArrowLeft: -1 }[event.key];
        if (by) tab(TABS[(TABS.indexOf(doc.tab) + by + TABS.length) % TABS.length], true);
    });
    onSubmit("only", () => search($("onlystuck").checked));
    on("rests", "change", () => view(session.at));
    on("searchagain", "click", () => searchAgain());
    onSubmit("moments", askForMoment);
    for (const name of ["focus", "pointerdown"]) on("lineof", name, offerLines);
    on("bylines", "toggle", offerLines);
    for (const it of document.querySelectorAll("[data-line]")) it.addEventListener("click", () => writeLine(it.dataset.line));
    onSubmit("command", () => command($("words").value));
    on("copy", "click", () => copied(printed, "output copied"));
    on("saveout", "click", () => saved(`${stem()}.txt`, printed));
    on("fromreport", "click", fillIn);
    on("judge", "click", () => judge(false));
    on("judgeall", "click", () => judge(true));
    on("savewanted", "click", () => saved(`${stem()}.expected`, expectations()));
}

function wireFiles() {
    on("open", "click", () => $("file").click());
    on("file", "change", async () => {
        await openedFile($("file").files[0]);
        $("file").value = "";
    });
    addEventListener("dragover", (event) => event.dataTransfer.types.includes("Files") && event.preventDefault());
    addEventListener("drop", (event) => {
        const [file] = event.dataTransfer.files;
        if (!file) return;
        event.preventDefault();
        guarded(() => openedFile(file));
    });
    on("save", "click", () => saved(doc.name, editor.text));
    on("link", "click", share);
}

// Keys without Ctrl work where nobody types.
const KEYS = {
    "[": () => $("back").click(),
    "]": () => $("forth").click(),
    "?": () => $("help").showModal(),
    e: () => $("text").focus(),
    s: () => tab("steps", true),
    o: () => tab("output", true),
};
const CONTROL_KEYS = { Enter: () => verb("run"), s: () => $("save").click(), o: () => $("open").click() };

function onKey(event) {
    const isTyping = /^(TEXTAREA|INPUT|SELECT)$/.test(event.target.tagName) && event.target.type !== "range";
    if (event.ctrlKey || event.metaKey) {
        doKey(event, CONTROL_KEYS[event.key]);
    } else if (event.key === "Escape" && isTyping) {
        event.target.blur();
        $(`tab-${doc.tab}`).focus();
    } else if (isTyping || event.altKey || $("help").open) {
        // The key is somebody else's.
    } else if (/^[1-9]$/.test(event.key) && doc.tab === "steps") {
        doKey(event, () => !$("next").classList.contains("old") && $("next").querySelectorAll("[data-item]")[event.key - 1]?.click());
    } else {
        doKey(event, KEYS[event.key.toLowerCase()]);
    }
}
function doKey(event, work) {
    if (!work) return;
    event.preventDefault();
    work();
}

function wire() {
    for (const it of document.querySelectorAll("[data-verb]")) it.addEventListener("click", () => verb(it.dataset.verb));
    wireExamples();
    wireSteps();
    wireTabs();
    wireFiles();
    wireSplit();
    on("stop", "click", stop);
    on("copycommand", "click", () => copied(commandShown, "command copied"));
    on("theme", "click", nextTheme);
    on("helper", "click", () => $("help").showModal());
    addEventListener("hashchange", () => location.hash !== ownAddress && guarded(follow));
    addEventListener("keydown", onKey);
    matchMedia("(prefers-color-scheme: dark)").addEventListener("change", colours);
    addEventListener("click", ({ target }) => {
        for (const open of document.querySelectorAll(".limits[open]")) open.open = open.contains(target);
    });
}

async function start() {
    theme = kept("l4run-colours") ?? "auto";
    colours();
    editor = new Editor($("editor"), { onChange: onTyped, onLine: tellLine });
    chart = new Chart($("chart"), { onRow: toStep, onWays: (step) => guarded(() => openWays(step)), onScroll: waysSoon });
    new ResizeObserver(fit).observe($("pane"));
    wire();
    if (!window.DecompressionStream || !window.WebAssembly) {
        tell("This browser is too old: it has no WebAssembly, or cannot unpack.");
        return;
    }
    const module = await bytesThrough(bytesOf64($("packed").textContent), new DecompressionStream("gzip"));
    const limit = () => Math.max(16, Number($("memory").value) || 3072) * 2 ** 20;
    program = new Program(await WebAssembly.compile(module), { onBusy, onTold, limit });
    await guarded(follow);
    document.body.dataset.ready = "yes";
}
start();
