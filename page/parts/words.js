// What the page says of a state in sentences.

// A sentence of a thread that waits. The page says beside it at which line that is.
const waitLine = (thread, end = "") => ({ text: `${waitText(thread)}${thread.isResting ? ", and may rest there" : end}`, id: thread.id });
// Of one who waits for a message of another than it heard from last: of a lock that waits to be given back, who has it.
const heardText = ({ from, heard, wait }) => (wait.phase === "receive" && from !== "nil" && from !== wait.to ? `; it heard from ${heard} last` : "");
const waitText = ({ called, wait }) =>
    wait.phase === "send" ? `${called} waits for ${wait.called} to take its message` : `${called} waits for a message from ${wait.called}`;
// Sentences of the sends that are held, and why they are.
const heldLines = ({ threads }) => threads.filter(({ held }) => held).map(heldText);
const heldText = (thread) => `${thread.held} is held: a send of time zero that is not refused yet. ${heldBecause(thread)}.`;
const heldBecause = ({ wait }) => `${wait.called} is in a call to another processor, and would accept it once that call is decided`;
const shortWait = (wait) => (wait.phase === "send" ? `sends to ${wait.called}` : `waits for ${wait.called}`);
const timeText = (took) => (took < 950 ? `${took.toFixed(took < 9.5 ? 1 : 0)} ms` : `${(took / 1000).toFixed(took < 9500 ? 1 : 0)} s`);
const sizeText = (number, one) => counted(Number(number).toLocaleString("en"), one);
const counted = (number, one, many = `${one}s`) => `${number} ${Number(number) === 1 ? one : many}`;
const among = (list, most) => (list.length > most ? [...list.slice(0, most), `and ${list.length - most} more`] : list);

// A tone, a sentence, and lines below it, of the state behind so many items. `circle` has those who wait for each other. A run that was cut
// off took so many turns.
function verdictOf(state, isBeginning, cutAt) {
    const said = waitingOf(state, isBeginning, cutAt);
    return { ...said, lines: [...said.lines, ...heldLines(state.report)] };
}
function waitingOf({ report, told }, isBeginning, cutAt) {
    const stuck = report.threads.filter((thread) => thread.isStuck);
    const resting = report.threads.filter((thread) => thread.isResting);
    const open = report.threads.filter((thread) => thread.wait && !thread.isCaught);
    const deadlocks = report.deadlocks.filter((ids) => ids.some((id) => report.byId.get(id).isStuck));
    const isAtRest = report.ending === "quiet";
    const forever = report.threads.find((thread) => thread.isForever);
    if (forever && !isAtRest) {
        const head = `${forever.called} can never go on from here, whatever the others do.`;
        return { tone: "bad", head, lines: among(stuck.map((thread) => waitLine(thread)), 10), circle: report.deadlocks[0] };
    }
    if (deadlocks.length) {
        const circles = deadlocks.flatMap((ids) => ids.map((id) => waitLine(report.byId.get(id))));
        const others = stuck.filter((thread) => !thread.isDead).map((thread) => waitLine(thread, ", for ever"));
        const end = isAtRest ? "none of them can ever go on." : "only a thread that still runs could end that.";
        const head = `Deadlock: these wait for each other, and ${end}`;
        return { tone: "bad", head, lines: among([...circles, ...others], 10), circle: deadlocks[0] };
    }
    if (isAtRest && stuck.length) {
        const head = `At rest, and ${counted(stuck.length, "thread waits", "threads wait")} for ever.`;
        return { tone: "bad", head, lines: among([...stuck, ...resting].map((thread) => waitLine(thread, heardText(thread))), 8) };
    }
    if (isAtRest) {
        const ids = among(open.map((thread) => thread.called), 6).join(", ");
        const servers = open.length ? [`${ids} ${open.length === 1 ? "waits" : "wait"} for anybody, as a server does.`] : [];
        const others = among(resting.map((thread) => waitLine(thread)), 8);
        return { tone: "good", head: "At rest: nothing is left to do, and nobody is stuck.", lines: [...servers, ...others] };
    }
    if (report.circles.length) {
        const lines = report.circles.flatMap((ids) => ids.map((id) => waitLine(report.byId.get(id))));
        return { tone: "fair", head: "It goes on, with a circle of those who wait:", lines: among(lines, 10), circle: report.circles[0] };
    }
    if (cutAt) {
        const head = `Not at rest after ${counted(cutAt.toLocaleString("en"), "turn")}: the run was cut off there.`;
        return { tone: "fair", head, lines: ["Some machines go on for ever. Limits has how many turns a run takes."] };
    }
    if (isBeginning) return { tone: "", head: "At the beginning. Press Run, or choose below what happens first.", lines: [] };
    return { tone: "", head: `It goes on: ${counted(told.length.toLocaleString("en"), "step")} so far.`, lines: [] };
}

// How far a search went, as its last line says, and of which runs it knows.
function sizeOf(last, took) {
    const [found, ...known] = last.split(", ");
    const [kind, number, , depth, whole] = found.split(" ");
    const isWhole = whole === "whole";
    const [one, part] = kind === "states" ? ["state", "item"] : ["world", "step"];
    const size = `${sizeText(number, one)}, up to ${counted(depth, part)}, in ${timeText(took)}`;
    const all = kind === "states" ? "All orders of the processors were searched" : "All orders of any scheduler were searched, whatever time passes";
    const searched = isWhole ? `${all}: ${size}.` : `Cut off: ${size}. There may be more; Limits has the numbers.`;
    return { isWhole, lines: [searched, ...limitsText(known)] };
}

// What a search for endings came to: of all, of the stuck ones, or of those with or without a line.
function searchText(found) {
    const { endings, forever, isForeverCut, last, isEndless, isByWalk, isStuckOnly, rests, took } = found;
    const walked = [`Found by a walk at random, in ${timeText(took)}: there may be shorter ways there, and others were not looked for.`];
    const { isWhole, lines } = isByWalk ? { isWhole: false, lines: walked } : sizeOf(last, took);
    const bad = endings.filter(({ report }) => report.threads.some((thread) => thread.isStuck)).length;
    const quiet = isEndless && !isStuckOnly ? "" : "good";
    const tone = bad || forever.length ? "bad" : isWhole && !isForeverCut ? quiet : "fair";
    const choose = endings.length + forever.length ? ["Each card opens step by step."] : [];
    const head = isEndless ? endlessText(found) : endingsText(found, bad, isWhole);
    const others = isForeverCut ? ["The search for threads that are stuck for ever was cut off: there may be more of them."] : [];
    const isTwice = new Set(endings.map(({ lines: told }) => told.join("\n"))).size < endings.length;
    const same = isTwice ? ["Some have the same report: they differ in what a report does not show."] : [];
    const resting = rests.length ? [`Not counted as stuck: ${among(rests, 6).join(", ")}, as asked.`] : [];
    return { tone, head, lines: [...resting, ...lines, ...others, ...same, ...choose] };
}

// Whether lines that must not hold at once may do so.
function momentText({ isMet, steps, isLeast, isCut, last, took }) {
    const { lines } = sizeOf(last, took);
    if (isMet) {
        const head = `These lines can all hold at one moment, after ${counted(steps, "step")}${isLeast ? "" : ", or fewer"}.`;
        return { tone: "bad", head, lines: ["The card opens step by step."] };
    }
    if (isCut) return { tone: "fair", head: "No such moment was found.", lines };
    return { tone: "good", head: "Never: there is no moment in which all of these lines hold.", lines };
}
const stuckText = (forever) => `${among(forever.map(({ called }) => called), 6).join(", ")} can get stuck for ever`;
function endlessText({ forever, isForeverCut, isStuckOnly }) {
    const nobody = isStuckOnly && !isForeverCut ? ", and nobody gets stuck" : "";
    return `No ending: it goes on for ever${forever.length ? `, and ${stuckText(forever)}` : nobody}.`;
}
// Of which runs a whole search knows, as its last line says.
function limitsText(known) {
    const texts = {
        "least ticks": "Each clock went to the least deadline of its processor. Where it goes further first, there may be others.",
        "in turn": "Threads of one processor took their turns in one order. A kernel that takes them in another may end otherwise.",
    };
    return known.map((word) => texts[word] ?? word);
}
function endingsText({ endings, forever, isStuckOnly, isPart }, bad, isWhole) {
    const all = endings.length;
    const waits = isStuckOnly ? " in which somebody waits for ever" : "";
    const such = isPart ? "such " : "";
    const none = `No ${such}ending${waits}${isWhole ? "" : " was found"}`;
    if (!isStuckOnly) return all ? `${counted(all, `${such}ending`)}${bad ? `, ${bad} of them with somebody who waits for ever` : ""}.` : `${none}.`;
    if (!all && forever.length) return `${none}, but ${stuckText(forever)} while others go on.`;
    const threads = forever.length ? `, and ${counted(forever.length, "thread")} that can never go on` : "";
    return `${all ? counted(all, `${such}ending`) + waits : none}${threads}.`;
}
