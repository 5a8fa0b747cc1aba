// Where something else was possible: a mark in the chart at the first row of each item, or at each step of a trace, in whose place something else
// might have been done. In front of each row that is in sight the program is asked what may happen next, for a while, in a lane of its own. It tells
// all that may, but for ticks to other clocks than the next deadline.

const LOOK_FOR = 1500; // ms, after which a look at the rows in sight ends; those that it did not come to are marked so
const LOOK_AFTER = 120; // ms without another row in sight
const LONG = 750; // ms for what may happen next at the state that is shown: then rows are looked at where somebody asks for that alone

let looks = 0;
let lookTimer = 0;
function waysSoon() {
    clearTimeout(lookTimer);
    document.body.toggleAttribute("data-looking", true);
    lookTimer = setTimeout(() => guarded(lookForWays), LOOK_AFTER);
}

async function lookForWays() {
    looks += 1;
    const mine = looks;
    const shown = session;
    const isOld = () => mine !== looks || shown !== session;
    program.stop("ways");
    try {
        const [from, to] = chart.inSight();
        const end = performance.now() + LOOK_FOR;
        if (!from || shown.nextTook > LONG || $("next").classList.contains("old")) return;
        for await (const way of shown.itemsFrom(from, "ways")) {
            if (isOld()) return;
            chart.tellWays(way);
            if (way.row + way.steps > to || performance.now() > end) break;
        }
    } catch (trap) {
        if (!(trap instanceof Stopped)) throw trap;
    } finally {
        if (!isOld()) document.body.removeAttribute("data-looking");
    }
}

// Shows what else might have been done in the place of the item that tells a step, below that row; each does it there. It is asked for in a lane that
// no look at rows stops, and not shown once something else is.
let openings = 0;
async function openWays(step) {
    closeWays();
    const mine = openings;
    const shown = session;
    if (!step) return;
    const { value: way } = await shown.itemsFrom(step, "way").next();
    if (mine !== openings || !way) return;
    chart.tellWays(way);
    const { place, item, others, row } = way;
    const { UNIT } = shown.constructor;
    const name = el("b", { textContent: `${UNIT} ${place + 1}` });
    const count = others.length;
    const instead = count ? ` ${count === 1 ? "one other thing was" : `${count} other things were`} possible:` : " nothing else was possible, but for ticks.";
    const close = Object.assign(button("✕", leaveWays), { className: "close", ariaLabel: "close" });
    const choices = others.map((choice) => choiceButton(choice, 0, () => doInstead(place, choice.item)));
    const there = Object.assign(button("Go to that point", () => view(place)), { title: `the state in front of ${UNIT} ${place + 1}` });
    const head = el("p", {}, "In the place of ", name, ", ", el("code", { textContent: shortOf(item) }), ",", instead);
    const below = el("div", { className: "bar" }, there, leavesBehind(shown, place));
    const said = el("div", { className: "box", role: "dialog", ariaLabel: "what else was possible" }, close, head, el("div", { className: "next" }, ...choices), below);
    said.addEventListener("keydown", (event) => event.key === "Escape" && leaveWays());
    chart.open(row, said);
    said.querySelector(".choice, .bar button").focus({ preventScroll: true });
}

// What is behind an item is not of the way that another one begins.
function leavesBehind({ list, constructor: { UNIT } }, place) {
    const behind = list.length - place - 1;
    const said = `Another ${UNIT} leaves the ${counted(behind, UNIT)} behind it; a button above the chart leads back.`;
    return behind > 0 && el("span", { className: "small", textContent: said });
}

function closeWays() {
    openings += 1;
    chart.open(0, null);
}
function leaveWays() {
    closeWays();
    chart.root.focus({ preventScroll: true });
}
