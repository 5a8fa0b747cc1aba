// A picture of those who wait for each other: an arrow leads from each to the one that it waits for. The circles of the program are shown as it tells
// them. Who has a lock it does not tell: that is the page's own reading of the report and the text, and is said to be.

const MOST_IN_CIRCLE = 8; // threads; of more there is no picture
const LONGEST_IN_CIRCLE = 10; // letters of an id; a longer name is cut

// The circle of ids that the program tells. One of them is read as a lock where it waits for a message of the next alone, from which it heard last,
// and another waits for it to take a message.
function circleTold({ byId }, ids) {
    return ids.map((id, place) => {
        const { name, held, from, wait } = byId.get(id);
        const isAsked = byId.get(ids.at(place - 1)).wait.phase === "send";
        const holder = isAsked && wait.phase === "receive" && wait.to === from && byId.has(from) ? from : null;
        return { id, name, isHeld: Boolean(held), holder, isRead: false };
    });
}

// Where the program tells no circle: one that is closed where a lock waits for another than the one that has it. The lock is not taken as long as it
// waits for a message of its other thread, to which the one that it heard from last sends somewhere in its script.
function circleRead(report, machine) {
    const isAsked = (id) => report.threads.some(({ wait, isStuck }) => isStuck && wait?.to === id && wait.phase === "send");
    const member = (id) => {
        const { name, from, wait, isStuck, held } = report.byId.get(id) ?? {};
        if (!isStuck || !wait) return null;
        const isClosedReceive = wait.phase === "receive" && wait.to !== from;
        const back = isClosedReceive && isAsked(id) ? machine.byId.get(from)?.script.find(({ words }) => words[0] === "ipc" && words[1] === wait.to) : null;
        return { id, name, isHeld: Boolean(held), holder: back ? from : null, isRead: Boolean(back), back, next: back ? from : wait.to };
    };
    for (const { id } of report.threads) {
        const way = [];
        let at = member(id);
        while (at && !way.some((it) => it.id === at.id)) {
            way.push(at);
            at = member(at.next);
        }
        const circle = at ? way.slice(way.findIndex((it) => it.id === at.id)) : [];
        const isLockAsked = (it, place) => !it.isRead || report.byId.get(circle.at(place - 1).id).wait.phase === "send";
        if (circle.some(({ isRead }) => isRead) && circle.every(isLockAsked)) return circle;
    }
    return null;
}

// What the page reads of a circle: who has which lock; and folded below it, from what that is read.
function readText(circle, machine) {
    const locks = circle.filter(({ holder }) => holder);
    if (!locks.length) return [];
    const called = (id) => calledIn(machine, id);
    const asks = locks.map((lock) => [circle.at(circle.indexOf(lock) - 1), lock]);
    const waits = asks.map(([{ id }, lock]) => `${called(id)} waits for ${called(lock.id)}, which ${called(lock.holder)} has`);
    const why = ({ id, holder, back }) => [
        `${called(id)} heard from ${called(holder)} last`,
        ...(back ? [", which would give it back at ", lineButton(back.line)] : [", and waits for a message from it alone"]),
    ];
    const told = locks.some(({ isRead }) => isRead) ? "The program tells no circle here" : "The program tells the circle, and not who has what";
    return [
        el("p", { textContent: `${locks.length > 1 ? "Locks, as this page reads them" : "A lock, as this page reads it"}: ${waits.join("; ")}.` }),
        el(
            "details",
            {},
            el("summary", { textContent: "How it reads that" }),
            el("p", { className: "small" }, `${told}. `, ...locks.flatMap((lock, place) => [place ? "; " : "", ...why(lock)]), "."),
        ),
    ];
}

// The picture of a circle, each member of which waits for the next, and the last for the first. The arrow of one whose send is held is dashed, and one
// that is read is dotted; a lock has round ends. Sentences say the same, so it is hidden from who hears the page.
function circlePicture(circle) {
    if (circle.length > MOST_IN_CIRCLE || circle.some(({ id }) => id.length > LONGEST_IN_CIRCLE)) return null;
    const named = circle.some(({ name }) => name);
    const short = (name = "") => (name.length > LONGEST_IN_CIRCLE ? `${name.slice(0, LONGEST_IN_CIRCLE - 1)}…` : name);
    const tall = named ? 17 : 11; // half of what a thread takes up, in pixels
    const wide = 9 + 3.9 * Math.max(...circle.flatMap(({ id, name }) => [id.length, short(name).length]));
    const more = 7 * Math.max(0, circle.length - 4); // of many each has less room, and an arrow none
    const [x, y] = circle.length < 3 ? [wide + 26, tall + 4] : [wide + 8 + 7 * circle.length + more, tall + 5 + 4 * circle.length + more];
    const at = (turn) => {
        const angle = 2 * Math.PI * turn - Math.PI * (circle.length < 3 ? 1 : 0.5);
        return [x * Math.cos(angle), y * Math.sin(angle)];
    };
    const isIn = ([left, top], place, around) => {
        const [a, b] = at(place / circle.length);
        return Math.abs(left - a) < wide + around && Math.abs(top - b) < tall + around;
    };
    const arrows = circle.map(({ isHeld, isRead }, place) => {
        const all = Array.from({ length: 121 }, (__, part) => at((place + part / 120) / circle.length));
        const shown = all.filter((point) => !isIn(point, place, 2) && !isIn(point, place + 1, 4));
        return shown.length > 8 ? arrow(shown, `line${isHeld ? " held" : ""}${isRead ? " read" : ""}`) : "";
    });
    const nodes = circle.map(({ id, name, holder }, place) => {
        const [a, b] = at(place / circle.length);
        const below = name ? `<text class="name" x="${a}" y="${b + 11}">${short(name)}</text>` : "";
        const box = `<rect x="${a - wide}" y="${b - tall}" width="${2 * wide}" height="${2 * tall}" rx="${holder ? tall : 5}"/>`;
        return `${box}<text x="${a}" y="${name ? b - 2 : b + 4}">${id}</text>${below}`;
    });
    const box = [-x - wide - 2, -y - tall - 2, 2 * (x + wide + 2), 2 * (y + tall + 2)];
    const made = document.createElementNS("http://www.w3.org/2000/svg", "svg");
    for (const [name, value] of [["viewBox", box.join(" ")], ["width", box[2]], ["height", box[3]], ["class", "circle"], ["aria-hidden", "true"]]) {
        made.setAttribute(name, value);
    }
    made.innerHTML = arrows.join("") + nodes.join("");
    return made;
}

// A line of a class through these points, with a head at its end.
function arrow(points, kind) {
    const [[x, y], [a, b]] = [points.at(-1), points.at(-7)];
    const long = Math.hypot(x - a, y - b);
    const [dx, dy] = [(x - a) / long, (y - b) / long];
    const back = (side) => `${(x - 6 * dx - 3.5 * side * dy).toFixed(1)} ${(y - 6 * dy + 3.5 * side * dx).toFixed(1)}`;
    const line = points.slice(0, -2).map((point) => point.map((it) => it.toFixed(1)).join(" ")).join("L");
    return `<path class="${kind}" d="M${line}"/><path class="point" d="M${x.toFixed(1)} ${y.toFixed(1)}L${back(1)}L${back(-1)}Z"/>`;
}
