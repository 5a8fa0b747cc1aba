// Shows a picture that `chart --svg` printed. The heads of columns stay above and the lines of steps at the left; some rows are chosen, and marks
// say where something else was possible.
class Chart {
    static ROW = 24; // pixels of a row, and of the heads above the first, in the program's picture
    static HEAD = 56;
    static NAMES = 14; // and of the names of threads, which the page writes below their ids
    static LETTER = 6.1; // the width of a letter of a name

    // `onRow` hears of the step that is chosen by the keyboard or the pointer; 0 is the beginning. `onWays` hears of the step of which somebody
    // asks what else was possible, `onScroll` that other rows are in sight.
    constructor(root, { onRow, onWays, onScroll }) {
        this.root = root;
        this.row = this.since = 0;
        this.clear("");
        root.tabIndex = 0;
        // The chosen row stays in sight, whatever room there is.
        new ResizeObserver(() => this.choose(this.row, this.since)).observe(root);
        root.addEventListener("scroll", onScroll);
        root.addEventListener("keydown", (event) => {
            const by = { ArrowDown: 1, ArrowUp: -1, PageDown: 10, PageUp: -10 }[event.key];
            if (event.target !== root || !(by || event.key === "Enter") || !this.numbers.length) return;
            event.preventDefault();
            if (by) onRow(Math.min(this.total, Math.max(0, this.row + by)));
            else onWays(this.row);
        });
        root.addEventListener("click", (event) => {
            const row = event.target.closest("[data-step]");
            if (!row) return;
            if (event.target.closest(".ways")) onWays(Number(row.dataset.step));
            else onRow(Number(row.dataset.step));
        });
    }

    clear(...said) {
        this.numbers = [];
        this.width = 0;
        this.root.replaceChildren(el("div", { className: "none" }, ...said));
    }

    // Shows the steps of a picture, of all that are told, with the names of threads by their ids.
    draw(svg, told, names) {
        const picture = new DOMParser().parseFromString(svg, "image/svg+xml").documentElement;
        picture.querySelector("style")?.remove();
        // What threads are in behind the last step has rows too, without a number.
        const drawn = [...picture.querySelectorAll("g.row")];
        const rows = drawn.filter((row) => row.querySelector("text.number"));
        const states = drawn.filter((row) => !rows.includes(row));
        this.numbers = rows.map((row) => Number(row.querySelector("text.number").textContent));
        this.total = told.length;
        this.rows = drawn.length;
        this.names = names;
        this.head = Chart.HEAD + ([...picture.querySelectorAll("text.id")].some(({ textContent }) => names.has(textContent)) ? Chart.NAMES : 0);
        this.steps = new Map(rows.map((row, place) => [this.numbers[place], this.line(row, this.numbers[place], told)]));
        this.lines = el("div", { className: "lines" }, ...this.steps.values(), ...states.map((row) => this.state(row)));
        for (const row of drawn) for (const text of row.querySelectorAll("text:not(.time)")) text.remove();

        const bands = [...picture.querySelectorAll("rect.band")].map((it) => [Number(it.getAttribute("x")), Number(it.getAttribute("width"))]);
        const left = Math.min(...bands.map(([x]) => x)) - 6;
        const width = Math.max(...bands.map(([x, wide]) => x + wide)) + 6 - left;
        const height = Number(picture.getAttribute("height"));
        const part = (svgPart, top, tall) => {
            svgPart.setAttribute("viewBox", `${left} ${top} ${width} ${tall}`);
            svgPart.setAttribute("width", width);
            svgPart.setAttribute("height", tall);
            return document.importNode(svgPart, true);
        };
        const heads = picture.cloneNode(true);
        for (const it of heads.querySelectorAll("g.row, text.cpu, path.waits")) it.remove();
        const cpuNames = [...picture.querySelectorAll("text.cpu")].map(({ textContent }) => textContent);
        const cpus = bands.map(([x, wide], place) => Chart.cpu(cpuNames[place], x - left, wide));
        if (this.head > Chart.HEAD) this.nameHeads(heads);
        const above = el("div", { className: "above" }, part(heads, 0, this.head), ...cpus);
        const body = el("div", { className: "body" }, part(picture, Chart.HEAD, height - Chart.HEAD));
        this.marks = [...body.querySelectorAll("g.row")];
        this.now = el("div", { className: "now" });
        this.later = el("div", { className: "later" });
        const corner = el("div", { className: "corner", textContent: "step" });
        this.over = el("div", { className: "over" });
        const grid = el("div", { className: "grid" }, corner, above, this.lines, body, this.later, this.now, this.over);
        grid.style.setProperty("--columns", `${width}px`);
        grid.style.setProperty("--head", `${this.head}px`);
        this.root.replaceChildren(grid);
        grid.style.setProperty("--lines", `${this.lines.offsetWidth}px`);
        this.width = width + this.lines.offsetWidth;
    }

    // The name of a processor, which stays in sight as long as one of its threads is.
    static cpu(name, left, wide) {
        const made = el("div", { className: "cpu" }, el("span", { textContent: name }));
        Object.assign(made.style, { left: `${left}px`, width: `${wide}px` });
        return made;
    }

    // The names of threads below their ids, as long as there is room between two columns. A lifeline begins below its name.
    nameHeads(heads) {
        const columns = [...heads.querySelectorAll("text.id")];
        const lefts = columns.map((id) => Number(id.getAttribute("x")));
        const gaps = lefts.slice(1).map((left, place) => left - lefts[place]);
        const most = Math.floor((Math.min(72, ...gaps) - 4) / Chart.LETTER);
        for (const path of heads.querySelectorAll("path.thread")) path.remove();
        for (const id of columns) {
            const name = this.names.get(id.textContent);
            if (!name) continue;
            const made = id.cloneNode();
            made.setAttribute("class", "name");
            made.setAttribute("y", `${Number(id.getAttribute("y")) + Chart.NAMES}`);
            made.textContent = name.length > most ? `${name.slice(0, most - 1)}…` : name;
            id.after(made);
            const title = id.parentElement.querySelector("title");
            if (title) title.textContent = `${id.textContent} (${name})`;
        }
    }

    // What the program says of a row, and behind it the names of the threads that it speaks of.
    withNames(said) {
        const ids = [...new Set(said.match(/\b\d+\.\d+\b/g))].filter((id) => this.names.has(id));
        return ids.length ? `${said}\n${ids.map((id) => `${id} is ${this.names.get(id)}`).join(", ")}` : said;
    }

    line(row, number, told) {
        row.dataset.step = number;
        const title = this.withNames(row.querySelector("title").textContent);
        const { step, to } = told[number - 1];
        const ways = el("span", { className: "ways", title: "what else was possible here was not looked for yet", textContent: "·" });
        const made = el("div", { title }, el("span", { className: "number", textContent: number }), ways, withReceiver(shortOf(step), to));
        made.dataset.step = number;
        if (row.classList.contains("failure")) made.className = "failure";
        return made;
    }

    // The first and the last step whose rows are in sight; of a chart without a row nothing.
    inSight() {
        const { scrollTop, clientHeight } = this.root;
        const first = Math.floor(scrollTop / Chart.ROW);
        const rows = this.numbers.slice(first, first + Math.ceil((clientHeight - this.head) / Chart.ROW) + 1);
        return rows.length ? [rows[0], rows.at(-1)] : [];
    }

    // Marks the row with which the steps of an item begin, if something else was possible in its place. Its other rows have no mark.
    tellWays({ row, steps, others }) {
        for (let step = row; step < row + steps; step += 1) {
            const ways = this.steps.get(step)?.querySelector(".ways");
            if (!ways) continue;
            const isMarked = step === row && others.length > 0;
            const told = ({ item, steps: them }) => (them.length && them[0] !== item ? `${item} (${them.join(", ")})` : item);
            ways.classList.add("told");
            ways.title = isMarked ? `also possible here: ${others.map(told).join("; ")}` : "";
            ways.replaceChildren(...(isMarked ? [Chart.fork(), `${others.length}`] : []));
        }
    }
    static fork() {
        const made = document.createElementNS("http://www.w3.org/2000/svg", "svg");
        made.setAttribute("viewBox", "0 0 10 12");
        made.innerHTML = `<path d="M2.5 1v10M2.5 8.5C2.5 5 7.5 6.5 7.5 2"/>`;
        return made;
    }

    // Shows this below the row of a step, or nothing.
    open(step, shown) {
        this.over?.replaceChildren(...(shown ? [shown] : []));
        if (!shown) return;
        this.over.style.top = `${this.head + (this.numbers.indexOf(step) + 1) * Chart.ROW}px`;
        shown.scrollIntoView({ block: "nearest", inline: "nearest" });
    }

    // What a thread is in behind the last row, who waits for each other there, or which send is held.
    state(row) {
        const said = row.querySelector("title").textContent;
        const meaning = Chart.BELOW[said.split(" ")[0]];
        const className = `state${row.classList.contains("circle") ? " failure" : ""}`;
        return el("div", { title: this.withNames(meaning ? `${said}: ${meaning}` : said), className, textContent: said.replace(/ \(line .*\)$/, "") });
    }
    static BELOW = {
        circle: "each waits for the next, and the last for the first",
        deadlock: "each waits for the next, and the last for the first; no step of theirs is possible, now or after ticks",
        held: "a send of time zero that is not refused yet: its receiver is in a call to another processor, and would accept it once that call is decided",
    };

    // Marks the rows of the steps from `since` to `row`; those behind are yet to come, and so is what is behind the last.
    choose(row, since = row) {
        Object.assign(this, { row, since });
        if (!this.numbers.length) return;
        const { ROW } = Chart;
        const end = this.numbers.filter((number) => number <= row).length;
        const start = Math.min(this.numbers.filter((number) => number < since).length, end);
        this.now.hidden = start === end;
        this.now.style.top = `${this.head + start * ROW}px`;
        this.now.style.height = `${(end - start) * ROW}px`;
        this.later.style.top = `${this.head + end * ROW}px`;
        this.later.style.height = `${end === this.numbers.length ? 0 : (this.rows - end) * ROW}px`;
        this.showRow(end);
        if (end > start) this.showColumn(this.marks[end - 1]);
    }

    showRow(end) {
        const { ROW } = Chart;
        const { scrollTop, clientHeight } = this.root;
        const bottom = this.head + end * ROW;
        if (bottom - ROW >= scrollTop + this.head && bottom + ROW <= scrollTop + clientHeight) return;
        this.root.scrollTop = end === 0 ? 0 : Math.max(0, bottom - clientHeight * 0.6);
    }

    // Brings the columns of a step into sight: that of its mark, or those of its arrow.
    showColumn(row) {
        const paths = [...row.querySelectorAll("path:not(.hit)")].map((path) => path.getBoundingClientRect());
        if (!paths.length) return;
        const left = this.root.getBoundingClientRect().left + this.lines.offsetWidth;
        const room = this.root.clientWidth - this.lines.offsetWidth;
        const from = Math.min(...paths.map((box) => box.left)) - left;
        const to = Math.max(...paths.map((box) => box.right)) - left;
        if (from >= 8 && to <= room - 8) return;
        this.root.scrollLeft += to - from > room ? from - 24 : (from + to) / 2 - room / 2;
    }
}
