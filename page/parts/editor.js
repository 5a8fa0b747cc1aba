// A text area over a picture of its own text: colours, line numbers, marks of lint, and where threads are. Lines are wrapped; those of a
// long text are not, and only those in sight are drawn.
class Editor {
    static PADDING = 8; // pixels above the first line, as in the style
    static LONG = 1500; // lines
    static LONGEST_ID = 12; // letters
    static AROUND = 40; // lines that are drawn above and below those in sight, of a long text

    constructor(root, { onChange, onLine }) {
        this.root = root;
        this.area = root.querySelector("textarea");
        this.paint = root.querySelector(".paint");
        this.tip = root.querySelector(".tip");
        this.marks = [];
        this.places = new Map();
        this.lines = [""];
        this.drawn = new Map(); // by line, counted from 0: what it was drawn from, and its element
        this.first = this.last = 0;
        new ResizeObserver(() => this.draw()).observe(this.area);
        this.area.addEventListener("input", () => {
            this.places = new Map();
            this.draw();
            onChange();
        });
        this.area.addEventListener("scroll", () => this.follow());
        for (const name of ["keyup", "click", "focus"]) this.area.addEventListener(name, () => onLine(this.line()));
        this.area.addEventListener("mousemove", (event) => this.hover(event));
        this.area.addEventListener("mouseleave", () => (this.tip.hidden = true));
    }

    // What is typed, with the line end that the last line has to have.
    get text() {
        const typed = this.area.value;
        return typed === "" || typed.endsWith("\n") ? typed : `${typed}\n`;
    }
    set text(value) {
        this.area.value = value;
        this.area.setSelectionRange(0, 0);
        this.area.scrollTo(0, 0);
        this.marks = [];
        this.places = new Map();
        this.draw();
    }

    get isLong() {
        return this.lines.length > Editor.LONG;
    }
    get pitch() {
        return parseFloat(getComputedStyle(this.area).lineHeight);
    }

    // The line of the caret, counted from 1.
    line() {
        return this.area.value.slice(0, this.area.selectionStart).split("\n").length;
    }

    mark(marks) {
        this.marks = marks;
        this.draw();
    }

    // Shows at which lines threads are: for each line, those that are there.
    stand(places) {
        this.places = places;
        this.draw();
    }

    // Selects the word at a place.
    goTo(line, column = 1) {
        const before = this.lines.slice(0, line - 1).reduce((sum, it) => sum + it.length + 1, 0);
        const at = before + column - 1;
        const word = (this.lines[line - 1] ?? "").slice(column - 1).match(/^\S+/)?.[0] ?? "";
        this.area.focus();
        this.area.setSelectionRange(at, at + word.length);
        const top = this.topOf(line);
        const { scrollTop, clientHeight } = this.area;
        if (top < scrollTop || top + 2 * this.pitch > scrollTop + clientHeight) this.area.scrollTop = Math.max(0, top - clientHeight / 3);
        this.area.dispatchEvent(new Event("click"));
    }

    // How far below the first line a line begins.
    topOf(line) {
        if (this.isLong) return (line - 1) * this.pitch;
        return this.drawn.get(line - 1)?.element.offsetTop ?? 0;
    }

    lineAt(y) {
        if (this.isLong) return Math.floor(y / this.pitch) + 1;
        let line = 1;
        while (line < this.lines.length && this.topOf(line + 1) <= y) line += 1;
        return line;
    }

    hover(event) {
        const box = this.area.getBoundingClientRect();
        const line = this.lineAt(event.clientY - box.top + this.area.scrollTop - Editor.PADDING);
        const marks = this.marks.filter((mark) => mark.line === line).map(markText);
        const here = this.places.get(line)?.map(({ note }) => note).join(", ");
        const notes = here ? [...marks, `here: ${here}`] : marks;
        this.tip.hidden = notes.length === 0;
        if (this.tip.hidden) return;
        this.tip.textContent = notes.join("\n");
        const below = this.topOf(line) + this.pitch + Editor.PADDING + 6 - this.area.scrollTop;
        this.tip.style.top = `${Math.min(box.height - 30, below)}px`;
    }

    draw() {
        this.lines = this.area.value.split("\n");
        const digits = `${this.lines.length}`.length;
        const longest = this.roomForIds();
        this.root.style.setProperty("--gutter", `calc(${digits + longest}ch + ${longest ? 22 : 14}px)`);
        this.root.classList.toggle("long", this.isLong);
        this.paint.style.width = this.isLong ? "" : `${this.area.clientWidth}px`;
        this.render();
        this.follow();
    }

    // How many letters the ids of threads take, which stand before the numbers of the lines at which they are. There is room for them where
    // none is shown too, so that the text does not move.
    roomForIds() {
        const wordsOf = (key) => this.lines.filter((line) => line.startsWith(`${key} `)).map((line) => line.split(" ").slice(1));
        const names = new Map(wordsOf("name"));
        const ids = wordsOf("thread").map(([id = ""]) => names.get(id) ?? id);
        return ids.length > MOST_PLACES ? 0 : Math.min(Editor.LONGEST_ID, Math.max(0, ...ids.map((id) => id.length)));
    }

    follow() {
        const { scrollTop, scrollLeft, clientHeight } = this.area;
        const top = scrollTop / this.pitch;
        const isNear = top < this.first + 5 || top + clientHeight / this.pitch > this.last - 5;
        if (this.isLong && isNear) this.render();
        const by = (this.isLong ? this.first * this.pitch : 0) - scrollTop;
        this.paint.style.transform = `translate(${-scrollLeft}px, ${by}px)`;
        this.paint.style.setProperty("--scrolled", `${scrollLeft}px`);
    }

    // Draws all lines, or of a long text those in sight and some around them. A line that is as it was is not drawn anew.
    render() {
        const top = Math.floor(this.area.scrollTop / this.pitch);
        const inSight = Math.ceil(this.area.clientHeight / this.pitch);
        this.first = this.isLong ? Math.max(0, top - Editor.AROUND) : 0;
        this.last = this.isLong ? top + inSight + Editor.AROUND : this.lines.length;
        const marks = new Map();
        for (const mark of this.marks) if (!marks.has(mark.line) || marks.get(mark.line).isDoubt) marks.set(mark.line, mark);
        const drawn = new Map();
        for (let place = this.first; place < Math.min(this.lines.length, this.last); place += 1) {
            const mark = marks.get(place + 1);
            const here = this.places.get(place + 1);
            const from = JSON.stringify([this.lines[place], mark, here]);
            const was = this.drawn.get(place);
            drawn.set(place, was?.from === from ? was : { from, element: Editor.painted(place + 1, this.lines[place], mark, here) });
        }
        this.drawn = drawn;
        this.paint.replaceChildren(...[...drawn.values()].map(({ element }) => element));
        this.root.style.setProperty("--text", `${this.paint.offsetHeight + 2 * Editor.PADDING}px`);
    }

    static tone(mark) {
        if (!mark) return "";
        return mark.isDoubt ? "doubt" : "fault";
    }

    static painted(line, text, mark, here) {
        const made = el("div", { className: here ? `here ${here[0].tone}` : "" }, Editor.number(line, mark, here), ...Editor.coloured(text, mark));
        if (!text) made.append("\u200b");
        return made;
    }

    static number(line, mark, here) {
        const made = el("span", { className: `line ${Editor.tone(mark)}` });
        if (here) {
            const title = here.map(({ note }) => note).join(", ");
            made.append(el("b", { className: here[0].tone, title, textContent: `${here[0].id}${here.length > 1 ? "+" : ""}` }));
        }
        made.append(`${line}`);
        return made;
    }

    // The words of a line in their colours, that of a mark underlined. Blanks between them are spaces and tabs.
    static coloured(text, mark) {
        if (text.startsWith(";")) return [el("i", { className: `comment${mark ? ` under ${Editor.tone(mark)}` : ""}`, textContent: text })];
        const [, said, comment] = /^([^;]*)(.*)$/.exec(text);
        let column = 1;
        let isFirst = true;
        const words = said.split(/([ \t])/).flatMap((word, place) => {
            if (place % 2) return [word];
            const isMarked = mark && mark.column >= column && mark.column < column + Math.max(1, word.length);
            column += word.length + 1;
            const kind = Editor.kind(word, isFirst);
            if (word && kind !== "label") isFirst = false;
            return [el("i", { className: isMarked ? `${kind} under ${Editor.tone(mark)}` : kind, textContent: word })];
        });
        const behind = comment && [el("i", { className: "comment", textContent: comment })];
        return mark && mark.column >= column ? [...words, el("i", { className: `under ${Editor.tone(mark)}`, textContent: "\u00a0" }), ...behind] : [...words, ...behind];
    }
    // A word that begins a line may have a name in front of it (version 2).
    static kind(word, isFirst) {
        if (isFirst && word.endsWith(":")) return "label";
        if (isFirst) return /^(thread|name)$/.test(word) ? "head" : "key";
        if (/^\d+\.\d+$|^#|^mr\d+$/.test(word)) return "id";
        return /^(never|zero|nil|any|anylocal|last|cpu|space|as|to)$/.test(word) ? "name" : "value";
    }
}
