// A text and what happens in it, a list that is stepped through: what the program says of each beginning of the list. The list has the
// items of a schedule, which a replay takes, or the steps of a trace, which an audit judges. `forever` is a thread of which a search has told
// that it is stuck for ever behind so many steps, and on; `moment` are lines of which one has told that they all hold behind so many. An item
// may tell several steps: `part` is how many of those of the next item are behind the state that is shown, 0 where it is between two items.
// `left` is the list that somebody left for this one, to do something else in the place of one of its items.
class Session {
    static KEPT = 64; // states that are remembered

    constructor(program, text, list = [], at = list.length) {
        Object.assign(this, { program, text, list, at, machine: machineOf(text), states: new Map(), counts: new Map(), nexts: new Map(), whole: null });
        Object.assign(this, { forever: null, moment: null, part: 0, left: null, nextTook: 0 });
    }

    // What is done.
    get done() {
        return this.list.slice(0, this.at);
    }

    // The session in which this follows so much of the list. What is known of that stays known.
    with(more, at = this.at) {
        const made = new this.constructor(this.program, this.text, [...this.list.slice(0, at), ...more]);
        for (const known of ["states", "counts", "nexts"]) {
            for (const [place, it] of this[known]) if (place <= at) made[known].set(place, it);
        }
        Object.assign(made, { left: this.left, nextTook: this.nextTook });
        // Who is stuck for ever stays so, whatever follows.
        if (this.forever?.at <= at) made.forever = this.forever;
        if (this.moment?.at <= at) made.moment = this.moment;
        return made;
    }

    // The same list in another text.
    in(text) {
        return Object.assign(new this.constructor(this.program, text, this.list, this.at), { part: this.part });
    }

    // The states behind so much of the list each: the report, and the steps that are told up to there. A place below 0 has none.
    async statesAt(...places) {
        if (this.states.size > Session.KEPT) {
            for (const place of [...this.states.keys()]) if (!places.includes(place)) this.states.delete(place);
        }
        const found = [];
        for (const place of places) {
            if (place >= 0 && !this.states.has(place)) this.states.set(place, this.withForever(place, await this.stateAt(place)));
            found.push(this.states.get(place));
        }
        return found;
    }

    withForever(place, state) {
        const thread = place >= this.forever?.at && state.report.byId.get(this.forever.id);
        if (thread) thread.isStuck = thread.isForever = true;
        return state;
    }

    // All steps of the list, done or yet to come.
    async told() {
        if (!this.whole) {
            const [state] = await this.statesAt(this.list.length);
            this.whole = state.told;
        }
        return this.whole;
    }

    // How many steps so much of the list tells.
    async stepsAt(place, lane = "step") {
        if (this.states.has(place)) return this.states.get(place).told.length;
        if (!this.counts.has(place)) this.counts.set(place, await this.countAt(place, lane));
        return this.counts.get(place);
    }

    // The least part of the list that tells this step.
    async placeOf(step, lane) {
        let low = 0;
        let high = this.list.length;
        while (low < high) {
            const middle = (low + high) >> 1;
            if ((await this.stepsAt(middle, lane)) >= step) high = middle;
            else low = middle + 1;
        }
        return low;
    }

    // How many items, and how many steps of the next one, lead to the state behind a step.
    async partsOf(step) {
        const place = await this.placeOf(step);
        const over = (await this.stepsAt(place)) - step;
        return over > 0 ? [place - 1, step - (await this.stepsAt(place - 1))] : [place, 0];
    }

    // The state that is shown, of so many items and a part of the next one, and the one before it.
    async statesShown() {
        const { at, part } = this;
        if (!part) return this.statesAt(at, at - 1);
        const [before, behind] = await this.statesAt(at, at + 1);
        const steps = before.told.length + part;
        if (steps < behind.told.length) return [await this.between(steps), part > 1 ? await this.between(steps - 1) : before];
        Object.assign(this, { at: Math.min(at + 1, this.list.length), part: 0 });
        return this.statesShown();
    }

    // The steps that the item tells which was done last, or is under way.
    async stepsOfItem() {
        const place = this.part ? this.at + 1 : this.at;
        const [before, behind] = await this.statesAt(place - 1, place);
        return before ? behind.told.slice(before.told.length) : [];
    }

    // The state behind so many steps, wherever an item ends: an audit of these steps tells it.
    async between(steps) {
        const told = (await this.told()).slice(0, steps);
        const trace = new Trace(this.program, this.text, told.map(({ step }) => step));
        const [made] = await this.program.perform("step", trace.files(steps), trace.command("--report", "--waits"));
        return { made, report: reportOf(made.out), told };
    }

    // A session whose own commands tell of the state that is shown: between the steps of an item it is the trace of those that are done.
    async exact() {
        if (!this.part) return this;
        const [{ told }] = await this.statesShown();
        return new Trace(this.program, this.text, told.map(({ step }) => step));
    }

    // What may happen next behind so much of the list: items or steps, each with what it would tell.
    async next(place = this.at, lane = "next") {
        if (!this.nexts.has(place)) this.nexts.set(place, await this.found(place, lane));
        return this.nexts.get(place);
    }
}

// The items of a schedule: turns, letters and ticks, as the processors take them.
class Schedule extends Session {
    static UNIT = "item";
    static NAME = "The list";

    // A command over the first items.
    command(...options) {
        return ["replay", "m.l4", "--schedule", "@list", ...options];
    }
    files(place) {
        return { "m.l4": this.text, list: this.written(this.list.slice(0, place)) };
    }
    written(list) {
        return list.join(",");
    }

    async stateAt(place) {
        const asked = this.program.perform("step", this.files(place), this.command("--report", "--waits"), this.command("--json"));
        const [made, trace] = await asked;
        return { made, report: reportOf(made.out), told: toldOf(trace.out) };
    }

    async countAt(place, lane) {
        const [made] = await this.program.perform(lane, this.files(place), this.command());
        return linesOf(made.out).length;
    }

    async found(place, lane) {
        const [made] = await this.program.perform(lane, this.files(place), this.command("--next"));
        return nextOf(made.out);
    }

    // Which of what may happen next an item does. A plain turn handles the first letter that waits, or else is the core's own.
    static chosen(found, item) {
        const [, clock, to] = item.match(/^t(\d+):(\d+)$/) ?? [];
        if (clock) return found.find(({ steps }) => steps[0] === `tick ${clock} ${to}`);
        const isTurn = /^\d+$/.test(item);
        return found.find((it) => (isTurn ? it.kind !== "tick" && it.cpu === Number(item) : it.item === item));
    }

    // From the item that tells a step on: each item, the row with which its steps begin and how many these are, behind how many items it stands, and
    // what else might have been done in its place.
    async *itemsFrom(step, lane) {
        let place = (await this.placeOf(step, lane)) - 1;
        let row = 1 + (await this.stepsAt(place, lane));
        for (; place < this.list.length; place += 1) {
            const item = this.list[place];
            const found = await this.next(place, lane);
            const chosen = Schedule.chosen(found, item);
            const steps = chosen ? chosen.steps.length : (await this.stepsAt(place + 1, lane)) + 1 - row;
            yield { row, steps, place, item, others: found.filter((it) => it !== chosen) };
            row += steps;
        }
    }

    // The session that goes on behind what is done until all is at rest, or for so many turns. An item that is under way is done first.
    async rested(turns) {
        const at = this.part ? this.at + 1 : this.at;
        const words = this.command("--then-rest", "--turns", turns, "--record", "rest");
        const [made] = await this.program.perform("long", this.files(at), words);
        if (isFault(made)) throw new Error(faultOf(made));
        const rested = this.with(listOf(made.recorded).slice(at), at);
        rested.isCut = made.status === 3;
        return rested;
    }
}

// The steps of a trace: whatever may happen, in any order.
class Trace extends Session {
    static UNIT = "step";
    static NAME = "The trace";

    command(...options) {
        return ["audit", "m.l4", "m.trace", ...options];
    }
    files(place) {
        return { "m.l4": this.text, "m.trace": this.written(this.list.slice(0, place)) };
    }
    written(list) {
        return list.map((step) => `${step}\n`).join("");
    }

    async stateAt(place) {
        const chart = ["chart", "m.l4", "m.trace", "--svg"];
        const [made, drawn] = await this.program.perform("step", this.files(place), this.command("--report", "--waits", "--explain"), chart);
        return { made, report: reportOf(made.out), told: toldOfChart(this.list.slice(0, place), drawn.out) };
    }

    countAt(place) {
        return place;
    }

    found(place, lane) {
        return this.program.ask(lane, { kind: "possible", text: this.text, list: this.list.slice(0, place) });
    }

    // The same from a step on. Ticks are left out of what else might have happened, as they may happen anywhere.
    async *itemsFrom(step, lane) {
        for (let place = step - 1; place < this.list.length; place += 1) {
            const item = this.list[place];
            const found = await this.next(place, lane);
            yield { row: place + 1, steps: 1, place, item, others: found.filter((it) => it.item !== item && it.kind !== "tick") };
        }
    }
}
