// The program in workers. There are six lanes, so that none waits for another: what takes long, the stepper, what may come next, what else might
// have come (of rows that are looked at, and of one that somebody asks for), and lint. A lane is a worker; one that is stopped is ended, and the
// next question starts another.

class Stopped extends Error {}

class Program {
    // `onBusy` hears whether somebody is at work but lint and the look at rows, `onTold` how far a search has come; `limit` tells how many bytes of
    // memory a call may take.
    constructor(module, { onBusy, onTold, limit }) {
        Object.assign(this, { module, onBusy, onTold, limit });
        this.url = URL.createObjectURL(new Blob([$("worker").textContent], { type: "text/javascript" }));
        this.lanes = new Map();
        this.ids = 0;
    }

    lane(name) {
        if (!this.lanes.has(name)) {
            const worker = new Worker(this.url);
            const waiting = new Map();
            worker.onmessage = ({ data }) => this.answered(waiting, data);
            worker.postMessage({ module: this.module });
            this.lanes.set(name, { worker, waiting });
        }
        return this.lanes.get(name);
    }

    answered(waiting, { id, answer, trap, told }) {
        if (told) {
            this.onTold(told);
            return;
        }
        const { done, fail } = waiting.get(id);
        waiting.delete(id);
        this.tellBusy();
        if (trap) fail(new Error(trap));
        else done(answer);
    }

    ask(name, question) {
        const { worker, waiting } = this.lane(name);
        this.ids += 1;
        const id = this.ids;
        return new Promise((done, fail) => {
            waiting.set(id, { done, fail });
            this.tellBusy();
            worker.postMessage({ ...question, id, limit: this.limit() });
        });
    }

    // Performs commands over files.
    perform(lane, files, ...commands) {
        return this.ask(lane, { kind: "commands", files, commands });
    }

    tellBusy() {
        this.onBusy([...this.lanes].some(([name, { waiting }]) => !["lint", "ways"].includes(name) && waiting.size));
    }

    // Ends what is asked for: of one lane, or of all.
    stop(only) {
        for (const [name, { worker, waiting }] of [...this.lanes]) {
            if (!waiting.size || (only && name !== only)) continue;
            worker.terminate();
            this.lanes.delete(name);
            for (const { fail } of waiting.values()) fail(new Stopped("stopped"));
        }
        this.tellBusy();
    }
}
