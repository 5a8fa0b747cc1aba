// A worker: performs commands, one after the other. A message names what is wanted, and its answer has the same id.
const decoder = new TextDecoder();
let compiled;

async function performed(words, files, limit, tell) {
    const began = performance.now();
    const made = await call(compiled, words, files, limit, tell);
    const [out, faults, recorded] = [made.out, made.faults, made.recorded].map((bytes) => decoder.decode(bytes));
    return { words, status: made.status, out, faults, recorded, took: performance.now() - began };
}

// Performs a command over a text and the steps of a trace.
const auditor = ({ text, limit }) => (words, list) => performed(words, { "m.l4": text, "m.trace": list.map((step) => `${step}\n`).join("") }, limit);

const WORK = {
    // Each of these commands over these files, in order.
    async commands({ id, commands, files, limit }) {
        const tell = (line) => postMessage({ id, told: line });
        const all = [];
        for (const words of commands) all.push(await performed(words, files, limit, tell));
        return all;
    },
    possible: (asked) => possibleOf({ ...asked, ask: auditor(asked) }),
};

onmessage = async ({ data }) => {
    if (data.module) {
        compiled = data.module;
        return;
    }
    const { id, kind } = data;
    try {
        postMessage({ id, answer: await WORK[kind](data) });
    } catch (trap) {
        postMessage({ id, trap: String(trap) });
    }
};
