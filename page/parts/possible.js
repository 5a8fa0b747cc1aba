// Which steps may follow a trace, whatever scheduler takes them. The program says so where it refuses a step: so it is asked for one that
// is never possible, of a thread that there is not. It names no ticks, as these are always possible: where the text has a time, the page
// offers one for each processor, that goes on behind every time that there is.

async function possibleOf({ text, list, ask }) {
    const machine = machineOf(text);
    const audit = ["audit", "m.l4", "m.trace"];
    const passed = await ask(audit, list);
    if (/ quiet\n$/.test(passed.out)) return [];
    const made = await ask([...audit, "--explain"], [...list, `wait ${strangerOf(machine)}.1`]);
    const steps = linesOf(made.out).filter((line) => line.startsWith("possible ")).map((line) => line.slice("possible ".length));
    const found = steps.map((step) => ({ cpu: cpuOf(machine, step), item: step, kind: step.split(" ")[0], steps: [step] }));
    return [...found, ...ticksBehind(machine, list)];
}

// The number of no thread.
function strangerOf({ threads }) {
    const numbers = new Set(threads.map(({ id }) => id.split(".")[0]));
    let number = 1;
    while (numbers.has(`${number}`)) number += 1;
    return number;
}

// For each processor a tick behind all times that can stand there now.
function ticksBehind({ cpus, threads }, list) {
    const times = threads.flatMap(({ script }) => script.filter(({ words }) => words[0] === "ipc").flatMap(({ words }) => words.slice(3, 5)));
    const longest = Math.max(0, ...times.map(periodOf));
    if (!longest) return [];
    const clocks = Array(cpus).fill(0);
    for (const step of list) {
        const [word, cpu, clock] = step.split(" ");
        if (word === "tick") clocks[cpu] = Number(clock);
    }
    return clocks.map((clock, cpu) => {
        const step = `tick ${cpu} ${clock + longest}`;
        return { cpu, item: step, kind: "tick", steps: [step] };
    });
}
