// Machine texts that no example has: many threads, many steps, a long search.

// A word goes round 64 threads on four processors, each of which adds one to it.
function ring(count = 64, cpus = 4) {
    const lines = ["l4 1 64", `cpus ${cpus}`];
    for (let id = 1; id <= count; id += 1) {
        const before = id === 1 ? count : id - 1;
        const after = id === count ? 1 : id + 1;
        lines.push(`thread ${id}.1 cpu ${(id - 1) % cpus} space ${id}`);
        if (id === 1) lines.push("tag 0x10001", "set 1 1", `ipc ${after}.1 nil never never`, `ipc nil ${before}.1 never never`);
        else lines.push(`ipc nil ${before}.1 never never`, "add 1 1", "tag 0x10001", `ipc ${after}.1 nil never never`);
    }
    return `${lines.join("\n")}\n`;
}

// A client and a server that call and answer for ever.
const loop = `l4 1 64
cpus 1
thread 1.1 cpu 0 space 1
ipc 2.1 2.1 never never
jump 0
thread 2.1 cpu 0 space 2
ipc nil any never never
ipc last any never never
jump 1
`;

// Some who each take two locks in a ring, each with a processor: its search takes long.
function locksInRing(count = 4) {
    const lines = ["l4 1 64", `cpus ${count}`];
    for (let place = 0; place < count; place += 1) {
        const first = 10 * (place + 1);
        const second = 10 * (((place + 1) % count) + 1);
        lines.push(`thread ${place + 1}.1 cpu ${place} space ${place + 1}`);
        for (const to of [first + 1, second + 1, second + 2, first + 2]) lines.push(`ipc ${to}.1 nil never never`);
        lines.push(`thread ${first + 1}.1 cpu ${place} space 9`, "ipc nil any never never", `ipc nil ${first + 2}.1 never never`, "jump 0");
        lines.push(`thread ${first + 2}.1 cpu ${place} space 9`, "ipc nil any never never", `ipc ${first + 1}.1 nil never never`, "jump 0");
    }
    return `${lines.join("\n")}\n`;
}

// A client that sends and receives in two calls, and a server that answers with time zero: the answer may be lost.
const lostReply = `l4 1 64
cpus 1
thread 1.1 cpu 0 space 1
set 1 5
tag 0x10001
ipc 9.1 nil never never
ipc nil 9.1 never never
thread 9.1 cpu 0 space 3
ipc nil any never never
add 1 100
ipc last any zero never
jump 1
`;
const asked = ["local 1.1", "local 1.1", "wait 9.1", "begin 1.1#1", "queue 1.1#1", "deliver 1.1#1 9.1 1.1 1.1 10001 5", "local 9.1"];
const lost = [...asked, "begin 9.1#1", "stimeout 9.1#1", "wait 1.1", "local 9.1", "local 9.1", "wait 9.1"];

// The same beside a thread that sleeps again and again: there is no ending, and who lost its answer can never go on.
const beside = `${lostReply}thread 18.1 cpu 0 space 1
ipc nil 18.1 never 5
jump 0
`;

// Two locks of one script that two take in opposite order, by names. A lock that is taken waits for whoever has it.
const namedLocks = `l4 1 64 2
cpus 1
name ann 1.1
name bartholomew 2.1
name left 11.1
name right 21.1

thread ann cpu 0 space 1
ipc left nil never never
ipc right nil never never
ipc right nil never never
ipc left nil never never

thread bartholomew cpu 0 space 2
ipc right nil never never
ipc left nil never never
ipc left nil never never
ipc right nil never never

thread left cpu 0 space 3
free: ipc nil any never never
from 32
ipc nil mr32 never never
jump free

thread right cpu 0 space 3 as left
`;

// A server asks another one while a client waits for it, whose answer is lost: it waits for that one, which it does not have as a lock.
const lostInside = `l4 1 64
cpus 1
thread 1.1 cpu 0 space 1
ipc 9.1 nil never never
ipc 8.1 nil never never
thread 2.1 cpu 0 space 1
ipc 9.1 9.1 never never
thread 9.1 cpu 0 space 2
ipc nil any never never
ipc nil 8.1 never never
thread 8.1 cpu 0 space 2
ipc nil 7.1 never never
thread 7.1 cpu 0 space 2
ipc nil any never never
`;

module.exports = { ring, loop, locksInRing, lostReply, lost, beside, namedLocks, lostInside };
