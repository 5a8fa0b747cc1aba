// What a line of a machine text says, in words.

const WHOM = { any: "anybody", anylocal: "anybody of its space", last: "whom it heard from last" };
const whom = (id) => WHOM[id] ?? (/^mr\d+$/.test(id) ? `the thread whose id ${id.toUpperCase()} has` : id);

function limitText(time) {
    if (time === "never" || Number(time) === 0) return "";
    const period = periodOf(time);
    return period ? `, for ${counted(period, "microsecond")} at most` : ", only if that can be at once";
}

function tagText(word) {
    const tag = BigInt(word);
    const label = tag >> 16n;
    const named = tag & 4096n ? ", in the name that `vs` gave" : "";
    return `its messages have ${counted(Number(tag & 63n), "word")}${label ? ` and the label ${label}` : ""}${named}`;
}

function threadText([id, ...words]) {
    const [, last] = words[0] === "to" ? words.splice(0, 2) : [];
    const [, cpu, , space, , source] = words;
    const who = last ? `threads ${id} to ${last}` : `thread ${id}`;
    return `${who}, on processor ${cpu}, in address space ${space}${source ? `, with the script of ${source}` : ""}`;
}

const CANCELLED = { S: "the send", R: "the receive", SR: "the send and the receive" };
const MEANINGS = {
    l4: ([profile, bits, version]) => `profile ${profile}, words of ${bits} bits${version ? `, scripts of version ${version}` : ""}`,
    cpus: ([count]) => counted(count, "processor"),
    name: ([name, id]) => `${name} stands for ${id}`,
    thread: threadText,
    ipc: ([to, from, send, receive]) => {
        const phases = [to !== "nil" && `sends to ${whom(to)}${limitText(send)}`, from !== "nil" && `waits for a message from ${whom(from)}${limitText(receive)}`];
        return phases.filter(Boolean).join(", then ") || "does nothing";
    },
    set: ([to, word]) => `MR${to} becomes ${word}`,
    copy: ([to, from]) => `MR${to} becomes what MR${from} has`,
    add: ([to, word]) => `MR${to} becomes MR${to} + ${word}`,
    tag: ([word]) => tagText(word),
    from: ([to]) => `MR${to} becomes the id of whom it heard from last`,
    vs: ([id]) => `it may send in the name of ${whom(id)}`,
    exregs: ([id, phases]) => `cancels ${CANCELLED[phases]} of ${whom(id)}, where there is one`,
    delete: ([id]) => `deletes ${whom(id)}`,
    jump: ([to], placeOf) => `goes on at ${placeOf(to)}`,
    onerr: ([to], placeOf) => `goes on at ${placeOf(to)}, if the last call failed`,
    onlabel: ([label, to], placeOf) => `goes on at ${placeOf(to)}, if the label of MR0 is ${label}`,
    onword: ([of, word, to], placeOf) => `goes on at ${placeOf(to)}, if MR${of} is ${word}`,
    onfrom: ([id, to], placeOf) => `goes on at ${placeOf(to)}, if it heard from ${whom(id)} last`,
    end: () => "ends the thread",
};

// What a line without a fault says; of a comment, nothing. Instructions of a script are counted from 0, and behind the last one the thread ends.
function lineMeaning(text, number) {
    const { label, words: [key, ...words] } = saidOf(text.split("\n")[number - 1] ?? "");
    if (label && !key) return "names the instruction that follows";
    if (!Object.hasOwn(MEANINGS, key)) return "";
    const placeOf = (place) => {
        const { script } = machineOf(text).threads.findLast((thread) => thread.line < number);
        const to = script[script.labels.get(place) ?? place];
        return to ? `line ${to.line}` : "its end";
    };
    return MEANINGS[key](words, placeOf);
}
