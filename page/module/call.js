// One call of the program. Each has an instance of the module of its own, so nothing is kept between two of them.
//
// `words` are those of the command line behind the program's name, `files` what the names in them stand for, as texts or bytes. Names with
// the very same bytes are of one file. `/dev/stdin` is the standard input. With `limit` no more memory than so many bytes is taken. With `tell` the
// standard error is a terminal: faults are explained there, and `tell` hears once a second how far a search has come.
async function call(compiled, words, files, limit, tell) {
    const told = (at, length) => tell(new TextDecoder().decode(new Uint8Array(memory.buffer, Number(at), Number(length))));
    const instance = await WebAssembly.instantiate(compiled, { host: { now: () => BigInt(Date.now()), tell: told } });
    const { memory, l4_room, l4_call, l4_at, l4_length, l4_limit, l4_tell, l4_is_over, l4_status } = instance.exports;
    const encoder = new TextEncoder();
    const bytesOf = (text) => (typeof text === "string" ? encoder.encode(text) : text);
    const joined = (parts) => {
        const all = new Uint8Array(parts.reduce((sum, part) => sum + part.length, 0));
        let at = 0;
        for (const part of parts) {
            all.set(part, at);
            at += part.length;
        }
        return all;
    };
    const inEight = (number) => {
        const eight = new Uint8Array(8);
        new DataView(eight.buffer).setBigUint64(0, BigInt(number), true);
        return eight;
    };
    const put = (bytes) => {
        const at = l4_room(BigInt(bytes.length + 16));
        if (!at) throw new Error("no room for the words and files");
        new Uint8Array(memory.buffer, Number(at), bytes.length).set(bytes);
        return at;
    };
    const zero = new Uint8Array(1);
    const line = joined(["l4run", ...words].flatMap((word) => [bytesOf(word), zero]));
    const handed = Object.entries(files).map(([name, text]) => [name, bytesOf(text)]);
    const numberOf = (bytes) => 1 + handed.findIndex(([, one]) => one === bytes);
    const given = joined(handed.flatMap(([name, bytes]) => [bytesOf(name), zero, inEight(numberOf(bytes)), inEight(bytes.length), bytes]));
    const lineAt = put(line);
    const givenAt = put(given);
    if (limit) l4_limit(BigInt(limit));
    if (tell) l4_tell();
    let status;
    try {
        status = l4_call(lineAt, BigInt(line.length), givenAt, BigInt(given.length));
    } catch (trap) {
        if (!l4_is_over()) throw trap;
        status = l4_status();
    }
    const written = (which) => new Uint8Array(memory.buffer, Number(l4_at(which)), Number(l4_length(which))).slice();
    return { status, out: written(0), faults: written(1), recorded: written(2), memory: memory.buffer.byteLength };
}
if (typeof module !== "undefined") module.exports = { call };
