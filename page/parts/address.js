// A text in an address: deflated, in the letters of base64url.

async function bytesThrough(bytes, stream) {
    return new Uint8Array(await new Response(new Blob([bytes]).stream().pipeThrough(stream)).arrayBuffer());
}
const bytesOf64 = (text) => Uint8Array.from(atob(text), (letter) => letter.charCodeAt(0));

async function packed(value) {
    const bytes = await bytesThrough(JSON.stringify(value), new CompressionStream("deflate-raw"));
    let text = "";
    for (const byte of bytes) text += String.fromCharCode(byte);
    return btoa(text).replaceAll("+", "-").replaceAll("/", "_").replace(/=+$/, "");
}

async function unpacked(text) {
    const bytes = bytesOf64(text.replaceAll("-", "+").replaceAll("_", "/"));
    return JSON.parse(new TextDecoder().decode(await bytesThrough(bytes, new DecompressionStream("deflate-raw"))));
}
