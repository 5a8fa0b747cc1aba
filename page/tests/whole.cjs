// node whole.cjs PAGE.html TOP: does the page hang together? Its scripts are scripts, what they name stands on it, and each example is a lesson
// whose commands find their files. It asks no program and no browser.
const fs = require("fs");
const path = require("path");
const vm = require("vm");

const [, , page, top] = process.argv;
let bad = 0;
function check(what, holds) {
    if (holds) return;
    bad += 1;
    console.log(`page: not so: ${what}`);
}

// What stands between the tags of each script, by its id; the last has none.
function scriptsOf(html) {
    const found = [...html.matchAll(/<script([^>]*)>([\s\S]*?)<\/script>/g)];
    return Object.fromEntries(found.map(([, words, text]) => [words.match(/id="(\w+)"/)?.[1] ?? "main", text]));
}

function parses(text, name) {
    try {
        new vm.Script(text, { filename: name });
    } catch (fault) {
        check(`${name} is a script: ${fault.message}`, false);
    }
}

// What the scripts ask for by its name stands on the page, once.
function namesAreThere(html, script) {
    const ids = [...html.matchAll(/\bid="([^"]+)"/g)].map(([, id]) => id);
    check(`no two parts have one name: ${ids.filter((id, place) => ids.indexOf(id) < place)}`, new Set(ids).size === ids.length);
    const asked = [...script.matchAll(/(?:\$|\bon|\bonSubmit|\bsayIn)\("([^"]+)"/g)].map(([, id]) => id);
    for (const id of new Set(asked)) check(`there is ${id}`, ids.includes(id));
}

function lessonsAreWhole({ lessons, files }) {
    const texts = fs.readdirSync(path.join(top, "examples")).filter((name) => name.endsWith(".l4")).sort();
    check("each example is a lesson", JSON.stringify(lessons.map(({ name }) => name).sort()) === JSON.stringify(texts));
    for (const { name, about, tries } of lessons) {
        check(`examples/README.md says what ${name} shows`, about !== name);
        const named = tries.flatMap((line) => line.match(/examples\/[\w.-]+/g) ?? []);
        for (const file of named) check(`${name}: ${file} is in the page`, files[file.replace("examples/", "")] !== undefined);
    }
}

const html = fs.readFileSync(page, "utf8");
const { main, worker, lessons } = scriptsOf(html);
parses(main, "what the page does");
parses(worker, "what its workers do");
namesAreThere(html.replace(main, "").replace(lessons, ""), main);
lessonsAreWhole(JSON.parse(lessons));
check("each part is put in", !/@[A-Z]+@/.test(html.replace(lessons, "")));
process.exitCode = bad ? 1 : 0;
