// node page.cjs chromium|firefox PAGE.html PROGRAM TOP PICTURES: opens the page in a browser, compares each command of all cases with the
// program's bytes, presses what there is to press, and takes pictures. PARTS names some of its parts, joined by commas.
const fs = require("fs");
const os = require("os");
const path = require("path");
const zlib = require("zlib");
const { Chromium, Firefox, sleep } = require("./browsers.cjs");
const { allCommands } = require("./cases.cjs");
const { printedBy, printedOnTerminal, isSame } = require("./native.cjs");
const { ring, loop, locksInRing, lostReply, lost, beside, namedLocks, lostInside } = require("./texts.cjs");

const [, , name, page, program, top, pictures] = process.argv;
let good = 0;
let bad = 0;
function check(what, holds, found) {
    if (holds) {
        good += 1;
        return;
    }
    bad += 1;
    console.log(`${name}: not so: ${what}${found === undefined ? "" : `; found ${JSON.stringify(found)}`}`);
}

const IDLE = "!document.body.hasAttribute('data-busy') && !document.getElementById('next').hasAttribute('aria-busy')";
const quoted = JSON.stringify;
const linkOf = (way) => `#z=${zlib.deflateRawSync(JSON.stringify(way)).toString("base64url")}`;

// What a person does at the page.
function hands(browser) {
    const run = (body) => browser.run(body);
    const it = {
        run,
        idle: async () => {
            await sleep(100);
            await browser.until(IDLE);
            await sleep(60);
        },
        text: (id) => run(`return document.getElementById(${quoted(id)}).innerText`),
        count: (selector) => run(`return document.querySelectorAll(${quoted(selector)}).length`),
        focused: () => run("return document.activeElement.id"),
        click: async (selector) => {
            await run(`document.querySelector(${quoted(selector)}).click();`);
            await it.idle();
        },
        fill: (id, value, event = "input") =>
            run(`
                const at = document.getElementById(${quoted(id)});
                at.focus();
                at.value = ${quoted(value)};
                at.dispatchEvent(new Event(${quoted(event)}, { bubbles: true }));`),
        type: async (value) => {
            const before = await run("return document.body.dataset.linted");
            await it.fill("text", value);
            await browser.until(`document.body.dataset.linted !== ${quoted(before)}`);
            await it.idle();
        },
        verb: async (verb) => {
            await run("delete document.body.dataset.did;");
            await run(`document.querySelector("[data-verb=${verb}]").click();`);
            await browser.until(`document.body.dataset.did === "${verb}"`);
            await it.idle();
        },
        go: async (hash) => {
            await browser.go(hash);
            await it.idle();
        },
        // Until it is known of all rows in sight what else was possible; on a busy machine a look may end before.
        looked: async () => {
            for (let tries = 0; tries < 20; tries += 1) {
                await it.idle();
                await browser.until("!document.body.hasAttribute('data-looking')");
                const isKnown = "const [from, to] = chart.inSight(); return [...chart.steps].every(([step, line]) => step < from || step > to || line.querySelector('.told'))";
                if (await run(isKnown)) return;
                await run("session.nextTook = 0; waysSoon();");
            }
        },
        slide: async (place) => {
            await it.fill("slider", `${place}`);
            await browser.until(`document.getElementById("where").textContent.startsWith("item ${place} of")`);
            await it.idle();
        },
        picture: (file) => browser.shot(path.join(pictures, `${name}-${file}.png`)),
    };
    return it;
}

// Every command of all cases, in the page's own worker. The page is a terminal to the program: so it is for the program that is compared.
async function comparesCases(browser, { run, go }) {
    await go("#example=first.l4");
    const { commands, left } = allCommands(top);
    let others = 0;
    let inPage = 0;
    for (let at = 0; at < commands.length; at += 20) {
        const part = commands.slice(at, at + 20);
        const inLetters = (files) => Object.fromEntries(Object.entries(files).map(([file, text]) => [file, text.toString("latin1")]));
        const sent = part.map(({ words, files }) => [words, inLetters(files)]);
        const began = Date.now();
        const made = await run(`
            const bytes = (text) => Uint8Array.from(text, (letter) => letter.charCodeAt(0));
            const all = [];
            for (const [words, files] of ${JSON.stringify(sent).replaceAll("</", "<\\/")}) {
                for (const name in files) files[name] = bytes(files[name]);
                const [it] = await program.perform("long", files, words);
                all.push([it.status, it.out, it.faults]);
            }
            return all;`);
        inPage += Date.now() - began;
        const wanted = printedOnTerminal(program, part);
        made.forEach(([status, out, faults], place) => {
            if (isSame({ status, out, faults }, wanted[place])) return;
            others += 1;
            console.log(`${name}: other: ${part[place].name}: ${part[place].words.join(" ").slice(0, 200)}: status ${status}`);
        });
    }
    check("each command of the cases prints the program's bytes", others === 0 && commands.length > 800, others);
    console.log(`${name}: ${commands.length} commands of the cases, ${others} differ, ${left} left out, ${(inPage / 1000).toFixed(1)} s in the page`);
}

// The picture of a text lies under the text: as high, so each line is broken at the same words.
async function liesUnderItsText(hand, what) {
    const [area, paint] = await hand.run(`
        const { area, paint } = editor;
        return [Math.max(area.scrollHeight, area.clientHeight), Math.max(paint.offsetHeight + 16, area.clientHeight)];`);
    check(`${what}: the colours lie under the words`, Math.abs(area - paint) <= 1, [area, paint]);
}

// Each example is run, drawn and searched without a fault.
async function runsExamples(browser, hand) {
    await hand.go("#example=first.l4");
    check("it begins with the lesson", (await hand.text("about")).startsWith("One message"));
    check("it offers a turn", (await hand.text("next")).includes("local 1.1"));
    const names = await hand.run("return [...document.getElementById('examples').options].map((it) => it.value).filter(Boolean)");
    const texts = fs.readdirSync(path.join(top, "examples")).filter((it) => it.endsWith(".l4"));
    check("all examples are in the menu", names.length === texts.length, names.length);
    for (const example of names) {
        await hand.fill("examples", example, "change");
        await hand.idle();
        check(`${example} has no fault`, (await hand.count("#lint .fault")) === 0);
        await liesUnderItsText(hand, example);
        await hand.verb("run");
        const rows = await hand.count("#chart .lines [data-step]");
        const [all, last] = await hand.run("return [session.whole.length, chart.numbers.at(-1)]");
        check(`${example}: its chart has its steps`, rows > 0 && last === all && (rows === all || all > 250), [rows, last, all]);
        await hand.verb("stuck");
        const found = await hand.run("return document.getElementById('found').textContent");
        const words = ["endings", "m.l4", "--depth", "1000", "--states", "100000", "--memory", "2048", "--stuck"];
        const said = printedBy(program, { words, files: { "m.l4": await hand.run("return editor.text") } }).out.toString();
        const wanted = / whole(,|$)/m.test(said) ? /All orders .* were searched/ : /Cut off: /;
        check(`${example}: whether its search was whole`, wanted.test(found), found);
    }
}

// The deadlock of callback.l4, as somebody finds it who was never here: by what the empty chart offers, and Run.
async function findsDeadlock(browser, hand) {
    await hand.go("#example=first.l4");
    check("what one may do first is told", /Nothing has happened yet.*Who gets stuck\?/s.test(await hand.text("chart")), await hand.text("chart"));
    await hand.picture("begin-1200");
    await hand.run("[...document.querySelectorAll('#chart button')].find((it) => /deadlock/.test(it.textContent)).click();");
    await browser.until("doc.name === 'callback.l4'");
    await hand.idle();
    await hand.verb("run");
    const verdict = await hand.text("verdict");
    const waits = ["1.1 waits for a message from 9.1", "9.1 waits for a message from 8.1", "8.1 waits for 1.1 to take its message"];
    check("a deadlock is told", /Deadlock/.test(verdict) && waits.every((it) => verdict.includes(it)), verdict);
    check("and at which lines", /line 8\b.*line 14\b.*line 22\b/s.test(verdict), verdict);
    check("a picture shows the circle", (await hand.count("#verdict .circle rect")) === 3 && (await hand.count("#verdict .circle .point")) === 3);
    await hand.click("#verdict li:nth-of-type(3) button");
    check("a line is gone to", (await hand.run("return editor.line()")) === 22, await hand.run("return editor.line()"));
    check("and what it says is told", (await hand.text("atline")) === "line 22: sends to 1.1, then waits for a message from 1.1", await hand.text("atline"));
    await hand.run("document.activeElement.blur();");
    check("the text shows who waits where", (await hand.count(".paint b.stuck")) === 3);
    check("three threads are stuck", (await hand.count(".card.stuck")) === 3);
    const below = await hand.run("return [...document.querySelectorAll('#chart .lines .state')].map((it) => it.textContent).join('; ')");
    check("so says the chart below its steps", below === "1.1 receiving from 9.1; 9.1 receiving from 8.1; 8.1 sending to 1.1; deadlock 1.1 9.1 8.1", below);
    await hand.picture("callback-1200");
}

// A line with a fault is marked as one types, and told on hover.
async function marksFaults(browser, hand) {
    await hand.go("#example=first.l4");
    await hand.type("l4 1 64\ncpus 1\nthread 1.1 cpu 0 space 1\nset 64 10\nipx 2.1\nipc 9.1 nil never never\n");
    check("two lines are marked", (await hand.count(".paint .line.fault")) === 2);
    check("the list tells the hint", /a register, 1 to 63/.test(await hand.text("lint")), await hand.text("lint"));
    check("the fault stands above", /Line 4: 64: .*1 to 63/.test(await hand.text("verdict")), await hand.text("verdict"));
    const [left, top_] = await hand.run("const box = document.querySelector('.paint .under').getBoundingClientRect(); return [box.left + 4, box.top + 6]");
    await browser.move(left, top_);
    await sleep(150);
    check("the hint is told on hover", /1 to 63/.test(await hand.run("return document.querySelector('.tip').hidden ? '' : document.querySelector('.tip').textContent")));
    await hand.picture("fault-1200");
    await hand.verb("stuck");
    check("a search says the same", /Line 4: 64: .*1 to 63/.test(await hand.text("found")), await hand.text("found"));
    const explained = "l4run: line 4: BadNumber\nfirst.l4:4:5: BadNumber: `64`: wanted: a register, 1 to 63\n    set 64 10\n        ^^\n";
    check("the output explains it as on a terminal", (await hand.run("return printed")) === explained, await hand.run("return printed"));
    await hand.click("#tab-output");
    await hand.picture("explained-1200");
    await hand.click("#tab-steps");
    await hand.click("#lint button");
    check("a mark leads to its word", (await hand.run("const at = document.getElementById('text'); return at.value.slice(at.selectionStart, at.selectionEnd)")) === "64");
    check("the line of the caret is told", /line 4: .*1 to 63/.test(await hand.text("atline")), await hand.text("atline"));
    await hand.type("l4 1 64\ncpus 1\nthread 1.1 cpu 0 space 1\nipc 9.1 nil never never\n");
    check("a doubt is marked", (await hand.count(".paint .line.doubt")) === 1 && (await hand.count(".paint .line.fault")) === 0);
}

// The stuck ending of locks.l4, found by the search of turns and again by hand.
async function findsStuckEnding(browser, hand) {
    await hand.go("#example=locks.l4");
    await hand.run("document.getElementById('placed').checked = true;");
    await hand.verb("endings");
    check("three endings", (await hand.count(".ending")) === 3);
    check("one is stuck", (await hand.count(".ending.bad")) === 1);
    await hand.picture("endings-1200");
    await hand.click(".ending.bad");
    check("an ending opens step by step", /item 14 of 14/.test(await hand.text("where")), await hand.text("where"));
    check("who is stuck is told", /4 threads wait for ever/.test(await hand.text("verdict")), await hand.text("verdict"));
    check("and who has the lock", /11\.1 waits for a message from 12\.1; it heard from 1\.1 last/.test(await hand.text("verdict")), await hand.text("verdict"));
    await hand.picture("locks-1200");
    const list = await hand.run("return session.list");

    await hand.go("#example=locks.l4");
    for (const [place, item] of list.entries()) {
        const pressed = await hand.run(`
            const all = [...document.querySelectorAll("#next [data-item]")];
            const it = all.find((one) => one.dataset.item === "${item}") ?? all.find((one) => one.dataset.item === "${item.replace("c", "")}");
            it?.click();
            return it?.dataset.item ?? null;`);
        check(`item ${place + 1} of the ending, ${item}, is offered`, pressed !== null);
        if (pressed === null) break;
        await browser.until(`document.body.dataset.next === "${place + 1}"`);
        await hand.idle();
    }
    check("the same ending by hand", /4 threads wait for ever/.test(await hand.text("verdict")), await hand.text("verdict"));
    check("nothing is next", /Nothing/.test(await hand.text("next")));
    await hand.click("#tab-endings");
    await hand.run("document.getElementById('placed').checked = true;");
    await hand.fill("with", "thread 1.1 ended ..");
    await hand.run("document.getElementById('only').requestSubmit();");
    await browser.until("document.querySelectorAll('.ending').length === 2");
    check("endings with a line", true);
    await hand.type(`${await hand.run("return editor.text")}; changed\n`);
    const isOld = await hand.run("return !document.getElementById('oldsearch').hidden");
    check("that what was found is of another text is told", isOld && (await hand.count("#endinglist.old")) === 1);
    await hand.picture("old-endings-1200");
    await hand.click("#searchagain");
    check("searched again", (await hand.count("#endinglist.old")) === 0 && (await hand.count(".ending")) === 2, await hand.count(".ending"));
}

// The reply that is lost, found whatever the scheduler does, stepped through and drawn.
async function findsLostReply(browser, hand) {
    await hand.go(linkOf({ n: "lost.l4", t: lostReply }));
    await hand.verb("endings");
    check("two endings of the lost reply", (await hand.count(".ending")) === 2, await hand.count(".ending"));
    check("of any scheduler", /any scheduler/.test(await hand.text("found")), await hand.text("found"));
    check("its steps are told", /13 steps/.test(await hand.run("return document.querySelector('.ending.bad').innerText")));
    await hand.picture("any-endings-1200");
    await hand.click(".ending.bad");
    check("its trace opens", (await hand.text("where")).startsWith("step 13 of 13"), await hand.text("where"));
    check("who is stuck", /1.1 waits for a message from 9.1/.test(await hand.text("verdict")), await hand.text("verdict"));
    check("its chart has its steps", (await hand.count("#chart .lines [data-step]")) === 13);
    await hand.picture("any-trace-1200");
    await browser.size(400, 860, true);
    await hand.picture("any-trace-400");
    await browser.size(1200, 800);
}

// A thread that can never go on though others do.
async function findsStuckForEver(browser, hand) {
    await hand.go(linkOf({ n: "beside.l4", t: beside }));
    await hand.verb("stuck");
    const found = await hand.text("found");
    check("what a search found is of the text", await hand.run("return document.getElementById('oldsearch').hidden"));
    check("who can get stuck for ever is told", /No ending: it goes on for ever, and 1.1 can get stuck for ever/.test(found), found);
    check("there is a card for it", (await hand.count(".ending")) === 1 && /can never go on/.test(await hand.text("endinglist")), await hand.text("endinglist"));
    await hand.picture("forever-1200");
    await hand.click(".ending.bad");
    check("it opens where that happens", (await hand.text("where")).startsWith("step 13 of 13"), await hand.text("where"));
    const verdict = await hand.text("verdict");
    check("it says so there", /1.1 can never go on from here.*1.1 waits for a message from 9.1/s.test(verdict), verdict);
    check("the others are not stuck", (await hand.count(".card.stuck")) === 1);
    await hand.picture("forever-trace-1200");
    await hand.click("#next [data-item]");
    check("nor can it behind that", /1.1 can never go on/.test(await hand.text("verdict")), await hand.text("verdict"));
    await hand.click("#first");
    check("and at the beginning it could", !/can never go on/.test(await hand.text("verdict")), await hand.text("verdict"));
}

// Who may rest where it is does not count as stuck.
async function letsOneRest(browser, hand) {
    await hand.go(linkOf({ n: "lost.l4", t: lostReply }));
    await hand.verb("stuck");
    check("1.1 is stuck in one ending, and tells it twice", (await hand.count(".ending")) === 2, await hand.count(".ending"));
    await hand.fill("rests", "1.1");
    await hand.verb("stuck");
    check("where it may rest nobody is", (await hand.count(".ending")) === 0, await hand.text("endinglist"));
    check("and that it is not counted is told", /Not counted as stuck: 1\.1/.test(await hand.text("found")), await hand.text("found"));
    await hand.verb("endings");
    check("nor is it marked among all endings", (await hand.count(".ending")) === 2 && (await hand.count(".ending.bad")) === 0);
    check("that it may rest is told there", /1\.1\s+receiving\s+waits for 9\.1\s+may rest/.test(await hand.text("endinglist")), await hand.text("endinglist"));
    await hand.picture("rests-1200");
    await hand.click(".ending:nth-of-type(2)");
    const verdict = await hand.text("verdict");
    check("and where it is opened", /nobody is stuck.*1\.1 waits for a message from 9\.1, and may rest there/s.test(verdict) && (await hand.count(".card.stuck")) === 0, verdict);
    await goesByItsLink(browser, hand);
    check("a link has who may rest", /1\.1 waits .* and may rest there/.test(await hand.text("verdict")), await hand.text("verdict"));
    await hand.fill("rests", "", "change");
    await hand.idle();
    check("who may not rest is stuck", /1 thread waits for ever/.test(await hand.text("verdict")) && (await hand.count(".card.stuck")) === 1, await hand.text("verdict"));
    await hand.fill("rests", "1.1,7.1");
    await hand.verb("stuck");
    check("who rests has to be a thread of the text", /threads item 2/.test(await hand.text("found")), await hand.text("found"));
    await hand.fill("examples", "first.l4", "change");
    await hand.idle();
    check("another text has other threads", (await hand.run("return document.getElementById('rests').value")) === "");
}

// An answer of time zero that is held across processors, as its receiver is in a call: in sentences, on cards, in the picture, and in the chart.
async function tellsWhatIsHeld(browser, hand) {
    const isHeld = /9\.1#1 is held: a send of time zero that is not refused yet\. 1\.1 is in a call to another processor/;
    await hand.go("#example=hostage.l4&schedule=1,1,0,0,1,0,0,0,0,1,1,1,1,0");
    check("a send that is held is told", isHeld.test(await hand.text("verdict")), await hand.text("verdict"));
    check("beside the deadlock that it is in", /Deadlock.*9\.1 waits for 1\.1 to take its message/s.test(await hand.text("verdict")), await hand.text("verdict"));
    const arrows = await hand.run("return [...document.querySelectorAll('#verdict .circle .line')].map((it) => it.classList.contains('held'))");
    check("its arrow is dashed, that of a send without limit is not", quoted(arrows) === "[false,true]", arrows);
    const cards = await hand.run("return [...document.querySelectorAll('.card .held')].map((it) => it.closest('.card').querySelector('b').innerText + ': ' + it.innerText)");
    check("its thread says so", quoted(cards) === quoted(["9.1: 9.1#1 is held"]), cards);
    const below = await hand.run("return [...document.querySelectorAll('#chart .lines .state')].map((it) => it.textContent)");
    check("and so does the chart, behind the deadlock", below.slice(-2).join("; ") === "deadlock 1.1 9.1; held 9.1#1", below);
    await hand.picture("held-1200");
    await eachWordStandsOut(browser, hand);
    await hand.slide(13);
    check("it is told too where it may still be decided", isHeld.test(await hand.text("verdict")) && !/Deadlock/.test(await hand.text("verdict")), await hand.text("verdict"));
    await hand.click("#first");
    check("nothing is held at the beginning", !/is held/.test(await hand.text("verdict")) && (await hand.count(".card .held")) === 0);
    await hand.verb("stuck");
    const notes = await hand.run("return [...document.querySelectorAll('.ending .held')].map((it) => it.innerText)");
    const wanted = /^9\.1#[12] is held: 1\.1 is in a call to another processor, and would accept it once that call is decided$/;
    check("the card of an ending tells it", notes.length === 3 && notes.every((it) => wanted.test(it)), notes);
    await hand.picture("held-endings-1200");
    await hand.click(".ending.bad");
    check("and so does its trace", isHeld.test(await hand.text("verdict")), await hand.text("verdict"));
}

// A text of version 2: what its lines say, the names of its threads, and ids in registers.
async function readsVersionTwo(browser, hand) {
    await hand.go("#example=lock-server.l4");
    const lines = {
        4: "lock stands for 9.1",
        8: "waits for a message from anybody",
        9: "goes on at line 11, if the label of MR0 is 1",
        13: "MR32 becomes the id of whom it heard from last",
        15: "sends to the thread whose id MR32 has, only if that can be at once, then waits for a message from anybody",
        16: "goes on at line 12",
        25: "thread 2.1, on processor 0, in address space 1, with the script of ann",
    };
    for (const [line, said] of Object.entries(lines)) {
        await hand.run(`editor.goTo(${line});`);
        check(`what line ${line} says`, (await hand.text("atline")) === `line ${line}: ${said}`, await hand.text("atline"));
    }
    await hand.verb("run");
    const [small, registers] = await hand.run("const at = document.querySelector('.card'); return [at.querySelector('small').innerText, at.querySelector('.registers').innerText]");
    check("a thread has its name", small === "lock, cpu 0, space 3", small);
    check("a register that has an id says whose", /MR32 200000001 = 2\.1/.test(registers), registers);
}

// One ending is enough: where a search of a large text finds nothing, a walk at random comes to a deadlock at once.
async function findsOneByWalk(browser, hand) {
    await hand.go(linkOf({ n: "five.l4", t: locksInRing(5) }));
    await hand.fill("states", "20000");
    await hand.verb("stuck");
    check("a search that was cut says so", /was found.*Cut off: 20,000 worlds/s.test(await hand.text("found")), await hand.text("found"));
    check("and finds none", (await hand.count(".ending")) === 0, await hand.count(".ending"));
    await hand.picture("cut-1200");
    await hand.click("#found button");
    const found = await hand.text("found");
    check("a walk finds one", /1 ending in which somebody waits for ever.*Found by a walk at random/s.test(found), found);
    check("one is enough then", await hand.run("return document.getElementById('oneisenough').checked"));
    await hand.picture("walk-1200");
    await hand.click(".ending.bad");
    check("it opens step by step", /^step \d+ of \d+/.test(await hand.text("where")) && /threads wait for ever/.test(await hand.text("verdict")), await hand.text("verdict"));
}

// What must never be at one moment: lines are written by a choice, and asked for.
async function asksForMoments(browser, hand) {
    await hand.go("#example=locks.l4");
    await hand.click("#tab-endings");
    await hand.run("document.getElementById('bylines').open = true;");
    await hand.idle();
    const writes = async (id, says) => {
        await hand.run(`document.getElementById("lineof").value = "${id}"; document.getElementById("linesays").value = "${says}";`);
        await hand.click("[data-line=together]");
    };
    const asks = async () => {
        await hand.run("delete document.body.dataset.searched; document.querySelector('#moments button').click();");
        await browser.until("document.body.dataset.searched !== undefined");
        await hand.idle();
    };
    await writes("1.1", "has a send under way");
    await writes("2.1", "has a send under way");
    check("lines are written", (await hand.run("return document.getElementById('together').value")) === "waiting 1.1#* * & waiting 2.1#* *");
    await asks();
    check("such a moment is told", /hold at one moment, after 2 steps/.test(await hand.text("found")), await hand.text("found"));
    check("as a card", (await hand.count(".ending.bad")) === 1 && /1\.1\s+sending\s+sends to 11\.1/.test(await hand.text("endinglist")), await hand.text("endinglist"));
    await hand.picture("moment-1200");
    await eachWordStandsOut(browser, hand);
    await hand.click(".ending.bad");
    check("which opens there", (await hand.text("where")).startsWith("step 2 of 2"), await hand.text("where"));
    check("and says what holds", /all of these hold: waiting 1\.1#\* \* & waiting 2\.1#\* \*/.test(await hand.text("verdict")), await hand.text("verdict"));
    await hand.picture("moment-trace-1200");
    await hand.click("#back");
    check("but not before", !/all of these hold/.test(await hand.text("verdict")));
    await hand.fill("together", "waiting 1.1#* 21.1 & waiting 2.1#* 12.1");
    await asks();
    check("what never is", /Never: there is no moment/.test(await hand.text("found")) && (await hand.count(".ending")) === 0, await hand.text("found"));
    await hand.type(`${await hand.run("return editor.text")}; changed\n`);
    await hand.click("#searchagain");
    await hand.idle();
    check("asked again of another text", /Never: there is no moment/.test(await hand.text("found")) && (await hand.count("#found.old")) === 0, await hand.text("found"));
    await hand.fill("together", "ending quiet");
    await asks();
    check("what can't be asked for is a fault", /condition line 1: BadWord.*no line that may be asked for/s.test(await hand.text("found")), await hand.text("found"));
    await hand.fill("with", "thread 1.1 reciving ..");
    await hand.run("delete document.body.dataset.searched; document.getElementById('only').requestSubmit();");
    await browser.until("document.body.dataset.searched !== undefined");
    await hand.idle();
    check("so is a line of an ending", /condition line 1: BadWord.*no line that may be asked for/s.test(await hand.text("found")), await hand.text("found"));
    await hand.fill("with", "");
}

// Any step that may happen, whatever scheduler takes it: the reply is lost by hand. A link has the trace, and a file has one.
async function stepsByAny(browser, hand) {
    await hand.go(linkOf({ n: "lost.l4", t: lostReply }));
    await hand.fill("way", "steps", "change");
    await hand.idle();
    for (const [place, step] of lost.entries()) {
        const pressed = await hand.run(`
            const it = [...document.querySelectorAll("#next [data-item]")].find((one) => one.dataset.item === ${quoted(step)});
            it?.click();
            return Boolean(it);`);
        check(`step ${place + 1}, ${step}, is offered`, pressed);
        if (!pressed) break;
        await browser.until(`document.body.dataset.next === "${place + 1}"`);
        await hand.idle();
    }
    check("the reply is lost by hand", /1 thread waits for ever/.test(await hand.text("verdict")), await hand.text("verdict"));
    check("nothing is next there", /Nothing/.test(await hand.text("next")), await hand.text("next"));
    await hand.click("#back");
    await goesByItsLink(browser, hand);
    check("a link has the trace and the place", (await hand.text("where")).startsWith("step 12 of 13: local 9.1"), await hand.text("where"));
    await hand.run("document.querySelector('.others').open = true; document.querySelector('.others input').value = 'local 1.1'; document.querySelector('.others form').requestSubmit();");
    await hand.idle();
    check("why a step is refused", /because/.test(await hand.text("verdict")), await hand.text("verdict"));
    await hand.click("#back");
    await hand.fill("way", "items", "change");
    await hand.idle();
    check("turns begin anew, and a button leads back", /^item 0 of 0 back to the trace of 13 steps$/.test(await hand.text("where")), await hand.text("where"));

    await hand.go("#example=timeout.l4");
    await hand.fill("way", "steps", "change");
    await hand.idle();
    check("a tick is offered where there are times", /tick 0 \d+/.test(await hand.text("next")), await hand.text("next"));

    await hand.go("#example=callback.l4");
    await hand.run("document.getElementById('tries').open = true;");
    await hand.click("#trieslist button:nth-of-type(2)");
    await hand.run("tab('steps');");
    check("an audit of the lesson is stepped through", /step 11 of 11/.test(await hand.text("where")), await hand.text("where"));
    const file = path.join(fs.mkdtempSync(path.join(os.tmpdir(), "page-file-")), "callback.trace");
    fs.writeFileSync(file, fs.readFileSync(path.join(top, "examples", "callback.trace"), "utf8").split("\n").slice(0, 6).join("\n"));
    await browser.choose("#file", file);
    await browser.until("session.list.length === 6");
    await hand.idle();
    check("a trace is opened", (await hand.text("where")).startsWith("step 6 of 6"), await hand.text("where"));
    fs.rmSync(path.dirname(file), { recursive: true });
}

// Back, forward, to a row, and on to rest.
async function steps(browser, hand) {
    await hand.go("#example=locks.l4&schedule=c0,c0,c0,c0,c0,c0,c1,1:0,c1,c1,c1,c1,c1,0:1");
    const at = async (what, place) => check(what, (await hand.text("where")).startsWith(`item ${place} of 14`), await hand.text("where"));
    await at("a schedule in the address", 14);
    await hand.click("#back");
    await hand.click("#back");
    await at("back", 12);
    await hand.click("#forth");
    await at("forward", 13);
    await hand.click("#first");
    await at("to the beginning", 0);
    check("nobody is at a line yet", (await hand.count(".paint b.go, .paint b.wait")) === 0);
    await hand.click("#forth");
    const told = await hand.text("where");
    check("a step tells where its send goes, and its line", /begin 1\.1#1 → 11\.1 \(a send begins\) line 9/.test(told), told);
    check("so does the chart", (await hand.text("chart")).includes("begin 1.1#1 → 11.1"));
    await hand.click("#last");
    await at("to the end", 14);
    await hand.run("document.querySelector('#chart [data-step=\"4\"]').dispatchEvent(new MouseEvent('click', { bubbles: true }));");
    await hand.idle();
    check("a row leads to its step", /step 4/.test(await hand.text("where")), await hand.text("where"));
    await hand.run("document.getElementById('chart').focus();");
    await browser.key("ArrowDown");
    await hand.idle();
    check("an arrow in the chart", /step 5/.test(await hand.text("where")), await hand.text("where"));
    await hand.picture("row-1200");
    const done = await hand.run("return session.done.join(',')");
    await hand.click("#rest");
    check("on to rest", /At rest/.test(await hand.text("verdict")), await hand.text("verdict"));
    const files = { "m.l4": await hand.run("return session.text") };
    const wanted = printedBy(program, { words: ["replay", "m.l4", "--schedule", done, "--then-rest"], files });
    check("the steps of that are those of --then-rest", (await hand.run("return session.whole.map((it) => it.step).join('\\n') + '\\n'")) === wanted.out.toString());
    await hand.type(`${await hand.run("return editor.text")}; changed\n`);
    check("that the text changed is told", !(await hand.run("return document.getElementById('stale').hidden")));
    check("what is said of the old text is pale", (await hand.count("#verdict.old, #pane.old")) === 2);
    await hand.click("#zero");
    check("begun anew", (await hand.text("where")).startsWith("item 0 of 0"));
}

const LOCKS = "c0,c0,c0,c0,c0,c0,c1,1:0,c1,c1,c1,c1,c1,0:1";
const rowClick = (step) => `document.querySelector('#chart [data-step="${step}"]').dispatchEvent(new MouseEvent('click', { bubbles: true }));`;

// How many other items the program tells of in front of each item of a list: by the row with which the item begins.
function otherItemsOf(text, list) {
    const asked = (items, ...options) => linesOf(printedBy(program, { words: ["replay", "m.l4", "--schedule", items.join(","), ...options], files: { "m.l4": text } }));
    const rows = {};
    list.forEach((item, place) => {
        const before = list.slice(0, place);
        const told = asked(before).length;
        if (asked([...before, item]).length > told) rows[told + 1] = asked(before, "--next").filter((line) => line.startsWith("next ")).length - 1;
    });
    return rows;
}
const linesOf = ({ out }) => out.toString().split("\n").slice(0, -1);
const FORKS = "return Object.fromEntries([...document.querySelectorAll('#chart .lines [data-step]')].map((it) => [it.dataset.step, it.querySelector('.ways').innerText.trim()]))";

// Where something else was possible a row has a mark. What it was stands behind that, and is done there.
async function marksOtherWays(browser, hand) {
    const opens = async (body) => {
        await hand.run(body);
        await browser.until("document.querySelector('.over .box') !== null");
        await hand.idle();
    };
    await browser.size(1200, 1400);
    // A plain turn of the first list takes the letter that comes first, or else is the core's own.
    let text, marks;
    for (const [example, list] of [["hostage.l4", "1,1,0,0,1,0,0,0,0,1,1,1,1,0"], ["locks.l4", LOCKS]]) {
        await hand.go(`#example=${example}&schedule=${list}`);
        await hand.looked();
        text = await hand.run("return session.text");
        marks = await hand.run(FORKS);
        const wanted = otherItemsOf(text, list.split(","));
        const differ = Object.keys(marks).filter((row) => marks[row] !== (wanted[row] ? `${wanted[row]}` : ""));
        const isWhole = Object.keys(marks).length === (await hand.run("return session.whole.length"));
        check(`${example}: each row says how many others the program tells of`, isWhole && differ.length === 0 && Object.values(wanted).some(Boolean), [marks, wanted]);
    }
    const isNone = (row) => marks[row] === "";
    check("a row where nothing else was possible has no mark, nor has one in the middle of an item", [2, 9, 11, 14, 16].every(isNone) && marks[4] === "1", marks);
    await browser.size(1200, 800);
    await hand.slide(3);
    await hand.looked();
    await hand.picture("forks-1200");
    await opens("document.querySelector('#chart [data-step=\"8\"] .ways').click();");
    const said = await hand.text("chart");
    check("what else was possible is shown", /In the place of item 7, c1, one other thing was possible:\s+queue 1\.1#2\s+cpu 1 handles the letter from cpu 0/.test(said), said);
    check("and not what was done", (await hand.count(".over .choice")) === 1);
    check("where it was asked for nothing has changed", (await hand.text("where")).startsWith("item 3 of 14"), await hand.text("where"));
    await hand.picture("ways-1200");
    await eachWordStandsOut(browser, hand);
    await browser.key("Escape");
    check("Escape closes it", (await hand.count(".over .box")) === 0 && (await hand.focused()) === "chart", await hand.focused());
    await browser.key("Enter");
    await opens("");
    check("Enter opens that of the row that is shown", /In the place of item 3, c0/.test(await hand.text("chart")), await hand.text("chart"));
    await hand.click(".over .bar button");
    check("one can go there", (await hand.text("where")).startsWith("item 2 of 14") && (await hand.count(".over .box")) === 0, await hand.text("where"));
    check("where both may be done", (await hand.count("#next [data-item]")) === 2, await hand.text("next"));
    await opens("openWays(8);");
    await hand.click(".over .choice");
    const where = await hand.text("where");
    check("it is done in that place", /^item 7 of 7: 1:0 .*queue 1\.1#2/s.test(where), where);
    const told = printedBy(program, { words: ["replay", "m.l4", "--schedule", "c0,c0,c0,c0,c0,c0,1:0"], files: { "m.l4": text } }).out.toString();
    check("its steps are the program's", (await hand.run("return session.whole.map((it) => it.step).join('\\n') + '\\n'")) === told);
    await hand.picture("instead-1200");
    await hand.run("[...document.querySelectorAll('#where button')].find((it) => /back to the list of 14 items/.test(it.innerText)).click();");
    await hand.idle();
    const left = await hand.run("return [session.list.join(','), session.at]");
    check("the list that was left comes back, at its place", quoted(left) === quoted([LOCKS, 2]), left);
    check("and nothing leads back from there", !/back to/.test(await hand.text("where")), await hand.text("where"));

    // Of a trace these are the steps that an audit tells of, without ticks.
    await hand.go("#example=timeout.l4&do=run");
    await hand.fill("way", "steps", "change");
    await hand.looked();
    await hand.run("document.getElementById('chart').scrollTop = 0;");
    await sleep(200);
    await hand.looked();
    const steps = await hand.run("return session.list");
    const ofTrace = await hand.run(FORKS);
    const files = (place) => ({ "m.l4": fs.readFileSync(path.join(top, "examples", "timeout.l4")), "m.trace": [...steps.slice(0, place), "wait 77.1"].map((step) => `${step}\n`).join("") });
    const possible = (place) => linesOf(printedBy(program, { words: ["audit", "m.l4", "m.trace", "--explain"], files: files(place) })).filter((line) => line.startsWith("possible "));
    const others = steps.map((step, place) => possible(place).filter((line) => line !== `possible ${step}`).length);
    const known = others.filter((count, place) => ofTrace[place + 1] === (count ? `${count}` : ""));
    check("of a trace too", known.length >= 5 && others.every((count, place) => ["·", count ? `${count}` : ""].includes(ofTrace[place + 1])), [others, ofTrace]);
    check("and a tick is no other way", steps.some((step) => step.startsWith("tick ")) && others.some((count) => count === 0), [steps, others]);

    // What is looked for takes a while where there is much: rows that it did not come to say so, and are looked at when they are asked for.
    await hand.go(linkOf({ n: "loop.l4", t: loop }));
    await hand.fill("turns", "400");
    await hand.verb("run");
    await hand.looked();
    const far = await hand.run("return document.querySelector('#chart [data-step=\"260\"] .ways')");
    const first = await hand.run("return [...document.querySelectorAll('#chart .ways:not(.told)')].every((it) => it.innerText === '·' && /not looked for/.test(it.title))");
    check("a row that was not looked at says so", first && far !== undefined && (await hand.count("#chart .ways:not(.told)")) > 0);
    await opens("document.querySelector('#chart .ways:not(.told)').click();");
    check("asked for, it is looked at", /In the place of item \d+, c?0, nothing else was possible, but for ticks\./.test(await hand.text("chart")), await hand.text("chart"));

    await browser.size(400, 860, true);
    await hand.go(`#example=locks.l4&schedule=${LOCKS}`);
    await opens("openWays(8);");
    const [right, wide] = await hand.run("return [document.querySelector('.over .box').getBoundingClientRect().right, document.documentElement.scrollWidth]");
    check("no wider than a phone", right <= 400 && wide <= 400, [right, wide]);
    await hand.run("document.getElementById('chart').scrollIntoView();");
    await sleep(200);
    await hand.picture("ways-400");
    await browser.size(1200, 800);
}

// The states between the steps of one item.
async function showsBetweenSteps(browser, hand) {
    await hand.go(`#example=locks.l4&schedule=${LOCKS}`);
    const text = await hand.run("return session.text");
    const whole = linesOf(printedBy(program, { words: ["replay", "m.l4", "--schedule", LOCKS], files: { "m.l4": text } }));
    const reported = (count) => {
        const files = { "m.l4": text, "m.trace": whole.slice(0, count).map((step) => `${step}\n`).join("") };
        return linesOf(printedBy(program, { words: ["audit", "m.l4", "m.trace", "--report", "--waits"], files }));
    };
    const states = () => hand.run("return [...document.querySelectorAll('.card')].map((it) => it.querySelector('b').innerText + ' ' + it.querySelector('.pill').innerText)");
    const wanted = (count) => reported(count).filter((line) => line.startsWith("thread ")).map((line) => line.split(" ").slice(1, 3).join(" "));
    await hand.run(rowClick(8));
    await hand.idle();
    const where = await hand.text("where");
    check("a row in the middle of an item leads there", /^in item 7 of 14: c1 .*steps 8–9, behind step 8: begin 2\.1#1/s.test(where), where);
    check("its state is that of an audit of these steps", quoted(await states()) === quoted(wanted(8)), [await states(), wanted(8)]);
    check("which is not that of the item", quoted(wanted(8)) !== quoted(wanted(7)) && (await hand.text("status")).startsWith("l4run audit locks.l4"), await hand.text("status"));
    check("the row is chosen, and that behind it is yet to come", quoted(await hand.run("return [chart.row, chart.since]")) === "[8,8]");
    const next = await hand.text("next");
    check("the item goes on", (await hand.count("#next [data-item]")) === 1 && /queue 2\.1#1\s+cpu 1 goes on with the item/.test(next), next);
    check("and no other item comes between", (await hand.count("#next .others")) === 0 && /In the middle of item 7/.test(next), next);
    await hand.picture("between-1200");
    await eachWordStandsOut(browser, hand);
    await hand.verb("report");
    const printed = await hand.run("return printed");
    check("its report is that of the audit", reported(8).every((line) => printed.includes(`${line}\n`)), printed);
    await hand.click("#tab-expect");
    await hand.click("#judge");
    check("no command judges it, and that is told", /in the middle of an item is judged by none/.test(await hand.text("judged")), await hand.text("judged"));
    await hand.click("#tab-steps");
    await goesByItsLink(browser, hand);
    check("a link leads there too", (await hand.text("where")).startsWith("in item 7 of 14"), await hand.text("where"));
    await hand.run("document.getElementById('chart').focus();");
    await browser.key("ArrowDown");
    await hand.idle();
    check("an arrow goes on by a step", (await hand.text("where")).startsWith("item 7 of 14"), await hand.text("where"));
    await browser.key("ArrowUp");
    await hand.idle();
    check("and back", (await hand.text("where")).startsWith("in item 7 of 14"), await hand.text("where"));
    await hand.run("document.activeElement.blur();");
    await browser.key("1");
    await hand.idle();
    check("key 1 does the rest of the item", /^item 7 of 14/.test(await hand.text("where")) && (await hand.run("return session.list.length")) === 14, await hand.text("where"));
    await hand.run("[...document.querySelectorAll('#where .step')][0].click();");
    await hand.idle();
    check("the name of a step leads behind it", (await hand.text("where")).startsWith("in item 7 of 14"), await hand.text("where"));
    await hand.click("#back");
    check("back leads in front of the item", (await hand.text("where")).startsWith("item 6 of 14"), await hand.text("where"));
    await hand.run(rowClick(8));
    await hand.idle();
    await hand.click("#rest");
    check("on to rest the item is done first", (await hand.run("return session.list.slice(0, 7).join(',')")) === "c0,c0,c0,c0,c0,c0,c1" && /At rest/.test(await hand.text("verdict")), await hand.text("verdict"));
    await hand.run(rowClick(8));
    await hand.idle();
    await hand.click("#next .inline");
    check("any step goes on from there", /^step 8 of 8: begin 2\.1#1.*back to the list of \d+ items$/s.test(await hand.text("where")), await hand.text("where"));
    check("other steps than the item's are offered", (await hand.count("#next [data-item]")) > 1, await hand.text("next"));
    await hand.run(rowClick(4));
    await hand.idle();
    check("each step of a trace has a state of its own", (await hand.text("where")).startsWith("step 4 of 8"), await hand.text("where"));
}

const CIRCLE = "const of = (what) => document.querySelectorAll('#verdict .circle ' + what).length; return [of('rect'), of('rect[rx=\"11\"], rect[rx=\"17\"]'), of('.read')]";

// Who has a lock: the page reads it of the report and of the text, and says so. The program tells no such thing.
async function readsWhoHasLocks(browser, hand) {
    const read = /as this page reads/;
    await hand.go(`#example=locks.l4&schedule=${LOCKS}`);
    const verdict = await hand.text("verdict");
    check("who has which lock is told", verdict.includes("Locks, as this page reads them: 1.1 waits for 21.1, which 2.1 has; 2.1 waits for 11.1, which 1.1 has."), verdict);
    check("no word of it is said to be the program's", !/[Dd]eadlock/.test(verdict), verdict);
    check("four stand in a circle, two of them as locks, whose arrows are dotted", quoted(await hand.run(CIRCLE)) === "[4,2,2]", await hand.run(CIRCLE));
    await hand.run("document.querySelector('#verdict details').open = true;");
    const why = await hand.text("verdict");
    check("from what it is read", /The program tells no circle here\. 21\.1 heard from 2\.1 last, which would give it back at line 20; 11\.1 heard from 1\.1 last, which would give it back at line 12\./.test(why), why);
    await hand.picture("locks-read-1200");
    await eachWordStandsOut(browser, hand);
    await hand.slide(9);
    check("where nobody waits for ever nothing is read", !read.test(await hand.text("verdict")) && (await hand.count("#verdict .circle")) === 0, await hand.text("verdict"));
    const text = await hand.run("return session.text");
    const wanting = { "one who would never give it back": text.replace("ipc 12.1 nil never never\n", "end\n"), "one who ends instead": text.replace("ipc 21.1 nil never never\n", "end\n") };
    for (const [what, other] of Object.entries(wanting)) {
        await hand.go(linkOf({ n: "other.l4", t: other, s: LOCKS, i: 14 }));
        check(`of ${what} nothing is read`, other !== text && !read.test(await hand.text("verdict")) && (await hand.count("#verdict .circle")) === 0, await hand.text("verdict"));
    }
    for (const hash of ["#example=callback.l4&do=run", "#example=deadlock.l4&do=run", "#example=hostage.l4&do=run", linkOf({ n: "inside.l4", t: lostInside, s: "0,0,0,0,0,0,0,0,0,0,0,0", i: 12 })]) {
        await hand.go(hash);
        check(`${hash.slice(0, 24)}: no lock is read where there is none`, !read.test(await hand.text("verdict")) && (await hand.run(CIRCLE))[1] === 0, await hand.text("verdict"));
    }
    await hand.go(linkOf({ n: "named.l4", t: namedLocks }));
    await hand.verb("run");
    check("a circle that the program tells has its locks too, and no dotted arrow", quoted(await hand.run(CIRCLE)) === "[4,2,0]", await hand.run(CIRCLE));
    const named = await hand.run("document.querySelector('#verdict details').open = true; return document.getElementById('verdict').innerText");
    check("which says what is read", /Deadlock.*reads them: 1\.1 \(ann\) waits for 21\.1 \(right\), which 2\.1 \(bartholomew\) has; .*tells the circle, and not who has what/s.test(named), named);
}

// The names of threads, which a text of version 2 gives, beside their ids.
async function callsThreadsByName(browser, hand) {
    await hand.go(linkOf({ n: "named.l4", t: namedLocks }));
    await hand.verb("run");
    const verdict = await hand.text("verdict");
    check("a verdict has names", verdict.includes("1.1 (ann) waits for 21.1 (right) to take its message") && verdict.includes("2.1 (bartholomew)"), verdict);
    const heads = () => hand.run("return [...document.querySelectorAll('#chart .above .name')].map((it) => it.textContent)");
    check("heads of columns have them", quoted(await heads()) === quoted(["ann", "bartholomew", "left", "right"]), await heads());
    const widest = await hand.run("return Math.max(...[...document.querySelectorAll('#chart .above .name')].map((it) => it.getBoundingClientRect().width))");
    check("none is wider than its column", widest <= 72, widest);
    const line = await hand.run("const at = document.querySelector('#chart .lines [data-step]'); return [at.innerText, at.title]");
    check("a row has the program's words, and its title the names", /begin 1\.1#1 → 11\.1$/.test(line[0].trim()) && /^begin 1\.1#1 to 11\.1 \(line 9\)\n1\.1 is ann, 11\.1 is left$/.test(line[1]), line);
    const nodes = await hand.run("return [...document.querySelectorAll('#verdict .circle .name')].map((it) => it.textContent)");
    check("so has the picture of a circle, where they fit", quoted(nodes) === quoted(["ann", "right", "bartholom…", "left"]), nodes);
    await hand.picture("named-1200");
    await eachWordStandsOut(browser, hand);
    await hand.verb("endings");
    const list = await hand.text("endinglist");
    check("cards of endings have them", /deadlock of 1\.1 \(ann\), 21\.1 \(right\)/.test(list) && /11\.1 \(left\)\s+receiving\s+waits for 1\.1 \(ann\)/.test(list), list);
    const broken = await hand.run(`
        const lines = (it) => {
            const range = document.createRange();
            range.selectNodeContents(it);
            return new Set([...range.getClientRects()].map(({ bottom }) => Math.round(bottom / 8))).size;
        };
        return [...document.querySelectorAll(".ending .row > :first-child")].filter((it) => lines(it) > 1 || it.scrollWidth > it.clientWidth + 1).length;`);
    check("in one line each", broken === 0, broken);
    await hand.picture("named-endings-1200");
    await hand.verb("report");
    check("what the program prints has none", !/ann|right/.test(await hand.text("out")) && /waits 1\.1 21\.1 send/.test(await hand.text("out")), await hand.text("out"));
    await browser.size(400, 860, true);
    await hand.go(linkOf({ n: "named.l4", t: namedLocks, s: "0,0,0,0", i: 4 }));
    const [wide, ...cards] = await hand.run("return [document.documentElement.scrollWidth, ...[...document.querySelectorAll('.card small')].map((it) => it.innerText)]");
    check("on a phone a card has its name", wide <= 400 && quoted(cards) === quoted(["ann", "bartholomew", "left", "right"]), [wide, cards]);
    await hand.picture("named-400");
    await browser.size(1200, 800);
    await hand.go("#example=callback.l4&do=run");
    check("a text without names has none", (await hand.count("#chart .name, #verdict .name")) === 0 && !/\(/.test(await hand.run("return document.querySelector('#verdict ul').innerText")));
}

// All by the keyboard.
async function worksByKeys(browser, hand) {
    await hand.go("#example=deadlock.l4");
    await hand.run("document.activeElement.blur();");
    for (const key of ["1", "1"]) {
        await browser.key(key);
        await hand.idle();
    }
    check("keys 1 do things", /item 2 of 2/.test(await hand.text("where")), await hand.text("where"));
    await browser.key("[");
    await hand.idle();
    check("key [", /item 1 of 2/.test(await hand.text("where")));
    await browser.key("]");
    await hand.idle();
    check("key ]", /item 2 of 2/.test(await hand.text("where")));
    await browser.key("Enter", true);
    await browser.until("document.body.dataset.did === 'run'");
    await hand.idle();
    check("Ctrl Enter", /Deadlock/.test(await hand.text("verdict")), await hand.text("verdict"));
    await browser.key("?");
    check("? opens the help", await hand.run("return document.getElementById('help').open"));
    await hand.picture("help-1200");
    await browser.key("Escape");
    check("Escape closes it", !(await hand.run("return document.getElementById('help').open")));
    await browser.key("e");
    check("E goes to the text", (await hand.focused()) === "text");
    await browser.key("Escape");
    check("Escape leaves it", (await hand.focused()) === "tab-steps");
    await browser.key("ArrowRight");
    check("arrows choose a tab", (await hand.focused()) === "tab-endings");
    await browser.key("ArrowLeft");
    const stops = new Set();
    await hand.run("document.activeElement.blur();");
    for (let count = 0; count < 60; count += 1) {
        await browser.key("Tab");
        stops.add(await hand.run("return document.activeElement.id || document.activeElement.dataset.verb || ''"));
    }
    const wanted = ["examples", "run", "text", "split", "tab-steps", "slider", "chart"];
    check("Tab reaches all parts", wanted.every((id) => stops.has(id)), [...stops]);
}

async function judges(browser, hand) {
    await hand.go("#example=locks.l4&do=run");
    await hand.click("#tab-expect");
    await hand.click("#fromreport");
    await hand.click("#judge");
    check("a run meets its own report", /As expected/.test(await hand.text("judged")), await hand.text("judged"));
    await hand.fill("wanted", "thread 1.1 sending ..\nnever waiting ..\nending quiet\n");
    await hand.click("#judge");
    check("what does not hold is told", /1 line does not hold/.test(await hand.text("judged")), await hand.text("judged"));
    await hand.picture("expect-1200");
    await hand.click("#judgeall");
    check("all endings are judged", /ending 2/.test(await hand.text("missing")), await hand.text("missing"));
}

// A text in the address, and a link that is damaged.
async function shares(browser, hand) {
    await hand.go("#example=first.l4");
    await hand.type("l4 1 64\ncpus 1\nthread 1.1 cpu 0 space 1\nend\n");
    await browser.until("location.hash.startsWith('#z=')");
    const hash = await hand.run("return location.hash");
    await hand.go(hash);
    check("what was typed is one's own", (await hand.run("return document.getElementById('examples').value")) === "");
    await hand.fill("examples", "first.l4", "change");
    await hand.idle();
    check("the lesson can be had again", /One message/.test(await hand.run("return editor.text")));
    await hand.fill("examples", "", "change");
    await hand.idle();
    check("the address has what was typed", (await hand.run("return editor.text")) === "l4 1 64\ncpus 1\nthread 1.1 cpu 0 space 1\nend\n");
    await hand.go("#example=locks.l4&schedule=c0,c0,c1");
    await hand.click("#back");
    await goesByItsLink(browser, hand);
    check("a link has the list and the place", (await hand.text("where")).startsWith("item 2 of 3"), await hand.text("where"));
    check("and the text", /Two locks/.test(await hand.run("return editor.text")));
    await hand.go("#text=l4%201%2064%0Acpus%201%0Athread%201.1%20cpu%200%20space%201%0Aend%0A&do=run");
    check("a text in plain letters", /At rest/.test(await hand.text("verdict")), await hand.text("verdict"));
    const long = `l4 1 64\ncpus 1\nthread 1.1 cpu 0 space 1\n${Array.from({ length: 1000 }, (_, at) => `set ${1 + ((at * 7919) % 63)} ${(at + 1) * 987654321987}\n`).join("")}`;
    await hand.go(linkOf({ n: "long.l4", t: long }));
    await hand.verb("run");
    await sleep(1000);
    const where = await hand.text("where");
    check("a text that is too long for the address stays, with its steps", (await hand.run("return editor.text")) === long && /^item [1-9]/.test(where), where);
    check("and is not in it", (await hand.run("return location.hash")) === "");
    await hand.go("#z=damaged!");
    check("a damaged link is told", /damaged/.test(await hand.text("status")), await hand.text("status"));
}

async function opensAndSaves(browser, hand) {
    await hand.go("#example=late.l4");
    await hand.run("document.getElementById('tries').open = true;");
    await hand.click("#trieslist button");
    check("a command of the lesson prints", (await hand.text("out")).includes("1.1"));
    await hand.picture("output-1200");
    const text = await hand.run("return editor.text");
    const out = await hand.run("return printed");
    for (const id of ["copy", "saveout", "savewanted", "save", "copycommand", "copylist", "take", "theme", "theme", "theme"]) await hand.click(`#${id}`);
    await hand.run("tab('steps');");
    await hand.verb("run");
    for (const kind of ["svg", "html", "mermaid"]) await hand.click(`[data-save=${kind}]`);
    check("the text is saved", `${await browser.saved("late.l4")}` === text);
    check("the output is saved", `${await browser.saved("late.txt")}` === out);
    // A run on two processors may take another order.
    const trace = printedBy(program, { words: ["replay", "m.l4", "--schedule", "", "--then-rest"], files: { "m.l4": text } }).out;
    for (const [kind, ending] of [["svg", "svg"], ["html", "html"], ["mermaid", "mmd"]]) {
        const wanted = printedBy(program, { words: ["chart", "m.l4", "trace", `--${kind}`], files: { "m.l4": text, trace } }).out;
        check(`the chart is saved as ${ending}, as the program draws it`, (await browser.saved(`late.${ending}`))?.equals(wanted) === true);
    }
    const file = path.join(fs.mkdtempSync(path.join(os.tmpdir(), "page-file-")), "ring.l4");
    fs.writeFileSync(file, ring());
    await browser.choose("#file", file);
    await browser.until("/thread 64.1/.test(editor.text)");
    await hand.idle();
    check("a file is opened", (await hand.run("return doc.name")) === "ring.l4");
    fs.rmSync(path.dirname(file), { recursive: true });
}

async function showsManyThreads(browser, hand) {
    await hand.go(linkOf({ n: "ring.l4", t: ring() }));
    const began = Date.now();
    await hand.verb("run");
    console.log(`${name}: 64 threads: run, chart and what is next in ${Date.now() - began} ms`);
    check("64 threads come to rest", /At rest/.test(await hand.text("verdict")), await hand.text("verdict"));
    await hand.slide(200);
    await hand.picture("threads64-1200");
    await hand.click("#concerned");
    check("only the threads of the step", (await hand.count("#chart .above .id")) <= 2, await hand.count("#chart .above .id"));
    await hand.fill("filter", "chart", "change");
    await hand.idle();
    check("and their cards alone", (await hand.count(".card")) === (await hand.count("#chart .above .id")), await hand.count(".card"));
    await hand.fill("filter", "all", "change");
    await hand.click("#concerned");
    check("all threads again", (await hand.count("#chart .above .id")) === 64);
    await hand.fill("columns", "9.9", "change");
    await hand.idle();
    check("a thread that there is not", /no thread of this text/.test(await hand.text("chart")), await hand.text("chart"));
}

async function showsManySteps(browser, hand) {
    await hand.go(linkOf({ n: "loop.l4", t: loop }));
    await hand.fill("turns", "5000");
    const began = Date.now();
    await hand.verb("run");
    console.log(`${name}: 5,000 turns: run, chart and what is next in ${Date.now() - began} ms; ${await hand.text("where")}`);
    check("that a run was cut off is told", /cut off/.test(await hand.text("verdict")), await hand.text("verdict"));
    await hand.slide(2500);
    check("item 2500", /item 2500 of 5000/.test(await hand.text("where")));
    await hand.picture("steps5000-1200");
    const first = Number(await hand.run("return document.querySelector('#pager input').value"));
    await hand.click("#pager button:nth-of-type(3)");
    check("a page of rows on", Number(await hand.run("return document.querySelector('#pager input').value")) === first + 250);
}

async function stops(browser, hand) {
    await hand.go(linkOf({ n: "four.l4", t: locksInRing() }));
    await hand.fill("states", "1000000");
    await hand.run("document.querySelector('[data-verb=endings]').click();");
    await browser.until("/at work for .* so far,.* \\d+ deep/.test(document.getElementById('status').textContent)");
    check("how far it has come is told", /[\d,]+ states so far,.* \d+ deep/.test(await hand.text("sofar")), await hand.text("sofar"));
    await hand.picture("busy-1200");
    await hand.click("#stop");
    const isOver = await hand.run("return document.getElementById('stop').disabled");
    check("a long search is stopped", isOver && /stopped/i.test(await hand.text("status")), await hand.text("status"));
    await hand.verb("run");
    check("and the page works on", /At rest/.test(await hand.text("verdict")), await hand.text("verdict"));
}

// The words that do not stand out from what is behind them, by the ratio that the guidelines for the web ask of small letters. Buttons that can't
// be pressed are left out, and what lies over a shade that has no one colour.
async function pale({ run }) {
    return run(`
        const parts = (colour) => (colour.match(/[\\d.]+/g) ?? []).map(Number);
        const light = ([r, g, b]) => {
            const [x, y, z] = [r, g, b].map((it) => it / 255).map((it) => (it <= 0.04045 ? it / 12.92 : ((it + 0.055) / 1.055) ** 2.4));
            return 0.2126 * x + 0.7152 * y + 0.0722 * z;
        };
        const over = ([r, g, b, a = 1], below) => [r, g, b].map((it, place) => a * it + (1 - a) * below[place]);
        const behind = (at) => {
            if (!at) return [255, 255, 255];
            const { backgroundColor, backgroundImage } = getComputedStyle(at);
            if (backgroundImage !== "none") return null;
            const own = parts(backgroundColor);
            if (own.length === 3 || own[3] === 1) return own.slice(0, 3);
            const below = behind(at.parentElement);
            return below && (own[3] ? over(own, below) : below);
        };
        const found = new Map();
        const walker = document.createTreeWalker(document.body, NodeFilter.SHOW_TEXT);
        for (let node = walker.nextNode(); node; node = walker.nextNode()) {
            const at = node.parentElement;
            if (!node.data.trim() || !at.checkVisibility?.({ visibilityProperty: true }) || at.closest("script, style, :disabled, .old, .editor textarea")) continue;
            const below = behind(at);
            if (!below) continue;
            const style = getComputedStyle(at);
            const own = over(parts(at.closest("svg") ? style.fill : style.color), below);
            const [low, high] = [light(own), light(below)].sort((a, b) => a - b);
            const ratio = (high + 0.05) / (low + 0.05);
            if (ratio < 4.5) found.set(at.className?.baseVal ?? at.className, node.data.trim().slice(0, 20) + " " + ratio.toFixed(1));
        }
        return [...found];`);
}

// Copies the link to what is shown, and opens the page by it.
async function goesByItsLink(browser, hand) {
    await hand.click("#link");
    await browser.until("document.getElementById('status').textContent.startsWith('link copied')");
    await hand.go(await hand.run("return location.hash"));
}

// Whether each word of what is shown stands out, dark and light.
async function eachWordStandsOut(browser, hand) {
    for (const isDark of [true, false]) {
        await browser.dark(isDark);
        await sleep(100);
        const found = await pale(hand);
        check(`each word of it stands out, ${isDark ? "dark" : "light"}`, found.length === 0, found);
    }
}

async function standsOut(browser, hand) {
    for (const isDark of [false, true]) {
        await browser.dark(isDark);
        for (const hash of ["#example=first.l4", "#example=callback.l4&do=run", "#example=callback.l4&do=stuck", "#example=locks.l4&do=endings", "#example=timeout.l4&do=report", "#text=l4%201%2065%0A"]) {
            await hand.go(hash);
            const found = await pale(hand);
            check(`${hash}, ${isDark ? "dark" : "light"}: each word stands out`, found.length === 0, found);
        }
    }
    await browser.dark(false);
}

// The looks: dark, and as narrow as a phone.
async function looks(browser, hand) {
    await browser.dark(true);
    await hand.go("#example=locks.l4&schedule=c0,c0,c0,c0,c0,c0,c1,1:0,c1,c1,c1,c1,c1,0:1");
    await hand.slide(9);
    check("dark where the system is", (await hand.run("return document.documentElement.dataset.theme")) === "dark");
    await hand.picture("dark-1200");
    await browser.dark(false);
    await browser.size(400, 860, true);
    const narrow = { first: "#example=first.l4", locks: "#example=locks.l4&do=run", endings: "#example=locks.l4&do=endings" };
    for (const [file, hash] of Object.entries(narrow)) {
        await hand.go(hash);
        const width = await hand.run("return document.documentElement.scrollWidth");
        check(`${file}: no wider than a phone`, width <= 400, width);
        await liesUnderItsText(hand, `${file}, narrow`);
        await hand.picture(`${file}-400`);
    }
    await hand.click(".ending.bad");
    const isInSight = await hand.run("const { top, bottom } = document.getElementById('verdict').getBoundingClientRect(); return top >= 0 && bottom <= innerHeight");
    check("what is said of an ending that is opened is in sight", isInSight);
    const cut = await hand.run("return [...document.querySelectorAll('#verdict ul')].filter((it) => it.scrollHeight > it.clientHeight + 1).length");
    check("and whole", cut === 0, cut);
    await hand.run("document.querySelector('.drawing details').open = true;");
    const wide = await hand.run("return document.documentElement.scrollWidth");
    check("the marks are no wider than a phone", wide <= 400, wide);
    await hand.picture("locks-open-400");
    await browser.dark(true);
    await hand.go("#example=deadlock.l4&do=run");
    await hand.picture("dark-400");
    await hand.run("document.getElementById('chart').scrollIntoView();");
    await sleep(200);
    await hand.picture("dark-chart-400");
    await browser.dark(false);
    await browser.size(1600, 950);
    await hand.go("#example=locks.l4&do=run");
    await hand.picture("locks-1600");
}

const PARTS = [
    comparesCases,
    runsExamples,
    findsDeadlock,
    marksFaults,
    findsStuckEnding,
    findsLostReply,
    findsStuckForEver,
    letsOneRest,
    tellsWhatIsHeld,
    readsVersionTwo,
    findsOneByWalk,
    asksForMoments,
    stepsByAny,
    steps,
    marksOtherWays,
    showsBetweenSteps,
    readsWhoHasLocks,
    callsThreadsByName,
    worksByKeys,
    judges,
    shares,
    opensAndSaves,
    showsManyThreads,
    showsManySteps,
    stops,
    standsOut,
    looks,
];

async function main() {
    fs.mkdirSync(pictures, { recursive: true });
    const browser = await { chromium: Chromium, firefox: Firefox }[name].open(page);
    const hand = hands(browser);
    const began = Date.now();
    try {
        await browser.size(1200, 800);
        await browser.dark(false);
        const only = process.env.PARTS?.split(",");
        for (const part of PARTS) if (!only || only.includes(part.name)) await part(browser, hand);
    } catch (fault) {
        bad += 1;
        console.log(`${name}: broken off: ${fault.stack.slice(0, 700)}`);
        await hand.picture("broken").catch(() => {});
    } finally {
        await browser.close();
    }
    for (const fault of browser.faults) console.log(`${name}: console: ${fault}`);
    bad += browser.faults.length;
    console.log(`${browser.version}: ${good} as wanted, ${bad} not, ${((Date.now() - began) / 1000).toFixed(0)} s`);
    process.exitCode = bad ? 1 : 0;
}
main();
