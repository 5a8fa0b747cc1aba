// Drives a browser over a page of the disk: Chromium by the pipe of its devtools, Firefox by its Marionette. Both have one interface.
const { spawn } = require("child_process");
const fs = require("fs");
const net = require("net");
const os = require("os");
const path = require("path");

const sleep = (ms) => new Promise((done) => setTimeout(done, ms));
const profileFolder = () => fs.mkdtempSync(path.join(os.tmpdir(), "page-profile-"));
// A browser whose home is a folder: what it keeps, saves and puts aside lies there.
function started(command, words, home, stdio) {
    const kept = { HOME: home, TMPDIR: home, XDG_CONFIG_HOME: home, XDG_CACHE_HOME: home, XDG_DATA_HOME: home, XDG_DOWNLOAD_DIR: home };
    return spawn(command, words, { stdio, cwd: home, env: { ...process.env, ...kept } });
}
const KEYS = { Tab: 9, Enter: 13, Escape: 27, ArrowLeft: 37, ArrowUp: 38, ArrowRight: 39, ArrowDown: 40 };
const MARIONETTE_KEYS = { Tab: "\uE004", Enter: "\uE007", Escape: "\uE00C", ArrowLeft: "\uE012", ArrowUp: "\uE013", ArrowRight: "\uE014", ArrowDown: "\uE015" };
const CONTROL = "\uE009";

// What both have: waits, and opening the page at an address.
class Browser {
    constructor(page) {
        this.url = `file://${path.resolve(page)}`;
        this.faults = [];
    }

    // Waits until an expression of the page holds.
    async until(expression, most = 120000) {
        const end = Date.now() + most;
        while (Date.now() < end) {
            if (await this.run(`return ${expression}`).catch(() => false)) return;
            await sleep(40);
        }
        throw new Error(`this never came: ${expression}`);
    }

    async go(hash = "") {
        await this.navigate("about:blank");
        await this.navigate(this.url + hash);
        await this.until("document.body?.dataset.ready === 'yes'");
    }

    get saves() {
        return path.join(this.profile, "Downloads");
    }

    // The bytes of a file that the page has saved, once they are there. A browser may write them under another name first.
    async saved(name) {
        const file = path.join(this.saves, name);
        for (let tries = 0; tries < 100; tries += 1) {
            if (fs.existsSync(file) && fs.statSync(file).size) return fs.readFileSync(file);
            await sleep(100);
        }
        return null;
    }

    async end(child, profile) {
        await Promise.race([new Promise((done) => (child.exitCode === null ? child.on("exit", done) : done())), sleep(4000)]);
        if (child.exitCode === null) child.kill("SIGKILL");
        await sleep(200);
        fs.rmSync(profile, { recursive: true, force: true, maxRetries: 20, retryDelay: 200 });
    }
}

class Chromium extends Browser {
    static async open(page) {
        const it = new Chromium(page);
        it.profile = profileFolder();
        const words = ["--headless", "--no-sandbox", "--disable-gpu", "--remote-debugging-pipe", `--user-data-dir=${it.profile}`];
        it.child = started("chromium", words, it.profile, ["ignore", "ignore", "ignore", "pipe", "pipe"]);
        it.waiting = new Map();
        it.ids = 0;
        let rest = "";
        it.child.stdio[4].on("data", (data) => {
            rest += data;
            for (let at; (at = rest.indexOf("\0")) >= 0; rest = rest.slice(at + 1)) it.hear(JSON.parse(rest.slice(0, at)));
        });
        const { targetId } = await it.send("Target.createTarget", { url: "about:blank" });
        it.sessionId = (await it.send("Target.attachToTarget", { targetId, flatten: true })).sessionId;
        for (const domain of ["Runtime", "Page", "Log"]) await it.send(`${domain}.enable`);
        await it.send("Browser.setDownloadBehavior", { behavior: "allow", downloadPath: it.saves });
        it.version = (await it.send("Browser.getVersion")).product;
        return it;
    }

    hear(message) {
        if (message.id) {
            this.waiting.get(message.id)?.(message);
            this.waiting.delete(message.id);
            return;
        }
        const { method, params } = message;
        const isConsole = method === "Runtime.consoleAPICalled" && params.type === "error";
        const isLog = method === "Log.entryAdded" && params.entry.level === "error";
        if (method === "Runtime.exceptionThrown" || isConsole || isLog) this.faults.push(JSON.stringify(params).slice(0, 400));
    }

    async send(method, params = {}) {
        this.ids += 1;
        const id = this.ids;
        const answer = new Promise((done) => this.waiting.set(id, done));
        this.child.stdio[3].write(`${JSON.stringify({ id, method, params, sessionId: this.sessionId })}\0`);
        const { result, error } = await answer;
        if (error) throw new Error(`${method}: ${error.message}`);
        return result;
    }

    navigate(url) {
        return this.send("Page.navigate", { url });
    }

    // Runs the body of a function in the page, and answers what it returns.
    async run(body) {
        const how = { expression: `(async () => { ${body} })()`, awaitPromise: true, returnByValue: true, userGesture: true };
        const { result, exceptionDetails } = await this.send("Runtime.evaluate", how);
        if (exceptionDetails) throw new Error(exceptionDetails.exception?.description ?? exceptionDetails.text);
        return result.value;
    }

    size(width, height, mobile = false) {
        return this.send("Emulation.setDeviceMetricsOverride", { width, height, deviceScaleFactor: 1, mobile });
    }

    dark(isDark) {
        return this.send("Emulation.setEmulatedMedia", { features: [{ name: "prefers-color-scheme", value: isDark ? "dark" : "light" }] });
    }

    async shot(file) {
        const { data } = await this.send("Page.captureScreenshot");
        fs.writeFileSync(file, Buffer.from(data, "base64"));
    }

    async key(key, withControl = false) {
        const modifiers = withControl ? 2 : 0;
        const windowsVirtualKeyCode = KEYS[key] ?? key.toUpperCase().charCodeAt(0);
        const text = key === "Enter" ? "\r" : key.length === 1 && !withControl ? key : undefined;
        const both = { key, code: key, windowsVirtualKeyCode, modifiers };
        await this.send("Input.dispatchKeyEvent", { ...both, type: text ? "keyDown" : "rawKeyDown", text });
        await this.send("Input.dispatchKeyEvent", { ...both, type: "keyUp" });
        await sleep(30);
    }

    move(x, y) {
        return this.send("Input.dispatchMouseEvent", { type: "mouseMoved", x, y });
    }

    async choose(selector, file) {
        const { root } = await this.send("DOM.getDocument");
        const { nodeId } = await this.send("DOM.querySelector", { nodeId: root.nodeId, selector });
        await this.send("DOM.setFileInputFiles", { nodeId, files: [path.resolve(file)] });
    }

    async close() {
        this.send("Browser.close").catch(() => {});
        await this.end(this.child, this.profile);
    }
}

class Firefox extends Browser {
    static async open(page) {
        const it = new Firefox(page);
        it.profile = profileFolder();
        fs.writeFileSync(path.join(it.profile, "user.js"), 'user_pref("marionette.port", 0);\n');
        const words = ["--headless", "--marionette", "--remote-allow-system-access", "--no-remote", "--profile", it.profile];
        it.child = started("firefox-esr", words, it.profile, "ignore");
        const portFile = path.join(it.profile, "MarionetteActivePort");
        for (let tries = 0; !fs.existsSync(portFile); tries += 1) {
            if (tries > 600) throw new Error("firefox-esr did not start within a minute");
            await sleep(100);
        }
        await sleep(100);
        await it.connect(Number(fs.readFileSync(portFile, "utf8")));
        const { capabilities } = await it.send("WebDriver:NewSession", {});
        it.version = `Firefox/${capabilities.browserVersion}`;
        await it.send("WebDriver:SetTimeouts", { script: 600000, pageLoad: 120000 });
        return it;
    }

    // A message is its length, a colon, and JSON.
    async connect(port) {
        this.waiting = new Map();
        this.ids = 0;
        this.socket = net.connect(port, "127.0.0.1");
        let rest = Buffer.alloc(0);
        let greeted;
        const greeting = new Promise((done) => (greeted = done));
        this.socket.on("data", (data) => {
            rest = Buffer.concat([rest, data]);
            for (;;) {
                const at = rest.indexOf(":");
                const length = Number(rest.subarray(0, Math.max(at, 0)));
                if (at < 0 || rest.length < at + 1 + length) return;
                const message = JSON.parse(rest.subarray(at + 1, at + 1 + length));
                rest = rest.subarray(at + 1 + length);
                if (!Array.isArray(message)) greeted();
                else this.waiting.get(message[1])?.(message);
            }
        });
        this.socket.on("error", () => {});
        await greeting;
    }

    async send(name, parameters = {}) {
        this.ids += 1;
        const id = this.ids;
        const answer = new Promise((done) => this.waiting.set(id, done));
        const message = Buffer.from(JSON.stringify([0, id, name, parameters]));
        this.socket.write(Buffer.concat([Buffer.from(`${message.length}:`), message]));
        const [, , error, value] = await answer;
        this.waiting.delete(id);
        if (error) throw new Error(`${name}: ${error.message}`);
        return value;
    }

    navigate(url) {
        return this.send("WebDriver:Navigate", { url });
    }

    // As in Chromium. The body stands in a script of the page, since a script of Marionette's does not see the page's own names.
    async run(body) {
        const script = `
            const [body, done] = arguments;
            const made = document.createElement("script");
            const answer = "(it) => JSON.stringify({ it }), (trap) => JSON.stringify({ trap: String(trap && trap.stack || trap) })";
            made.textContent = "window.asked = (async () => { " + body + " })().then(" + answer + ")";
            document.documentElement.append(made);
            made.remove();
            if (window.asked) window.asked.then(done);
            else done(JSON.stringify({ trap: "no script: " + body.slice(0, 80) }));
            delete window.asked;`;
        const { value } = await this.send("WebDriver:ExecuteAsyncScript", { script, args: [body] });
        const { it, trap } = JSON.parse(value);
        if (trap) throw new Error(trap);
        return it;
    }

    // Asks in the browser's own scope.
    async inChrome(script) {
        await this.send("Marionette:SetContext", { value: "chrome" });
        try {
            await this.send("WebDriver:ExecuteScript", { script, args: [] });
        } finally {
            await this.send("Marionette:SetContext", { value: "content" });
        }
    }

    async size(width, height) {
        // A window is not made narrower than its own buttons want, unless that is taken back.
        await this.inChrome("document.documentElement.style.minWidth = '0'; document.documentElement.style.minHeight = '0';");
        const script = "return [innerWidth, innerHeight, outerWidth - innerWidth, outerHeight - innerHeight]";
        // A window comes to its size some time after it was asked to.
        for (let tries = 0; tries < 100; tries += 1) {
            const [wide, high, right, below] = (await this.send("WebDriver:ExecuteScript", { script, args: [] })).value;
            if (wide === width && high === height) return;
            await this.send("WebDriver:SetWindowRect", { width: width + right, height: height + below });
            await sleep(50);
        }
        throw new Error(`the window does not come to ${width} by ${height}`);
    }

    dark(isDark) {
        return this.inChrome(`Services.prefs.setIntPref("layout.css.prefers-color-scheme.content-override", ${isDark ? 0 : 1});`);
    }

    async shot(file) {
        const { value } = await this.send("WebDriver:TakeScreenshot", { full: false });
        fs.writeFileSync(file, Buffer.from(value, "base64"));
    }

    async key(key, withControl = false) {
        const value = MARIONETTE_KEYS[key] ?? key;
        const press = [{ type: "keyDown", value }, { type: "keyUp", value }];
        const actions = withControl ? [{ type: "keyDown", value: CONTROL }, ...press, { type: "keyUp", value: CONTROL }] : press;
        await this.send("WebDriver:PerformActions", { actions: [{ type: "key", id: "keys", actions }] });
        await sleep(30);
    }

    move(x, y) {
        const actions = [{ type: "pointerMove", x: Math.round(x), y: Math.round(y), duration: 0 }];
        return this.send("WebDriver:PerformActions", { actions: [{ type: "pointer", id: "mouse", parameters: { pointerType: "mouse" }, actions }] });
    }

    async choose(selector, file) {
        const { value } = await this.send("WebDriver:FindElement", { using: "css selector", value: selector });
        await this.send("WebDriver:ElementSendKeys", { id: Object.values(value)[0], text: path.resolve(file) });
    }

    async close() {
        this.send("Marionette:Quit", { flags: ["eForceQuit"] }).catch(() => {});
        await this.end(this.child, this.profile);
        this.socket.destroy();
    }
}

module.exports = { Chromium, Firefox, sleep };
