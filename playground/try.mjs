#!/usr/bin/env node
// Serves the page that build.sh made, opens it in a headless Chromium, and does there what a person does; its last line is `N passed, N failed`. Without
// Chromium it says so. Screenshots go to playground/out. use: node try.mjs
import http from "http"; import fs from "fs"; import path from "path"; import os from "os"; import { spawn, spawnSync } from "child_process";
import steps from "./steps.mjs";

const here = path.join(path.dirname(new URL(import.meta.url).pathname), "out");
const types = { ".html": "text/html", ".js": "text/javascript", ".wasm": "application/wasm" };
const name = [process.env.CHROMIUM, "chromium", "chromium-browser", "google-chrome"].find(it => it && spawnSync(it, ["--version"]).status === 0);
if (!name) {
    console.log("Chromium is not installed here: the page is not tried\n0 passed, 0 failed");
    process.exit(0);
}
const server = http.createServer((asked, answer) => {
    const file = path.join(here, asked.url === "/" ? "index.html" : path.normalize(asked.url.split("?")[0]));
    fs.readFile(file, (e, data) => { answer.writeHead(e ? 404 : 200, { "content-type": types[path.extname(file)] ?? "text/plain" }); answer.end(data); });
}).listen(0);
const profile = fs.mkdtempSync(path.join(os.tmpdir(), "profile-"));
const words = ["--headless=new", "--no-sandbox", "--disable-gpu", "--hide-scrollbars", "--allow-file-access-from-files", "--remote-debugging-pipe", `--user-data-dir=${profile}`, "about:blank"];
const chromium = spawn(name, words, { stdio: ["ignore", "ignore", "ignore", "pipe", "pipe"] });

// What is asked of Chromium is a message with a number; what it answers has the same.
let id = 0, rest = "";
const waits = new Map();
function heard(message) {
    if (message.id) {
        const { well, ill } = waits.get(message.id);
        waits.delete(message.id);
        message.error ? ill(new Error(JSON.stringify(message.error))) : well(message.result);
    } else if (message.method === "Runtime.exceptionThrown") told(false, `no fault of the page: ${message.params.exceptionDetails.exception?.description ?? message.params.exceptionDetails.text}`);
}
chromium.stdio[4].on("data", data => {
    rest += data;
    for (let at; (at = rest.indexOf("\0")) >= 0; rest = rest.slice(at + 1)) heard(JSON.parse(rest.slice(0, at)));
});
const send = (method, params = {}, sessionId) => new Promise((well, ill) => { waits.set(++id, { well, ill }); chromium.stdio[3].write(JSON.stringify({ id, method, params, sessionId }) + "\0"); });

let passed = 0, failed = 0;
function told(isWell, what) {
    isWell ? passed++ : failed++;
    console.log(`playground, ${what}: ${isWell ? "well" : "FAILED"}`);
}

const { targetId } = await send("Target.createTarget", { url: "about:blank" });
const { sessionId } = await send("Target.attachToTarget", { targetId, flatten: true });
await send("Runtime.enable", {}, sessionId);
await send("Page.enable", {}, sessionId);
const sleep = ms => new Promise(well => setTimeout(well, ms));
const page = {
    // (its address may have a word after `?`, and it may be the file alone)
    open: (file = false) => send("Page.navigate", { url: file ? `file://${here}/index.html` : `http://localhost:${server.address().port}/` }, sessionId),
    size: (width, height, isDark = false) => Promise.all([
        send("Emulation.setDeviceMetricsOverride", { width, height, deviceScaleFactor: 1, mobile: width < 700 }, sessionId),
        send("Emulation.setEmulatedMedia", { features: [{ name: "prefers-color-scheme", value: isDark ? "dark" : "light" }] }, sessionId),
    ]),
    // before each page that is opened from now on this is done in it; nothing where no text is given
    before: async source => (page.done = (page.done && await send("Page.removeScriptToEvaluateOnNewDocument", { identifier: page.done }, sessionId), source && (await send("Page.addScriptToEvaluateOnNewDocument", { source }, sessionId)).identifier)),
    eval: async expression => {
        const { result, exceptionDetails } = await send("Runtime.evaluate", { expression, awaitPromise: true, returnByValue: true }, sessionId);
        if (exceptionDetails) throw new Error(exceptionDetails.exception?.description);
        return result.value;
    },
    until: async expression => {
        for (const end = Date.now() + 60000; ; await sleep(50)) {
            try { if (await page.eval(expression)) return; } catch {} // (the page may not be there yet)
            if (Date.now() > end) throw new Error(`never: ${expression}`);
        }
    },
    shot: async file => {
        const { data } = await send("Page.captureScreenshot", { format: "png", captureBeyondViewport: false }, sessionId);
        fs.writeFileSync(path.join(here, file), Buffer.from(data, "base64"));
    },
};
try {
    await steps(page, told);
} catch (e) {
    told(false, `came to its end: ${e?.stack ?? e}`);
}
chromium.on("exit", () => {
    server.close();
    try { fs.rmSync(profile, { recursive: true, force: true }); } catch {}
    console.log(`${passed} passed, ${failed} failed`);
    process.exit(failed ? 1 : 0);
});
chromium.kill();
