// Drives a headless Chromium over its pipe, by the devtools protocol.
'use strict';
const { spawn } = require('child_process');
const fs = require('fs');
const os = require('os');
const path = require('path');

const NAMES = ['chromium', 'chromium-browser', 'google-chrome'];

// Where the browser is, or null where there is none.
function browserPath() {
    if (process.env.CHROMIUM) return process.env.CHROMIUM;
    for (const folder of (process.env.PATH ?? '').split(':')) {
        for (const name of NAMES) {
            const file = path.join(folder, name);
            if (fs.existsSync(file)) return file;
        }
    }
    return null;
}

class Browser {
    constructor() {
        this.room = fs.mkdtempSync(path.join(os.tmpdir(), 'viewer-test-'));
        const words = ['--headless', '--no-sandbox', '--disable-gpu', '--hide-scrollbars', '--remote-debugging-pipe', `--user-data-dir=${this.room}`];
        this.child = spawn(browserPath(), words, { stdio: ['ignore', 'ignore', 'ignore', 'pipe', 'pipe'] });
        this.waiting = new Map();
        this.number = 0;
        this.faults = [];
        let left = '';
        this.child.stdio[4].setEncoding('utf8');
        this.child.stdio[4].on('data', (data) => {
            const parts = (left + data).split('\0');
            left = parts.pop();
            for (const part of parts) this.take(JSON.parse(part));
        });
    }

    take(message) {
        if (message.method === 'Runtime.exceptionThrown') {
            const thrown = message.params.exceptionDetails;
            this.faults.push(thrown.exception?.description ?? thrown.text);
        }
        const waits = this.waiting.get(message.id);
        if (!waits) return;
        this.waiting.delete(message.id);
        if (message.error) waits.reject(new Error(message.error.message));
        else waits.resolve(message.result);
    }

    ask(method, params = {}) {
        const id = ++this.number;
        const message = { id, method, params, ...(this.session ? { sessionId: this.session } : {}) };
        this.child.stdio[3].write(JSON.stringify(message) + '\0');
        return new Promise((resolve, reject) => this.waiting.set(id, { resolve, reject }));
    }

    // Opens a page of this size, once.
    async start(width = 1300, height = 900) {
        const { targetId } = await this.ask('Target.createTarget', { url: 'about:blank' });
        const { sessionId } = await this.ask('Target.attachToTarget', { targetId, flatten: true });
        this.session = sessionId;
        await this.ask('Page.enable');
        await this.ask('Runtime.enable');
        await this.size(width, height);
    }

    size(width, height) {
        return this.ask('Emulation.setDeviceMetricsOverride', { width, height, deviceScaleFactor: 1, mobile: false });
    }

    // Goes to a page, and waits until its script has run.
    async go(url) {
        await this.ask('Page.navigate', { url });
        for (let tries = 0; tries < 600; tries++) {
            const ready = await this.run('document.readyState === "complete" && location.href !== "about:blank"').catch(() => false);
            if (ready) return;
            await new Promise((resolve) => setTimeout(resolve, 50));
        }
        throw new Error(`no page at ${url}`);
    }

    // The value of an expression in the page.
    async run(expression) {
        const made = await this.ask('Runtime.evaluate', { expression, returnByValue: true, awaitPromise: true });
        if (made.exceptionDetails) throw new Error(made.exceptionDetails.exception?.description ?? made.exceptionDetails.text);
        return made.result.value;
    }

    async key(key) {
        await this.ask('Input.dispatchKeyEvent', { type: 'keyDown', key, ...(key.length === 1 ? { text: key } : {}) });
        await this.ask('Input.dispatchKeyEvent', { type: 'keyUp', key });
    }

    async shot(file) {
        const { data } = await this.ask('Page.captureScreenshot', { format: 'png' });
        fs.writeFileSync(file, Buffer.from(data, 'base64'));
    }

    async end() {
        const ended = new Promise((resolve) => this.child.once('exit', resolve));
        this.session = undefined;
        await Promise.race([this.ask('Browser.close').catch(() => {}), new Promise((resolve) => setTimeout(resolve, 3000))]);
        this.child.kill();
        await Promise.race([ended, new Promise((resolve) => setTimeout(resolve, 3000))]);
        fs.rmSync(this.room, { recursive: true, force: true, maxRetries: 5 });
    }
}

module.exports = { Browser, browserPath };
