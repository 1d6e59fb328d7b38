// The page in a headless Chromium: what is seen, and what buttons, keys and the slider do.
'use strict';
const test = require('node:test');
const assert = require('node:assert');
const fs = require('fs');
const os = require('os');
const path = require('path');
const { Browser, browserPath } = require('./browser.js');
const { pageOf } = require('../page.js');
const { longRecord } = require('./long.js');

const root = path.join(__dirname, '..', '..');
const room = fs.mkdtempSync(path.join(os.tmpdir(), 'viewer-pages-'));
// Where pictures of the page are kept to be looked at, if anywhere: VIEWER_SHOTS=FOLDER.
const shots = process.env.VIEWER_SHOTS;
const record = fs.readFileSync(path.join(root, 'examples', 'audit', 'record-of-four-over-a-crash.json'), 'utf8');
let browser = null;

function pageFile(name, text) {
    const file = path.join(room, name);
    fs.writeFileSync(file, text);
    return `file://${file}`;
}

async function shot(name) {
    if (shots) await browser.shot(path.join(shots, `${name}.png`));
}

test.before(async () => {
    assert.ok(browserPath(), 'no Chromium: apt-get install chromium, or CHROMIUM=PATH');
    browser = new Browser();
    await browser.start();
});

test.after(async () => {
    await browser?.end();
    fs.rmSync(room, { recursive: true, force: true });
});

async function openPage(theme = 'light') {
    await browser.go(pageFile('run.html', pageOf(record)) + `?theme=${theme}`);
    assert.deepStrictEqual(browser.faults, []);
}

const number = () => browser.run('Number(document.getElementById("number").value)');
const told = () => browser.run('document.getElementById("told").textContent');

test('a page with a record inside shows it', async () => {
    await openPage();
    assert.strictEqual(await browser.run('document.getElementById("heading").textContent'), '4 members: 3 honest, 1 silent; final: view 1 (A)');
    assert.deepStrictEqual(await browser.run('[...document.querySelectorAll("#names .h")].map((it) => it.textContent)'), ['0.0', '1.0', '2.0', '3.0']);
    assert.strictEqual(await browser.run('document.querySelectorAll("#window g[id]").length > 20'), true);
    await shot('light');
});

test('buttons, keys and the slider move the current event, which is told and in sight', async () => {
    await openPage();
    assert.strictEqual(await number(), 1);
    await browser.run('document.getElementById("next").click()');
    await browser.key('ArrowDown');
    await browser.key('j');
    assert.strictEqual(await number(), 4);
    await browser.key('k');
    assert.strictEqual(await number(), 3);
    await browser.key('f');
    assert.strictEqual(await number(), 39);
    assert.match(await told(), /^39 0\.0 step voter, append finalization 1/);
    const inSight = `(() => { const box = document.querySelector('#window .now').getBoundingClientRect(), around = document.getElementById('scroll').getBoundingClientRect();
        return box.top >= around.top && box.bottom <= around.bottom; })()`;
    assert.strictEqual(await browser.run(inSight), true);
    await browser.key('Home');
    await browser.key('b');
    assert.strictEqual(await number(), 11);
    await browser.run('(() => { const it = document.getElementById("slider"); it.value = 30; it.dispatchEvent(new Event("input")); })()');
    assert.strictEqual(await number(), 31);
    assert.strictEqual(await browser.run(inSight), true);
});

test('the names of the lanes stay when the picture is scrolled', async () => {
    await openPage();
    const top = 'document.getElementById("names").getBoundingClientRect().top';
    const before = await browser.run(top);
    await browser.run('document.getElementById("scroll").scrollTop = 200');
    assert.strictEqual(await browser.run(top), before);
    assert.strictEqual(await browser.run('document.getElementById("scroll").scrollTop'), 200);
});

test('filters by node, by kind of message and by view', async () => {
    await openPage();
    const rows = () => browser.run('state.sheet.rows.length');
    await browser.run('document.querySelector("#nodes input[value=\\"1.0\\"]").click()');
    assert.deepStrictEqual(await browser.run('[...document.querySelectorAll("#names .h")].map((it) => it.textContent)'), ['0.0', '2.0', '3.0']);
    assert.ok((await rows()) < 39);
    assert.match(await browser.run('document.getElementById("part").textContent'), /of 39 events.*3 of 4 lanes/);
    assert.match(await browser.run('document.getElementById("heading").textContent'), /^4 members/);
    await browser.run('document.getElementById("all").click()');
    assert.strictEqual(await rows(), 39);
    await browser.run('for (const it of document.querySelectorAll("#kinds input")) if (it.value !== "finalize") it.click()');
    assert.deepStrictEqual(await browser.run('[...state.sheet.rows]'), [24, 29, 33, 36, 37]);
    await browser.run('document.getElementById("all").click()');
    await browser.run('(() => { const it = document.getElementById("fromView"); it.value = 2; it.dispatchEvent(new Event("change")); })()');
    assert.ok((await rows()) < 39 && (await rows()) > 5);
});

test('zoom, and the summary by view leads to a view', async () => {
    await openPage();
    const height = () => browser.run('document.getElementById("space").clientHeight');
    const near = await height();
    for (let times = 0; times < 4; times++) await browser.key('-');
    assert.ok((await height()) < near / 4);
    assert.ok((await browser.run('document.querySelectorAll("#window .r").length')) > 0);
    await shot('far');
    await browser.key('End');
    await browser.run('document.getElementById("views").dispatchEvent(new MouseEvent("click", { clientX: document.getElementById("views").getBoundingClientRect().left + 3, clientY: document.getElementById("views").getBoundingClientRect().top + 3 }))');
    assert.ok((await number()) < 39);
});

test('light and dark, by the system and by the button', async () => {
    await openPage('dark');
    const paper = () => browser.run('getComputedStyle(document.body).backgroundColor');
    assert.strictEqual(await paper(), 'rgb(22, 24, 28)');
    await shot('dark');
    await browser.run('document.getElementById("theme").click()');
    assert.strictEqual(await paper(), 'rgb(255, 255, 255)');
    await browser.ask('Emulation.setEmulatedMedia', { features: [{ name: 'prefers-color-scheme', value: 'dark' }] });
    await browser.go(pageFile('run.html', pageOf(record)));
    assert.strictEqual(await paper(), 'rgb(22, 24, 28)');
    await browser.ask('Emulation.setEmulatedMedia', { features: [{ name: 'prefers-color-scheme', value: 'light' }] });
    await new Promise((resolve) => setTimeout(resolve, 500));
    assert.strictEqual(await paper(), 'rgb(255, 255, 255)');
});

test('the statistics of a run', async () => {
    await openPage();
    const text = await browser.run('document.getElementById("statistics").textContent');
    assert.match(text, /39 events, 4 nodes/);
    assert.match(text, /vote6181242/);
});

test('what is saved is a well-formed picture of what is shown', async () => {
    await openPage();
    const saved = await browser.run(`(() => { const made = new DOMParser().parseFromString(svgText(), 'image/svg+xml');
        return { fault: made.querySelector('parsererror') !== null, name: made.documentElement.nodeName, marks: made.querySelectorAll('g[id]').length }; })()`);
    assert.deepStrictEqual(saved, { fault: false, name: 'svg', marks: 39 });
});

test('all rows are there to be printed', async () => {
    await openPage();
    await browser.run('dispatchEvent(new Event("beforeprint"))');
    assert.strictEqual(await browser.run('document.querySelectorAll("#window g[id]").length'), 39);
    await browser.run('dispatchEvent(new Event("afterprint"))');
    const { data } = await browser.ask('Page.printToPDF', {});
    assert.ok(Buffer.from(data, 'base64').length > 10000);
});

test('index.html opens a record that is chosen or dropped, and says why it opens no other file', async () => {
    await browser.go(`file://${path.join(root, 'viewer', 'index.html')}`);
    assert.strictEqual(await browser.run('document.getElementById("empty").hidden'), false);
    const opened = `(text) => { const files = new DataTransfer(); files.items.add(new File([text], 'x.json')); const drop = new DragEvent('drop', { dataTransfer: files }); dispatchEvent(drop);
        return new Promise((resolve) => setTimeout(() => resolve([document.getElementById('fault').textContent, document.body.dataset.fault ?? '', state.run ? state.run.count : 0]), 1500)); }`;
    const drop = (text) => browser.run(`(${opened})(${JSON.stringify(text)})`);
    assert.deepStrictEqual((await drop('{"setup":')).slice(0, 1), ['The file is no JSON.']);
    assert.match((await drop(fs.readFileSync(path.join(root, 'examples', 'net', 'one-member-finalizes.json'), 'utf8')))[0], /input and no record/);
    assert.strictEqual((await drop(record))[2], 39);
    const { root: top } = await browser.ask('DOM.getDocument');
    const { nodeId } = await browser.ask('DOM.querySelector', { nodeId: top.nodeId, selector: '#file' });
    await browser.ask('DOM.setFileInputFiles', { nodeId, files: [path.join(root, 'examples', 'audit', 'record-of-one-member.json')] });
    await new Promise((resolve) => setTimeout(resolve, 1500));
    assert.strictEqual(await browser.run('state.run.count'), 10);
    assert.deepStrictEqual(browser.faults, []);
});

test('a narrow window', async () => {
    await browser.size(420, 800);
    await openPage();
    await shot('narrow');
    assert.ok(await browser.run('document.documentElement.scrollWidth <= 420'));
    await browser.size(1300, 900);
});

test('200,000 events open within three seconds, and few of them are drawn', async () => {
    await browser.ask('Performance.enable', { timeDomain: 'threadTicks' });
    const file = path.join(room, 'long.json');
    fs.writeFileSync(file, longRecord(200000));
    await browser.go(`file://${path.join(root, 'viewer', 'index.html')}`);
    const { root: top } = await browser.ask('DOM.getDocument');
    const { nodeId } = await browser.ask('DOM.querySelector', { nodeId: top.nodeId, selector: '#file' });
    await browser.ask('DOM.setFileInputFiles', { nodeId, files: [file] });
    for (let tries = 0; tries < 600 && !(await browser.run('document.body.dataset.opened !== undefined')); tries++) await new Promise((resolve) => setTimeout(resolve, 100));
    const took = await browser.run('Number(document.body.dataset.opened)');
    const { metrics } = await browser.ask('Performance.getMetrics');
    const own = metrics.find((it) => it.name === 'TaskDuration').value * 1000;
    console.log(`# opened in ${took} ms, of the processor ${Math.round(own)} ms, at a load of ${os.loadavg()[0]}`);
    assert.strictEqual(await browser.run('state.sheet.rows.length'), 200000);
    assert.ok((await browser.run('document.querySelectorAll("#window *").length')) < 3000);
    await browser.key('End');
    assert.strictEqual(await number(), 200000);
    const step = await browser.run('(() => { const begun = performance.now(); for (let row = 0; row < 20; row++) go(row * 9000, true); return (performance.now() - begun) / 20; })()');
    console.log(`# a jump takes ${step.toFixed(1)} ms`);
    await shot('long');
    for (let times = 0; times < 6; times++) await browser.key('-');
    await shot('long-far');
    // Where others have the machine only the processor's time tells.
    const isBusy = os.loadavg()[0] > os.cpus().length;
    assert.ok(took < 3000 || (isBusy && own < 5000), `${took} ms, of the processor ${own} ms, at a load of ${os.loadavg()[0]}`);
});
