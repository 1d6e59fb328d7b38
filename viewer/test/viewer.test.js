// What the viewer makes of records: of those in examples/, and of those that make viewer-test makes of all inputs there.
'use strict';
const test = require('node:test');
const assert = require('node:assert');
const { spawnSync } = require('child_process');
const fs = require('fs');
const os = require('os');
const path = require('path');
const Viewer = require('../viewer.js');
const { longRecord } = require('./long.js');

const root = path.join(__dirname, '..', '..');
const examples = path.join(root, 'examples');
const made = path.join(root, 'unproved', 'records');
const read = (...parts) => fs.readFileSync(path.join(...parts), 'utf8');
const example = (name) => new Viewer.Run(read(examples, 'audit', `${name}.json`));

// The runs of all inputs in examples/net, with their traces, by name.
const runs = fs.existsSync(made)
    ? fs.readdirSync(made).filter((file) => file.endsWith('.json')).map((file) => ({ name: file.slice(0, -5), text: read(made, file) }))
    : [];

// A line of trace without what a record leaves out: mail, and the calls that stand as "other".
const UNNAMED = /^(relay |block |report (evidence|notarize|nullify|finalize) )/;
function left(line) {
    const [deed, ...items] = line.split(', ');
    return [deed, ...items.filter((item) => !item.startsWith('mail for ')).map((item) => (UNNAMED.test(item) ? 'other' : item))].join(', ');
}

test('the records of all inputs of examples are there', () => {
    assert.ok(runs.length >= 40, `make viewer-test makes them: there are ${runs.length}`);
});

test('each line is the one of trace, but for what a record leaves out', () => {
    let lines = 0;
    for (const { name, text } of runs) {
        const run = new Viewer.Run(text);
        assert.strictEqual(run.lines.length, run.count, name);
        for (let number = 1; number <= run.count; number++) {
            assert.strictEqual(Viewer.recordLine(run.event(number), run.entry(number)), left(run.lines[number - 1]), name);
            assert.strictEqual(run.line(number), run.lines[number - 1]);
            lines++;
        }
    }
    assert.ok(lines > 1500, `${lines} lines`);
});

test('finalizations, evidence and stops are those that the program prints', () => {
    let all = 0;
    for (const { name, text } of runs) {
        const run = new Viewer.Run(text);
        if (run.refused.length) continue;
        const printed = read(examples, 'net', `${name}.out`).trim().split('\n').filter(Boolean);
        const of = (word) => printed.filter((line) => line.split(' ')[4] === word);
        const number = (line) => Number(line.split(' ')[1]);
        assert.deepStrictEqual(run.finalEvents, of('finalized').map(number), name);
        assert.deepStrictEqual(run.stops, of('stopped').map(number), name);
        const blames = run.blames.map((it) => `${it.event} ${it.kind} ${it.member} ${it.view}`);
        assert.deepStrictEqual(blames, of('evidence').map((line) => `${number(line)} ${line.split(' ').slice(5).join(' ')}`), name);
        for (const line of of('finalized')) {
            const [view, payload] = line.split(' ').slice(5);
            assert.strictEqual(run.finals.get(Number(view)), payload, name);
            assert.strictEqual(run.viewState(Number(view)), 'final');
        }
        all += printed.length;
    }
    assert.ok(all > 100, `${all} lines`);
});

test('a member that is blocked is counted, with the cause', () => {
    const found = runs.find((it) => it.name === 'equivocator-is-reported');
    const run = new Viewer.Run(found.text);
    assert.deepStrictEqual(run.blocks, [{ event: 42, member: 2, cause: 'conflicting votes' }]);
    const counted = run.statistics();
    assert.strictEqual(counted.members[2].blamed, 1);
    assert.strictEqual(counted.members[2].blocked, 1);
    assert.strictEqual(counted.evidence, 1);
    const svg = Viewer.svg(run);
    assert.ok(svg.includes(Viewer.SIGNS.blame) && svg.includes(Viewer.SIGNS.block));
});

test('lines of a record alone', () => {
    const run = example('record-of-one-member');
    assert.strictEqual(run.line(1), '1 0.0 start, ask propose 1 as 1.0');
    assert.strictEqual(run.line(3), '3 0.0 step propose, other, append notarize 1, sync 1, send vote, vote 3.0 to');
    assert.strictEqual(run.line(7), '7 0.0 answer 6.0 verdict true');
    assert.match(run.line(8), /^8 0\.0 step certify, append certification 1, append finalize 1, sync 1, report certification 1, send vote, /);
    assert.strictEqual(run.statistics().evidence, null);
});

test('statistics of four members over a crash', () => {
    const counted = example('record-of-four-over-a-crash').statistics();
    assert.deepStrictEqual([counted.events, counted.nodes, counted.finalizations, counted.stops], [39, 4, 1, 1]);
    assert.deepStrictEqual([counted.views.final, counted.views.nullified, counted.views.open], [1, 0, 0]);
    assert.deepStrictEqual(counted.channels.vote, { packets: 6, copies: 18, bytes: 18 * 69, taken: 6 });
    assert.strictEqual(counted.members[1].proposed, 1);
    assert.deepStrictEqual(counted.members.map((it) => it.notarize), [1, 1, 1, 0]);
});

test('a view that is given up is nullified, and its lanes show it', () => {
    const run = new Viewer.Run(runs.find((it) => it.name === 'lost-proposal-is-nullified').text);
    assert.strictEqual(run.viewState(1), 'nullified');
    assert.strictEqual(run.viewState(2), 'open');
    assert.strictEqual(run.views[15], 2);
    assert.strictEqual(run.views[14], 1);
});

test('a twin has two lanes', () => {
    const run = new Viewer.Run(runs.find((it) => it.name === 'twins-do-not-split').text);
    assert.deepStrictEqual(run.lanes.map((lane) => lane.name), ['0.0', '1.0', '2.0', '3.0', '3.1']);
    assert.match(run.heading(), /^4 members: 3 honest, 1 twin; /);
});

test('a refused run is shown up to the refusal, with the reason', () => {
    const run = new Viewer.Run(runs.find((it) => it.name === 'answered-twice').text);
    assert.match(run.refused[0] + run.refused.join(' '), /refused NotPending at \d+.*why: /);
    assert.ok(Viewer.svg(run).includes('refused NotPending at'));
});

test('a part of a run tells the members and what is final of the whole', () => {
    const run = example('record-of-four-over-a-crash');
    const whole = Viewer.svg(run);
    const heading = '4 members: 3 honest, 1 silent; final: view 1 (A)';
    assert.ok(whole.includes(`>${heading}</text>`));
    for (const options of [{ nodes: ['0.0', '2.0'] }, { first: 5, last: 10 }, { fromView: 2, toView: 2 }]) {
        const part = Viewer.svg(run, options);
        assert.ok(part.includes(`>${heading}</text>`), JSON.stringify(options));
        assert.match(part, /\d+ of 39 events/);
        assert.ok((part.match(/<g id="e/g) ?? []).length < 39);
    }
    const two = Viewer.svg(run, { nodes: ['0.0', '2.0'] });
    assert.ok(two.includes('on 2 of 4 lanes') && !two.includes('>1.0</text>') && two.includes('class="ring"'));
});

// The segments of an arrow's way: M x y, then V, H and L.
function segments(way) {
    const found = [];
    let at = null;
    for (const [, letter, words] of way.matchAll(/([MVHL])([^MVHL]*)/g)) {
        const [a, b] = words.trim().split(/[ ,]+/).map(Number);
        const to = letter === 'V' ? [at[0], a] : letter === 'H' ? [a, at[1]] : [a, b];
        if (letter !== 'M') found.push([at, to]);
        at = to;
    }
    return found;
}

function crosses([from, to], box) {
    const [left, right] = [Math.min(from[0], to[0]), Math.max(from[0], to[0])];
    const [top, foot] = [Math.min(from[1], to[1]), Math.max(from[1], to[1])];
    return left < box.x + box.width && right > box.x && top < box.y + box.height && foot > box.y;
}

test('no arrow goes across a label', () => {
    let tried = 0;
    for (const { name, text } of runs) {
        const run = new Viewer.Run(text);
        if (run.count > 300) continue;
        const svg = Viewer.svg(run);
        const boxes = [...svg.matchAll(/data-label="(\d+)" x="([\d.-]+)" y="([\d.-]+)" width="([\d.]+)" height="([\d.]+)"/g)]
            .map(([, event, x, y, width, height]) => ({ event, x: Number(x), y: Number(y), width: Number(width), height: Number(height) }));
        for (const [, way] of svg.matchAll(/<path class="a [^"]*" d="([^"]*)"/g)) {
            if (/[lz]/.test(way)) continue;
            for (const segment of segments(way)) {
                for (const box of boxes) {
                    assert.ok(!crosses(segment, box), `${name}: an arrow ${way} across a label of event ${box.event}`);
                    tried++;
                }
            }
        }
    }
    assert.ok(tried > 1000);
});

test('pictures are as wide as a page of text, and their words are large enough', () => {
    for (const { text } of runs.slice(0, 20)) {
        const run = new Viewer.Run(text);
        if (run.lanes.length > 7) continue;
        const svg = Viewer.svg(run);
        assert.match(svg, /width="850"/);
        assert.ok(Math.min(...[...svg.matchAll(/(\d+)px sans-serif/g)].map((it) => Number(it[1]))) >= 9);
    }
});

test('bytes that mean nothing are unread, and numbers are of the shortest form', () => {
    assert.strictEqual(Viewer.messageOf({ channel: 'vote', bytes: 'ff00' }).what, 'unread');
    assert.strictEqual(Viewer.messageOf({ channel: 'vote', bytes: '' }).what, 'unread');
    const nullify = `0100${'01'}02${'00'.repeat(32)}`;
    assert.deepStrictEqual(Viewer.messageOf({ channel: 'vote', bytes: nullify }).signers, [2]);
    assert.strictEqual(Viewer.messageOf({ channel: 'vote', bytes: nullify + '00' }).what, 'unread');
    assert.strictEqual(Viewer.messageOf({ channel: 'vote', bytes: `010081${'00'}02${'00'.repeat(32)}` }).what, 'unread');
    assert.strictEqual(new Viewer.Bytes('ffffffffffffffffff01').number(), 18446744073709551615n);
    assert.throws(() => new Viewer.Bytes('ffffffffffffffffff02').number());
    assert.strictEqual(new Viewer.Bytes('8001').number(), 128);
    assert.throws(() => new Viewer.Bytes('8000').number());
    const two = `0100010202${'00'.repeat(32)}01${'00'.repeat(32)}`;
    assert.strictEqual(Viewer.messageOf({ channel: 'certificate', bytes: two }).what, 'unread');
    assert.deepStrictEqual(Viewer.messageOf({ channel: 'resolver', bytes: '0000000000000001000000000000000007' }), { what: 'request', view: 7, signers: [] });
    assert.strictEqual(Viewer.messageOf({ channel: 'resolver', bytes: '000000000000000102' }).what, 'nothing');
});

test('whole numbers keep all their digits', () => {
    const record = JSON.parse(read(examples, 'audit', 'record-of-one-member.json'));
    record.events.push({ do: 'tick', ms: 0 });
    record.entries.push({ event: 11, who: null, took: null, added: [], asked: [], dropped: [], calls: [], packets: [], outcome: 'done' });
    const text = JSON.stringify(record).replace('"ms":0', '"ms":9223372036854775807');
    assert.strictEqual(new Viewer.Run(text).line(11), '11 tick 9223372036854775807');
});

test('what is no record is refused with a reason', () => {
    assert.throws(() => new Viewer.Run('{'), SyntaxError);
    assert.throws(() => new Viewer.Run('[]'), /no JSON object/);
    assert.throws(() => new Viewer.Run('{}'), /no setup/);
    assert.throws(() => new Viewer.Run(read(examples, 'net', 'one-member-finalizes.json')), /input and no record/);
});

test('words of a file are no markup of a picture', () => {
    const record = JSON.parse(read(examples, 'audit', 'record-of-one-member.json'));
    record.lines = record.events.map((_, place) => `${place + 1} <script>alert(1)</script> & more`);
    const svg = Viewer.svg(new Viewer.Run(record));
    assert.ok(!svg.includes('<script'));
    assert.ok(svg.includes('&lt;script&gt;'));
});

test('the command writes the picture of a part, and refuses other words', () => {
    const command = (...words) => spawnSync('node', [path.join(__dirname, '..', 'viewer.js'), ...words], { input: read(examples, 'audit', 'record-of-four-over-a-crash.json'), encoding: 'utf8' });
    const part = command('svg', '--events', '5-10', '--nodes', '0,1.0');
    assert.strictEqual(part.status, 0);
    assert.match(part.stdout, /^<svg .*<\/svg>\n$/s);
    assert.strictEqual(command('lines').stdout.split('\n').length, 40);
    assert.strictEqual(JSON.parse(command('statistics').stdout).events, 39);
    assert.deepStrictEqual([command('svg', '--nodes', '7.0').status, command('picture').status], [2, 2]);
    assert.match(command('svg', '--nodes', '7.0').stderr, /there is no node 7\.0/);
});

test('a page has the record inside, and its text does not end the script', () => {
    const { pageOf } = require('../page.js');
    const page = pageOf('{"a":"</script><b>"}');
    assert.ok(page.includes('{"a":"\\u003c/script>\\u003cb>"}'));
    assert.ok(!page.includes('src="viewer.js"'));
    assert.ok(!/https?:\/\/(?!www\.w3\.org)/.test(page));
});

test('200,000 events are read and laid out within three seconds', () => {
    const text = longRecord(200000);
    const begun = performance.now();
    const before = process.cpuUsage();
    const run = new Viewer.Run(text);
    const sheet = new Viewer.Sheet(run);
    const took = performance.now() - begun;
    const used = process.cpuUsage(before);
    const own = (used.user + used.system) / 1000;
    console.log(`# ${(text.length / 1e6).toFixed(0)} MB, ${Math.round(took)} ms, of the processor ${Math.round(own)} ms`);
    assert.strictEqual(sheet.rows.length, 200000);
    // Where others have the machine only the processor's time tells, which has that of the collector's threads too.
    const isBusy = os.loadavg()[0] > os.cpus().length;
    assert.ok(took < 3000 || (isBusy && own < 5000), `${took} ms, of the processor ${own} ms, at a load of ${os.loadavg()[0]}`);
});
