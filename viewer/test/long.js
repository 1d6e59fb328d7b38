// A long record: the run of four members over a crash, again and again, each time in later views.
'use strict';
const fs = require('fs');
const path = require('path');
const Viewer = require('../viewer.js');

const source = path.join(__dirname, '..', '..', 'examples', 'audit', 'record-of-four-over-a-crash.json');

function number(value) {
    let hex = '';
    let rest = value;
    do {
        const byte = rest % 128;
        rest = Math.floor(rest / 128);
        hex += (byte + (rest ? 128 : 0)).toString(16).padStart(2, '0');
    } while (rest);
    return hex;
}

// The bytes of a vote, a certificate or a record with its view moved on: the epoch is the byte behind the tag, and then the view.
function moved(hex, by) {
    const bytes = new Viewer.Bytes(hex);
    const head = bytes.digits(2);
    return head + number(bytes.number() + by) + hex.slice(bytes.at);
}

function longRecord(count) {
    const record = JSON.parse(fs.readFileSync(source, 'utf8'));
    const each = record.events.length;
    const events = [];
    const entries = [];
    for (let place = 0; place < count; place++) {
        const lap = Math.floor(place / each);
        const by = lap;
        const shift = lap * each;
        const event = record.events[place % each];
        const entry = record.entries[place % each];
        const later = ([at, item]) => [at + shift, item];
        events.push({ ...event, ...(event.packet ? { packet: later(event.packet) } : {}), ...(event.request ? { request: later(event.request) } : {}) });
        const took = entry.took && entry.took.packet ? { packet: later(entry.took.packet) } : entry.took;
        entries.push({
            ...entry,
            event: place + 1,
            took,
            added: entry.added.map((hex) => moved(hex, by)),
            asked: entry.asked.map((it) => ({ ...it, round: [it.round[0], it.round[1] + by] })),
            calls: entry.calls.map((call) => {
                if (call.append) return { append: [call.append[0] + by, moved(call.append[1], by)] };
                if (call.report) return { report: moved(call.report, by) };
                if (call.send) return { send: [call.send[0], moved(call.send[1], by)] };
                return call;
            }),
            packets: entry.packets.map((packet) => ({ ...packet, bytes: moved(packet.bytes, by) })),
        });
    }
    return JSON.stringify({ entries, events, setup: record.setup });
}

module.exports = { longRecord };
