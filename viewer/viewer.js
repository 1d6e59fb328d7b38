// What a record of a run says, and its picture as SVG. The page (index.html) and node (picture.js, page.js) use this file.
//
// A record is what `letsvaku record` writes: setup, events and entries. It may also have `lines`, what
// `letsvaku trace` writes of the same input, and `refused`, the lines on the event at which the run ended. Of what a
// record alone leaves out (votes and evidence that were reported, payloads that were relayed, members that were blocked, messages
// between actors) only the lines tell.
'use strict';
const Viewer = (() => {
    // ---- bytes

    const DIGITS = new Int8Array(128).fill(-1);
    for (let value = 0; value < 16; value++) DIGITS['0123456789abcdef'.charCodeAt(value)] = value;

    // Reads bytes that are written as hexadecimal digits. A read past the end, or of what is not of the form, throws.
    class Bytes {
        constructor(hex) {
            this.hex = hex;
            this.at = 0;
        }

        byte() {
            const at = this.at;
            if (at + 2 > this.hex.length) throw new Error('short');
            this.at = at + 2;
            return (DIGITS[this.hex.charCodeAt(at)] << 4) | DIGITS[this.hex.charCodeAt(at + 1)];
        }

        // A number in base 128, the least part first, in its shortest form. Above 2^53 it is a BigInt.
        number() {
            let value = 0;
            let unit = 1;
            for (let place = 0; ; place++) {
                const byte = this.byte();
                if (place === 7 || (place > 0 && byte === 0)) {
                    if (byte === 0) throw new Error('long number');
                    return this.great(BigInt(value), 49n, byte);
                }
                value += (byte & 127) * unit;
                if (byte < 128) return value;
                unit *= 128;
            }
        }

        great(low, shift, first) {
            let value = low;
            let bits = shift;
            for (let byte = first; ; byte = this.byte()) {
                if (byte === 0 || bits > 63n) throw new Error('long number');
                value += BigInt(byte & 127) << bits;
                bits += 7n;
                if (byte < 128) break;
            }
            if (value >= 1n << 64n) throw new Error('long number');
            return value <= BigInt(Number.MAX_SAFE_INTEGER) ? Number(value) : value;
        }

        // A number in eight bytes, the highest first.
        wide() {
            const value = BigInt('0x' + this.digits(8));
            return value <= BigInt(Number.MAX_SAFE_INTEGER) ? Number(value) : value;
        }

        digits(bytes) {
            const from = this.at;
            if (from + 2 * bytes > this.hex.length) throw new Error('short');
            this.at = from + 2 * bytes;
            return this.hex.slice(from, this.at);
        }

        end() {
            if (this.at !== this.hex.length) throw new Error('long');
        }
    }

    const KINDS = ['notarize', 'nullify', 'finalize'];
    const CERTIFICATES = ['notarization', 'nullification', 'finalization'];

    // A proposal, or of a nullify the round.
    function subject(bytes, kind) {
        const epoch = bytes.number();
        const view = bytes.number();
        if (kind === 1) return { epoch, view, parent: null, payload: null };
        const parent = bytes.number();
        return { epoch, view, parent, payload: bytes.digits(32) };
    }

    function signer(bytes) {
        const member = bytes.number();
        bytes.digits(32);
        return member;
    }

    function tagged(bytes) {
        const kind = bytes.byte();
        if (kind > 2) throw new Error('tag');
        return kind;
    }

    function readVote(bytes, kind) {
        return { what: KINDS[kind], kind, ...subject(bytes, kind), signers: [signer(bytes)] };
    }

    function readCertificate(bytes, kind) {
        const made = { what: CERTIFICATES[kind], kind, ...subject(bytes, kind), signers: [] };
        for (let left = bytes.number(); left > 0; left--) {
            const member = signer(bytes);
            if (made.signers.length && made.signers[made.signers.length - 1] >= member) throw new Error('order');
            made.signers.push(member);
        }
        return made;
    }

    function readAll(hex, read) {
        try {
            const bytes = new Bytes(hex);
            const made = read(bytes);
            bytes.end();
            return made;
        } catch {
            return null;
        }
    }

    const certificateOf = (hex) => readAll(hex, (bytes) => readCertificate(bytes, tagged(bytes)));

    function resolverMessage(bytes) {
        bytes.digits(8);
        const tag = bytes.byte();
        if (tag === 0) return { what: 'request', view: bytes.wide(), signers: [] };
        if (tag === 1) {
            const certificate = certificateOf(bytes.digits(bytes.number()));
            return { what: 'response', view: certificate ? certificate.view : null, certificate, signers: [] };
        }
        if (tag === 2) return { what: 'nothing', view: null, signers: [] };
        throw new Error('tag');
    }

    const UNREAD = { what: 'unread', view: null, signers: [] };

    // What a packet carries: a vote, a certificate, a request, a response, nothing (there is no answer), or unread.
    function messageOf(packet) {
        const channel = packet.channel;
        if (channel === 'certificate') return certificateOf(packet.bytes) ?? UNREAD;
        const read = channel === 'vote' ? (bytes) => readVote(bytes, tagged(bytes)) : resolverMessage;
        return readAll(packet.bytes, read) ?? UNREAD;
    }

    // A record of a journal: an own vote, a certificate, or the verdict on a view.
    function artifactOf(hex) {
        return readAll(hex, (bytes) => {
            const tag = bytes.byte();
            if (tag === 2) {
                const epoch = bytes.number();
                const view = bytes.number();
                return { what: 'certification', view, epoch, verdict: bytes.byte() === 1, signers: [] };
            }
            const votes = [0, 3, 5].indexOf(tag);
            if (votes >= 0) return readVote(bytes, votes);
            const certificates = [1, 4, 6].indexOf(tag);
            if (certificates >= 0) return readCertificate(bytes, certificates);
            throw new Error('tag');
        });
    }

    // The kind, view and payload of a certificate or a record, without its signatures: of many it is enough.
    function headOf(hex, tags) {
        try {
            const bytes = new Bytes(hex);
            const what = tags[bytes.byte()];
            if (what === undefined) return null;
            const votes = KINDS.indexOf(what);
            const kind = votes >= 0 ? votes : CERTIFICATES.indexOf(what);
            const head = subject(bytes, what === 'certification' ? 1 : kind);
            return { what, kind, view: head.view, payload: head.payload, verdict: what === 'certification' && bytes.byte() === 1 };
        } catch {
            return null;
        }
    }
    const ARTIFACTS = ['notarize', 'notarization', 'certification', 'nullify', 'nullification', 'finalize', 'finalization'];

    // ---- lines, as `letsvaku trace` writes them

    const nodeText = (node) => `${node[0]}.${node[1]}`;
    const short = (payload) => payload.slice(0, 8);

    function answerText(answer) {
        if (typeof answer === 'string') return answer;
        const [name, value] = Object.entries(answer)[0];
        return name === 'verdict' ? `verdict ${value}` : `${name} ${short(value)}`;
    }

    function startText(event) {
        const floor = event.floor === null ? null : certificateOf(event.floor);
        return floor ? `start at view ${floor.view}` : 'start';
    }

    // The event, in the words of an input.
    function deedText(event) {
        switch (event.do) {
            case 'tick':
                return `tick ${event.ms}`;
            case 'inject':
                return `${event.member} inject ${event.channel}`;
            case 'start':
                return `${nodeText(event.node)} ${startText(event)}`;
            case 'deliver':
                return `${nodeText(event.node)} deliver ${event.packet[0]}.${event.packet[1]}`;
            case 'step':
                return `${nodeText(event.node)} step ${event.source}`;
            case 'answer':
                return `${nodeText(event.node)} answer ${event.request[0]}.${event.request[1]} ${answerText(event.answer)}`;
            default:
                return `${nodeText(event.node)} ${event.do}`;
        }
    }

    // Whether the entry has the certification of this view among its records.
    const certifies = (entry, view) =>
        entry.calls.some((call) => {
            const artifact = call.append ? artifactOf(call.append[1]) : null;
            return artifact !== null && artifact.what === 'certification' && artifact.view === view;
        });

    // A record has a certification as its notarization. It is the certification where the same entry stores the verdict on the view,
    // or has reported the notarization before, as a start does with what it finds in its journal.
    function reportText(entry, place) {
        const hex = entry.calls[place].report;
        const certificate = certificateOf(hex);
        if (!certificate) return 'report unread';
        const isVerdict = certificate.kind === 0
            && (certifies(entry, certificate.view) || entry.calls.slice(0, place).some((call) => call.report === hex));
        return `report ${isVerdict ? 'certification' : certificate.what} ${certificate.view}`;
    }

    function callText(entry, place) {
        const call = entry.calls[place];
        if (call === 'other') return 'other';
        if (call.append) return `append ${artifactOf(call.append[1])?.what ?? 'unread'} ${call.append[0]}`;
        if (call.sync !== undefined) return `sync ${call.sync}`;
        if (call.prune !== undefined) return `prune below ${call.prune}`;
        if (call.send) return `send ${call.send[0]}`;
        return reportText(entry, place);
    }

    const OUTCOMES = {
        idle: 'nothing to take',
        refused: 'refused: its sender is blocked',
        journal: 'stopped: the journal failed',
        cut: 'stopped: cut off',
    };

    // What came of an event, item by item, but for messages in mailboxes, which a record leaves out.
    function itemsOf(entry) {
        const items = entry.calls.map((_, place) => callText(entry, place));
        entry.asked.forEach((asked, place) => items.push(`ask ${asked.kind} ${asked.round[1]} as ${entry.event}.${place}`));
        entry.packets.forEach((packet, place) =>
            items.push(`${packet.channel} ${entry.event}.${place} to${packet.to.map((node) => ' ' + nodeText(node)).join('')}`));
        if (OUTCOMES[entry.outcome]) items.push(OUTCOMES[entry.outcome]);
        return items;
    }

    // The line on an event, written from the record alone. Calls that the record does not name stand as `other`.
    const recordLine = (event, entry) => [`${entry.event} ${deedText(event)}`, ...itemsOf(entry)].join(', ');

    // ---- the run

    const isGreat = (value) => typeof value === 'number' && value > Number.MAX_SAFE_INTEGER;

    // Whether a number that a line tells may have been rounded as it was read.
    function isRounded(event, entry) {
        const inCall = (call) => isGreat(call.sync) || isGreat(call.prune) || (call.append && isGreat(call.append[0]));
        return isGreat(event.ms) || entry.calls.some(inCall) || entry.asked.some((it) => isGreat(it.round[1]));
    }

    // Whole numbers that JavaScript would round are kept as strings of digits.
    const exact = (text) => JSON.parse(text.replace(/([:[,]\s*)(\d{16,})(?=\s*[,\]}])/g, '$1"$2"'));

    // Entries that stay text until they are looked at: to make objects of all of a long record takes longer than all else.
    class LateEntries {
        constructor(text, starts, end) {
            this.text = text;
            this.starts = starts;
            this.end = end;
            this.length = starts.length;
            this.kept = new Map();
        }

        read(place) {
            const end = place + 1 < this.length ? this.starts[place + 1] - 1 : this.end;
            return JSON.parse(this.text.slice(this.starts[place], end));
        }

        at(place) {
            let entry = this.kept.get(place);
            if (!entry) {
                entry = this.read(place);
                if (this.kept.size > 60) this.kept.clear();
                this.kept.set(place, entry);
            }
            return entry;
        }
    }

    const HEAD_OF_RECORD = '{"entries":[';
    const HEAD_OF_ENTRY = '{"added":';

    // A record as the program writes it, with its entries still text; null where it is written in another way.
    function split(text) {
        const first = HEAD_OF_RECORD.length;
        const end = text.indexOf('],"events":[');
        if (!text.startsWith(HEAD_OF_RECORD + HEAD_OF_ENTRY) || end < 0) return null;
        const starts = [];
        for (let at = first; at >= 0 && at < end; at = text.indexOf(HEAD_OF_ENTRY, at + 1)) starts.push(at);
        try {
            return { ...JSON.parse('{' + text.slice(end + 2)), entries: new LateEntries(text, starts, end) };
        } catch {
            return null;
        }
    }

    const kindName = (kind) => (typeof kind === 'string' ? kind : Object.keys(kind)[0]).replace('_', '-');
    const WITH_ENGINE = new Set(['honest', 'corrupt', 'unrecovering', 'twin']);

    // A lane for each node: of a twin two, of all other members one.
    function lanesOf(setup) {
        const lanes = [];
        setup.members.forEach((kind, member) => {
            const name = kindName(kind);
            for (let half = 0; half < (name === 'twin' ? 2 : 1); half++) {
                lanes.push({ node: [member, half], name: `${member}.${half}`, kind: name, hasEngine: WITH_ENGINE.has(name) });
            }
        });
        return lanes;
    }

    const isObject = (value) => typeof value === 'object' && value !== null && !Array.isArray(value);

    function fault(text) {
        throw new Error(text);
    }

    // Refuses what is no record, and tells why.
    function checked(record) {
        if (!isObject(record)) fault('the file is no JSON object');
        if (!isObject(record.setup) || !Array.isArray(record.setup.members)) fault('the record has no setup with members');
        if (!Array.isArray(record.events)) fault('the record has no list of events');
        if (!Array.isArray(record.entries) && !(record.entries instanceof LateEntries)) {
            fault('this is an input and no record: letsvaku view FILE makes a page of it (make view INPUT=FILE)');
        }
        return Math.min(record.events.length, record.entries.length);
    }

    const isEntry = (entry) => isObject(entry) && Array.isArray(entry.calls) && Array.isArray(entry.packets) && Array.isArray(entry.asked);

    const BLAME = /^report evidence (\w+) (\d+)$/;
    const BLOCK = /^block (\d+) for (.+)$/;

    // A run as a record tells it: what stands on which lane, what was taken, which view each node is in, and what was counted.
    class Run {
        constructor(text) {
            const isText = typeof text === 'string';
            const late = isText ? split(text) : null;
            if (!late || !this.makes(late)) {
                this.take(isText ? JSON.parse(text) : text);
                this.tallyUp();
            }
            if (isText && this.rounded) {
                this.take(exact(text));
                this.tallyUp();
            }
        }

        // Whether the record is one whose entries can be cut out of its text.
        makes(late) {
            try {
                this.take(late);
                this.tallyUp();
                return true;
            } catch (fault) {
                if (fault instanceof SyntaxError) return false;
                throw fault;
            }
        }

        take(record) {
            this.count = checked(record);
            this.setup = record.setup;
            this.events = record.events;
            this.entries = record.entries;
            this.lines = Array.isArray(record.lines) && record.lines.length >= this.count ? record.lines : null;
            this.refused = Array.isArray(record.refused) ? record.refused : [];
            this.lanes = lanesOf(this.setup);
            this.laneOf = new Map(this.lanes.map((lane, place) => [lane.name, place]));
            this.letters = new Map();
            this.messages = new Map();
            this.packetStart = new Int32Array(this.count + 2);
            this.packetKind = [];
            this.packetChannel = [];
            this.toStart = [0];
            this.toLanes = [];
            this.lane = new Int16Array(this.count + 1).fill(-1);
            this.marks = new Uint8Array(this.count + 1);
            this.views = new Float64Array(this.count + 1);
            this.tookEvent = new Int32Array(this.count + 1);
            this.tookPlace = new Int32Array(this.count + 1);
            this.takers = new Map();
            this.rounded = false;
        }

        event(number) {
            return this.events[number - 1];
        }

        entry(number) {
            return this.entries.at(number - 1);
        }

        // The line on an event: that of `trace` where the file has it, else what the record tells.
        line(number) {
            return this.lines ? this.lines[number - 1] : recordLine(this.event(number), this.entry(number));
        }

        items(number) {
            if (!this.lines) return itemsOf(this.entry(number));
            return this.lines[number - 1].split(', ').slice(1);
        }

        hasPacket(event, place) {
            return event >= 1 && event <= this.count && this.packetStart[event] + place < this.packetStart[event + 1];
        }

        packet(event, place) {
            return this.hasPacket(event, place) ? this.entry(event).packets[place] : undefined;
        }

        // Of which kind the packet is, by its name in MESSAGES.
        kindOf(event, place) {
            return MESSAGES[this.packetKind[this.packetStart[event] + place]];
        }

        message(event, place) {
            const key = event * 65536 + place;
            let message = this.messages.get(key);
            if (!message) {
                message = messageOf(this.packet(event, place));
                if (this.messages.size > 5000) this.messages.clear();
                this.messages.set(key, message);
            }
            return message;
        }

        // A capital letter for each payload, in the order in which they come up.
        letter(payload) {
            if (!payload) return '';
            const place = this.letters.get(payload);
            if (place === undefined) return '';
            return String.fromCharCode(65 + (place % 26)) + (place >= 26 ? String(Math.floor(place / 26)) : '');
        }

        name(payload) {
            if (payload && !this.letters.has(payload)) this.letters.set(payload, this.letters.size);
        }

        termEnd(view) {
            const term = Number(this.setup.term);
            return Math.ceil(Number(view) / term) * term;
        }

        leader(view) {
            const n = this.setup.members.length;
            const term = Math.ceil(Number(view) / Number(this.setup.term));
            const scripted = this.setup.scenario?.[term - 1];
            return scripted ? scripted.leader : (Number(this.setup.epoch) + term) % n;
        }

        tallyUp() {
            const members = this.setup.members.length;
            this.finals = new Map();
            this.byView = new Map();
            this.finalEvents = [];
            this.blames = [];
            this.blocks = [];
            this.stops = [];
            this.channels = {};
            for (const channel of ['vote', 'certificate', 'resolver']) {
                this.channels[channel] = { packets: 0, copies: 0, bytes: 0, taken: 0 };
            }
            this.kinds = new Map();
            this.members = [];
            for (let member = 0; member < members; member++) {
                this.members.push({ proposed: 0, notarize: 0, nullify: 0, finalize: 0, blamed: 0, blocked: 0 });
            }
            const now = new Float64Array(this.lanes.length);
            const kept = this.lanes.map(() => ({ synced: 0, pending: 0 }));
            for (let number = 1; number <= this.count; number++) {
                this.packetStart[number] = this.packetKind.length;
                this.tally(number, now, kept);
            }
            this.packetStart[this.count + 1] = this.packetKind.length;
        }

        viewAt(view, number) {
            let found = this.byView.get(view);
            if (!found) {
                found = { view, final: false, nullified: false, first: number, last: number, proposer: null, payload: null };
                this.byView.set(view, found);
            }
            found.last = number;
            return found;
        }

        tally(number, now, kept) {
            const event = this.event(number);
            const entry = this.entries instanceof LateEntries ? this.entries.read(number - 1) : this.entries[number - 1];
            if (!isObject(event) || !isEntry(entry)) fault(`event ${number} or its entry is not of the form`);
            this.rounded ||= isRounded(event, entry);
            const lane = entry.who ? this.laneOf.get(nodeText(entry.who)) ?? -1 : -1;
            this.lane[number] = lane;
            if (isObject(entry.took) && entry.took.packet) this.tallyTaken(number, entry.took.packet);
            let view = lane < 0 ? 0 : now[lane];
            if (event.do === 'start' && lane >= 0) view = Math.max(1, kept[lane].synced);
            for (const call of entry.calls) view = this.tallyCall(number, call, view, lane, kept);
            for (const added of entry.added ?? []) {
                const certificate = headOf(added, CERTIFICATES);
                if (certificate) view = Math.max(view, this.viewBehind(certificate));
            }
            for (const packet of entry.packets) this.tallyPacket(number, packet);
            if (this.lines) this.tallyLine(number);
            const stops = event.do === 'crash' || entry.outcome === 'cut' || entry.outcome === 'journal';
            if (stops && lane >= 0 && this.lanes[lane].hasEngine) {
                view = 0;
                kept[lane].pending = kept[lane].synced;
                this.stops.push(number);
                this.marks[number] |= 8;
            }
            if (lane >= 0) {
                now[lane] = this.lanes[lane].hasEngine ? view : 0;
                this.views[number] = now[lane];
            }
        }

        tallyTaken(number, at) {
            [this.tookEvent[number], this.tookPlace[number]] = at;
            const takers = this.takers.get(at[0]);
            if (takers) takers.push(number);
            else this.takers.set(at[0], [number]);
            if (at[0] < number && this.packetStart[at[0]] + at[1] < this.packetStart[at[0] + 1]) {
                this.channels[this.packetChannel[this.packetStart[at[0]] + at[1]]].taken += 1;
            }
        }

        // The view that a node enters as it knows this: behind what is final, or certified, and behind the term that is given up.
        viewBehind(known) {
            if (known.kind === 1) return this.termEnd(known.view) + 1;
            if (known.kind === 2) return Number(known.view) + 1;
            return 0;
        }

        tallyCall(number, call, view, lane, kept) {
            if (call.append) {
                const artifact = headOf(call.append[1], ARTIFACTS);
                if (!artifact) return view;
                this.name(artifact.payload);
                const at = this.viewAt(Number(artifact.view), number);
                if (artifact.what === 'nullification') at.nullified = true;
                let entered = 0;
                if (artifact.what === 'certification') entered = artifact.verdict ? Number(artifact.view) + 1 : 0;
                else if (CERTIFICATES.includes(artifact.what)) entered = this.viewBehind(artifact);
                else entered = Number(artifact.view);
                if (lane >= 0) kept[lane].pending = Math.max(kept[lane].pending, entered);
                return Math.max(view, artifact.what === 'notarize' || artifact.what === 'finalize' ? 0 : entered);
            }
            if (call.sync !== undefined && lane >= 0) kept[lane].synced = Math.max(kept[lane].synced, kept[lane].pending);
            if (call.report) {
                const certificate = headOf(call.report, CERTIFICATES);
                if (!certificate || certificate.kind !== 2) return view;
                const of = Number(certificate.view);
                if (!this.finals.has(of)) this.finals.set(of, certificate.payload);
                const at = this.viewAt(of, number);
                at.final = true;
                at.payload = certificate.payload;
                this.finalEvents.push(number);
                this.marks[number] |= 1;
                return Math.max(view, of + 1);
            }
            return view;
        }

        tallyPacket(number, packet) {
            const message = messageOf(packet);
            this.packetKind.push(MESSAGES.indexOf(message.what));
            this.packetChannel.push(packet.channel);
            for (const to of packet.to) this.toLanes.push(this.laneOf.get(nodeText(to)) ?? -1);
            this.toStart.push(this.toLanes.length);
            const bytes = packet.bytes.length / 2;
            const channel = this.channels[packet.channel];
            channel.packets += 1;
            channel.copies += packet.to.length;
            channel.bytes += bytes * packet.to.length;
            this.name(message.payload);
            this.kinds.set(message.what, (this.kinds.get(message.what) ?? 0) + 1);
            if (message.view === null) return;
            const at = packet.channel === 'resolver' ? null : this.viewAt(Number(message.view), number);
            if (packet.channel === 'certificate' && message.what === 'nullification') at.nullified = true;
            const member = this.members[packet.from[0]];
            if (packet.channel !== 'vote' || !member) return;
            member[message.what] += 1;
            if (message.what === 'notarize' && message.signers[0] === packet.from[0] && this.leader(message.view) === packet.from[0]) {
                if (at.proposer === null) member.proposed += 1;
                at.proposer = packet.from[0];
                at.payload ??= message.payload;
            }
        }

        // The one who signed the vote that this event took: whom evidence is on.
        voterTaken(number) {
            const at = [this.tookEvent[number], this.tookPlace[number]];
            if (!this.packet(...at)) return null;
            const message = this.message(...at);
            return message.signers.length === 1 ? message.signers[0] : null;
        }

        tallyLine(number) {
            const line = this.lines[number - 1];
            if (line.includes(', report evidence ') || line.includes(', block ')) {
                for (const item of line.split(', ')) {
                    const blame = BLAME.exec(item);
                    if (blame) this.addBlame(number, blame);
                    const block = BLOCK.exec(item);
                    if (block) this.addBlock(number, Number(block[1]), block[2]);
                }
            }
        }

        addBlame(number, found) {
            const member = this.voterTaken(number);
            this.blames.push({ event: number, kind: found[1], view: Number(found[2]), member });
            this.marks[number] |= 2;
            if (this.members[member]) this.members[member].blamed += 1;
        }

        addBlock(number, member, cause) {
            this.blocks.push({ event: number, member, cause });
            this.marks[number] |= 4;
            if (this.members[member]) this.members[member].blocked += 1;
        }

        viewState(view) {
            const at = this.byView.get(view);
            if (!at) return 'open';
            if (at.final) return 'final';
            return at.nullified || this.isCovered(view) ? 'nullified' : 'open';
        }

        // A nullification covers the later views of its term.
        isCovered(view) {
            for (let earlier = this.termEnd(view) - Number(this.setup.term) + 1; earlier < view; earlier++) {
                if (this.byView.get(earlier)?.nullified) return true;
            }
            return false;
        }

        // What is told of the whole run, whatever part of it a picture shows.
        statistics() {
            const views = [...this.byView.keys()].filter((view) => view > 0).sort((a, b) => a - b);
            const count = { final: 0, nullified: 0, open: 0 };
            for (const view of views) count[this.viewState(view)] += 1;
            return {
                events: this.count,
                nodes: this.lanes.length,
                views: { ...count, greatest: views.length ? views[views.length - 1] : 0, all: views },
                channels: this.channels,
                kinds: Object.fromEntries(this.kinds),
                members: this.members.map((it, member) => ({ member, kind: kindName(this.setup.members[member]), ...it })),
                finalizations: this.finalEvents.length,
                evidence: this.lines ? this.blames.length : null,
                blocks: this.lines ? this.blocks.length : null,
                stops: this.stops.length,
            };
        }

        // The members by kind, and what became final: the same for each part of the run.
        heading() {
            const kinds = new Map();
            for (const kind of this.setup.members) kinds.set(kindName(kind), (kinds.get(kindName(kind)) ?? 0) + 1);
            const members = [...kinds].map(([kind, count]) => `${count} ${kind}`).join(', ');
            const finals = [...this.finals];
            const total = this.setup.members.length;
            let became = 'nothing is final';
            if (finals.length > 6) became = `${finals.length} views are final, the last is ${finals[finals.length - 1][0]}`;
            else if (finals.length) became = `final: ${finals.map(([view, payload]) => `view ${view} (${this.letter(payload)})`).join(', ')}`;
            return `${total} member${total === 1 ? '' : 's'}: ${members}; ${became}`;
        }
    }

    // ---- the picture

    const LEFT = 46;
    const HEAD = 92;
    const TRACK = 3;
    const TRACKS = 4;
    // The colours are those of Okabe and Ito, which readers who do not see all colours tell apart; each kind has a dash or a letter too.
    const COLOURS = `.vw{--ink:#000;--soft:#555;--faint:#999;--line:#ddd;--paper:#fff;--band:#d6eaf6;--edge:#8ab;--now:#fff3c4;--n:#0072b2;--x:#d55e00;--f:#009e73;--q:#cc79a7;--y:#f0e442}`;
    const STYLE = `.vw text{font:11px sans-serif;fill:var(--ink)}
.vw .h{font:bold 14px sans-serif}.vw .s{font-size:10px;fill:var(--soft)}.vw .e{font-size:10px;fill:var(--soft);text-anchor:end}
.vw .m{font:bold 12px sans-serif}.vw .v{font:bold 9px sans-serif;text-anchor:middle}
.vw .w{font:bold 10px sans-serif;fill:#fff;text-anchor:middle}.vw .k{font:bold 9px sans-serif;text-anchor:middle}
.vw .b{fill:#000}.vw .d{font:bold 10px sans-serif}.vw .l{fill:var(--paper)}.vw .o{stroke:var(--faint);stroke-dasharray:1 4}
.vw .r{stroke:var(--ink);stroke-width:1.2}.vw .t{stroke:var(--faint);stroke-dasharray:4 3}.vw .g{stroke:var(--line)}
.vw .b0{fill:var(--band);stroke:var(--edge);stroke-width:.7}.vw .b1{fill:var(--paper);stroke:var(--edge);stroke-width:.7}
.vw .a{fill:none;stroke-width:1.4}.vw .c{stroke-width:2.8}.vw .n{stroke:var(--n)}.vw .x{stroke:var(--x);stroke-dasharray:6 3}
.vw .f{stroke:var(--f);stroke-dasharray:12 3}.vw .q{stroke:var(--q);stroke-dasharray:2 3}.vw .p{stroke:var(--q);stroke-dasharray:8 3 2 3}
.vw .z{stroke:var(--faint);stroke-dasharray:2 3}.vw .u{stroke:var(--ink);stroke-dasharray:1 3}.vw .lost{stroke:var(--faint);stroke-width:1}
.vw .hn{fill:var(--n)}.vw .hx{fill:var(--x)}.vw .hf{fill:var(--f)}.vw .hq{fill:var(--q)}.vw .hu{fill:var(--ink)}
.vw .open{fill:var(--paper);stroke:var(--ink);stroke-width:1.4}.vw .idle{fill:var(--paper);stroke:var(--faint);stroke-dasharray:2 1.5}
.vw .now{fill:var(--now)}.vw .ring{fill:var(--paper);stroke:var(--ink);stroke-width:1.2}`;

    const escaped = (text) => String(text).replace(/&/g, '&amp;').replace(/</g, '&lt;').replace(/>/g, '&gt;');

    const ACTORS = { batcher: 'b', voter: 'v', timer: 'v', propose: 'v', verify: 'v', certify: 'v', resolver: 'r', handler: 'r', fetch: 'r' };

    // The shape of an event's mark.
    function markOf(event, entry) {
        if (entry.outcome === 'idle') return SHAPES.idle;
        if (event.do === 'deliver') return entry.outcome === 'refused' ? SHAPES.refuse : SHAPES.take;
        return SHAPES[event.do] ?? '';
    }

    const CROSS = '<path d="M-6-6L6 6M6-6L-6 6" stroke="var(--ink)" stroke-width="3" fill="none"/>';

    // The shapes of signs, each 16 wide and 14 high around its middle.
    const SIGNS = {
        vn: '<circle r="7" fill="#0072b2"/><text class="w" y="3.5">n</text>',
        vx: '<circle r="7" fill="#d55e00"/><text class="w" y="3.5">x</text>',
        vf: '<circle r="7" fill="#009e73"/><text class="w" y="3.5">f</text>',
        cn: '<rect x="-7" y="-7" width="14" height="14" fill="var(--paper)" stroke="var(--n)" stroke-width="2"/><text class="k" y="3.5">N</text>',
        cx: '<rect x="-7" y="-7" width="14" height="14" fill="var(--paper)" stroke="var(--x)" stroke-width="2"/><text class="k" y="3.5">X</text>',
        cf: '<rect x="-7" y="-7" width="14" height="14" fill="var(--paper)" stroke="var(--f)" stroke-width="2"/><text class="k" y="3.5">F</text>',
        yes: '<path d="M-6 0L-2 4L6-5" fill="none" stroke="var(--f)" stroke-width="2.4"/>',
        no: '<path d="M-4-4L4 4M4-4L-4 4" fill="none" stroke="var(--x)" stroke-width="2.4"/>',
        final: '<path d="M-8-7H5L9 0L5 7H-8z" fill="#009e73"/>',
        blame: '<path d="M0-8L8 6H-8z" fill="#f0e442" stroke="var(--ink)"/><text class="k b" y="4.5">!</text>',
        block: '<path d="M-5-5L5 5M0-7A7 7 0 1 0 .1-7" fill="none" stroke="var(--ink)" stroke-width="2"/>',
    };
    const SHORTS = ['n', 'x', 'f'];
    SHORTS.forEach((kind) => {
        SIGNS['s' + kind] = `<circle r="6.5" fill="var(--paper)" stroke="var(--${kind})" stroke-width="2" stroke-dasharray="3 2"/><text class="k" y="3.5">${kind}</text>`;
    });

    function signersText(signers) {
        return signers.length > 4 || signers.some((it) => it > 9) ? `×${signers.length}` : signers.join('');
    }

    // The signs of an event, each with what stands beside it.
    function signsOf(run, number) {
        const signs = [];
        const entry = run.entry(number);
        for (const call of entry.calls) {
            const artifact = call.append ? artifactOf(call.append[1]) : null;
            if (artifact?.what === 'certification') signs.push({ shape: artifact.verdict ? 'yes' : 'no', text: '' });
            else if (artifact && KINDS.includes(artifact.what)) signs.push({ shape: 'v' + SHORTS[artifact.kind], text: run.letter(artifact.payload) });
            else if (artifact) {
                const words = [run.letter(artifact.payload), signersText(artifact.signers)].filter(Boolean);
                signs.push({ shape: 'c' + SHORTS[artifact.kind], text: words.join(' ') });
            }
            const report = call.report ? certificateOf(call.report) : null;
            if (report?.kind === 2) signs.push({ shape: 'final', inner: String(report.view), text: '' });
        }
        if (run.marks[number] & 2) run.blames.filter((it) => it.event === number).forEach((it) => signs.push({ shape: 'blame', text: it.member === null ? '' : String(it.member) }));
        if (run.marks[number] & 4) run.blocks.filter((it) => it.event === number).forEach((it) => signs.push({ shape: 'block', text: String(it.member) }));
        const lane = run.lanes[run.lane[number]];
        if (lane && !lane.hasEngine) signs.push(...sentSigns(run, number, entry));
        return signs;
    }

    // Of a member without an engine, which stores nothing: what it sends.
    function sentSigns(run, number, entry) {
        const sent = entry.packets.map((_, place) => {
            const message = run.message(number, place);
            if (message.kind === undefined) return { shape: null, text: message.what };
            const kind = SHORTS[message.kind];
            return { shape: (KINDS.includes(message.what) ? 's' : 'c') + kind, text: run.letter(message.payload) };
        });
        return sent.slice(0, 3);
    }

    // The class of an arrow, and of its head.
    function styleOf(message) {
        if (message.what === 'request') return ['q', 'hq'];
        if (message.what === 'response') return ['p', 'hq'];
        if (message.what === 'nothing') return ['z', 'hq'];
        if (message.what === 'unread') return ['u', 'hu'];
        const kind = SHORTS[message.kind];
        return [CERTIFICATES.includes(message.what) ? `${kind} c` : kind, 'h' + kind];
    }

    const MESSAGES = ['notarize', 'nullify', 'finalize', 'notarization', 'nullification', 'finalization', 'request', 'response', 'nothing', 'unread'];

    function messageText(run, message) {
        const signed = message.signers.length ? `, signed by ${message.signers.join(' ')}` : '';
        const payload = message.payload ? `, payload ${run.letter(message.payload)} ${short(message.payload)} on view ${message.parent}` : '';
        if (message.what === 'request') return `asks for a certificate of view ${message.view}`;
        if (message.what === 'response') return message.certificate ? `answers with a ${message.certificate.what} of view ${message.view}` : 'answers with bytes that are no certificate';
        if (message.what === 'nothing') return 'answers that it has none';
        if (message.what === 'unread') return 'bytes that are no message of their channel';
        return `${message.what} of view ${message.view}${payload}${signed}`;
    }

    // Which events, lanes and packets are shown, and where they stand: events from the top down, a row each, and lanes side by side.
    class Sheet {
        constructor(run, options = {}) {
            this.run = run;
            this.step = options.step ?? 26;
            this.nodes = options.nodes?.length ? new Set(options.nodes) : null;
            this.kinds = options.kinds ?? null;
            this.first = Math.max(1, options.first ?? 1);
            this.last = Math.min(run.count, options.last ?? run.count);
            this.fromView = options.fromView ?? null;
            this.toView = options.toView ?? this.fromView;
            this.lanes = run.lanes.map((_, lane) => lane).filter((lane) => !this.nodes || this.nodes.has(run.lanes[lane].name));
            this.placeOf = new Int16Array(run.lanes.length).fill(-1);
            this.lanes.forEach((lane, place) => (this.placeOf[lane] = place));
            this.head = options.head ?? HEAD;
            this.width = options.width ?? 850;
            const most = options.text === false ? this.width - LEFT - 10 : Math.max(this.width * 0.55, this.width - LEFT - 380);
            this.pitch = options.pitch ?? Math.max(72, Math.min(126, Math.floor(most / Math.max(1, this.lanes.length))));
            this.textAt = LEFT + this.pitch * this.lanes.length + 16;
            this.place();
            this.route();
        }

        shows(number) {
            const run = this.run;
            const lane = run.lane[number];
            if (lane >= 0 && this.placeOf[lane] < 0) return false;
            if (this.kinds && !this.hasKind(number)) return false;
            if (this.fromView !== null && lane >= 0 && run.lanes[lane].hasEngine) {
                const view = run.views[number];
                if (view < this.fromView || view > this.toView) {
                    const before = this.before[lane];
                    this.before[lane] = view;
                    return before >= this.fromView && before <= this.toView;
                }
                this.before[lane] = view;
            }
            return true;
        }

        // Whether the event sends or takes a packet of a kind that is wanted.
        hasKind(number) {
            const run = this.run;
            const at = [run.tookEvent[number], run.tookPlace[number]];
            if (run.hasPacket(...at) && this.kinds.has(run.kindOf(...at))) return true;
            for (let place = 0; run.hasPacket(number, place); place++) if (this.kinds.has(run.kindOf(number, place))) return true;
            return false;
        }

        place() {
            const run = this.run;
            this.rowOf = new Int32Array(run.count + 2).fill(-1);
            const rows = new Int32Array(run.count);
            this.before = new Float64Array(run.lanes.length);
            let count = 0;
            for (let number = this.first; number <= this.last; number++) {
                if (!this.shows(number)) continue;
                this.rowOf[number] = count;
                rows[count++] = number;
            }
            this.rows = rows.subarray(0, count);
        }

        y(row) {
            return this.head + row * this.step + this.step / 2;
        }

        x(place) {
            return LEFT + place * this.pitch + 34;
        }

        get height() {
            return this.head + this.rows.length * this.step;
        }

        // The arrows, as columns: each is a packet (event, place), the row that sent it, the row that took it (-1 where none is shown),
        // the lane to which it goes, the track beside that lane on which it waits, and whether its other end is not shown.
        route() {
            this.froms = [];
            this.tos = [];
            this.packetEvents = [];
            this.packetPlaces = [];
            this.places = [];
            this.tracks = [];
            this.outside = [];
            const busy = this.lanes.map(() => []);
            for (let row = 0; row < this.rows.length; row++) {
                const number = this.rows[row];
                const first = this.run.packetStart[number];
                for (let at = 0; first + at < this.run.packetStart[number + 1]; at++) this.routePacket(row, number, at, busy);
                const from = this.run.tookEvent[number];
                if (from > 0 && this.rowOf[from] < 0) this.routeFromOutside(row, [from, this.run.tookPlace[number]]);
            }
        }

        wants(event, at) {
            return !this.kinds || this.kinds.has(this.run.kindOf(event, at));
        }

        push(from, to, event, at, place, track, outside) {
            this.froms.push(from);
            this.tos.push(to);
            this.packetEvents.push(event);
            this.packetPlaces.push(at);
            this.places.push(place);
            this.tracks.push(track);
            this.outside.push(outside);
        }

        routePacket(row, number, at, busy) {
            if (!this.wants(number, at)) return;
            const run = this.run;
            const takers = run.takers.get(number);
            const packet = run.packetStart[number] + at;
            for (let to = run.toStart[packet]; to < run.toStart[packet + 1]; to++) {
                const lane = run.toLanes[to];
                const place = lane < 0 ? -1 : this.placeOf[lane];
                if (place < 0) continue;
                let isTaken = false;
                let isDrawn = false;
                for (const taker of takers ?? []) {
                    if (run.lane[taker] !== lane || run.tookPlace[taker] !== at) continue;
                    isTaken = true;
                    const end = this.rowOf[taker];
                    if (end < 0) continue;
                    isDrawn = true;
                    this.push(row, end, number, at, place, this.trackFor(busy[place], row, end), false);
                }
                if (!isDrawn) this.push(row, -1, number, at, place, 0, isTaken);
            }
        }

        routeFromOutside(row, at) {
            if (!this.run.hasPacket(...at) || !this.wants(...at)) return;
            this.push(-1, row, at[0], at[1], this.placeOf[this.run.lane[this.rows[row]]], 0, true);
        }

        // The first track beside a lane that is free from a row to another; the outermost where none is.
        trackFor(ends, from, to) {
            let track = 0;
            while (track < TRACKS - 1 && ends[track] > from) track++;
            ends[track] = Math.max(ends[track] ?? 0, to);
            return track;
        }

        // ---- what is drawn of the rows from one to another

        // The lanes from one row to another, and the band of each view beside them.
        lanesFrom(from, to) {
            const parts = [];
            const top = this.y(from) - this.step / 2;
            const foot = this.y(to) + this.step / 2;
            for (const lane of this.lanes) {
                const place = this.placeOf[lane];
                const x = this.x(place);
                if (!this.run.lanes[lane].hasEngine) {
                    parts.push(`<path class="r" d="M${x} ${top}V${foot}"/>`);
                    continue;
                }
                let view = this.viewBefore(lane, from);
                let begin = top;
                const span = (end) => parts.push(this.span(x, begin, end, view));
                for (let row = from; row <= to; row++) {
                    const number = this.rows[row];
                    if (this.run.lane[number] !== lane || this.run.views[number] === view) continue;
                    span(this.y(row));
                    view = this.run.views[number];
                    begin = this.y(row);
                }
                span(foot);
            }
            return parts.join('');
        }

        // The view of a lane's node just before a row.
        viewBefore(lane, row) {
            for (let number = (this.rows[row] ?? 1) - 1; number > 0; number--) {
                if (this.run.lane[number] === lane) return this.run.views[number];
            }
            return 0;
        }

        span(x, top, foot, view) {
            if (foot <= top) return '';
            if (view === 0) return `<path class="o" d="M${x} ${top}V${foot}"/>`;
            const squeeze = view > 99 ? ' textLength="11" lengthAdjust="spacingAndGlyphs"' : '';
            const name = foot - top > 11 ? `<text class="v" x="${x - 25}" y="${top + 10}"${squeeze}>${view}</text>` : '';
            return `<g><title>in view ${view}</title><rect class="b${view % 2}" x="${x - 31}" y="${top}" width="12" height="${foot - top}"/>${name}</g><path class="r" d="M${x} ${top}V${foot}"/>`;
        }

        // The heights between two rows at which an event's packets leave.
        gutter(row, at) {
            return this.y(row) + this.step / 2 - 3 + (at % 3) * 2.5;
        }

        arrow(arrow) {
            const run = this.run;
            const event = this.packetEvents[arrow];
            const at = this.packetPlaces[arrow];
            const from = this.froms[arrow];
            const to = this.tos[arrow];
            const place = this.places[arrow];
            const message = run.message(event, at);
            const [style, head] = styleOf(message);
            const x = this.x(place);
            const taken = to >= 0 ? `at event ${this.rows[to]}` : this.outside[arrow] ? 'taken outside of this picture' : 'never taken';
            const title = this.step < 14 ? '' : `<title>${escaped(messageText(run, message))}\nfrom ${nodeText(run.packet(event, at).from)} at event ${event}, packet ${at}, to ${run.lanes[this.lanes[place]].name}, ${taken}</title>`;
            if (from < 0) {
                const y = this.y(to);
                return `<g>${title}<path class="a ${style}" d="M${x - 15} ${y - 9}L${x - 6} ${y - 3}"/><circle class="ring" cx="${x - 15}" cy="${y - 9}" r="2.5"/></g>`;
            }
            const sender = this.placeOf[run.lane[event]];
            const start = sender < 0 ? x : this.x(sender);
            const level = this.gutter(from, at);
            const leave = `M${start} ${this.y(from) + Math.min(6, this.step / 4)}V${level}`;
            if (to < 0) {
                const end = place > sender ? x - 17 : x + 4;
                const mark = this.outside[arrow] ? `<circle class="ring" cx="${end}" cy="${level}" r="2.5"/>` : `<path class="a lost" d="M${end} ${level - 3}V${level + 3}"/>`;
                return `<g>${title}<path class="a ${this.outside[arrow] ? style : 'lost'}" d="${leave}H${end}"/>${mark}</g>`;
            }
            const track = x - 9 - this.tracks[arrow] * TRACK;
            const y = this.y(to);
            const tip = this.step < 8 ? '' : `<path class="${head}" d="M${x - 4} ${y}l-7 -3.5v7z"/>`;
            return `<g>${title}<path class="a ${style}" d="${leave}H${track}V${y}H${x - 5}"/>${tip}</g>`;
        }

        // The arrows with a part between two rows. From far off those that nobody took are left out.
        arrowsFrom(from, to) {
            const parts = [];
            const far = this.step < 8;
            for (let arrow = 0; arrow < this.froms.length; arrow++) {
                const begin = this.froms[arrow] < 0 ? this.tos[arrow] : this.froms[arrow];
                if (begin > to) continue;
                const end = this.tos[arrow] < 0 ? this.froms[arrow] : this.tos[arrow];
                if (end < from || (far && this.tos[arrow] < 0)) continue;
                parts.push(this.arrow(arrow));
            }
            return parts.join('');
        }

        // A mark seen from far off: a bar of the colour of what is looked for.
        dash(row) {
            const number = this.rows[row];
            const marks = this.run.marks[number];
            const lane = this.run.lane[number];
            const y = this.y(row);
            if (lane < 0) return `<path class="t" d="M${LEFT} ${y}H${this.textAt - 8}"/>`;
            const fill = marks & 1 ? 'var(--f)' : marks & 6 ? 'var(--y)' : marks & 8 ? 'var(--x)' : 'var(--ink)';
            const wide = marks ? 18 : 8;
            const high = Math.max(1, Math.min(6, this.step - 1));
            return `<rect fill="${fill}" x="${this.x(this.placeOf[lane]) - 4}" y="${y - high / 2}" width="${wide}" height="${high}"/>`;
        }

        mark(row, withText) {
            const run = this.run;
            const number = this.rows[row];
            if (this.step < 14) return this.dash(row) + (row % Math.ceil(24 / this.step) ? '' : `<text class="e" x="${LEFT - 8}" y="${this.y(row) + 4}">${number}</text>`);
            const event = run.event(number);
            const entry = run.entry(number);
            const y = this.y(row);
            const parts = [];
            parts.push(`<text class="e" x="${LEFT - 8}" y="${y + 4}">${number}</text>`);
            const place = run.lane[number] < 0 ? -1 : this.placeOf[run.lane[number]];
            if (place < 0) {
                parts.push(`<path class="t" d="M${LEFT} ${y}H${this.textAt - 8}"/>`);
            } else {
                const stops = run.marks[number] & 8 ? CROSS : '';
                const actor = event.do === 'step' ? `<text class="k" y="3.5">${ACTORS[event.source] ?? ''}</text>` : '';
                parts.push(`<g transform="translate(${this.x(place)},${y})">${markOf(event, entry)}${actor}${stops}</g>`);
                parts.push(this.signs(number, this.x(place) + 17, y));
            }
            if (withText) parts.push(this.text(number, y));
            return `<g id="e${number}"><title>${escaped(run.line(number))}</title>${parts.join('')}</g>`;
        }

        // The signs of an event, side by side, as wide as there is room before the arrows of the next lane.
        signs(number, left, y) {
            const signs = signsOf(this.run, number);
            if (!signs.length) return '';
            const room = this.pitch - 30;
            const wide = (sign) => (sign.shape ? 18 : 0) + (sign.text ? sign.text.length * 6.2 + 4 : 0);
            const total = () => signs.reduce((sum, sign) => sum + wide(sign), 0);
            for (const sign of signs) if (total() > room * 1.3 && sign.shape && !sign.shape.startsWith('s')) sign.text = '';
            const all = total();
            const scale = Math.min(1, room / all);
            const parts = [];
            let x = 8;
            for (const sign of signs) {
                if (sign.shape) parts.push(`<g transform="translate(${x},0)">${SIGNS[sign.shape]}${sign.inner ? `<text class="w" x="-1" y="3.5">${escaped(sign.inner)}</text>` : ''}</g>`);
                if (sign.text) parts.push(`<text class="d" x="${x + (sign.shape ? 10 : -6)}" y="3.5">${escaped(sign.text)}</text>`);
                x += wide(sign);
            }
            const back = `<rect class="l" data-label="${number}" x="${left - 8}" y="${y - 8}" width="${(all * scale).toFixed(1)}" height="16"/>`;
            const moved = scale < 1 ? `translate(${left - 8},${y}) scale(${scale.toFixed(3)})` : `translate(${left - 8},${y})`;
            return `${back}<g transform="${moved}">${parts.join('')}</g>`;
        }

        // The line of the event, in short: without its number, the mail, the syncs and the sends, whose packets stand there too.
        text(number, y) {
            const room = Math.max(20, Math.floor((this.width - this.textAt - 4) / 5.6));
            const words = shortLine(this.run, number);
            const lines = wrapped(words, room, this.step >= 24 ? 2 : 1);
            const first = y + 4 - (lines.length - 1) * 6;
            return lines.map((line, place) => `<text class="s" x="${this.textAt}" y="${first + place * 12}">${escaped(line)}</text>`).join('');
        }

        // The names of the lanes, at this height.
        names(y) {
            return this.lanes.map((lane, place) => {
                const it = this.run.lanes[lane];
                return `<text class="h" x="${this.x(place) - 12}" y="${y}">${it.name}</text><text class="s" x="${this.x(place) - 12}" y="${y + 13}">${it.kind}</text>`;
            }).join('');
        }

        part() {
            const all = this.run.count;
            if (this.rows.length >= all) return `All ${all} events, from top to bottom.`;
            const views = this.fromView === null ? '' : ` in views ${this.fromView} to ${this.toView}`;
            const nodes = this.nodes ? `, on ${this.lanes.length} of ${this.run.lanes.length} lanes` : '';
            return `${this.rows.length} of ${all} events, from top to bottom: those from ${this.first} to ${this.last}${views}${nodes}. The members and what is final are those of the whole run.`;
        }
    }

    function shortLine(run, number) {
        const entry = run.entry(number);
        const deed = deedText(run.event(number));
        const items = run.items(number).filter((item) => !/^(mail for|sync |send )/.test(item) && item !== 'other');
        const own = entry.who ? deed.replace(/^\S+ /, '') : deed;
        return [own, ...items].join(', ');
    }

    // Breaks a text into lines of so many letters, at spaces; what has no room in the last one is left out, and dots say so.
    function wrapped(text, room, most) {
        const lines = [''];
        for (const word of text.split(' ')) {
            const line = lines[lines.length - 1];
            if (!line) lines[lines.length - 1] = word;
            else if (line.length + 1 + word.length <= room) lines[lines.length - 1] = `${line} ${word}`;
            else if (lines.length < most) lines.push(word);
            else {
                lines[lines.length - 1] = `${line.slice(0, room - 2)} ..`;
                break;
            }
        }
        return lines;
    }

    const SHAPES = {
        step: '<rect class="open" x="-6" y="-6" width="12" height="12"/>',
        idle: '<rect class="idle" x="-6" y="-6" width="12" height="12"/>',
        take: '<circle r="4" fill="var(--ink)"/>',
        refuse: '<circle class="open" r="4"/>',
        answer: '<path class="open" d="M0-6L6 0L0 6L-6 0z"/>',
        start: '<path d="M-6-5H6L0 7z" fill="var(--ink)"/>',
        inject: '<path d="M-3-6H3L6 0L3 6H-3L-6 0z" fill="var(--y)" stroke="var(--ink)" stroke-width="1.4"/>',
    };
    const line = (style) => `<path class="a ${style}" d="M-14 0H14"/>`;

    // What the shapes and lines mean: the words, what is shown beside them, and by which text a picture has it.
    const LEGEND = [
        ['a step: b batcher, v voter, r resolver', SHAPES.step],
        ['finds nothing to take', SHAPES.idle],
        ['takes a packet', SHAPES.take],
        ['refuses a packet of a blocked member', SHAPES.refuse],
        ['its application answers', SHAPES.answer],
        ['starts', SHAPES.start],
        ['stops', CROSS],
        ['is made to send bytes', SHAPES.inject],
        ['the clock goes on', '<path class="t" d="M-14 0H14"/>', 'class="t"'],
        ['the view that it is in', '<rect class="b0" x="-6" y="-7" width="12" height="14"/><text class="v" y="3.5">1</text>', 'in view'],
        ['stores its notarize, and its payload', SIGNS.vn],
        ['stores its nullify', SIGNS.vx],
        ['stores its finalize', SIGNS.vf],
        ['stores a notarization, and its signers', SIGNS.cn],
        ['stores a nullification', SIGNS.cx],
        ['stores a finalization', SIGNS.cf],
        ['stores a true verdict', SIGNS.yes],
        ['stores a false verdict', SIGNS.no],
        ['sends a notarize, and has no journal', SIGNS.sn],
        ['sends a nullify, and has no journal', SIGNS.sx],
        ['sends a finalize, and has no journal', SIGNS.sf],
        ['reports a final view', SIGNS.final],
        ['reports evidence on a member', SIGNS.blame],
        ['blocks a member', SIGNS.block],
        ['notarize; thick: notarization', line('n'), 'class="a n'],
        ['nullify; thick: nullification', line('x'), 'class="a x'],
        ['finalize; thick: finalization', line('f'), 'class="a f'],
        ['asks for a certificate', line('q'), 'class="a q'],
        ['answers with a certificate', line('p'), 'class="a p'],
        ['answers that there is none', line('z'), 'class="a z'],
        ['bytes that are no message', line('u'), 'class="a u'],
        ['a copy that nobody took', '<path class="a lost" d="M-14 0H14M14-3V3"/>', 'class="a lost'],
        ['taken, or sent, outside of this picture', '<path class="a n" d="M-14 0H10"/><circle class="ring" cx="12" r="2.5"/>', 'class="ring"'],
    ];

    // The legend of what a picture has.
    function legend(width, top, body) {
        const used = LEGEND.filter(([, shape, needle]) => body.includes(needle ?? shape));
        const columns = Math.max(1, Math.floor(width / 280));
        const high = Math.ceil(used.length / columns);
        const items = used.map(([text, shape], place) => {
            const x = 24 + Math.floor(place / high) * 280;
            const y = top + 12 + (place % high) * 19;
            return `<g transform="translate(${x},${y})">${shape}<text x="22" y="4">${text}</text></g>`;
        });
        return { text: items.join('\n'), height: high * 19 + 18 };
    }

    function payloads(run, width, top) {
        const names = [...run.letters.keys()].slice(0, Math.floor(width / 90)).map((payload) => `${run.letter(payload)} ${short(payload)}`);
        return names.length ? `<text x="20" y="${top}"><tspan class="m">Payloads</tspan>  ${names.join('   ')}</text>` : '';
    }

    // The whole picture as an SVG file.
    function svg(run, options = {}) {
        const extra = run.refused.length * 15;
        const sheet = new Sheet(run, { ...options, head: HEAD + extra });
        const last = sheet.rows.length - 1;
        const width = sheet.width;
        const marks = [];
        for (let row = 0; row <= last; row++) marks.push(sheet.mark(row, options.text !== false));
        const foot = sheet.height + 18;
        const body = last < 0 ? '' : sheet.lanesFrom(0, last) + sheet.arrowsFrom(0, last) + marks.join('\n');
        const key = options.legend === false ? { text: '', height: 0 } : legend(width, foot + 40, body);
        const height = foot + 48 + key.height;
        const notes = run.refused.map((line, place) => `<text class="m" style="fill:var(--x)" x="20" y="${60 + place * 15}">${escaped(line)}</text>`);
        return `<svg xmlns="http://www.w3.org/2000/svg" class="vw" width="${width}" height="${height}" viewBox="0 0 ${width} ${height}">
<title>${escaped(run.heading())}</title>
<style>${options.colours ?? COLOURS}
${STYLE}</style>
<rect width="${width}" height="${height}" fill="var(--paper)"/>
<text class="h" x="20" y="24">${escaped(run.heading())}</text>
<text class="s" x="20" y="42">${escaped(sheet.part())}</text>
${notes.join('\n')}
${sheet.names(HEAD + extra - 22)}
${body}
${sheet.names(foot)}
${payloads(run, width, foot + 34)}
${key.text}
</svg>
`;
    }

    return { Bytes, Run, Sheet, svg, legend, messageText, shortLine, signsOf, escaped, COLOURS, STYLE, SIGNS, LEGEND, MESSAGES, LEFT, messageOf, artifactOf, certificateOf, deedText, itemsOf, recordLine, nodeText, kindName, KINDS, CERTIFICATES };
})();
if (typeof module !== 'undefined') module.exports = Viewer;

// node viewer.js svg [--events A-B] [--views A-B] [--nodes 0.0,1.0] < RECORD > SVG, or lines, or statistics.
function viewerCommand(words, text, write) {
    const run = new Viewer.Run(text);
    const word = words.shift();
    const options = {};
    const range = (value) => value.split('-').map(Number);
    while (words.length > 1) {
        const [name, value] = words.splice(0, 2);
        if (name === '--events') [options.first, options.last = options.first] = range(value);
        else if (name === '--views') [options.fromView, options.toView = options.fromView] = range(value);
        else if (name === '--nodes') options.nodes = value.split(',').map((node) => (node.includes('.') ? node : `${node}.0`));
        else throw new Error(`no such option: ${name}`);
    }
    const absent = (options.nodes ?? []).find((node) => !run.laneOf.has(node));
    if (absent) throw new Error(`there is no node ${absent}`);
    if (word === 'svg') write(Viewer.svg(run, options));
    else if (word === 'lines') for (let number = 1; number <= run.count; number++) write(run.line(number) + '\n');
    else if (word === 'statistics') write(JSON.stringify(run.statistics(), null, 1) + '\n');
    else throw new Error('usage: node viewer.js svg [--events A-B] [--views A-B] [--nodes 0.0,1.0] | lines | statistics < RECORD');
}
if (typeof require !== 'undefined' && typeof module !== 'undefined' && require.main === module) {
    const fs = require('fs');
    try {
        viewerCommand(process.argv.slice(2), fs.readFileSync(0, 'utf8'), (text) => process.stdout.write(text));
    } catch (fault) {
        console.error(`viewer: ${fault.message}`);
        process.exit(2);
    }
}
