// Writes one page with everything inside: node page.js < RECORD > PAGE. Without a record in standard input (node page.js --empty) it
// is the page that opens one.
'use strict';
const fs = require('fs');
const path = require('path');

// What stands in a script element must not end it.
const inScript = (text) => text.replace(/<\/script/gi, '<\\/script');
const asData = (text) => text.replace(/</g, '\\u003c');

function pageOf(record) {
    const read = (name) => fs.readFileSync(path.join(__dirname, name), 'utf8');
    const data = record === null ? '' : `<script type="application/json" id="record">${asData(record)}</script>\n`;
    const script = '<script src="viewer.js"></script>';
    return read('index.html').replace(script, () => `${data}<script>\n${inScript(read('viewer.js'))}</script>`);
}

module.exports = { pageOf };
if (require.main === module) {
    process.stdout.write(pageOf(process.argv.includes('--empty') ? null : fs.readFileSync(0, 'utf8')));
}
