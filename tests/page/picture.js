#!/usr/bin/env node
// tests/page/picture.js PAGE FILE: leaves in FILE a picture of the page with the accident explained, for README: what the dump has that no event gave.
"use strict";
const { execFileSync } = require("child_process");
const fs = require("fs");
const path = require("path");
const zlib = require("zlib");
const { Browser } = require("./browser.js");

const WIDTH = 860, COLOURS = 64;

// The rows of a PNG of the browser's (three bytes to a pixel), unfiltered.
function rowsOf(png) {
    const width = png.readUInt32BE(16), height = png.readUInt32BE(20), packed = [];
    for (let at = 8; at < png.length; at += 12 + png.readUInt32BE(at)) if (png.toString("latin1", at + 4, at + 8) === "IDAT") packed.push(png.subarray(at + 8, at + 8 + png.readUInt32BE(at)));
    const data = zlib.inflateSync(Buffer.concat(packed)), length = 3 * width, rows = [];
    for (let y = 0; y < height; y++) {
        const kind = data[y * (length + 1)], row = data.subarray(y * (length + 1) + 1, (y + 1) * (length + 1)), above = rows[y - 1];
        for (let i = 0; i < length; i++) {
            const a = i < 3 ? 0 : row[i - 3], b = above ? above[i] : 0, c = above && i >= 3 ? above[i - 3] : 0, p = a + b - c;
            const nearest = Math.abs(p - a) <= Math.abs(p - b) && Math.abs(p - a) <= Math.abs(p - c) ? a : Math.abs(p - b) <= Math.abs(p - c) ? b : c;
            row[i] += [0, a, b, (a + b) >> 1, nearest][kind];
        }
        rows.push(row);
    }
    return { width, height, rows };
}

// The same picture with few colours, each pixel the nearest of those that there are most of: small enough for a page that is read.
function fewer({ width, height, rows }) {
    const seen = new Map(), distance = (x, y) => [16, 8, 0].reduce((sum, bit) => sum + (((x >> bit) & 255) - ((y >> bit) & 255)) ** 2, 0);
    for (const row of rows) for (let i = 0; i < row.length; i += 3) {
        const colour = row.readUIntBE(i, 3);
        seen.set(colour, (seen.get(colour) ?? 0) + 1);
    }
    // the most frequent that are no neighbours of another
    const palette = [];
    for (const [colour] of [...seen].sort((x, y) => y[1] - x[1])) if (palette.length < COLOURS && palette.every(other => distance(other, colour) > 150)) palette.push(colour);
    const nearest = new Map([...seen.keys()].map(colour => [colour, palette.reduce((best, other, i) => (distance(other, colour) < distance(palette[best], colour) ? i : best), 0)]));
    const lines = rows.map(row => Buffer.from([0, ...Array.from({ length: width }, (_, x) => nearest.get(row.readUIntBE(3 * x, 3)))]));
    const chunk = (name, data) => {
        const body = Buffer.concat([Buffer.from(name, "latin1"), data]), ends = Buffer.alloc(8);
        ends.writeUInt32BE(data.length, 0);
        ends.writeUInt32BE(crc(body), 4);
        return Buffer.concat([ends.subarray(0, 4), body, ends.subarray(4)]);
    };
    const head = Buffer.alloc(13);
    head.writeUInt32BE(width, 0);
    head.writeUInt32BE(height, 4);
    head.set([8, 3], 8);
    const colours = Buffer.from(palette.flatMap(colour => [colour >> 16, (colour >> 8) & 255, colour & 255]));
    return Buffer.concat([Buffer.from("89504e470d0a1a0a", "hex"), chunk("IHDR", head), chunk("PLTE", colours), chunk("IDAT", zlib.deflateSync(Buffer.concat(lines), { level: 9 })), chunk("IEND", Buffer.alloc(0))]);
}

function crc(bytes) {
    let sum = 0xffffffff;
    for (const byte of bytes) {
        sum ^= byte;
        for (let i = 0; i < 8; i++) sum = sum & 1 ? (sum >>> 1) ^ 0xedb88320 : sum >>> 1;
    }
    return (sum ^ 0xffffffff) >>> 0;
}

async function main() {
    const [page, file] = process.argv.slice(2), names = ["chromium-headless-shell", "chromium", "chromium-browser", "google-chrome"];
    const program = names.find(name => { try { return execFileSync("sh", ["-c", `command -v ${name}`]); } catch { return false; } });
    if (!program) throw new Error("there is no browser here (Debian: chromium-headless-shell)");
    const b = new Browser(program);
    try {
        await b.open("file://" + path.resolve(page));
        await b.size(WIDTH, 900);
        await b.colours("light");
        await b.run(`new Promise(done => requestAnimationFrame(() => requestAnimationFrame(done)))`);
        await b.run(`document.styleSheets[0].insertRule(".trust, #trace .what, #trace .making, #trace > .verdict, #trace .explanation > .actions { display: none }", document.styleSheets[0].cssRules.length);
            app.accident(); app.open("trace"); scrollTo(0, 0)`);
        const end = await b.run(`document.querySelector("#trace .final figcaption").getBoundingClientRect().bottom`);
        await b.picture(file, { x: 0, y: 0, width: WIDTH, height: Math.ceil(end) + 8, scale: 1 });
        fs.writeFileSync(file, fewer(rowsOf(fs.readFileSync(file))));
        console.log(`picture: ${file}, ${fs.statSync(file).size} bytes`);
    } finally {
        await b.close();
    }
}
main();
