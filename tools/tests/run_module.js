// Runs the program's WebAssembly module on runs that a file lists, and prints for each its status
// and its output, in base64, as JSON.

"use strict";

const fs = require("fs");
const Host = require("../page/source/host.js");

async function main() {
  const { module: file, runs } = JSON.parse(fs.readFileSync(process.argv[2], "utf8"));
  const module = await WebAssembly.compile(fs.readFileSync(file));
  const found = [];
  for (const { words, text } of runs) {
    const pieces = [];
    const put = (bytes) => pieces.push(Buffer.from(bytes));
    const { status } = await Host.run(module, words, Host.reader(Buffer.from(text)), put);
    found.push({ status, output: Buffer.concat(pieces).toString("base64") });
  }
  console.log(JSON.stringify(found));
}

main();
