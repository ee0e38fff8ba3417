// Calls the functions of a module on numbers that a file lists, and prints the halves of each
// result as JSON.

"use strict";

const fs = require("fs");

async function main() {
  const { module, asked } = JSON.parse(fs.readFileSync(process.argv[2], "utf8"));
  const { instance } = await WebAssembly.instantiate(fs.readFileSync(module));
  const { exports } = instance;
  const found = asked.map(({ name, one, other }) => {
    exports[name](...[...one, ...other].map((half) => BigInt.asIntN(64, BigInt(half))));
    const halves = new BigUint64Array(exports.memory.buffer, exports.place(), 2);
    return [...halves].map(String);
  });
  console.log(JSON.stringify(found));
}

main();
