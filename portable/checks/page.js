// Checks the answers of the page of tools/page without a browser, by the page's own script and module, which are taken
// out of the file.
//
//    node page.js PAGE cases INDEX      passes each case of the file INDEX to a session, and compares the answers with the stored ones
//    node page.js PAGE parts INDEX      takes the frames of these cases apart, and other frames whose parts are known
//    node page.js PAGE examples FOLDER  compares each example of the page with FOLDER/NAME.tcs and FOLDER/NAME.out
//    node page.js PAGE KIND NUMBER..    answers standard input by a session that module_KIND creates with these numbers
"use strict";
const fs = require("fs");
const path = require("path");
const vm = require("vm");

const html = fs.readFileSync(process.argv[2], "utf8");
const between = (begin, end) => html.slice(html.indexOf(begin) + begin.length, html.indexOf(end, html.indexOf(begin)));
const given = JSON.parse(between('<script id="given" type="application/json">', "</script>"));
// Here the characters of a line are its octets, so that octets that aren't UTF-8 can be brought, too.
globalThis.TextEncoder = class {
  encode(text) {
    return Buffer.from(text, "latin1");
  }
};
vm.runInThisContext(`${between('<script id="receiver">', "</script>")}\nglobalThis.page = {Session, Run, partsOf};`);
const {Session, Run, partsOf} = globalThis.page;
const compiled = new WebAssembly.Module(Buffer.from(given.module, "base64"));

let good = 0;
let bad = 0;
function expect(isGood, what) {
  good += isGood ? 1 : 0;
  bad += isGood ? 0 : 1;
  if (!isGood) console.log(`${what} isn't as expected`);
}

/* Returns the answers of a session to lines. If the session ended early, returns the reason as `fault`. */
function answersTo(session, text) {
  const lines = text.split("\n");
  if (lines[lines.length - 1] === "") lines.pop();
  let output = "";
  for (const answer of [...lines.map((line) => () => session.answer(line)), () => session.end()]) {
    const said = answer();
    if (session.status !== 0) return {output, fault: said.trimEnd()};
    output += said;
  }
  return {output, fault: ""};
}

/* Returns the cases of an index, each with its script and the stored output. */
function casesOf(index) {
  return fs.readFileSync(index, "latin1").trimEnd().split("\n").map((line) => {
    const [, name, scid, fault] = line.match(/^(\S+) (\S+) ?(.*)$/);
    const [script, output] = ["script", "out"].map((end) => fs.readFileSync(path.join(path.dirname(index), `${name}.${end}`), "latin1"));
    return {name, scid: Number(scid), fault, script, output};
  });
}

function checkCases(index) {
  for (const {name, scid, fault, script, output} of casesOf(index)) {
    const done = answersTo(new Session(compiled, "script", scid), script);
    expect(done.output === output && done.fault === fault, `case ${name}`);
  }
}

/* Each entry has a frame, a flag that is true if its channel is plain, and the parts of the frame. */
const FRAMES = [
  ["002a040c00c01005c0000000aa", false, "002a Type-AD, spacecraft 42|040c virtual channel 1, 13 octets in all|00 N(S) 0|c0 segment unsegmented MAP 0"
    + "|1005c0000000aa telecommand packet of application 5, count 0"],
  ["202a040d00c01005c0010000aa01ff", false, "202a Type-BD, spacecraft 42|040d virtual channel 1, 14 octets in all|00 N(S) 0, not looked at"
    + "|c0 segment unsegmented MAP 0|1005c0010000aa telecommand packet of application 5, count 1|01 octets that begin with no packet|ff ignored"],
  ["002a0408074301aabb", false, "002a Type-AD, spacecraft 42|0408 virtual channel 1, 9 octets in all|07 N(S) 7|43 segment first MAP 3|01aabb a part of a unit"],
  ["302a0407008200fe", false, "302a Type-BC, spacecraft 42|0407 virtual channel 1, 8 octets in all|00 N(S) 0, not looked at|8200fe control command setvr 254"],
  ["002a040b091005c0000000aa", true, "002a Type-AD, spacecraft 42|040b virtual channel 1, 12 octets in all|09 N(S) 9"
    + "|1005c0000000aa telecommand packet of application 5, count 0"],
  [`002a07ff00${"00".repeat(1019)}`, true, `002a Type-AD, spacecraft 42|07ff virtual channel 1, 1024 octets in all|00 N(S) 0|${"00".repeat(1019)} octets of data`],
  ["002a04", false, "002a04 short"],
];

/* Checks the parts of frames. Together they must be all octets of the frame, each once. */
function checkParts(index) {
  const maker = new Session(compiled, "make", 0);
  for (const [hex, isPlain, parts] of FRAMES) {
    expect(partsOf(maker, hex, isPlain).map(({octets, says}) => `${octets} ${says}`).join("|") === parts, `the frame ${hex}, taken apart`);
  }
  const frames = new Set(casesOf(index).flatMap(({script}) => [...script.matchAll(/^frame ((?:[0-9a-f]{2})+)$/gm)].map(([, hex]) => hex)));
  for (const hex of frames) {
    const isWhole = [false, true].every((isPlain) => partsOf(maker, hex, isPlain).map(({octets}) => octets).join("") === hex);
    expect(isWhole, `the frame ${hex}, as the sum of its parts,`);
  }
}

function checkExamples(folder) {
  const names = fs.readdirSync(folder).filter((it) => it.endsWith(".tcs")).map((it) => it.slice(0, -4));
  expect(names.sort().join() === Object.keys(given.examples).sort().join() && names.length > 0, "the list of examples");
  for (const name of names) {
    const script = fs.readFileSync(path.join(folder, `${name}.tcs`), "utf8");
    const {answers, report, fault} = new Run(compiled, 42, given.examples[name], Infinity);
    const output = answers.map(({text}) => `${text}\n`).join("") + report;
    expect(script === given.examples[name] && fault === "" && output === fs.readFileSync(path.join(folder, `${name}.out`), "utf8"), `example ${name}`);
  }
}

const [, , , what, ...words] = process.argv;
const checks = {cases: checkCases, parts: checkParts, examples: checkExamples};
if (Object.hasOwn(checks, what)) {
  checks[what](...words);
  console.log(`${good} passed, ${bad} failed`);
  process.exitCode = bad === 0 && good > 0 ? 0 : 1;
} else {
  process.stdout.write(answersTo(new Session(compiled, what, ...words.map(Number)), fs.readFileSync(0, "latin1")).output);
}
