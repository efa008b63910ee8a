"use strict";
/* Draws the page, and handles the reader's input. The content comes from receiver.js, which stands before this file in
 * the page. */

const by = (id) => document.getElementById(id);
const given = JSON.parse(by("given").textContent);
const MOST_SHOWN = 200;
let compiled = null;
/* A session that makes and explains frames. */
let maker = null;
let run = null;

/* Returns an element with attributes and children. */
function make(name, attributes = {}, ...children) {
  const element = document.createElement(name);
  for (const [key, value] of Object.entries(attributes)) {
    if (value !== null && value !== false) element.setAttribute(key, value);
  }
  element.append(...children);
  return element;
}

/* Returns a word as a button that opens its explanation, or as plain text if it has none. */
function term(name, text = name) {
  if (!Object.hasOwn(given.words, name)) return document.createTextNode(text);
  return make("button", {type: "button", class: "term", popovertarget: `word-${Object.keys(given.words).indexOf(name)}`}, text);
}

function drawWords() {
  Object.entries(given.words).forEach(([name, meaning], i) => {
    document.body.append(make("div", {popover: "", id: `word-${i}`}, make("strong", {}, name), `: ${meaning}`));
    by("words").append(make("div", {}, make("dt", {}, name), make("dd", {}, meaning)));
  });
  document.querySelectorAll("[data-term]").forEach((place, i) => {
    const label = place.closest("label");
    if (label !== null) {
      // The label must name its field. Otherwise it would belong to the button that the word becomes.
      const input = label.querySelector("input");
      input.id = input.id || `field-${i}`;
      label.htmlFor = input.id;
    }
    place.replaceWith(term(place.dataset.term, place.textContent));
  });
}

const STATES = ["open", "wait", "lockout"];

/* Draws the parts of the frame, with their octets and their meaning. */
function drawParts(hex) {
  const list = make("div", {class: "parts"});
  const header = headerOf(maker, hex);
  const channel = header === null ? undefined : run.channels.get(header.vcid);
  for (const {octets, says} of partsOf(maker, hex, channel !== undefined && channel.settings.plain)) {
    const shown = octets.slice(0, 128).replace(/..(?=.)/g, "$& ") + (octets.length > 128 ? " .." : "");
    list.append(make("span", {class: "octets"}, shown), make("span", {}, says));
  }
  return list;
}

/* Returns the column of FARM-1's table for the state before a step. */
const columnOf = ({before}) => STATES.indexOf(before.state) + 1;

/* Returns the entry of FARM-1's table for a step, in words. */
function entryOf(done) {
  const row = given.table.rows[done.event - 1];
  const column = columnOf(done);
  return `${row[0]}, in ${given.table.head[column]}: ${row[column]}`;
}

/* Returns the octets in a line `frame` or `candidate`, as hexadecimal digits, or an empty text for other lines. */
const octetsOf = (line) => (line.match(/^[ \t\r]*(?:frame|candidate)[ \t\r]+([0-9a-fA-F]+)/) || ["", ""])[1];

function drawAnswers() {
  const shown = run.answers.slice(-MOST_SHOWN);
  const list = by("answers");
  list.start = run.answers.length - shown.length + 1;
  list.replaceChildren(...shown.map((done, i) => {
    const {line, text, event} = done;
    const octets = octetsOf(line);
    const item = make("li", {}, make("div", {class: "line mono"}, line.slice(0, 300)));
    item.append(make("div", {class: `answer mono${text.startsWith("refused") ? " refused" : ""}`}, text.slice(0, 2000)));
    if (event > 0) item.append(make("div", {}, entryOf(done)));
    if (octets !== "") {
      const isLast = i === shown.length - 1;
      item.append(make("details", {open: isLast ? "" : null}, make("summary", {}, "the frame, taken apart"), drawParts(octets)));
    }
    return item;
  }));
  by("report").textContent = run.isAtEnd && run.fault === "" ? run.report : "";
}

function drawTable() {
  const last = run.answers[run.answers.length - 1] || {event: 0};
  const column = last.event === 0 ? 0 : columnOf(last);
  by("table").replaceChildren(
    make("thead", {}, make("tr", {}, ...given.table.head.map((it) => make("th", {scope: "col"}, it)))),
    make("tbody", {}, ...given.table.rows.map((cells, i) => {
      const isLit = i + 1 === last.event;
      const row = make("tr", {class: isLit ? "row-lit" : null}, make("th", {scope: "row"}, cells[0]));
      row.append(...cells.slice(1).map((it, state) => make("td", {class: isLit && state + 1 === column ? "lit" : null}, it)));
      return row;
    })),
  );
  by("lit").textContent = last.event > 0 ? entryOf(last) : "The row of the last step will be lit.";
}

/* Returns the part of the window in which a number lies. */
function placeOf(number, vr, width) {
  const ahead = (number - vr + 256) % 256;
  if (ahead === 0) return "expected";
  if (ahead < width / 2) return "ahead";
  return 256 - ahead <= width / 2 ? "behind" : "outside";
}

function drawWindow(vr, width, came) {
  const modulo = (number) => (number + 256) % 256;
  const half = width / 2;
  const ahead = half > 1 ? `${modulo(vr + 1)} to ${modulo(vr + half - 1)} ahead` : "none ahead";
  const said = `${modulo(vr - half)} to ${modulo(vr - 1)} behind, ${vr} expected, ${ahead}, all others outside`;
  const cells = Array.from({length: 256}, (_, number) => {
    const mark = number === came ? " came" : "";
    return make("i", {class: placeOf(number, vr, width) + mark}, String(number));
  });
  return [make("div", {class: "window", role: "img", "aria-label": said}, ...cells), make("p", {class: "note"}, `${said}.`)];
}

function fact(name, value, word = null, attributes = {}) {
  return make("div", {}, make("dt", {}, word === null ? name : term(word, name)), make("dd", attributes, String(value)));
}

function operateButton(line) {
  const button = make("button", {type: "button"}, line);
  button.addEventListener("click", () => addOperation(line));
  return button;
}

function drawQueue(name, {count, capacity}, button) {
  const meter = make("meter", {min: 0, max: capacity, value: count, "aria-label": name});
  return make("div", {class: "row"}, make("span", {}, name), meter, make("span", {}, `${count} of ${capacity}`), button);
}

/* Returns N(S) of the Type-AD frame that came to the channel in the last step, or -1. */
function numberCame(channel) {
  const last = run.answers[run.answers.length - 1];
  const header = last && last.channel === channel && octetsOf(last.line) !== "" ? headerOf(maker, octetsOf(last.line)) : null;
  return header !== null && header.kind === "AD" ? header.ns : -1;
}

function drawChannel(channel) {
  const {settings: {vcid, width, buffer, plain}, farm, clcw, events, buffered, queues, maps} = channel;
  const flags = [["Lockout", farm.lockout, "lockout"], ["Wait", farm.wait, "wait"], ["Retransmit", farm.retransmit, "retransmit"]];
  const slots = Array.from({length: buffer}, (_, i) => make("i", {class: i < buffered ? "full" : null}));
  return make("div", {class: "channel"},
    make("h3", {}, `Virtual channel ${vcid}${plain ? ", without segment headers" : ""}`),
    make("dl", {class: "facts"}, fact("V(R)", farm.vr, "V(R)"), fact("state", `S${STATES.indexOf(farm.state) + 1} ${farm.state}`),
      ...flags.map(([name, flag, word]) => fact(name, flag, word, {class: `flag-${flag}`})),
      fact("FARM-B", farm["farm-b"], "FARM-B counter"), fact("events", events), fact("CLCW", clcw, "CLCW", {class: "mono"})),
    make("p", {class: "note mono"}, maker.answer(`clcw ${clcw}`)),
    make("div", {}, term("window", "Window"), ":"), ...drawWindow(Number(farm.vr), width, numberCame(channel)),
    make("div", {class: "row"}, make("span", {}, `Buffer: ${buffered} of ${buffer} `, term("data field", "data fields")),
      operateButton(`release ${vcid}`), operateButton(`clcw ${vcid}`)),
    make("div", {class: "slots", "aria-hidden": "true"}, ...slots),
    ...queues.map((it) => drawQueue(`Packets for application ${it.key}`, it, operateButton(`take ${vcid} ${it.key}`))),
    ...maps.map((it) => drawQueue(`Units of MAP ${it.key}`, it, operateButton(`unit ${vcid} ${it.key}`))));
}

function drawChannels() {
  const drawn = [...run.channels.values()].filter((it) => it.farm !== undefined && it.clcw !== undefined);
  const channels = drawn.sort((one, other) => one.settings.vcid - other.settings.vcid).map(drawChannel);
  by("channels").replaceChildren(...(channels.length > 0 ? channels : [make("p", {}, "No channel is set up. A line such as ", make("code", {}, "channel 1 10 4 0"), " sets one up.")]));
}

/* Marks the next line in the script, unless the reader is typing there. */
function markNext() {
  const place = by("script");
  if (document.activeElement === place) return;
  const before = run.lines.slice(0, run.at).reduce((sum, line) => sum + line.length + 1, 0);
  place.setSelectionRange(before, before + (run.lines[run.at] || "").length);
}

function draw() {
  by("fault").textContent = run.fault;
  for (const id of ["step", "all"]) by(id).disabled = run.isAtEnd;
  for (const id of ["back", "start"]) by(id).disabled = run.answers.length === 0;
  drawAnswers();
  drawTable();
  drawChannels();
  expectNext();
  drawMade();
  markNext();
}

/* Runs the script anew, for at most `steps` steps. */
function runTo(steps) {
  const scid = Math.min(1023, Math.max(0, Number(by("scid").value) || 0));
  run = new Run(compiled, scid, by("script").value, steps);
  draw();
}

function insertLine(at, line) {
  const lines = by("script").value.split("\n");
  lines.splice(at, 0, line);
  by("script").value = lines.join("\n");
}

/* Inserts lines of the reader after the last operation that was carried out, and carries them out. */
function addOperation(...lines) {
  if (run.channels.size === 0) {
    by("fault").textContent = "Set up a channel first.";
    return;
  }
  const steps = run.answers.length;
  lines.forEach((line, i) => insertLine(run.at + i, line));
  runTo(steps + lines.length);
}

function addSetting(line) {
  const steps = run.answers.length;
  insertLine(run.setUpEnd, line);
  runTo(steps);
}

/* Returns the line with which tcmake makes frames of the fields, and the answers to it. */
function madeOfFields() {
  const [kind, scid, vcid, ns, vr, map, size] = ["kind", "scid", "vcid", "ns", "vr", "map", "size"].map((id) => by(id).value);
  const packet = `packet ${by("apid").value} ${by("count").value} ${by("data").value}`;
  const [answer] = linesOf(maker.answer(packet));
  const hex = answer.replace("packet ", "");
  const header = by("plain").checked ? "plain" : map;
  const lines = {
    unlock: `unlock ${scid} ${vcid}`, setvr: `setvr ${scid} ${vcid} ${vr}`, segments: `segments ${scid} ${vcid} ${ns} ${map} ${size} ${hex}`,
    ad: `ad ${scid} ${vcid} ${ns} ${header} ${hex}`, bd: `bd ${scid} ${vcid} ${header} ${hex}`,
  };
  const line = hex === answer && lines[kind].endsWith(hex) ? packet : lines[kind];
  return {line, answers: linesOf(maker.answer(line))};
}

function drawMade() {
  for (const place of by("fields").querySelectorAll("[data-for]")) {
    const isShown = place.dataset.for.split(" ").includes(by("kind").value);
    place.hidden = !isShown;
    for (const input of place.querySelectorAll("input")) input.disabled = !isShown;
    if (place.matches("label")) place.style.display = isShown ? "" : "none";
  }
  const {line, answers} = madeOfFields();
  by("made").replaceChildren(`tcmake: ${line}`, make("br"), answers.join(" "));
}

/* Sets the field for N(S) to the number that the channel expects, which a sender would give to its next frame. */
function expectNext() {
  const channel = run.channels.get(Number(by("vcid").value));
  if (channel !== undefined && channel.farm !== undefined) by("ns").value = channel.farm.vr;
}

function drawTyped() {
  const octets = by("octets").value.replace(/\s/g, "");
  const isHex = /^([0-9a-f]{2})*$/i.test(octets);
  by("taken-apart").replaceChildren(...(!isHex ? ["These aren't pairs of hexadecimal digits."] : octets === "" ? [] : [drawParts(octets)]));
  return isHex ? octets : "";
}

function linkTo() {
  const fields = new URLSearchParams({scid: by("scid").value, step: String(run.answers.length), script: by("script").value});
  location.hash = fields.toString();
  by("linked").textContent = "The address of this page now carries the script and the step.";
  if (navigator.clipboard) navigator.clipboard.writeText(location.href).then(() => { by("linked").textContent += " It was copied."; }, () => {});
}

function takeLink() {
  const fields = new URLSearchParams(location.hash.slice(1));
  if (!fields.has("script")) return false;
  by("scid").value = fields.get("scid") || "42";
  by("script").value = fields.get("script");
  runTo(Number(fields.get("step")) || 0);
  return true;
}

async function takeFile(file) {
  by("script").value = (await file.text()).replace(/\r\n/g, "\n");
  runTo(0);
}

function listenToForms() {
  by("typed").addEventListener("submit", (event) => {
    event.preventDefault();
    const octets = drawTyped();
    if (octets !== "") addOperation(`frame ${octets}`);
  });
  by("octets").addEventListener("input", drawTyped);
  by("fields").addEventListener("input", drawMade);
  by("vcid").addEventListener("change", () => { expectNext(); drawMade(); });
  by("fields").addEventListener("submit", (event) => {
    event.preventDefault();
    const {answers} = madeOfFields();
    if (answers.every((it) => it.startsWith("frame "))) addOperation(...answers);
  });
  const fieldsOf = (event) => {
    event.preventDefault();
    return Object.fromEntries(new FormData(event.target));
  };
  by("new-channel").addEventListener("submit", (event) => {
    const {vcid, width, buffer, first, plain} = fieldsOf(event);
    addSetting(`channel ${vcid} ${width} ${buffer} ${first}${plain ? " plain" : ""}`);
  });
  for (const what of ["queue", "map"]) {
    by(`new-${what}`).addEventListener("submit", (event) => {
      const {vcid, key, capacity} = fieldsOf(event);
      addSetting(`${what} ${vcid} ${key} ${capacity}`);
    });
  }
}

function listen() {
  by("step").addEventListener("click", () => runTo(run.answers.length + 1));
  by("back").addEventListener("click", () => runTo(run.answers.length - 1));
  by("all").addEventListener("click", () => runTo(Infinity));
  by("start").addEventListener("click", () => runTo(0));
  by("link").addEventListener("click", linkTo);
  let later = 0;
  by("script").addEventListener("input", () => {
    clearTimeout(later);
    later = setTimeout(() => runTo(run.answers.length), 250);
  });
  by("scid").addEventListener("change", () => runTo(run.answers.length));
  by("example").addEventListener("change", () => {
    if (by("example").value === "") return;
    by("script").value = given.examples[by("example").value];
    runTo(0);
  });
  by("file").addEventListener("change", () => { if (by("file").files.length > 0) takeFile(by("file").files[0]); });
  document.addEventListener("dragover", (event) => event.preventDefault());
  document.addEventListener("drop", (event) => {
    event.preventDefault();
    if (event.dataTransfer.files.length > 0) takeFile(event.dataTransfer.files[0]);
  });
  window.addEventListener("hashchange", takeLink);
  listenToForms();
}

function begin() {
  compiled = new WebAssembly.Module(Uint8Array.from(atob(given.module), (it) => it.charCodeAt(0)));
  maker = new Session(compiled, "make", 0);
  drawWords();
  for (const name of Object.keys(given.examples)) by("example").append(make("option", {value: name}, name.replace(/-/g, " ")));
  listen();
  by("script").value = given.examples["first-frame"];
  if (!takeLink()) runTo(0);
}

try {
  begin();
} catch (fault) {
  by("broken").hidden = false;
  by("broken").textContent = `This page doesn't work here: ${fault.message}`;
}
