"use strict";
/*
 * The receiver that the page shows, without the drawing. The library is a WebAssembly module, and its sessions
 * (dist/tcrx_lines.h) return all answers: those of tclive to the lines of a script, and those of tcmake about frames. This
 * file reads from these texts the values that the page draws.
 */

const DONE = 0;
const BAD_LINE = 103;

/* A session, in an instance of the module of its own. `kind` is `live`, `script` or `make`. */
class Session {
  constructor(compiled, kind, ...given) {
    this.calls = new WebAssembly.Instance(compiled, {}).exports;
    this.status = this.calls[`module_${kind}`](...given);
  }
  /* Returns the answer to a line. */
  answer(line) {
    const octets = new TextEncoder().encode(line);
    const at = Number(this.calls.module_line(octets.length));
    if (at === 0) return "bad no memory\n";
    new Uint8Array(this.calls.memory.buffer, at, octets.length).set(octets);
    return this.text(this.calls.module_answer(octets.length));
  }
  /* Returns the final report. */
  end() {
    return this.text(this.calls.module_end());
  }
  text(status) {
    this.status = status;
    if (status !== DONE && status !== BAD_LINE) return "bad no memory\n";
    const at = Number(this.calls.module_text());
    return new TextDecoder().decode(new Uint8Array(this.calls.memory.buffer, at, this.calls.module_length()));
  }
}

const linesOf = (text) => text.split("\n").slice(0, -1);
const wordsOf = (line) => line.split(/[ \t\r]+/).filter((it) => it !== "");
const isBlank = (line) => /^[ \t\r]*(#|$)/.test(line);
/* The rows of FARM-1's table, by the first word of an answer that isn't about a frame. */
const EVENTS = {release: 10, clcw: 11};

/* A run of the first lines of a script, which set channels up, and of at most `steps` operations after them. */
class Run {
  constructor(compiled, scid, script, steps) {
    this.session = new Session(compiled, "live", scid, 0);
    this.lines = script.split("\n");
    if (this.lines[this.lines.length - 1] === "") this.lines.pop();
    this.channels = new Map();
    this.answers = [];
    this.fault = "";
    this.at = 0;
    while (this.isGoing() && /^[ \t\r]*(#|$|(channel|queue|map)([ \t\r]|$))/.test(this.lines[this.at])) this.setUp();
    this.setUpEnd = this.at;
    this.channels.forEach((channel) => this.look(channel));
    while (this.isGoing() && this.answers.length < steps) this.operate();
    this.isAtEnd = this.fault !== "" || this.lines.slice(this.at).every(isBlank);
    this.report = this.session.end();
    linesOf(this.report).forEach((line) => this.readReport(...wordsOf(line)));
  }
  isGoing() {
    return this.fault === "" && this.at < this.lines.length;
  }
  /* Returns the answer to a line, without its last line feed. A bad line ends the script. */
  answer(line) {
    const text = this.session.answer(line).replace(/\n$/, "");
    if (text.startsWith("bad ")) this.fault = `line ${this.at}: ${text}`;
    return text;
  }
  setUp() {
    const line = this.lines[this.at++];
    const isDone = this.answer(line) === "" && !isBlank(line);
    const [what, vcid, ...rest] = isDone ? wordsOf(line) : [];
    const [first, second] = rest.map(Number);
    if (what === "channel") {
      const settings = {vcid: Number(vcid), width: first, buffer: second, plain: rest.length === 4};
      this.channels.set(settings.vcid, {settings, queues: [], maps: []});
    } else if (isDone) {
      this.channels.get(Number(vcid))[`${what}s`].push({key: first, capacity: second});
    }
  }
  operate() {
    const line = this.lines[this.at++];
    const text = this.answer(line);
    if (text === "" || this.fault !== "") return;
    const [, digits, event] = text.match(/^\w+ (\d+)(?: E(\d))?/m) || [];
    const channel = this.channels.get(Number(digits));
    this.answers.push({line, text, channel, before: channel && channel.farm, event: Number(event) || EVENTS[wordsOf(text)[0]] || 0});
    if (channel !== undefined) this.look(channel);
  }
  /* Keeps the state of a channel, from `report VC state STATE vr N ..`. */
  look(channel) {
    const words = wordsOf(this.answer(`report ${channel.settings.vcid}`));
    if (this.fault !== "") return;
    channel.farm = Object.fromEntries(words.flatMap((it, i) => (i % 2 === 0 && i < 14 ? [[it, words[i + 1]]] : [])));
  }
  readReport(what, vcid, ...rest) {
    const channel = this.channels.get(Number(vcid));
    if (what === "final") Object.assign(channel, {clcw: rest[0], events: rest[2], buffered: Number(rest[4])});
    else if (what !== "bad") channel[`${what}s`].find(({key}) => key === Number(rest[0])).count = rest[1];
  }
}

/* Returns the fields of the header of the frame at the front of octets, or null if there is no frame. */
function headerOf(maker, hex) {
  const [what, kind, , scid, , vcid, , ns, , length, , fill] = wordsOf(linesOf(maker.answer(`explain ${hex}`))[0]);
  return what === "header" ? {kind, scid, vcid: Number(vcid), ns: Number(ns), length: Number(length), fill: Number(fill)} : null;
}

/* Returns the lines of tcmake about a frame's data field. tcmake always reads a segment header. So a frame of a plain
 * channel gets one, unless it would then be longer than a frame may be. */
function saidOfField(maker, hex, {kind, length}, isPlain) {
  if (!isPlain || kind.endsWith("C")) return linesOf(maker.answer(`explain ${hex}`)).slice(1);
  if (length === 1024) return [`data ${hex.slice(10, 2048)}`];
  const longer = (parseInt(hex.slice(4, 8), 16) + 1).toString(16).padStart(4, "0");
  return linesOf(maker.answer(`explain ${hex.slice(0, 4)}${longer}${hex.slice(8, 10)}c0${hex.slice(10, 2 * length)}`)).slice(2);
}

const KINDS = {TC: "telecommand", TM: "telemetry"};
/* The meaning of a part, by the line of tcmake about it. */
const MEANINGS = {
  segment: ([part, , map]) => `segment ${part} MAP ${map}`,
  body: () => "a part of a unit",
  holds: ([kind, , apid, , count]) => `${KINDS[kind]} packet of application ${apid}, count ${count}`,
  rest: () => "octets that begin with no packet",
  data: () => "octets of data",
  command: (words) => `control command ${words.join(" ")}`,
  invalid: () => "no control command",
};

/* Returns the parts of a frame, each with its octets and its meaning. */
function partsOf(maker, hex, isPlain) {
  const header = headerOf(maker, hex);
  if (header === null) return [{octets: hex, says: maker.answer(`explain ${hex}`).trim().replace("refused ", "")}];
  const {kind, scid, vcid, ns, length, fill} = header;
  let at = 0;
  const cut = (count, says) => ({octets: hex.slice(2 * at, 2 * (at += count)), says});
  const parts = [cut(2, `Type-${kind}, spacecraft ${scid}`), cut(2, `virtual channel ${vcid}, ${length} octets in all`),
    cut(1, `N(S) ${ns}${kind.startsWith("B") ? ", not looked at" : ""}`)];
  for (const [what, ...words] of saidOfField(maker, hex, header, isPlain).map(wordsOf)) {
    const count = what === "segment" ? 1 : what === "command" ? length - at : words[words.length - 1].length / 2;
    if (what !== "more") parts.push(cut(count, MEANINGS[what](words)));
  }
  return fill === 0 ? parts : [...parts, cut(fill, "ignored")];
}
