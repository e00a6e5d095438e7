"use strict";

// The day as the page is told it. A step is a number: 0 is before the first entry of a window, step N behind entry N.

function readBlock(name) {
  return JSON.parse(document.getElementById(name).textContent);
}

function isPacked(name) {
  return document.getElementById(name).type === "application/zlib";
}

/** Unpacks a block of packed data. */
async function unpackBlock(name) {
  const packed = Uint8Array.from(atob(document.getElementById(name).textContent), (letter) => letter.charCodeAt(0));
  const stream = new Blob([packed]).stream().pipeThrough(new DecompressionStream("deflate"));
  return JSON.parse(await new Response(stream).text());
}

/** Rows out of columns; where a column has none, the row has no such member. */
function rowsOf(columns) {
  const names = Object.keys(columns);
  const count = names.length ? columns[names[0]].length : 0;
  return Array.from({ length: count }, (_, index) => {
    const row = {};
    for (const name of names) if (columns[name][index] !== null) row[name] = columns[name][index];
    return row;
  });
}

function groupedBy(things, keyOf) {
  const groups = new Map();
  for (const thing of things) {
    const key = keyOf(thing);
    if (!groups.has(key)) groups.set(key, []);
    groups.get(key).push(thing);
  }
  return groups;
}

/** How many of the ascending numbers are below the limit. */
function countBelow(numbers, limit) {
  let low = 0;
  let high = numbers.length;
  while (low < high) {
    const middle = (low + high) >> 1;
    if (numbers[middle] < limit) low = middle + 1;
    else high = middle;
  }
  return low;
}

/** The stretches that hold at the step. */
function stretchesAt(stretches, step) {
  return (stretches || []).filter((stretch) => stretch.from <= step && step < stretch.to);
}

/** The serialization line of a window as it grew: what stands in it behind each step. */
class GrowingLine {
  static SPACING = 512; // changes between two lines that are kept

  constructor(entries) {
    this.changes = [];
    entries.forEach((entry, index) => this.note(entry, index + 1));
    this.steps = this.changes.map((change) => change.step);
    this.kept = [[]];
    this.longest = 0;
    const line = [];
    this.changes.forEach((change, count) => {
      if (count && count % GrowingLine.SPACING === 0) this.kept.push(line.slice());
      GrowingLine.apply(change, line);
      this.longest = Math.max(this.longest, line.length);
    });
  }

  note(entry, step) {
    if (entry.outOf !== undefined) this.changes.push({ step, outOf: entry.outOf });
    if (entry.into === undefined) return;
    const item = entry.kind === "placed" ? { run: entry.run } : { event: entry.kind, device: entry.device };
    this.changes.push({ step, into: entry.into, first: entry.first, item });
  }

  static apply(change, line) {
    if (change.first) GrowingLine.rearrange(change.first, line);
    if (change.item) line.splice(change.into, 0, change.item);
    else line.splice(change.outOf, 1);
  }

  /** The items at these places come to the front, in their order. */
  static rearrange(first, line) {
    const chosen = new Set(first);
    const others = line.filter((_, place) => !chosen.has(place));
    line.splice(0, line.length, ...first.map((place) => line[place]), ...others);
  }

  at(step) {
    const count = countBelow(this.steps, step + 1);
    const keeper = Math.min(Math.floor(count / GrowingLine.SPACING), this.kept.length - 1);
    const line = this.kept[keeper].slice();
    for (let k = keeper * GrowingLine.SPACING; k < count; k++) GrowingLine.apply(this.changes[k], line);
    return line;
  }

  /** The changes behind one step and up to another. */
  between(step, last) {
    return this.changes.slice(countBelow(this.steps, step + 1), countBelow(this.steps, last + 1));
  }
}

/** A window of the day, with its history where that is known. */
class RecordedWindow {
  constructor(day, told) {
    this.day = day;
    this.told = told;
    this.number = told.number;
    this.runs = told.runs.map((run, index) => ({ ...run, ...day.routines[run.routine], number: index + 1 }));
    const history = RecordedWindow.historyOf(told);
    this.entries = history.entries;
    this.recorded = history.moments; // behind each entry, in ms
    this.steps = history.entries.length;
    this.line = new GrowingLine(history.entries);
    this.holds = groupedBy(history.holds, (stretch) => stretch.device);
    this.downs = groupedBy(history.downs, (stretch) => stretch.device);
    this.leases = groupedBy(history.leases, (stretch) => stretch.device);
    this.values = groupedBy(history.values, (stretch) => stretch.device);
    this.states = groupedBy(history.states, (stretch) => stretch.run);
    this.noteLanes();
  }

  static historyOf(told) {
    const history = told.history || { entries: [], moments: [], states: [], holds: [], downs: [], leases: [], values: [] };
    if (!told.packed) return history;
    const rows = Object.entries(history).map(([name, columns]) => [name, Array.isArray(columns) ? columns : rowsOf(columns)]);
    return Object.fromEntries(rows);
  }

  /** The window's number in its day. */
  get label() {
    return this.told.title.split(" ")[1];
  }

  noteLanes() {
    this.stepsOfRun = new Map(this.runs.map((run) => [run.number, []]));
    this.stepsOfDevice = new Map(this.day.devices.map((_, device) => [device, []]));
    this.moments = [0];
    this.dooms = new Map(); // of each run that is doomed the step
    this.ends = new Map(); // of each run that has ended the step
    this.turns = []; // the steps at which the line, or what is true of a run in it, changes
    const { moments } = this;
    this.entries.forEach((entry, index) => {
      if (entry.kind === "doomed") this.dooms.set(entry.run, index + 1);
      if (entry.kind === "ended") this.ends.set(entry.run, index + 1);
      if (!["arrived", "did", "undid"].includes(entry.kind)) this.turns.push(index + 1);
      if (entry.run !== undefined) this.stepsOfRun.get(entry.run).push(index + 1);
      if (entry.device !== undefined && !entry.skipped) this.stepsOfDevice.get(entry.device).push(index + 1);
      moments.push(this.recorded[index] ?? entry.moment ?? moments[index]);
    });
  }

  get hasHistory() {
    return this.told.history !== null;
  }

  get isWeak() {
    return this.day.model === "wv";
  }

  entry(step) {
    return this.entries[step - 1];
  }

  run(number) {
    return this.runs[number - 1];
  }

  device(number) {
    return this.day.devices[number];
  }

  hasEndedBy(run, step) {
    return this.ends.get(run) <= step;
  }

  isDoomedBy(run, step) {
    return this.dooms.get(run) <= step;
  }

  /** What the run is at: to come, works, waits, doomed, committed or aborted; where it waits, with why. */
  stateAt(run, step) {
    if (this.hasEndedBy(run, step)) return { state: this.entry(this.ends.get(run)).committed ? "committed" : "aborted" };
    return stretchesAt(this.states.get(run), step)[0] || { state: "to come" };
  }

  /** The entries that answer the run's commands, in their order. */
  answersBy(run, step) {
    const steps = this.stepsOfRun.get(run).filter((told) => told <= step);
    return steps.map((told) => this.entry(told)).filter((entry) => entry.kind === "did");
  }

  hasWritten(run, step) {
    const { commands } = this.run(run);
    return this.answersBy(run, step).some((entry) => !entry.down && !entry.skipped && ["set", "store"].includes(commands[entry.command].job));
  }

  valueAt(device, step) {
    return stretchesAt(this.values.get(device), step)[0]?.value;
  }

  isDownAt(device, step) {
    return stretchesAt(this.downs.get(device), step).length > 0;
  }

  holdersAt(device, step) {
    return stretchesAt(this.holds.get(device), step).map((stretch) => stretch.run);
  }

  leasesAt(device, step) {
    return stretchesAt(this.leases.get(device), step);
  }

  /** The devices that some run of the window names. */
  usedDevices() {
    const used = new Set(this.runs.flatMap((run) => run.commands.map((command) => command.device)));
    for (const [device, steps] of this.stepsOfDevice) if (steps.length) used.add(device);
    return used;
  }
}

class Day {
  constructor() {
    Object.assign(this, readBlock("day"));
    this.opened = new Map();
  }

  /** Whether the window can be looked at without unpacking it first. */
  isReady(number) {
    return this.opened.has(number) || !isPacked(`window-${number}`);
  }

  async prepare(number) {
    const told = await unpackBlock(`window-${number}`);
    if (!this.opened.has(number)) this.opened.set(number, new RecordedWindow(this, told));
  }

  window(number) {
    if (!this.opened.has(number)) this.opened.set(number, new RecordedWindow(this, readBlock(`window-${number}`)));
    return this.opened.get(number);
  }

  /** The day as a whole: its runs, waits and devices. */
  async explored() {
    const told = isPacked("explored") ? await unpackBlock("explored") : readBlock("explored");
    return { runs: rowsOf(told.runs), places: rowsOf(told.places), waits: rowsOf(told.waits), homes: told.homes };
  }
}
