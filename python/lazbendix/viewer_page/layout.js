"use strict";

// Which lanes and columns the chart has, and where they are. By steps all columns are as wide; by ms a column is wider by the time
// since the step before it.

const HEIGHTS = { roomy: { head: 32, run: 46, device: 46, place: 26 }, dense: { head: 28, run: 27, device: 27, place: 21 } };
const NOTES = 17; // of a roomy lane, below its signs: the row of its notes
const DENSE_FROM = 48; // lanes

/** What is shown of a window: the runs and devices that are chosen, all where none is; whether other steps are left out. */
class Choice {
  constructor() {
    this.runs = new Set();
    this.devices = new Set();
    this.onlySteps = false;
    this.onlyAborted = false; // was asked for: it holds for each window anew
    this.untouched = false; // devices that no run of the window names
    this.groups = { runs: true, devices: true, line: true };
  }

  get isNarrowed() {
    return this.runs.size > 0 || this.devices.size > 0;
  }

  clear() {
    this.runs.clear();
    this.devices.clear();
    this.onlySteps = false;
    this.onlyAborted = false;
  }

  /** What was asked for as the page was made. */
  begin(window, asked) {
    this.onlyAborted = asked.aborted;
    if (asked.run) this.runs.add(asked.run);
    const device = window.day.devices.findIndex((it) => it.name === asked.device);
    if (device >= 0) this.devices.add(device);
    if (this.onlyAborted) this.addRuns(window, (run) => run.end === "aborted");
  }

  /** Goes on from one window to the next: the devices stay, and of the runs those of the same routines, or the aborted ones. */
  goOn(before, window) {
    const routines = new Set([...this.runs].map((run) => before.run(run).routine));
    this.runs.clear();
    this.addRuns(window, (run) => (this.onlyAborted ? run.end === "aborted" : routines.has(run.routine)));
  }

  addRuns(window, isMeant) {
    for (const run of window.runs) if (isMeant(run)) this.runs.add(run.number);
  }

  runsOf(window) {
    return window.runs.map((run) => run.number).filter((run) => !this.runs.size || this.runs.has(run));
  }

  /** Where runs are chosen and devices are not, the devices that those runs name. */
  devicesOf(window) {
    const all = window.day.devices.map((_, device) => device);
    if (this.devices.size) return all.filter((device) => this.devices.has(device));
    if (this.runs.size) {
      const named = new Set(this.runsOf(window).flatMap((run) => window.run(run).commands.map((command) => command.device)));
      return all.filter((device) => named.has(device));
    }
    const used = window.usedDevices();
    return all.filter((device) => this.untouched || used.has(device));
  }

  stepsOf(window) {
    const all = window.entries.map((_, index) => index + 1);
    if (!this.onlySteps || !this.isNarrowed) return all;
    return all.filter((step) => this.concerns(window.entry(step)));
  }

  concerns(entry) {
    return this.runs.has(entry.run) || this.devices.has(entry.device);
  }
}

/** The lanes of a window from top to bottom, and its columns from left to right. */
class Layout {
  constructor(window, choice, columnWidth, axis = "step") {
    this.window = window;
    this.columnWidth = columnWidth;
    this.columns = choice.stepsOf(window);
    this.edges = axis === "ms" ? this.edgesByTime() : null; // the left edge of each column, and the right one of the last
    this.lanes = [];
    this.bottom = 0;
    const runs = choice.runsOf(window);
    const devices = choice.devicesOf(window);
    this.isDense = runs.length + devices.length > DENSE_FROM;
    this.addGroup("runs", choice.groups.runs, runs, window.runs.length, (run) => ({ kind: "run", run }));
    this.addGroup("devices", choice.groups.devices, devices, window.day.devices.length, (device) => ({ kind: "device", device }));
    if (!window.isWeak) this.addLine(choice);
    this.tops = this.lanes.map((lane) => lane.top);
  }

  addGroup(group, isOpen, members, all, laneOf) {
    this.add({ kind: "head", group, isOpen, shown: members.length, all });
    for (const member of isOpen ? members : []) this.add(laneOf(member));
  }

  addLine(choice) {
    const places = Array.from({ length: this.window.line.longest }, (_, place) => place);
    this.addGroup("line", choice.groups.line, places, places.length, (place) => ({ kind: "place", place }));
  }

  add(lane) {
    const height = HEIGHTS[this.isDense ? "dense" : "roomy"][lane.kind];
    const notes = !this.isDense && (lane.kind === "run" || lane.kind === "device") ? NOTES : 0;
    this.lanes.push({ ...lane, top: this.bottom, height, middle: this.bottom + (height - notes) / 2 + (notes ? 1 : 0) });
    this.bottom += height;
  }

  /** All the time of the window together has as much room as its columns. */
  edgesByTime() {
    const { moments } = this.window;
    const whole = Math.max(moments[moments.length - 1] - moments[0], 1);
    const scale = (this.columns.length * this.columnWidth) / whole;
    const edges = new Float64Array(this.columns.length + 1);
    let before = moments[0];
    this.columns.forEach((step, column) => {
      edges[column + 1] = edges[column] + this.columnWidth + (moments[step] - before) * scale;
      before = moments[step];
    });
    return edges;
  }

  /** The left edge of a column. */
  columnEdge(column) {
    return this.edges ? this.edges[column] : column * this.columnWidth;
  }

  /** How many columns begin before a place. */
  columnsBefore(x) {
    return this.edges ? countBelow(this.edges, x) : Math.ceil(x / this.columnWidth);
  }

  get width() {
    return this.columnEdge(this.columns.length);
  }

  /** Where the entry of the step stands, or would stand between those that are shown. */
  x(step) {
    const column = countBelow(this.columns, step);
    if (this.columns[column] !== step) return this.columnEdge(column);
    return this.columnEdge(column + 1) - this.columnWidth / 2; // the time before a step stands to its left
  }

  /** Where what holds from the step on begins: step 0 at the left edge, the step behind the last at the right one. */
  edge(step) {
    if (step <= 0) return 0;
    return step > this.window.steps ? this.width : this.x(step);
  }

  /** The step whose column is there, or none. */
  stepAt(x) {
    return this.columns[this.columnsBefore(x + 0.001) - 1];
  }

  /** The step whose state is seen there: behind the entry of the column where x is in its right half. */
  stateStepAt(x) {
    const column = this.columnsBefore(x + this.columnWidth / 2 + 0.001) - 2;
    return column < 0 ? (this.columns[0] || 1) - 1 : this.columns[Math.min(column, this.columns.length - 1)] || 0;
  }

  laneAt(y) {
    const lane = this.lanes[countBelow(this.tops, y + 0.001) - 1];
    return lane && y < lane.top + lane.height ? lane : null;
  }

  laneIndex(target) {
    return this.lanes.findIndex((lane) => Layout.isSame(lane, target));
  }

  static isSame(lane, other) {
    return Boolean(lane && other) && lane.kind === other.kind && lane.run === other.run && lane.device === other.device &&
      lane.place === other.place && lane.group === other.group;
  }

  /** The lanes that are seen between two heights. */
  lanesBetween(top, bottom) {
    return this.lanes.slice(Math.max(countBelow(this.tops, top + 0.001) - 1, 0), countBelow(this.tops, bottom));
  }
}
