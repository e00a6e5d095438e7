"use strict";

// How the lanes of the chart are painted: those of runs and devices, and the places of the line.

const SIGNS_FROM = 26; // width of a column from which on signs are drawn whole
const HEAD = 46; // height of the row of moments and steps above the lanes

/** What all painters of lanes share: where steps are on the canvas, and which are seen. */
class Sight {
  constructor(layout, scroller, labelWidth, width, height) {
    this.layout = layout;
    this.left = labelWidth;
    this.top = HEAD;
    this.width = width;
    this.height = height;
    this.shiftX = labelWidth - scroller.scrollLeft;
    this.shiftY = HEAD - scroller.scrollTop;
    const last = layout.columns.length - 1;
    this.firstColumn = Math.max(layout.columnsBefore(scroller.scrollLeft) - 2, 0);
    this.lastColumn = Math.min(layout.columnsBefore(scroller.scrollLeft + width - labelWidth) + 1, last);
    this.firstStep = layout.columns[this.firstColumn] ?? 0;
    this.lastStep = layout.columns[this.lastColumn] ?? 0;
    this.lanes = layout.lanesBetween(scroller.scrollTop, scroller.scrollTop + height - HEAD);
  }

  /** The columns to go along, of which no two stand at one pixel. */
  *seenColumns() {
    const stride = Math.max(Math.floor(0.7 / this.layout.columnWidth), 1);
    for (let column = this.firstColumn; column < this.lastColumn; column += stride) yield column;
    if (this.lastColumn >= this.firstColumn) yield this.lastColumn;
  }

  get hasSigns() {
    return this.layout.columnWidth >= SIGNS_FROM;
  }

  x(step) {
    return this.shiftX + this.layout.x(step);
  }

  edge(step) {
    return this.shiftX + this.layout.edge(step);
  }

  y(lane) {
    return this.shiftY + lane.middle;
  }

  laneTop(lane) {
    return this.shiftY + lane.top;
  }

  laneOf(target) {
    const index = this.layout.laneIndex(target);
    return index < 0 ? null : this.layout.lanes[index];
  }

  /** Those of the stretches that are seen. */
  seen(stretches) {
    return (stretches || []).filter((stretch) => stretch.to >= this.firstStep && stretch.from <= this.lastStep);
  }

  /** Those of a lane's ascending steps that are shown and seen. */
  seenSteps(steps) {
    const seen = steps.slice(countBelow(steps, this.firstStep), countBelow(steps, this.lastStep + 1));
    const { columns } = this.layout;
    if (columns.length === this.layout.window.steps) return seen;
    return seen.filter((step) => columns[countBelow(columns, step)] === step);
  }
}

/** Writes the notes of a lane, each where its stretch begins, and as much of it as there is room before the next one. */
function writeNotes(pen, sight, notes, y) {
  notes.forEach((note, index) => {
    const x = Math.max(sight.edge(note.from) - 4, sight.left + 6);
    const next = index + 1 < notes.length ? sight.edge(notes[index + 1].from) - 12 : Infinity;
    const isPast = x > sight.edge(note.from) - 4 && x + 30 > sight.edge(note.to);
    if (!isPast) pen.text(note.text, x, y, { size: 11, color: note.color, room: next - x, halo: pen.palette.page });
  });
}

/** Paints the lane of a run. */
class RunPainter {
  constructor(pen, sight, words) {
    Object.assign(this, { pen, sight, words, window: words.window });
  }

  stretches(lane) {
    for (const stretch of this.sight.seen(this.window.states.get(lane.run))) {
      this.pen.stretch(this.sight.edge(stretch.from), this.sight.edge(stretch.to), this.sight.y(lane), lane.run, stretch.state);
    }
  }

  signs(lane) {
    const y = this.sight.y(lane);
    for (const step of this.sight.seenSteps(this.window.stepsOfRun.get(lane.run))) {
      if (this.sight.hasSigns) this.sign(this.window.entry(step), this.sight.x(step), y);
      else this.mark(this.window.entry(step), this.sight.x(step), y);
    }
    if (!this.sight.layout.isDense && this.sight.hasSigns) this.notes(lane);
  }

  sign(entry, x, y) {
    const { pen } = this;
    if (entry.kind === "did" || entry.kind === "undid") {
      const { text, kind } = RunPainter.answer(entry, this.window.run(entry.run));
      const width = Math.max(Math.min(pen.widthOf(text, 12, 500) + 18, this.sight.layout.columnWidth - 6), 22);
      pen.answerBox(x, y, width, entry.run, { text, kind });
    } else if (entry.kind === "arrived") pen.arrival(x, y, entry.run);
    else if (entry.kind === "placed") pen.placing(x, y, entry.run);
    else if (entry.kind === "doomed") pen.doom(x, y);
    else if (entry.committed) pen.commit(x, y, entry.run);
    else pen.abortion(x, y);
  }

  static answer(entry, run) {
    if (entry.kind === "undid") return { text: entry.drove ? entry.value : "drop", kind: entry.drove ? "undo" : "drop" };
    if (entry.down) return { text: "down", kind: "down" };
    if (entry.skipped) return { text: "skip", kind: "skip" };
    const { job } = run.commands[entry.command];
    return { text: entry.value, kind: job === "check" || job === "load" ? "read" : "write" };
  }

  /** A sign of which there is too little room for more than a stroke. */
  mark(entry, x, y) {
    const { pen } = this;
    const width = Math.max(Math.min(this.sight.layout.columnWidth - 1.5, 7), 1.5);
    const isDanger = entry.kind === "doomed" || entry.kind === "undid" || entry.committed === false;
    const color = isDanger ? pen.palette.danger : pen.palette.strong(entry.run);
    const height = { did: 12, undid: 12, doomed: 18, ended: 18 }[entry.kind] || 8;
    pen.area(x - width / 2, y - height / 2, width, height, color);
  }

  /** In the row below: for whom it waits, and why it is doomed. */
  notes(lane) {
    const y = this.sight.laneTop(lane) + lane.height - 11;
    const notes = this.sight.seen(this.window.states.get(lane.run)).map((stretch) => this.note(stretch)).filter(Boolean);
    writeNotes(this.pen, this.sight, notes, y);
  }

  note(stretch) {
    if (stretch.state === "waits") return { ...stretch, text: this.words.shortWait(stretch), color: this.pen.palette.muted };
    if (stretch.state !== "doomed") return null;
    const text = this.window.entry(this.window.dooms.get(stretch.run)).line.split(" ").slice(3).join(" ");
    return { ...stretch, text, color: this.pen.palette.danger };
  }

  /** From where it begins to wait to the lane of the run for which it waits. */
  arrows(lane) {
    for (const stretch of this.sight.seen(this.window.states.get(lane.run))) {
      const other = stretch.state === "waits" && this.sight.laneOf({ kind: "run", run: stretch.other });
      if (other) this.arrow(stretch, this.sight.y(lane), this.sight.y(other));
    }
  }

  arrow(stretch, y, toY) {
    const { pen } = this;
    const x = this.sight.edge(stretch.from) + this.sight.layout.columnWidth / 2 + ((stretch.run * 3) % 10) - 5;
    const color = pen.palette.strong(stretch.run);
    const tip = toY + (toY < y ? 3 : -3);
    pen.line(x, y, x, tip, { color, width: 1.25 });
    const back = toY < y ? 6 : -6;
    pen.path([[x, tip], [x - 3.5, tip + back], [x + 3.5, tip + back]], { fill: color });
    pen.disc(x, y, 2.5, { fill: color });
  }
}

/** Paints the lane of a device. */
class DevicePainter {
  constructor(pen, sight, words) {
    Object.assign(this, { pen, sight, words, window: words.window });
  }

  stretches(lane) {
    const { pen, sight } = this;
    const half = sight.layout.isDense ? 9 : 11;
    const y = sight.y(lane);
    for (const hold of sight.seen(this.window.holds.get(lane.device))) {
      const [x, toX] = [sight.edge(hold.from), sight.edge(hold.to)];
      pen.rounded(x, y - half, toX - x, 2 * half, 6, { fill: pen.palette.tint(hold.run) });
    }
    for (const down of sight.seen(this.window.downs.get(lane.device))) {
      const x = Math.max(sight.edge(down.from), sight.left);
      const toX = Math.min(sight.edge(down.to), sight.width);
      if (toX > x) pen.hatched(x, y - half + 3, toX - x, 2 * half - 6);
    }
    for (const lease of sight.seen(this.window.leases.get(lane.device))) this.lease(lane, lease);
  }

  lease(lane, lease) {
    const { pen, sight } = this;
    const [x, toX] = [sight.edge(lease.from), sight.edge(lease.to)];
    const y = sight.laneTop(lane) + lane.height - (sight.layout.isDense ? 5 : 21);
    pen.lease(x, toX, y + 3, lease.borrower);
  }

  signs(lane) {
    const { sight } = this;
    const y = sight.y(lane);
    const steps = sight.seenSteps(this.window.stepsOfDevice.get(lane.device));
    for (const step of steps) {
      if (sight.hasSigns) this.sign(this.window.entry(step), sight.x(step), y);
      else this.mark(this.window.entry(step), sight.x(step), y);
    }
    if (sight.hasSigns) this.valueTexts(lane, steps);
    if (sight.hasSigns && !sight.layout.isDense) this.leaseTexts(lane);
  }

  sign(entry, x, y) {
    const { pen } = this;
    if (entry.kind === "fell") pen.failure(x, y);
    else if (entry.kind === "rose") pen.restart(x, y);
    else {
      const { kind } = RunPainter.answer(entry, this.window.run(entry.run));
      if (kind === "write") pen.badge(x, y, entry.run);
      else if (kind === "read") pen.badge(x, y, entry.run, { hollow: true });
      else pen.answerBox(x, y, 26, entry.run, { text: String(entry.run), kind });
    }
  }

  mark(entry, x, y) {
    const { pen } = this;
    const width = Math.max(Math.min(this.sight.layout.columnWidth - 1.5, 7), 1.5);
    const isEvent = entry.run === undefined;
    const color = isEvent ? pen.palette.ink : entry.kind === "undid" ? pen.palette.danger : pen.palette.strong(entry.run);
    const height = isEvent ? 18 : 12;
    pen.area(x - width / 2, y - height / 2, width, height, color);
  }

  /** The value that the device has, where it begins to have it, and at the left edge. */
  valueTexts(lane, steps) {
    const { sight, pen } = this;
    const edge = sight.left + 8;
    for (const value of sight.seen(this.window.values.get(lane.device))) {
      const x = Math.max(this.valueX(value), edge);
      const isPast = sight.edge(value.to) <= edge;
      const isCovered = steps.some((step) => step !== value.from && Math.abs(sight.x(step) - x) <= 15);
      const next = steps.find((step) => step > value.from && sight.x(step) - 15 > x);
      const room = (next === undefined ? Infinity : sight.x(next) - 15) - x;
      if (!isPast && !isCovered) pen.text(value.value, x, sight.y(lane) + 0.5, { size: 12, room, halo: this.behind(lane, x) });
    }
  }

  /** Where the value is written that a device has from the step on: behind the sign of its entry. */
  valueX({ from }) {
    if (from === 0) return this.sight.left;
    return this.sight.x(from) + (this.window.entry(from).kind === "undid" ? 20 : 15);
  }

  /** The color on which a text stands there. */
  behind(lane, x) {
    const [holder] = this.window.holdersAt(lane.device, this.sight.layout.stateStepAt(x + 4 - this.sight.shiftX));
    return holder ? this.pen.palette.tint(holder) : this.pen.palette.page;
  }

  leaseTexts(lane) {
    const notes = this.sight.seen(this.window.leases.get(lane.device)).map((lease) => ({
      ...lease,
      text: `${lease.borrower} has it on lease until ${milliseconds(lease.deadline)}`,
      color: this.pen.palette.strong(lease.borrower),
    }));
    writeNotes(this.pen, this.sight, notes, this.sight.laneTop(lane) + lane.height - 9);
  }
}

/** Paints the places of the line: a ribbon for each item, which moves down where another comes before it. */
class LinePainter {
  constructor(pen, sight, words) {
    Object.assign(this, { pen, sight, words, window: words.window });
    this.half = sight.layout.isDense ? 7 : 9;
    this.bend = Math.min(sight.layout.columnWidth * 0.35, 16);
  }

  paint(lanes) {
    if (!lanes.length) return;
    const { sight, window } = this;
    this.lanes = new Map(lanes.map((lane) => [lane.place, lane]));
    this.ribbons = new Map();
    let before = Math.max(sight.firstStep - 1, 0);
    const line = window.line.at(before);
    this.turn(line, [], before, sight.edge(before));
    for (const step of this.seenTurns(before)) {
      const changes = window.line.between(before, step);
      const old = changes.length ? line.slice() : line;
      for (const change of changes) GrowingLine.apply(change, line);
      this.turn(line, old, step, sight.x(step));
      before = step;
    }
    const end = sight.edge(sight.lastStep < window.steps ? sight.lastStep : window.steps + 1);
    for (const [place, ribbon] of this.ribbons) this.close(place, ribbon, end);
  }

  /** The steps behind this one at which something changes; of those that stand at one pixel the last. */
  seenTurns(before) {
    const { turns } = this.window;
    const seen = turns.slice(countBelow(turns, before + 1), countBelow(turns, this.sight.lastStep + 1));
    return seen.filter((step, index) => index + 1 === seen.length || this.sight.x(seen[index + 1]) - this.sight.x(step) > 0.7);
  }

  /** Goes on behind a step: ribbons whose item or look changes are painted, and new ones begin. */
  turn(line, old, step, x) {
    for (const [place] of this.lanes) {
      const item = line[place];
      const look = item && this.look(item, step);
      const ribbon = this.ribbons.get(place);
      if (ribbon && ribbon.item === item && ribbon.look === look) continue;
      const stays = ribbon && line.includes(ribbon.item);
      if (ribbon) this.close(place, ribbon, ribbon.item === item || !stays ? x : x - this.bend);
      this.ribbons.delete(place);
      if (!item) continue;
      const from = old.indexOf(item);
      const shifts = from >= 0 && from !== place;
      if (shifts) this.bendTo(from, place, x, look, item);
      this.ribbons.set(place, { item, look, from: shifts ? x + this.bend : x });
    }
  }

  look(item, step) {
    if (item.run === undefined) return "event";
    if (this.window.hasEndedBy(item.run, step)) return "committed";
    return this.window.isDoomedBy(item.run, step) ? "doomed" : "live";
  }

  colors(item, look) {
    const { palette } = this.pen;
    if (look === "event") return { fill: palette.wash, ink: palette.ink };
    if (look === "committed") return { fill: palette.strong(item.run), ink: palette.onStrong };
    return { fill: palette.tint(item.run), ink: palette.strong(item.run) };
  }

  bendTo(from, place, x, look, item) {
    const lane = this.lanes.get(place);
    const { context } = this.pen;
    const y = this.sight.y(lane);
    const fromY = y + (from - place) * lane.height;
    context.strokeStyle = this.colors(item, look).fill;
    context.lineWidth = 2 * this.half;
    context.beginPath();
    context.moveTo(x - this.bend - 0.5, fromY);
    context.bezierCurveTo(x, fromY, x, y, x + this.bend + 0.5, y);
    context.stroke();
  }

  close(place, ribbon, toX) {
    const { pen, sight } = this;
    const { fill, ink } = this.colors(ribbon.item, ribbon.look);
    const y = sight.y(this.lanes.get(place));
    const x = Math.max(ribbon.from, sight.left - 10);
    const end = Math.min(toX, sight.width + 10);
    if (end <= x) return;
    pen.area(x, y - this.half, end - x, 2 * this.half, fill);
    const rim = { color: pen.palette.danger, width: 1.5, dash: [8, 4] };
    for (const edge of ribbon.look === "doomed" ? [y - this.half + 1, y + this.half - 1] : []) pen.line(x, edge, end, edge, rim);
    const textX = Math.max(x, sight.left) + 7;
    pen.text(this.label(ribbon.item), textX, y + 0.5, { size: 11, weight: 500, color: ink, room: end - 5 - textX });
  }

  label(item) {
    return item.run === undefined ? this.words.event(item) : `${item.run} ${this.window.run(item.run).name}`;
  }
}
