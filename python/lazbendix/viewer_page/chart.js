"use strict";

// The chart: its lanes with their names and the row of moments and steps, painted as far as they are seen.

const SPARE = 28; // room behind the last column

/** The canvas with its lanes, in a box that scrolls over them. */
class Chart {
  constructor(scroller, space, canvas) {
    Object.assign(this, { scroller, space, canvas, context: canvas.getContext("2d") });
    this.palette = null;
    this.labels = []; // of the last painting
  }

  get labelWidth() {
    return this.scroller.clientWidth < 560 ? 112 : 176;
  }

  /** Takes what is to be seen: the window's words and layout, the step of the cursor, what is selected and pointed at. */
  show(view) {
    this.view = view;
    this.space.style.width = `${this.labelWidth + view.layout.width + SPARE}px`;
    this.space.style.height = `${HEAD + view.layout.bottom + 12}px`;
  }

  takeTheme(element) {
    this.palette = new Palette(element);
  }

  paint() {
    const [width, height] = [this.scroller.clientWidth, this.scroller.clientHeight];
    const ratio = window.devicePixelRatio || 1;
    if (this.canvas.width !== Math.round(width * ratio) || this.canvas.height !== Math.round(height * ratio)) {
      this.canvas.width = Math.round(width * ratio);
      this.canvas.height = Math.round(height * ratio);
      this.canvas.style.width = `${width}px`;
      this.canvas.style.height = `${height}px`;
    }
    this.context.setTransform(ratio, 0, 0, ratio, 0, 0);
    const pen = new Pen(this.context, this.palette);
    const sight = new Sight(this.view.layout, this.scroller, this.labelWidth, width, height);
    pen.area(0, 0, width, height, this.palette.page);
    pen.within(sight.left, HEAD, width - sight.left, height - HEAD, () => this.paintLanes(pen, sight));
    pen.within(0, HEAD, sight.left, height - HEAD, () => this.paintLabels(pen, sight));
    this.paintHead(pen, sight);
    this.labels = pen.labels;
  }

  // The lanes.

  paintLanes(pen, sight) {
    const { words } = this.view;
    const painters = { run: new RunPainter(pen, sight, words), device: new DevicePainter(pen, sight, words) };
    this.paintGrounds(pen, sight);
    const lanes = sight.lanes.filter((lane) => painters[lane.kind]);
    for (const lane of lanes) painters[lane.kind].stretches(lane);
    this.paintDrops(pen, sight);
    for (const lane of lanes) if (lane.kind === "run" && this.hasArrows(lane, sight)) painters.run.arrows(lane);
    for (const lane of lanes) painters[lane.kind].signs(lane);
    new LinePainter(pen, sight, words).paint(sight.lanes.filter((lane) => lane.kind === "place"));
  }

  hasArrows(lane, sight) {
    const { selected, pointed } = this.view;
    return sight.hasSigns && (!sight.layout.isDense || Layout.isSame(lane, selected) || Layout.isSame(lane, pointed?.lane));
  }

  paintGrounds(pen, sight) {
    const { palette } = pen;
    const { step, selected, pointed } = this.view;
    for (const lane of sight.lanes) {
      if (Layout.isSame(lane, selected)) pen.area(sight.left, sight.laneTop(lane), sight.width, lane.height, palette.wash);
      if (lane.kind === "head") pen.area(sight.left, sight.laneTop(lane), sight.width, lane.height, palette.panel);
      else pen.line(sight.left, sight.y(lane), sight.width, sight.y(lane), { color: palette.hairline });
    }
    if (pointed?.step && pointed.step !== step) this.paintColumn(pen, sight, pointed.step, palette.faint);
    if (step > 0) this.paintColumn(pen, sight, step, palette.accent);
  }

  paintColumn(pen, sight, step, color) {
    const width = Math.max(sight.layout.columnWidth, 3);
    pen.context.globalAlpha = 0.13;
    pen.area(sight.x(step) - width / 2, HEAD, width, sight.height, color);
    pen.context.globalAlpha = 1;
  }

  /** Dotted lines from a run's sign to its device, or its place in the line. */
  paintDrops(pen, sight) {
    const { step, pointed } = this.view;
    const all = !sight.layout.isDense && sight.hasSigns && sight.layout.lanes.length < 60;
    const columns = all ? sight.layout.columns.slice(sight.firstColumn, sight.lastColumn + 1) : [];
    for (const shown of new Set([...columns, step, pointed?.step].filter(Boolean))) {
      this.paintDrop(pen, sight, shown, shown === step || shown === pointed?.step);
    }
  }

  paintDrop(pen, sight, step, isMeant) {
    const entry = this.view.words.window.entry(step);
    const from = sight.laneOf({ kind: "run", run: entry.run });
    const to = this.dropTarget(sight, entry, step, isMeant);
    if (!from || !to) return;
    const color = isMeant ? pen.palette.accent : pen.palette.faint;
    pen.line(sight.x(step), sight.y(from), sight.x(step), sight.y(to), { color, width: isMeant ? 1.5 : 1, dash: [2, 3] });
  }

  dropTarget(sight, entry, step, isMeant) {
    if (entry.skipped && !isMeant) return null;
    if (entry.device !== undefined) return sight.laneOf({ kind: "device", device: entry.device });
    if (entry.kind !== "placed" && !entry.committed) return null;
    if (!isMeant) return null;
    const place = this.view.words.window.line.at(step).findIndex((item) => item.run === entry.run);
    return sight.laneOf({ kind: "place", place });
  }

  // The head: moments and steps.

  paintHead(pen, sight) {
    const { palette } = pen;
    pen.area(0, 0, sight.width, HEAD, palette.panel);
    pen.within(sight.left, 0, sight.width - sight.left, HEAD, () => {
      const taken = this.paintCursor(pen, sight);
      this.paintSteps(pen, sight, taken);
      this.paintMoments(pen, sight);
    });
    pen.within(0, 0, sight.left, HEAD, () => {
      pen.text("moment", sight.left - 10, 13, { size: 11, color: palette.muted, align: "right" });
      pen.text("step", sight.left - 10, 33, { size: 11, color: palette.muted, align: "right" });
    });
    pen.line(0, HEAD - 0.5, sight.width, HEAD - 0.5, { color: palette.hairline });
    pen.line(sight.left - 0.5, 0, sight.left - 0.5, sight.height, { color: palette.hairline });
  }

  /** The step of the cursor. Gives where its sign stands. */
  paintCursor(pen, sight) {
    const { step } = this.view;
    if (!step) return null;
    const x = sight.x(step);
    const half = pen.widthOf(String(step), 11, 600) / 2 + 7;
    pen.rounded(x - half, 24, 2 * half, 18, 9, { fill: pen.palette.accent });
    pen.text(String(step), x, 33.5, { size: 11, weight: 600, align: "center", color: pen.palette.onStrong });
    return { left: x - half, right: x + half };
  }

  paintSteps(pen, sight, taken) {
    const { columns, columnWidth } = sight.layout;
    const wanted = pen.widthOf(String(this.view.words.window.steps), 11, 400) + 18;
    const stride = [1, 2, 5, 10, 20, 50, 100, 200, 500, 1000, 2000, 5000].find((count) => count * columnWidth >= wanted) || 10000;
    for (let column = sight.firstColumn; column <= sight.lastColumn; column++) {
      const step = columns[column];
      if (stride > 1 && (column + 1) % stride) continue;
      const x = sight.x(step);
      const half = pen.widthOf(String(step), 11, 400) / 2 + 3;
      if (taken && x + half > taken.left && x - half < taken.right) continue;
      pen.text(String(step), x, 33.5, { size: 11, align: "center", color: pen.palette.muted });
    }
  }

  paintMoments(pen, sight) {
    const { moments } = this.view.words.window;
    let end = -Infinity;
    let told = null;
    for (const column of sight.seenColumns()) {
      const step = sight.layout.columns[column];
      if (moments[step] === told) continue;
      told = moments[step];
      const x = Math.max(sight.x(step) - Math.min(sight.layout.columnWidth / 2, 20) + 4, sight.left + 6);
      if (x > end) end = x + pen.text(milliseconds(told), x, 13, { size: 11, color: pen.palette.muted }) + 10;
    }
  }

  // The names of the lanes.

  paintLabels(pen, sight) {
    pen.area(0, HEAD, sight.left, sight.height, pen.palette.panel);
    for (const lane of sight.lanes) {
      const top = sight.laneTop(lane);
      if (Layout.isSame(lane, this.view.selected)) this.paintSelected(pen, sight, lane, top);
      if (lane.kind === "head") this.paintGroup(pen, sight, lane, top);
      else this.paintLabel(pen, sight, lane, top);
    }
  }

  paintSelected(pen, sight, lane, top) {
    pen.area(0, top, sight.left, lane.height, pen.palette.wash);
    pen.area(0, top, 3, lane.height, pen.palette.accent);
  }

  paintGroup(pen, sight, lane, top) {
    const middle = top + lane.height / 2;
    const open = [[10, middle - 3], [18, middle - 3], [14, middle + 3]];
    const folded = [[11, middle - 4], [11, middle + 4], [17, middle]];
    pen.path(lane.isOpen ? open : folded, { fill: pen.palette.muted });
    const name = { runs: "Runs", devices: "Devices", line: "The line" }[lane.group];
    const width = pen.text(name, 25, middle + 0.5, { size: 12, weight: 600 });
    const counts = lane.group === "line" ? "" : lane.shown === lane.all ? `${lane.all}` : `${lane.shown} of ${lane.all}`;
    pen.text(counts, 25 + width + 8, middle + 0.5, { size: 11, color: pen.palette.muted, room: sight.left - width - 40 });
  }

  paintLabel(pen, sight, lane, top) {
    const { words, step } = this.view;
    const middle = sight.y(lane);
    const noteY = top + lane.height - 12;
    const isRoomy = !sight.layout.isDense;
    const left = lane.kind === "run" ? 36 : 14;
    const room = sight.left - left - 8;
    if (lane.kind === "place") this.paintPlaceLabel(pen, sight, lane);
    if (lane.kind === "run") {
      pen.badge(19, middle, lane.run, { radius: isRoomy ? 10 : 8.5 });
      pen.text(words.window.run(lane.run).name, left, middle + 0.5, { size: 13, weight: 500, room });
      if (isRoomy) pen.text(words.shortState(lane.run, step), left, noteY, { size: 11, color: pen.palette.muted, room });
    }
    if (lane.kind === "device") {
      pen.text(words.device(lane.device), left, middle + 0.5, { size: 13, weight: 500, room });
      if (isRoomy) pen.text(words.shortStand(lane.device, step), left, noteY, { size: 11, color: pen.palette.muted, room });
    }
  }

  paintPlaceLabel(pen, sight, lane) {
    const { words, step } = this.view;
    const y = sight.y(lane) + 0.5;
    pen.text(ordinal(lane.place + 1), 14, y, { size: 12, color: pen.palette.muted });
    const item = words.window.line.at(step)[lane.place];
    if (!item) return;
    const name = item.run === undefined ? words.event(item) : words.window.run(item.run).name;
    pen.text(name, 50, y, { size: 12, room: sight.left - 58 });
  }

  // Where the pointer is.

  /** The lane and the step under a point of the canvas; whether it points at the lane's name. */
  at(x, y) {
    const isName = x < this.labelWidth;
    const lane = y < HEAD ? null : this.view.layout.laneAt(y - HEAD + this.scroller.scrollTop);
    if (isName) return { lane, isName, step: undefined };
    const place = x - this.labelWidth + this.scroller.scrollLeft;
    return { lane, isName, step: this.view.layout.stepAt(place), stateStep: this.view.layout.stateStepAt(place) };
  }

  /** Scrolls so far that the step and the lane are seen; where the step is far away, so that it stands in the middle. */
  reveal(step, lane) {
    this.revealStep(this.view.layout.x(step));
    if (!lane) return;
    const height = this.scroller.clientHeight - HEAD;
    const isSeen = lane.top >= this.scroller.scrollTop && lane.top + lane.height <= this.scroller.scrollTop + height;
    if (!isSeen) this.scroller.scrollTop = lane.top - height / 3; // on a telephone the words stand over the lower part
  }

  revealStep(x) {
    const room = this.scroller.clientWidth - this.labelWidth;
    const margin = Math.min(Math.max(this.view.layout.columnWidth * 1.5, 50), room / 3);
    const below = this.scroller.scrollLeft + margin - x;
    const above = x - (this.scroller.scrollLeft + room - margin);
    if (Math.max(below, above) > room / 2) this.scroller.scrollLeft = x - room / 2;
    else if (below > 0) this.scroller.scrollLeft = Math.max(x - margin, 0);
    else if (above > 0) this.scroller.scrollLeft = x + margin - room;
  }
}
