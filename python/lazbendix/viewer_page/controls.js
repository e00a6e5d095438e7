"use strict";

// The parts of the page with which one chooses what the chart shows, and the key to its signs.

/** Which runs and devices are shown. */
class ChoicePanel {
  constructor(box, change) {
    Object.assign(this, { box, change });
    this.box.querySelector("#search").addEventListener("input", () => this.search());
    this.box.querySelector("#all").addEventListener("click", () => this.clear());
    this.box.querySelector("#aborted").addEventListener("click", () => this.chooseAborted());
    this.box.querySelector("#only-steps").addEventListener("change", () => this.take());
    this.box.querySelector("#untouched").addEventListener("change", () => this.take());
  }

  show(window, choice) {
    Object.assign(this, { window, choice });
    this.fill("#run-choices", window.runs.map((run) => [run.number, `${run.number} ${run.name}`]), choice.runs);
    this.fill("#device-choices", window.day.devices.map((device, number) => [number, device.name]), choice.devices);
    this.box.querySelector("#only-steps").checked = choice.onlySteps;
    this.box.querySelector("#untouched").checked = choice.untouched;
    this.search();
  }

  fill(name, members, chosen) {
    const items = members.map(([number, text]) => {
      const check = element("input", { type: "checkbox", checked: chosen.has(number), value: String(number) });
      check.addEventListener("change", () => {
        this.choice.onlyAborted = false;
        if (check.checked) chosen.add(number);
        else chosen.delete(number);
        this.change();
      });
      return element("label", { className: "choice" }, check, ` ${text}`);
    });
    this.box.querySelector(name).replaceChildren(...items);
  }

  search() {
    const wanted = this.box.querySelector("#search").value.trim().toLowerCase();
    for (const item of this.box.querySelectorAll(".choice")) item.hidden = !item.textContent.toLowerCase().includes(wanted);
  }

  clear() {
    this.choice.clear();
    this.show(this.window, this.choice);
    this.change();
  }

  chooseAborted() {
    this.choice.clear();
    this.choice.onlyAborted = true;
    for (const run of this.window.runs) if (run.end === "aborted") this.choice.runs.add(run.number);
    this.show(this.window, this.choice);
    this.change();
  }

  take() {
    this.choice.onlySteps = this.box.querySelector("#only-steps").checked;
    this.choice.untouched = this.box.querySelector("#untouched").checked;
    this.change();
  }
}

/** The whole window as a strip, with what is seen of it. */
class Overview {
  constructor(canvas) {
    Object.assign(this, { canvas, context: canvas.getContext("2d") });
  }

  /** Shows a view, and which part of it the chart shows, in pixels of the chart. */
  show(view, seen) {
    const [width, height] = [this.canvas.clientWidth, this.canvas.clientHeight];
    const isSame = this.view?.layout === view.layout && this.palette === view.palette && this.width === width;
    Object.assign(this, { view, palette: view.palette, width });
    if (!isSame) this.ground = this.painted(width, height);
    this.canvas.width = this.ground.width;
    this.canvas.height = this.ground.height;
    this.context.drawImage(this.ground, 0, 0);
    this.context.scale(this.ratio, this.ratio);
    this.paintSeen(new Pen(this.context, view.palette), seen, width, height);
  }

  get ratio() {
    return window.devicePixelRatio || 1;
  }

  /** A canvas with the entries alone, which stay while the chart is scrolled. */
  painted(width, height) {
    const canvas = element("canvas", { width: Math.round(width * this.ratio), height: Math.round(height * this.ratio) });
    const context = canvas.getContext("2d");
    context.scale(this.ratio, this.ratio);
    const pen = new Pen(context, this.palette);
    pen.area(0, 0, width, height, this.palette.page);
    const { layout, words } = this.view;
    const room = width / Math.max(layout.columns.length, 1);
    const wide = Math.max(Math.min(room - 1, 7), 1);
    layout.columns.forEach((step, column) => {
      const entry = words.window.entry(step);
      const tall = entry.kind === "did" ? height * 0.3 : height * 0.62;
      pen.area((column + 0.5) * room - wide / 2, (height - tall) / 2, wide, tall, Overview.color(entry, this.palette));
    });
    return canvas;
  }

  paintSeen(pen, seen, width, height) {
    const scale = width / Math.max(this.view.layout.width, 1);
    const left = Math.min(seen.left * scale, width - 4);
    const wide = Math.max(Math.min(seen.width * scale, width - left) - 1, 4);
    pen.rounded(left + 0.75, 0.75, wide - 0.5, height - 1.5, 4, { stroke: this.palette.faint, thickness: 1.5 });
    if (this.view.step) pen.area(this.view.layout.x(this.view.step) * scale - 1, 0, 2, height, this.palette.accent);
  }

  static color(entry, palette) {
    if (entry.kind === "fell" || entry.kind === "rose") return palette.ink;
    if (entry.kind === "doomed" || entry.kind === "undid" || entry.committed === false) return palette.danger;
    return entry.kind === "arrived" || entry.kind === "placed" ? palette.hairline : palette.strong(entry.run);
  }

  /** The step at a point of the strip. */
  stepAt(x) {
    const { columns } = this.view.layout;
    return columns[Math.min(Math.max(Math.floor((x / this.canvas.clientWidth) * columns.length), 0), columns.length - 1)];
  }
}

/** The key to the signs. */
class Key {
  static SIGNS = [
    ["arrives", (pen, x, y) => pen.arrival(x, y, 1)],
    ["is placed in the line", (pen, x, y) => pen.placing(x, y, 1)],
    ["writes", (pen, x, y) => pen.answerBox(x, y, 36, 1, { text: "on", kind: "write" })],
    ["reads", (pen, x, y) => pen.answerBox(x, y, 36, 1, { text: "on", kind: "read" })],
    ["is told that the device is down", (pen, x, y) => pen.answerBox(x, y, 44, 1, { text: "down", kind: "down" })],
    ["skips a command, whose guard does not hold", (pen, x, y) => pen.answerBox(x, y, 44, 1, { text: "skip", kind: "skip" })],
    ["takes back: the device is driven", (pen, x, y) => pen.answerBox(x, y, 36, 1, { text: "off", kind: "undo" })],
    ["drops a write: the device is down", (pen, x, y) => pen.answerBox(x, y, 52, 1, { text: "drop", kind: "drop" })],
    ["is doomed", (pen, x, y) => pen.doom(x, y)],
    ["commits", (pen, x, y) => pen.commit(x, y, 1)],
    ["ends aborted", (pen, x, y) => pen.abortion(x, y)],
    ["is at work", (pen, x, y) => pen.stretch(x - 22, x + 22, y, 1, "works")],
    ["waits; the arrow tells for whom", (pen, x, y) => pen.stretch(x - 22, x + 22, y, 1, "waits")],
    ["is doomed, and takes back", (pen, x, y) => pen.stretch(x - 22, x + 22, y, 1, "doomed")],
    ["a run has the device", (pen, x, y) => pen.rounded(x - 22, y - 10, 44, 20, 6, { fill: pen.palette.tint(1) })],
    ["a run has the device on lease", (pen, x, y) => pen.lease(x - 22, x + 22, y - 2, 1)],
    ["the device fails", (pen, x, y) => pen.failure(x, y)],
    ["the device is down", (pen, x, y) => pen.hatched(x - 22, y - 8, 44, 16)],
    ["the device is back", (pen, x, y) => pen.restart(x, y)],
  ];

  constructor(box) {
    this.box = box;
  }

  show(palette) {
    this.box.replaceChildren(...Key.SIGNS.map(([meaning, draw]) => element("li", {}, this.sample(palette, draw), meaning)));
  }

  sample(palette, draw) {
    const [width, height, ratio] = [60, 26, window.devicePixelRatio || 1];
    const style = `width:${width}px;height:${height}px`;
    const canvas = element("canvas", { width: width * ratio, height: height * ratio, style, "aria-hidden": "true" });
    const context = canvas.getContext("2d");
    context.scale(ratio, ratio);
    draw(new Pen(context, palette), width / 2, height / 2);
    return canvas;
  }
}
