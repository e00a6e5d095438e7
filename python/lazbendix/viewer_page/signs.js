"use strict";

// How signs are drawn on a canvas, in the chart and in the key to it.

// Hues of runs, each with the lightness at which a text of it, and on it, is read well: in light colors and in dark ones.
const HUES = [
  [212, 39, 68], [24, 36, 66], [152, 29, 62], [316, 36, 70], [266, 42, 71], [186, 30, 62],
  [44, 31, 62], [68, 26, 60], [96, 29, 62], [296, 40, 70], [128, 30, 62], [232, 42, 72],
];

/** The colours of the page's theme, and of each run. */
class Palette {
  constructor(element) {
    const style = getComputedStyle(element);
    const color = (name) => style.getPropertyValue(`--${name}`).trim();
    const names = ["ink", "muted", "faint", "hairline", "panel", "page", "accent", "danger", "wash", "hatch"];
    for (const name of names) this[name] = color(name);
    this.family = style.fontFamily;
    this.isDark = color("is-dark") === "1";
  }

  hue(run) {
    return HUES[(run - 1) % HUES.length];
  }

  strong(run) {
    const [hue, light, dark] = this.hue(run);
    return this.isDark ? `hsl(${hue} 55% ${dark}%)` : `hsl(${hue} 52% ${light}%)`;
  }

  tint(run) {
    const [hue] = this.hue(run);
    return this.isDark ? `hsl(${hue} 30% 23%)` : `hsl(${hue} 55% 90%)`;
  }

  soft(run) {
    const [hue] = this.hue(run);
    return this.isDark ? `hsl(${hue} 32% 50%)` : `hsl(${hue} 40% 62%)`;
  }

  get onStrong() {
    return this.isDark ? "#14171a" : "#ffffff";
  }
}

/** Draws on a canvas, and keeps where its texts stand. */
class Pen {
  constructor(context, palette) {
    this.context = context;
    this.palette = palette;
    this.labels = [];
    this.widths = new Map();
    this.bounds = null;
  }

  /** Draws within a rectangle only. */
  within(left, top, width, height, draw) {
    this.context.save();
    this.context.beginPath();
    this.context.rect(left, top, width, height);
    this.context.clip();
    this.bounds = { left, top, right: left + width, bottom: top + height };
    draw();
    this.bounds = null;
    this.context.restore();
  }

  font(size, weight) {
    this.context.font = `${weight} ${size}px ${this.palette.family}`;
  }

  widthOf(text, size = 12, weight = 400) {
    const key = `${weight} ${size} ${text}`;
    if (!this.widths.has(key)) {
      this.font(size, weight);
      this.widths.set(key, this.context.measureText(text).width);
    }
    return this.widths.get(key);
  }

  /** As much of the text as there is room for: all, a beginning with an ellipsis, or nothing. */
  fitted(text, room, size, weight) {
    if (this.widthOf(text, size, weight) <= room) return text;
    let length = Math.min(text.length - 1, Math.floor(room / (size * 0.5)));
    while (length > 1 && this.widthOf(`${text.slice(0, length)}…`, size, weight) > room) length--;
    return length > 1 ? `${text.slice(0, length)}…` : "";
  }

  /** Writes a text beside, behind or around x, its middle at y. Gives its width, or 0 where there is no room. */
  text(text, x, y, { size = 12, weight = 400, color = this.palette.ink, align = "left", room = Infinity, halo = null } = {}) {
    const shown = this.fitted(text, room, size, weight);
    if (!shown) return 0;
    const width = this.widthOf(shown, size, weight);
    const left = align === "center" ? x - width / 2 : align === "right" ? x - width : x;
    const { context } = this;
    this.font(size, weight);
    context.textBaseline = "middle";
    context.textAlign = "left";
    if (halo) {
      context.lineWidth = 4;
      context.lineJoin = "round";
      context.strokeStyle = halo;
      context.strokeText(shown, left, y);
    }
    context.fillStyle = color;
    context.fillText(shown, left, y);
    this.note(shown, left, y, width, size);
    return width;
  }

  note(text, left, y, width, size) {
    const bounds = this.bounds || { left: -Infinity, top: -Infinity, right: Infinity, bottom: Infinity };
    const label = {
      text,
      left: Math.max(left, bounds.left),
      right: Math.min(left + width, bounds.right),
      top: Math.max(y - size * 0.42, bounds.top),
      bottom: Math.min(y + size * 0.42, bounds.bottom),
    };
    if (label.left < label.right && label.top < label.bottom) this.labels.push(label);
  }

  line(x, y, toX, toY, { color = this.palette.ink, width = 1, dash = [] } = {}) {
    const { context } = this;
    context.strokeStyle = color;
    context.lineWidth = width;
    context.setLineDash(dash);
    context.lineDashOffset = dash.length ? x % dash.reduce((sum, part) => sum + part) : 0;
    context.beginPath();
    context.moveTo(x, y);
    context.lineTo(toX, toY);
    context.stroke();
    context.setLineDash([]);
  }

  area(left, top, width, height, color) {
    this.context.fillStyle = color;
    this.context.fillRect(left, top, width, height);
  }

  rounded(left, top, width, height, radius, { fill = null, stroke = null, dash = [], thickness = 1.25 } = {}) {
    const { context } = this;
    context.beginPath();
    context.roundRect(left, top, width, height, Math.min(radius, width / 2, height / 2));
    this.finish(fill, stroke, dash, thickness);
  }

  disc(x, y, radius, { fill = null, stroke = null, thickness = 1.5 } = {}) {
    this.context.beginPath();
    this.context.arc(x, y, radius, 0, 2 * Math.PI);
    this.finish(fill, stroke, [], thickness);
  }

  path(points, { fill = null, stroke = null, thickness = 1.5, closed = true } = {}) {
    const { context } = this;
    context.beginPath();
    points.forEach(([x, y], index) => (index ? context.lineTo(x, y) : context.moveTo(x, y)));
    if (closed) context.closePath();
    this.finish(fill, stroke, [], thickness);
  }

  finish(fill, stroke, dash, thickness) {
    const { context } = this;
    if (fill) {
      context.fillStyle = fill;
      context.fill();
    }
    if (stroke) {
      context.strokeStyle = stroke;
      context.lineWidth = thickness;
      context.setLineDash(dash);
      context.stroke();
      context.setLineDash([]);
    }
  }

  hatched(left, top, width, height) {
    const { context } = this;
    context.save();
    context.beginPath();
    context.rect(left, top, width, height);
    context.clip();
    context.strokeStyle = this.palette.hatch;
    context.lineWidth = 2;
    context.beginPath();
    for (let x = Math.floor((left - height) / 7) * 7; x < left + width; x += 7) {
      context.moveTo(x, top + height);
      context.lineTo(x + height, top);
    }
    context.stroke();
    context.restore();
  }

  // Signs, each around its middle.

  arrival(x, y, run) {
    this.disc(x, y, 4.5, { fill: this.palette.panel, stroke: this.palette.strong(run) });
  }

  placing(x, y, run) {
    this.line(x, y - 9, x, y + 9, { color: this.palette.strong(run), width: 3 });
  }

  cross(x, y, size, color, width = 2.5) {
    this.line(x - size, y - size, x + size, y + size, { color, width });
    this.line(x - size, y + size, x + size, y - size, { color, width });
  }

  doom(x, y) {
    this.disc(x, y, 9.5, { fill: this.palette.panel });
    this.cross(x, y, 6, this.palette.danger);
  }

  commit(x, y, run) {
    this.disc(x, y, 8.5, { fill: this.palette.strong(run) });
    const points = [[x - 3.8, y + 0.2], [x - 1, y + 3], [x + 4, y - 2.8]];
    this.path(points, { stroke: this.palette.onStrong, thickness: 1.9, closed: false });
  }

  abortion(x, y) {
    this.disc(x, y, 8, { fill: this.palette.panel, stroke: this.palette.danger, thickness: 1.75 });
    this.cross(x, y, 3.2, this.palette.danger, 1.75);
  }

  failure(x, y) {
    this.path([[x, y + 8], [x - 8, y - 6], [x + 8, y - 6]], { fill: this.palette.ink, stroke: this.palette.panel });
  }

  restart(x, y) {
    this.path([[x, y - 8], [x - 8, y + 6], [x + 8, y + 6]], { fill: this.palette.panel, stroke: this.palette.ink });
  }

  /** The number of a run, white on its colour, or in its colour where it only reads. */
  badge(x, y, run, { hollow = false, radius = 9 } = {}) {
    const { palette } = this;
    const look = hollow ? { fill: palette.panel, stroke: palette.strong(run) } : { fill: palette.strong(run) };
    const size = run > 9 ? 11 : 12;
    const width = Math.max(2 * radius, this.widthOf(String(run), size, 600) + 7);
    this.rounded(x - width / 2, y - radius, width, 2 * radius, radius, look);
    const color = hollow ? palette.strong(run) : palette.onStrong;
    this.text(String(run), x, y + 0.5, { size, weight: 600, align: "center", color });
    return width;
  }

  /** The box of an answer or an undo; its text has room inside of the width. */
  answerBox(x, y, width, run, { text, kind }) {
    const { palette } = this;
    const strong = palette.strong(run);
    const looks = {
      write: [{ fill: strong }, palette.onStrong],
      read: [{ fill: palette.panel, stroke: strong, thickness: 1.5 }, strong],
      down: [{ fill: palette.panel, stroke: palette.muted, dash: [3, 2] }, palette.muted],
      skip: [{ fill: palette.panel, stroke: palette.muted, dash: [1, 3] }, palette.muted],
      undo: [{ fill: palette.panel, stroke: palette.danger, thickness: 1.5 }, palette.danger],
      drop: [{ fill: palette.panel, stroke: palette.danger, dash: [3, 2] }, palette.danger],
    };
    const [look, color] = looks[kind];
    const back = kind === "undo" || kind === "drop";
    if (back) this.tag(x, y, width, look);
    else this.rounded(x - width / 2, y - 10, width, 20, 5, look);
    this.text(text, back ? x + 3 : x, y + 0.5, { size: 12, weight: 500, align: "center", color, room: width - (back ? 14 : 8) });
  }

  /** A box that points back, to the left. */
  tag(x, y, width, { fill, stroke, dash = [], thickness = 1.25 }) {
    const [left, right] = [x - width / 2 - 2, x + width / 2];
    const { context } = this;
    context.beginPath();
    [[left, y], [left + 9, y - 10], [right, y - 10], [right, y + 10], [left + 9, y + 10]]
      .forEach(([px, py], index) => (index ? context.lineTo(px, py) : context.moveTo(px, py)));
    context.closePath();
    this.finish(fill, stroke, dash, thickness);
  }

  /** The line of a run between two entries. */
  stretch(x, toX, y, run, state) {
    const color = this.palette.strong(run);
    if (state === "works") this.line(x, y, toX, y, { color, width: 3 });
    if (state === "waits") this.line(x, y, toX, y, { color: this.palette.soft(run), width: 2, dash: [2, 5] });
    if (state === "doomed") this.line(x, y, toX, y, { color: this.palette.danger, width: 2, dash: [8, 4] });
  }

  /** A bracket over what a run has on lease. */
  lease(x, toX, y, run) {
    const color = this.palette.strong(run);
    this.path([[x, y + 5], [x, y], [toX, y], [toX, y + 5]], { stroke: color, thickness: 1.5, closed: false });
  }
}
