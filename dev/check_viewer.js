"use strict";

// What dev/check_viewer.py asks of a page in a browser. A list is empty where all is as it should be.

const asked = {
  meet(one, other) {
    const wide = Math.min(one.right, other.right) - Math.max(one.left, other.left);
    return wide > 1 && Math.min(one.bottom, other.bottom) - Math.max(one.top, other.top) > 1;
  },

  pairs(things, areWrong, told) {
    const wrongOf = (one, k) => things.slice(k + 1).filter((other) => areWrong(one, other));
    return things.flatMap((one, k) => wrongOf(one, k).map((other) => `${told(one)} | ${told(other)}`));
  },

  /** Texts of the chart that stand one over another. */
  chartOverlaps() {
    return asked.pairs(page.chart.labels, asked.meet, (label) => label.text);
  },

  /** Texts of the page, beside the chart, that stand one over another where both are seen. */
  textOverlaps() {
    const areWrong = (one, other) => one.node !== other.node && one.layer === other.layer && asked.meet(one, other);
    return asked.pairs(asked.seenTexts(), areWrong, (text) => text.node.data.trim());
  },

  seenTexts() {
    const seen = [];
    const walker = document.createTreeWalker(document.body, NodeFilter.SHOW_TEXT);
    while (walker.nextNode()) {
      const node = walker.currentNode;
      const parent = node.parentElement;
      if (!node.data.trim() || parent.closest("script, style, dialog:not([open]), [hidden], #tip")) continue;
      const range = document.createRange();
      range.selectNodeContents(node);
      const layer = parent.closest("dialog, #card"); // what lies over the page, or may
      for (const box of [...range.getClientRects()].map((rect) => asked.clipped(rect, parent))) {
        if (box.left < box.right && box.top < box.bottom) seen.push({ node, layer, ...box });
      }
    }
    return seen;
  },

  /** As much of a line of text as is seen, without the room above and below its letters. */
  clipped(rect, from) {
    const room = rect.height * 0.2;
    const box = { left: rect.left, right: rect.right, top: rect.top + room, bottom: rect.bottom - room };
    for (let at = from; at && at !== document.body; at = at.parentElement) {
      const style = getComputedStyle(at);
      if (style.overflowX === "visible" && style.overflowY === "visible") continue;
      const edge = at.getBoundingClientRect();
      box.left = Math.max(box.left, edge.left);
      box.right = Math.min(box.right, edge.right);
      box.top = Math.max(box.top, edge.top);
      box.bottom = Math.min(box.bottom, edge.bottom);
    }
    return box;
  },

  /** How light a color is, from 0 to 1. */
  lightness(color) {
    const context = document.createElement("canvas").getContext("2d");
    context.fillStyle = color;
    context.fillRect(0, 0, 1, 1);
    const [red, green, blue] = [...context.getImageData(0, 0, 1, 1).data].map((part) => part / 255)
      .map((part) => (part <= 0.04045 ? part / 12.92 : ((part + 0.055) / 1.055) ** 2.4));
    return 0.2126 * red + 0.7152 * green + 0.0722 * blue;
  },

  contrast(one, other) {
    const [dark, light] = [asked.lightness(one), asked.lightness(other)].sort((first, second) => first - second);
    return (light + 0.05) / (dark + 0.05);
  },

  /** Colors of texts that are not read well on their grounds. */
  lowContrasts() {
    const { palette } = page;
    const pairs = [[palette.onStrong, palette.accent, "on accent"]];
    for (const name of ["ink", "muted", "accent", "danger"]) {
      for (const ground of ["page", "panel", "wash"]) pairs.push([palette[name], palette[ground], `${name} on ${ground}`]);
    }
    for (let run = 1; run <= HUES.length; run++) {
      const [strong, tint] = [palette.strong(run), palette.tint(run)];
      pairs.push([strong, palette.page, `run ${run} on page`], [strong, palette.panel, `run ${run} on panel`]);
      pairs.push([palette.onStrong, strong, `on run ${run}`], [strong, tint, `run ${run} on its tint`]);
      pairs.push([palette.ink, tint, `ink on the tint of run ${run}`]);
    }
    return pairs.filter(([one, other]) => asked.contrast(one, other) < 4.5).map(([, , name]) => name);
  },

  /** Paints the chart at 60 places. */
  paintAround() {
    const box = document.getElementById("chart-box");
    for (let k = 0; k < 60; k++) {
      box.scrollLeft = (k * 7919) % Math.max(box.scrollWidth, 1);
      box.scrollTop = (k * 6841) % Math.max(box.scrollHeight, 1);
      page.chart.paint();
    }
  },

  /** Scrolls to the sign of a step on the lane of its run or device, and tells where it is on the screen. */
  placeOf(step) {
    const lane = page.laneOf(step);
    page.chart.reveal(step, lane);
    const box = document.getElementById("chart-box");
    box.scrollIntoView({ block: "start" });
    const edge = box.getBoundingClientRect();
    const [left, top] = [edge.left + page.chart.labelWidth - box.scrollLeft, edge.top + HEAD - box.scrollTop];
    return [left + page.layout.x(step), top + lane.middle];
  },

  /** The step of the page, what its card tells of it, and the line of the record. */
  card() {
    return [page.step, ...[".told", "code"].map((name) => document.querySelector(`#card ${name}`).textContent)];
  },

  /** The items of the line, each by its number or its words. */
  line() {
    return [...document.querySelectorAll("#line .chip")].map((chip) => chip.querySelector("b")?.textContent ?? chip.textContent);
  },

  /** The steps at which the line is not what the one before it becomes by its changes. */
  growthSlips() {
    const { line, steps } = page.window;
    return Array.from({ length: steps }, (_, k) => k + 1).filter((step) => {
      const grown = line.at(step - 1);
      for (const change of line.between(step - 1, step)) GrowingLine.apply(change, grown);
      return grown.length !== line.at(step).length || grown.some((item, place) => item !== line.at(step)[place]);
    });
  },

  /** The line of the record that is told where the pointer is, or none. */
  tip() {
    const tip = document.getElementById("tip");
    return tip.hidden ? null : tip.querySelector("code")?.textContent;
  },
};
