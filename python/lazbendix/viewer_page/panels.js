"use strict";

// The parts of the page that tell: windows, steps, history, line and outcome. Each is given its element.

function element(tag, properties = {}, ...children) {
  const made = document.createElement(tag);
  for (const [name, value] of Object.entries(properties)) {
    if (name.startsWith("aria-") || name === "role" || name === "for") made.setAttribute(name, value);
    else if (name === "style") made.style.cssText = value;
    else made[name] = value;
  }
  made.append(...children.filter((child) => child !== null && child !== undefined));
  return made;
}

/** An element with a text, and a class where it has one. */
function textElement(tag, textContent, className = "") {
  return element(tag, { textContent, className });
}

function colors(palette, run) {
  return `--strong:${palette.strong(run)};--tint:${palette.tint(run)};--on-strong:${palette.onStrong}`;
}

function badge(palette, run) {
  return element("span", { className: "badge", style: colors(palette, run), textContent: String(run) });
}

/** The windows of the day, as a list of buttons. */
class WindowList {
  constructor(box, day, choose) {
    Object.assign(this, { box, day });
    this.buttons = day.windows.map((window, index) => this.button(window, index + 1, choose));
    box.replaceChildren(...this.buttons.map((button) => element("li", {}, button)));
  }

  button(window, number, choose) {
    const [date, time] = window.title.split(" ")[2].split("T");
    const name = element("span", { className: "window-name" }, textElement("b", `${number}`), ` ${time.slice(0, 5)}`);
    const about = textElement("span", this.about(window), "window-about");
    const button = element("button", { type: "button", className: "window", title: `${date} ${time}` });
    button.append(name, this.share(window), about);
    button.addEventListener("click", () => choose(number));
    return button;
  }

  about(window) {
    const aborted = window.aborted ? `${window.aborted} aborted` : "";
    const failures = window.failures ? counted(window.failures, "failure") : "";
    return [counted(window.runs, "run"), aborted, failures].filter(Boolean).join(" · ");
  }

  /** How many of the runs committed, as a bar. */
  share(window) {
    const percent = (count) => `${window.runs ? (100 * count) / window.runs : 0}%`;
    const style = `--committed:${percent(window.committed)};--aborted:${percent(window.aborted)}`;
    return element("span", { className: "share", style, "aria-hidden": "true" });
  }

  show(number) {
    this.buttons.forEach((button, index) => {
      if (index + 1 === number) button.setAttribute("aria-current", "true");
      else button.removeAttribute("aria-current");
    });
    this.buttons[number - 1]?.scrollIntoView({ block: "nearest", inline: "nearest" });
  }
}

const NO_HISTORY = "This record has no history: it was printed without its trace, and is not what a replay of its script prints.";
const NOT_BEGUN = "The window has been opened, and no run has arrived.";

/** The entry of a step in words, and what is true of its run or device behind it, or of the lane that is selected. */
class StepCard {
  constructor(box) {
    this.box = box;
  }

  show(words, step, selected, palette) {
    const { window } = words;
    const lane = selected || this.laneOf(window, step);
    if (!window.hasHistory) this.box.replaceChildren(textElement("p", NO_HISTORY, "told"));
    else this.box.replaceChildren(...this.entryParts(words, step), ...(lane ? this.laneParts(words, step, lane, palette) : []));
    this.showNext();
  }

  /** Scrolls the list of commands to the next one, or to the last that was answered. */
  showNext() {
    const list = this.box.querySelector(".commands");
    const next = list?.querySelector(".next") || [...(list?.querySelectorAll(".answered") || [])].at(-1);
    if (next) list.scrollTop = next.offsetTop - list.offsetTop - list.clientHeight / 2;
  }

  entryParts(words, step) {
    const head = element("h2", {}, `Step ${step} `, textElement("span", `of ${words.window.steps}`, "of"),
      textElement("span", this.moment(words.window, step), "moment"));
    if (!step) return [head, textElement("p", NOT_BEGUN, "told")];
    const entry = words.window.entry(step);
    const asked = entry.kind === "did" ? `${capital(words.commandInFull(entry.run, entry.command))}.` : "";
    const parts = [head, textElement("p", words.entry(step), "told")];
    if (asked) parts.push(textElement("p", asked, "aside"));
    return [...parts, element("p", { className: "line-of-record" }, textElement("code", entry.line))];
  }

  moment(window, step) {
    if (!step) return "";
    return `${milliseconds(window.moments[step])}${window.entry(step).moment === undefined ? " or later" : ""}`;
  }

  laneOf(window, step) {
    const entry = step ? window.entry(step) : null;
    if (!entry) return null;
    return entry.run === undefined ? { kind: "device", device: entry.device } : { kind: "run", run: entry.run };
  }

  laneParts(words, step, lane, palette) {
    if (lane.kind === "run") return this.runParts(words, step, lane.run, palette);
    const name = lane.kind === "device" ? words.device(lane.device) : `${ordinal(lane.place + 1)} in the line`;
    const told = lane.kind === "device" ? words.stand(lane.device, step) : words.place(lane.place, step);
    return [textElement("h3", name), textElement("p", told)];
  }

  runParts(words, step, run, palette) {
    const { window } = words;
    const told = window.run(run);
    const follows = told.follows ? ` It follows ${words.run(told.follows)}.` : "";
    const answers = window.answersBy(run, step);
    const goesOn = ["works", "waits"].includes(window.stateAt(run, step).state);
    const items = told.commands.map((command, index) => {
      const isNext = goesOn && index === answers.length;
      return this.commandItem(words, command, answers[index], isNext);
    });
    return [
      element("h3", {}, badge(palette, run), ` ${told.name}`),
      textElement("p", words.state(run, step) + follows),
      element("ol", { className: "commands" }, ...items),
    ];
  }

  commandItem(words, command, answer, isNext) {
    const asked = words.command(command) + (command.must ? "" : " (may fail)");
    const item = element("li", { className: answer ? "answered" : isNext ? "next" : "to-come" });
    item.append(textElement("span", asked), textElement("span", answer ? words.shortAnswer(command, answer) : "", "answer"));
    return item;
  }
}

/** All entries in words, of which as many lie in the page as are seen. */
class HistoryList {
  static ROW = 70;

  constructor(box, choose) {
    Object.assign(this, { box, choose, steps: [] });
    this.inner = element("div", { className: "rows", role: "presentation" });
    box.replaceChildren(this.inner);
    box.addEventListener("scroll", () => this.paint());
    box.addEventListener("click", (event) => this.click(event));
  }

  click(event) {
    const row = event.target.closest("[data-step]");
    if (row) this.choose(Number(row.dataset.step));
  }

  show(words, steps, step, palette) {
    Object.assign(this, { words, steps, step, palette });
    this.inner.style.height = `${steps.length * HistoryList.ROW}px`;
    const index = steps.indexOf(step);
    const top = index * HistoryList.ROW;
    if (index >= 0 && (top < this.box.scrollTop || top + HistoryList.ROW > this.box.scrollTop + this.box.clientHeight)) {
      this.box.scrollTop = top - this.box.clientHeight / 2 + HistoryList.ROW / 2;
    }
    this.paint();
  }

  paint() {
    if (!this.words) return;
    const first = Math.max(Math.floor(this.box.scrollTop / HistoryList.ROW) - 3, 0);
    const last = Math.min(first + Math.ceil(this.box.clientHeight / HistoryList.ROW) + 6, this.steps.length);
    const rows = [];
    for (let index = first; index < last; index++) rows.push(this.row(index));
    this.inner.replaceChildren(...rows);
    if (this.steps.includes(this.step)) this.box.setAttribute("aria-activedescendant", `entry-${this.step}`);
    else this.box.removeAttribute("aria-activedescendant");
  }

  row(index) {
    const step = this.steps[index];
    const entry = this.words.window.entry(step);
    const row = element("div", {
      id: `entry-${step}`,
      className: `row ${entry.kind}`,
      role: "option",
      style: `top:${index * HistoryList.ROW}px`,
      "aria-selected": String(step === this.step),
      "aria-posinset": String(index + 1),
      "aria-setsize": String(this.steps.length),
    });
    row.dataset.step = step;
    const told = this.words.entry(step);
    row.append(element("span", { className: "number", textContent: String(step) }),
      element("span", { className: "words", textContent: told, title: told }));
    if (entry.run !== undefined) row.style.setProperty("--strong", this.palette.strong(entry.run));
    return row;
  }
}

/** The line behind a step, item behind item. */
class LineChips {
  constructor(box, title) {
    Object.assign(this, { box, title });
  }

  show(words, step, palette) {
    const { window } = words;
    if (window.isWeak || !window.hasHistory) return this.showOrder(words, palette);
    const items = window.line.at(step);
    const changed = step ? window.line.between(step - 1, step).map((change) => change.item) : [];
    const met = step ? window.entry(step).run : undefined;
    const isMeant = (item) => changed.includes(item) || (met !== undefined && item.run === met);
    const isLast = step === window.steps;
    this.title.textContent = isLast ? "The line at the end: the serial order" : `The line behind step ${step}`;
    this.put(items.map((item) => this.chip(words, item, step, isMeant(item), palette)), "Nothing stands in it.");
    return undefined;
  }

  showOrder(words, palette) {
    this.title.textContent = "The serial order";
    const { items } = words.window.told.order;
    this.put((items || []).map((item) => this.orderChip(words, item, palette)), this.noOrder(words.window));
  }

  noOrder(window) {
    if (window.told.order.line === null) return "The record ends before it.";
    return window.isWeak ? "The weak model claims none." : "Nothing stands in it.";
  }

  put(chips, none) {
    this.box.replaceChildren(...(chips.length ? chips : [textElement("li", none, "none")]));
    const meant = this.box.querySelector(".meant");
    if (meant) this.box.scrollLeft = meant.offsetLeft - this.box.offsetLeft - this.box.clientWidth / 2;
  }

  orderChip(words, item, palette) {
    if (typeof item !== "number") return textElement("li", item, "chip event");
    return this.runChip(words, item, "committed", palette);
  }

  runChip(words, run, look, palette) {
    const chip = element("li", { className: `chip ${look}`, style: colors(palette, run) });
    chip.append(textElement("b", String(run)), ` ${words.window.run(run).name}`);
    return chip;
  }

  chip(words, item, step, isMeant, palette) {
    const meant = isMeant ? " meant" : "";
    if (item.run === undefined) return textElement("li", words.event(item), `chip event${meant}`);
    const { window } = words;
    const state = window.hasEndedBy(item.run, step) ? "committed" : window.isDoomedBy(item.run, step) ? "doomed" : "live";
    const chip = this.runChip(words, item.run, state + meant, palette);
    chip.title = `${words.run(item.run)}: ${words.shortState(item.run, step)}`;
    return chip;
  }
}

/** What came of the window: its runs, its order, and how the home stands. */
class Outcome {
  constructor(box) {
    this.box = box;
  }

  show(words, palette) {
    const order = element("ol", { className: "chips" });
    new LineChips(order, element("h3")).showOrder(words, palette);
    const runs = words.window.runs.map((run) => this.run(words, run, palette));
    this.box.replaceChildren(
      textElement("h3", "Runs"), element("ol", { className: "ends" }, ...runs),
      textElement("h3", "The serial order"), order,
      textElement("h3", "How the home stands"), this.home(words.window.told.home.devices),
    );
  }

  home(stands) {
    const rows = stands.map((stand) => {
      const name = element("th", { scope: "row", textContent: stand.name });
      return element("tr", {}, name, textElement("td", stand.down ? `${stand.value} (down)` : stand.value));
    });
    return element("table", {}, element("tbody", {}, ...rows));
  }

  run(words, run, palette) {
    const told = element("div", {}, textElement("b", run.name), textElement("p", words.outcome(run.number)));
    if (run.end === "committed") told.append(textElement("p", words.answers(run.number), "aside"));
    return element("li", { className: run.end || "open" }, badge(palette, run.number), told);
  }
}
