"use strict";

// The page: what is shown of the day, and what pointers and keys do to it.

const NARROWEST = 0.05; // of a column, in pixels
const WIDEST = 132;
const USUAL = 66;
const SMALLEST_WHOLE = 44;
const PACE = 800; // ms a step, where it plays
const MANY_WINDOWS = 12; // of a day that is first shown as a whole
const SCALES = { step: "A column is a step of the history, not time.", ms: "A column is wider by the time since the step before." };

function part(name) {
  return document.getElementById(name);
}

/** The time in a window's line, without seconds where there are none; its date is never broken. */
function timeOf(line) {
  return line.split(" ")[2].replace("T", " ").replace(/:00$/, "").replaceAll("-", "\u2011");
}

class Page {
  constructor() {
    this.day = new Day();
    this.choice = new Choice();
    this.chart = new Chart(part("chart-box"), part("chart-space"), part("chart"));
    this.windows = new WindowList(part("windows"), this.day, (number) => this.open(number));
    this.card = new StepCard(part("card"));
    this.history = new HistoryList(part("history"), (step) => this.go(step));
    this.outcome = new Outcome(part("outcome"));
    this.line = new LineChips(part("line"), part("line-title"));
    this.overview = new Overview(part("overview"));
    this.wholeDay = new DayView(part("day-view"), this.day, (number, step, lane) => this.lookInto(number, step, lane));
    this.choices = new ChoicePanel(part("choices"), () => this.layOut());
    this.key = new Key(part("key"));
    this.step = 0;
    this.selected = null;
    this.pointed = null;
    this.columnWidth = USUAL;
    this.axis = "step";
    this.playing = null;
    this.tellDay();
    this.listen();
    this.takeTheme();
    this.openAddressed();
  }

  tellDay() {
    const { title, model, scheduler, windows } = this.day;
    const sum = (name) => windows.reduce((total, window) => total + window[name], 0);
    document.title = `${title}: a day`;
    part("title").textContent = title;
    const order = model === "ev" ? `, ${SCHEDULERS[scheduler]}` : "";
    part("model").textContent = MODEL_NOTES[model];
    part("scheduler").textContent = model === "ev" ? SCHEDULER_NOTES[scheduler] : "";
    const runs = `${counted(sum("runs"), "run")}: ${sum("committed")} committed, ${sum("aborted")} aborted`;
    part("about").textContent = `${MODELS[model]}${order} · ${counted(windows.length, "window")} · ${runs}`;
    this.tellCheck();
  }

  tellCheck() {
    const { check, total, model } = this.day;
    const differs = check !== "agrees" && total !== null && model !== "wv";
    const told = check === "agrees" ? "the record agrees with its serial order" : `the record differs: ${check}`;
    part("check").textContent = total === null ? "the record was cut" : model === "wv" ? "no order is claimed" : told;
    part("check").toggleAttribute("data-differs", differs || total === null);
  }

  // What is shown.

  /** The window and the step that the address names, as #window=2&step=7, or the first window. */
  openAddressed() {
    const named = new URLSearchParams(location.hash.slice(1));
    const number = Math.min(Math.max(Number(named.get("window")) || 1, 1), this.day.windows.length);
    if (!number) {
      part("window-title").textContent = "The day has no window.";
      document.querySelector("main").inert = true;
      return;
    }
    const isWhole = named.has("day") || (!named.has("window") && this.day.windows.length > MANY_WINDOWS);
    this.whenOpen(number, () => {
      if (named.has("step")) this.go(Number(named.get("step")) || 0);
      if (isWhole) this.showDay(true);
    });
  }

  /** Opens a window and does something then, at once where the window need not be unpacked. */
  whenOpen(number, act) {
    const opened = this.open(number);
    if (opened) opened.then(act);
    else act();
  }

  /** Opens a window; a promise where it is unpacked first. */
  open(number) {
    if (number < 1 || number > this.day.windows.length) return undefined;
    this.asked = number;
    if (!this.day.isReady(number)) return this.day.prepare(number).then(() => this.asked === number && this.openReady(number));
    return this.openReady(number);
  }

  openReady(number) {
    this.stop();
    this.showDay(false);
    const before = this.window;
    this.window = this.day.window(number);
    this.words = new Words(this.window);
    this.selected = this.pointed = null;
    if (before) this.choice.goOn(before, this.window);
    else this.choice.begin(this.window, this.day.choice);
    this.step = 0;
    part("window-title").textContent = `Window ${this.window.label} · ${timeOf(this.window.told.title)}`;
    this.windows.show(number);
    this.choices.show(this.window, this.choice);
    this.outcome.show(this.words, this.palette);
    part("chart-box").scrollTo(0, 0);
    this.columnWidth = this.comfortable();
    this.layOut();
    if (this.window.hasHistory) this.go(this.tellingStep());
    else this.turnTo("outcome");
  }

  /** From the whole day into a window, at a step, with a run selected. */
  lookInto(number, step, { run }) {
    this.whenOpen(number, () => {
      if (step !== undefined) this.go(step);
      if (run === undefined) return;
      const lane = this.layout.lanes[this.layout.laneIndex({ kind: "run", run })];
      if (!lane) return;
      this.chart.reveal(this.step, lane);
      this.select(lane);
    });
  }

  /** Shows the whole day, or the window. */
  showDay(isShown) {
    if (isShown) this.wholeDay.open();
    part("day-view").hidden = !isShown;
    for (const name of [".stage", "aside"]) document.querySelector(name).hidden = isShown;
    part("whole-day").toggleAttribute("aria-current", isShown);
    if (isShown) this.windows.show(0);
    else if (this.window) this.windows.show(this.window.number);
    if (isShown) history.replaceState(null, "", "#day");
    else if (this.layout) this.show();
  }

  get isDayShown() {
    return !part("day-view").hidden;
  }

  turnAxis() {
    this.axis = this.axis === "ms" ? "step" : "ms";
    const x = this.layout.x(this.step) - part("chart-box").scrollLeft;
    this.layOut();
    part("chart-box").scrollLeft = this.layout.x(this.step) - x;
  }

  /** The step that tells most of the window: that of its first doom, or the last one. */
  tellingStep() {
    return Math.min(this.window.steps, ...this.window.dooms.values());
  }

  room() {
    return part("chart-box").clientWidth - this.chart.labelWidth - SPARE;
  }

  /** A width of columns at which a short window is seen whole, and signs have their room. */
  comfortable() {
    const whole = this.room() / Math.max(this.window.steps, 1);
    return whole < SMALLEST_WHOLE ? USUAL : Math.min(whole, 92);
  }

  layOut() {
    if (!this.window) return;
    this.layout = new Layout(this.window, this.choice, this.columnWidth, this.axis);
    part("axis").setAttribute("aria-pressed", String(this.axis === "ms"));
    part("scale").textContent = this.axis === "ms" ? SCALES.ms : SCALES.step;
    if (this.selected && this.layout.laneIndex(this.selected) < 0) this.selected = null;
    part("choose").toggleAttribute("data-narrowed", this.choice.isNarrowed);
    part("choose").textContent = this.choice.isNarrowed ? "Filtered" : "Filter";
    this.show();
  }

  show() {
    this.chart.show(this);
    this.card.show(this.words, this.step, this.selected, this.palette);
    this.line.show(this.words, this.step, this.palette);
    if (!part("history").hidden) this.history.show(this.words, this.layout.columns, this.step, this.palette);
    this.repaint();
  }

  repaint() {
    if (this.isAwaited) return;
    this.isAwaited = true;
    requestAnimationFrame(() => {
      this.isAwaited = false;
      if (this.isDayShown) return;
      this.chart.paint();
      this.overview.show(this, this.seen());
    });
  }

  get palette() {
    return this.chart.palette;
  }

  seen() {
    return { left: part("chart-box").scrollLeft, width: part("chart-box").clientWidth - this.chart.labelWidth };
  }

  // Going from step to step and from lane to lane.

  /** Goes to a step, and scrolls to the lane of its run or device, but where another lane is looked at. */
  go(step, follows = !this.selected) {
    if (!this.window.hasHistory) return;
    this.step = Math.min(Math.max(step, 0), this.window.steps);
    this.chart.show(this);
    this.chart.reveal(this.step, follows ? this.laneOf(this.step) : null);
    history.replaceState(null, "", `#window=${this.window.number}&step=${this.step}`);
    this.show();
  }

  /** A column on or back, among those that are shown. */
  move(by) {
    const { columns } = this.layout;
    const at = countBelow(columns, this.step + 1) - 1 + by;
    this.go(at < 0 ? 0 : columns[Math.min(at, columns.length - 1)] || 0);
  }

  moveInLane(by) {
    const steps = this.selected && this.stepsOf(this.selected);
    if (!steps) return this.move(by);
    const next = by > 0 ? steps.find((step) => step > this.step) : steps.findLast((step) => step < this.step);
    if (next !== undefined) this.go(next);
    return undefined;
  }

  laneOf(step) {
    const entry = this.window.entry(step);
    if (!entry) return null;
    const target = entry.run === undefined ? { kind: "device", device: entry.device } : { kind: "run", run: entry.run };
    return this.layout.lanes[this.layout.laneIndex(target)];
  }

  stepsOf(lane) {
    if (lane.kind === "run") return this.window.stepsOfRun.get(lane.run);
    return lane.kind === "device" ? this.window.stepsOfDevice.get(lane.device) : null;
  }

  moveLane(by) {
    const { lanes } = this.layout;
    let index = this.selected ? this.layout.laneIndex(this.selected) + by : by > 0 ? 0 : lanes.length - 1;
    while (lanes[index] && lanes[index].kind === "head") index += by;
    if (!lanes[index]) return;
    this.selected = lanes[index];
    this.chart.reveal(this.step, this.selected);
    this.show();
  }

  select(lane) {
    this.selected = lane;
    this.show();
  }

  /** The selected run or device alone, or all again. */
  toggleAlone() {
    const lane = this.selected;
    if (this.choice.isNarrowed) this.choice.clear();
    else if (lane?.kind === "run") this.choice.runs.add(lane.run);
    else if (lane?.kind === "device") this.choice.devices.add(lane.device);
    this.choices.show(this.window, this.choice);
    this.layOut();
  }

  release() {
    this.selected = null;
    this.choice.clear();
    this.choices.show(this.window, this.choice);
    this.layOut();
  }

  fold(group) {
    this.choice.groups[group] = !this.choice.groups[group];
    this.layOut();
  }

  // Zoom: the chosen step stays where it is, where it is seen; with a wheel what is below the pointer does.

  zoom(factor, place = this.placeOfStep()) {
    const box = part("chart-box");
    const share = (box.scrollLeft + place) / Math.max(this.layout.width, 1);
    this.columnWidth = Math.min(Math.max(this.columnWidth * factor, NARROWEST), WIDEST);
    this.layOut();
    box.scrollLeft = share * this.layout.width - place;
  }

  /** Where the chosen step is in the part of the chart that is seen, or its middle. */
  placeOfStep() {
    const place = this.layout.x(this.step) - part("chart-box").scrollLeft;
    return this.step > 0 && place >= 0 && place <= this.room() ? place : this.room() / 2;
  }

  zoomToWhole() {
    const columns = Math.max(this.layout.columns.length, 1) * (this.axis === "ms" ? 2 : 1);
    this.columnWidth = Math.min(Math.max(this.room() / columns, NARROWEST), WIDEST);
    this.layOut();
    part("chart-box").scrollLeft = 0;
  }

  // Playing.

  togglePlay() {
    if (this.playing) this.stop();
    else this.play();
  }

  play() {
    if (!this.window.hasHistory) return;
    if (this.step === this.window.steps) this.go(0);
    this.playing = setInterval(() => (this.step < this.window.steps ? this.move(1) : this.stop()), PACE);
    this.tellPlay();
  }

  stop() {
    clearInterval(this.playing);
    this.playing = null;
    this.tellPlay();
  }

  tellPlay() {
    part("play").toggleAttribute("data-playing", Boolean(this.playing));
    part("play").setAttribute("aria-label", this.playing ? "Stop" : "Play");
  }

  // Light and dark: as the system has it, but where the other one was asked for.

  takeTheme() {
    const kept = Page.keptTheme();
    if (kept) document.documentElement.dataset.theme = kept;
    else delete document.documentElement.dataset.theme;
    this.chart.takeTheme(document.body);
    part("theme").setAttribute("aria-pressed", String(this.palette.isDark));
    this.key.show(this.palette);
    if (!this.window) return;
    this.outcome.show(this.words, this.palette);
    this.show();
  }

  static keptTheme() {
    try {
      return localStorage.getItem("theme");
    } catch {
      return document.documentElement.dataset.theme; // a page without a store
    }
  }

  switchTheme() {
    const theme = this.palette.isDark ? "light" : "dark";
    const isSystems = matchMedia("(prefers-color-scheme: dark)").matches === (theme === "dark");
    try {
      if (isSystems) localStorage.removeItem("theme");
      else localStorage.setItem("theme", theme);
    } catch {
      document.documentElement.dataset.theme = theme;
    }
    this.takeTheme();
  }

  // What pointers and keys do.

  listen() {
    const clicks = {
      first: () => this.go(0),
      previous: () => this.move(-1),
      play: () => this.togglePlay(),
      next: () => this.move(1),
      last: () => this.go(this.window.steps),
      out: () => this.zoom(1 / 1.4),
      whole: () => this.zoomToWhole(),
      in: () => this.zoom(1.4),
      choose: () => part("choices").showModal(),
      axis: () => this.turnAxis(),
      "whole-day": () => this.showDay(!this.isDayShown),
      theme: () => this.switchTheme(),
      help: () => part("keys").showModal(),
      "history-tab": () => this.turnTo("history"),
      "outcome-tab": () => this.turnTo("outcome"),
    };
    for (const [name, act] of Object.entries(clicks)) part(name).addEventListener("click", act);
    for (const dialog of document.querySelectorAll("dialog")) {
      dialog.addEventListener("click", (event) => event.target === dialog && dialog.close());
    }
    document.querySelector(".tabs").addEventListener("keydown", (event) => this.keyOfTabs(event));
    document.addEventListener("keydown", (event) => this.press(event));
    matchMedia("(prefers-color-scheme: dark)").addEventListener("change", () => this.takeTheme());
    new ResizeObserver(() => this.resize()).observe(part("chart-box"));
    this.listenToChart();
    this.listenToOverview();
  }

  resize() {
    if (this.layout && !this.isDayShown) this.show();
  }

  listenToChart() {
    const box = part("chart-box");
    box.addEventListener("scroll", () => this.repaint());
    box.addEventListener("wheel", (event) => this.wheel(event), { passive: false });
    box.addEventListener("pointermove", (event) => this.point(event));
    box.addEventListener("pointerleave", () => this.pointAway());
    box.addEventListener("click", (event) => this.click(event));
    box.addEventListener("dblclick", () => this.toggleAlone());
  }

  listenToOverview() {
    const strip = part("overview");
    const take = (event) => this.go(this.overview.stepAt(event.offsetX) || 0);
    strip.addEventListener("pointerdown", (event) => {
      strip.setPointerCapture(event.pointerId);
      take(event);
    });
    strip.addEventListener("pointermove", (event) => event.buttons && take(event));
  }

  wheel(event) {
    if (!event.ctrlKey && !event.metaKey) return;
    event.preventDefault();
    this.zoom(Math.exp(-event.deltaY / 300), this.placeOf(event).x - this.chart.labelWidth);
  }

  placeOf(event) {
    const edge = part("chart-box").getBoundingClientRect();
    return { x: event.clientX - edge.left, y: event.clientY - edge.top };
  }

  target(event) {
    const { x, y } = this.placeOf(event);
    return this.chart.at(x, y);
  }

  point(event) {
    if (event.pointerType === "touch") return;
    const target = this.target(event);
    const before = this.pointed;
    this.pointed = target;
    this.tip(target, event);
    if (before?.step !== target.step || before?.lane !== target.lane) this.repaint();
  }

  pointAway() {
    this.pointed = null;
    part("tip").hidden = true;
    this.repaint();
  }

  click(event) {
    const { lane, step, isName } = this.target(event);
    if (lane?.kind === "head") return isName ? this.fold(lane.group) : undefined;
    if (lane) this.selected = isName && Layout.isSame(lane, this.selected) ? null : lane;
    if (step) this.go(step, false);
    else this.show();
    return undefined;
  }

  /** What is told of a place: the entry there, or what holds there. */
  told({ lane, step, stateStep, isName }) {
    if (!lane || lane.kind === "head") return lane && isName ? "Folds this part." : "";
    const at = isName ? this.step : stateStep;
    const entry = step && this.window.entry(step);
    if (entry && this.stepsOf(lane)?.includes(step)) return [this.words.entry(step), entry.line];
    if (lane.kind === "run") return this.words.state(lane.run, at);
    return lane.kind === "device" ? this.words.stand(lane.device, at) : this.words.place(lane.place, at);
  }

  tip(target, event) {
    const tip = part("tip");
    const told = this.window.hasHistory ? [].concat(this.told(target)) : [""];
    tip.hidden = !told[0];
    if (tip.hidden) return;
    tip.replaceChildren(told[0], ...(told[1] ? [element("code", { textContent: told[1] })] : []));
    const { offsetWidth: width, offsetHeight: height } = tip;
    tip.style.left = `${Math.max(Math.min(event.clientX + 14, innerWidth - width - 8), 8)}px`;
    tip.style.top = `${event.clientY + 20 + height > innerHeight ? event.clientY - height - 12 : event.clientY + 20}px`;
  }

  turnTo(name) {
    for (const tab of ["history", "outcome"]) {
      part(tab).hidden = tab !== name;
      part(`${tab}-tab`).setAttribute("aria-selected", String(tab === name));
      part(`${tab}-tab`).tabIndex = tab === name ? 0 : -1;
    }
    this.show();
  }

  keyOfTabs(event) {
    if (event.key !== "ArrowLeft" && event.key !== "ArrowRight") return;
    event.stopPropagation();
    const other = part("history").hidden ? "history" : "outcome";
    this.turnTo(other);
    part(`${other}-tab`).focus();
  }

  actOf(event) {
    if (event.target.id === "history" && event.key === "ArrowUp") return () => this.move(-1);
    if (event.target.id === "history" && event.key === "ArrowDown") return () => this.move(1);
    if (event.shiftKey && event.key === "ArrowLeft") return () => this.moveInLane(-1);
    if (event.shiftKey && event.key === "ArrowRight") return () => this.moveInLane(1);
    return {
      ArrowLeft: () => this.move(-1),
      ArrowRight: () => this.move(1),
      ArrowUp: () => this.moveLane(-1),
      ArrowDown: () => this.moveLane(1),
      Home: () => this.go(0),
      End: () => this.go(this.window.steps),
      " ": () => this.togglePlay(),
      PageUp: () => this.open(this.window.number - 1),
      PageDown: () => this.open(this.window.number + 1),
      "+": () => this.zoom(1.4),
      "=": () => this.zoom(1.4),
      "-": () => this.zoom(1 / 1.4),
      0: () => this.zoomToWhole(),
      Enter: () => this.toggleAlone(),
      f: () => part("choices").showModal(),
      m: () => this.turnAxis(),
      o: () => this.showDay(true),
      r: () => this.fold("runs"),
      d: () => this.fold("devices"),
      l: () => this.fold("line"),
      t: () => this.switchTheme(),
      "?": () => part("keys").showModal(),
      Escape: () => this.release(),
    }[event.key];
  }

  /** What a key does while the whole day is shown. */
  actOfDay(event) {
    if (event.target.closest?.("input")) return undefined;
    return {
      o: () => this.showDay(false),
      Escape: () => this.showDay(false),
      "/": () => part("day-search").focus(),
      t: () => this.switchTheme(),
      "?": () => part("keys").showModal(),
    }[event.key];
  }

  press(event) {
    if (!this.window || event.ctrlKey || event.metaKey || event.altKey || document.querySelector("dialog[open]")) return;
    const isButton = event.target.closest?.("button, a, input");
    if (isButton && (event.key === " " || event.key === "Enter")) return;
    const act = this.isDayShown ? this.actOfDay(event) : this.actOf(event);
    if (!act) return;
    event.preventDefault();
    act();
  }
}

const page = new Page();
