"use strict";

// The day as a whole: why runs were aborted, what was waited for, and a routine or a device followed through the windows.

const MOST_SHOWN = 200; // runs that are found
const CAUSES = {
  must: "a device was down that must not be",
  refuted: "a check found another value",
  lost: "a device failed between two commands on it",
  revoked: "a lease had ended, and its lender asked",
  downatend: "a device was down at the run's end",
};

/** What is gathered of the day. */
class Explored {
  constructor(day, told) {
    Object.assign(this, told);
    this.day = day;
    this.ofRoutine = groupedBy(this.runs, (run) => run.routine);
    this.ofDevice = groupedBy(this.places, (place) => place.device);
    this.ofWindow = groupedBy(this.runs, (run) => run.window);
    this.aborted = this.runs.filter((run) => run.end === "aborted");
    this.usersOf = day.devices.map((_, device) => new Set());
    day.routines.forEach((routine, number) => routine.commands.forEach((command) => this.usersOf[command.device].add(number)));
  }

  static sum(rows, name) {
    return rows.reduce((total, row) => total + (row[name] || 0), 0);
  }

  causes() {
    const groups = [...groupedBy(this.aborted, (run) => run.cause)];
    return groups.map(([cause, runs]) => ({ cause, count: runs.length })).sort((one, other) => other.count - one.count);
  }

  devices() {
    return this.day.devices.map((device, number) => {
      const places = this.ofDevice.get(number) || [];
      const told = (name) => Explored.sum(places, name);
      return { number, name: device.name, waits: told("waits"), ms: told("ms"), fell: told("fell"), aborts: told("aborts") };
    }).sort((one, other) => other.ms - one.ms || other.waits - one.waits || other.aborts - one.aborts);
  }

  routines() {
    return this.day.routines.map((routine, number) => {
      const runs = this.ofRoutine.get(number) || [];
      const aborted = runs.filter((run) => run.end === "aborted");
      const windows = new Set(aborted.map((run) => run.window));
      return { number, name: routine.name, runs: runs.length, aborted: aborted.length, windows: windows.size, ms: Explored.sum(runs, "ms") };
    }).filter((routine) => routine.runs).sort((one, other) => other.aborted - one.aborted || other.ms - one.ms);
  }

  /** The runs that the words mean, each of them: a routine, a device, a cause, an end, a window's time. */
  found(words, { routine, device, cause }) {
    const wanted = words.trim().toLowerCase().split(/\s+/).filter(Boolean);
    return this.runs.filter((run) => {
      if (routine !== undefined && run.routine !== routine) return false;
      if (cause !== undefined && run.cause !== cause) return false;
      if (device !== undefined && !this.usersOf[device].has(run.routine)) return false;
      const text = wanted.length ? this.textOf(run) : "";
      return wanted.every((word) => text.includes(word));
    });
  }

  textOf(run) {
    const { name, commands } = this.day.routines[run.routine];
    const devices = commands.map((command) => this.day.devices[command.device].name);
    const why = run.cause ? `${run.cause} ${CAUSES[run.cause]} ${this.day.devices[run.device].name}` : "";
    return `window ${this.labelOf(run.window)} ${this.timeOf(run.window)} run ${run.run} ${name} ${run.end} ${why} ${devices.join(" ")}`.toLowerCase();
  }

  labelOf(window) {
    return this.day.windows[window - 1].title.split(" ")[1];
  }

  timeOf(window) {
    return this.day.windows[window - 1].title.split(" ")[2].replace("T", " ").replace(/:00$/, "");
  }
}

/** The part of the page that tells of the whole day. */
class DayView {
  constructor(box, day, go) {
    Object.assign(this, { box, day, go, told: null, chosen: {} });
    this.search = box.querySelector("#day-search");
    this.search.addEventListener("input", () => this.find());
    box.querySelector("#day-clear").addEventListener("click", () => this.choose({}));
  }

  /** Unpacks what is told of the day, once. */
  async open() {
    this.box.hidden = false;
    if (this.told) return;
    this.told = new Explored(this.day, await this.day.explored());
    this.tell();
    this.choose({});
  }

  part(name) {
    return this.box.querySelector(`#day-${name}`);
  }

  tell() {
    this.tellCauses();
    this.tellTable("devices", ["Device", "waits", "ms waited", "failures", "aborts"], this.told.devices(), (device) => ({
      act: () => this.choose({ device: device.number }),
      cells: [device.name, device.waits, device.ms, device.fell, device.aborts],
    }));
    this.tellTable("routines", ["Routine", "runs", "aborted", "in windows", "ms waited"], this.told.routines(), (routine) => ({
      act: () => this.choose({ routine: routine.number }),
      cells: [routine.name, routine.runs, routine.aborted, routine.windows, routine.ms],
    }));
    this.tellTable("waits", ["Longest waits", "for", "at", "ms", "steps"], this.told.waits.slice(0, 50), (wait) => ({
      act: () => this.go(wait.window, wait.from, { run: wait.run }),
      cells: [`${this.told.labelOf(wait.window)} · ${this.nameOf(wait.window, wait.run)}`, this.nameOf(wait.window, wait.other),
        wait.device === undefined ? "" : this.day.devices[wait.device].name, wait.ms, wait.to - wait.from],
    }));
  }

  nameOf(window, run) {
    if (run === undefined) return "";
    const found = this.told.ofWindow.get(window)[run - 1];
    return `${run} ${this.day.routines[found.routine].name}`;
  }

  tellCauses() {
    const causes = this.told.causes();
    const most = Math.max(...causes.map((cause) => cause.count), 1);
    const items = causes.map(({ cause, count }) => {
      const button = element("button", { type: "button", className: "cause", style: `--part:${(100 * count) / most}%` });
      button.append(textElement("span", `${count}`, "count"), textElement("span", CAUSES[cause]), textElement("code", cause));
      button.addEventListener("click", () => this.choose({ cause }));
      return element("li", {}, button);
    });
    this.part("causes").replaceChildren(...(items.length ? items : [textElement("li", "No run was aborted.", "aside")]));
  }

  /** A table whose first cells are buttons. */
  tellTable(name, heads, rows, told) {
    const head = element("tr", {}, ...heads.map((text) => element("th", { textContent: text, scope: "col" })));
    const lines = rows.map((row) => {
      const { act, cells } = told(row);
      const button = element("button", { type: "button", textContent: String(cells[0]) });
      button.addEventListener("click", act);
      const rest = cells.slice(1).map((cell) => textElement("td", typeof cell === "number" ? cell.toLocaleString("en") : cell));
      return element("tr", {}, element("th", { scope: "row" }, button), ...rest);
    });
    this.part(name).replaceChildren(element("thead", {}, head), element("tbody", {}, ...lines));
  }

  // What is followed through the day, and the runs that are found.

  choose(chosen) {
    this.chosen = chosen;
    const { routine, device, cause } = chosen;
    const parts = [routine !== undefined && `routine ${this.day.routines[routine].name}`,
      device !== undefined && `device ${this.day.devices[device].name}`, cause !== undefined && CAUSES[cause]].filter(Boolean);
    this.part("chosen").textContent = parts.length ? parts.join(", ") : "every run";
    this.part("clear").hidden = !parts.length;
    this.find();
  }

  find() {
    if (!this.told) return;
    const found = this.told.found(this.search.value, this.chosen);
    this.follow(found);
    const aborted = found.filter((run) => run.end === "aborted");
    const windows = new Set(aborted.map((run) => run.window)).size;
    const where = aborted.length ? ` in ${counted(windows, "window")}` : "";
    this.part("found").textContent = `${counted(found.length, "run")}, ${aborted.length} aborted${where}`;
    const shown = [...aborted, ...found.filter((run) => run.end !== "aborted")].slice(0, MOST_SHOWN);
    this.tellTable("runs", ["Run", "window", "end", "by", "ms waited"], shown, (run) => ({
      act: () => this.go(run.window, run.step, { run: run.run }),
      cells: [`${run.run} ${this.day.routines[run.routine].name}`, `${this.told.labelOf(run.window)} · ${this.told.timeOf(run.window)}`,
        run.end || "cut", run.cause ? `${run.cause} · ${this.day.devices[run.device].name}` : "", run.ms || 0],
    }));
    for (const row of this.part("runs").tBodies[0].rows) row.toggleAttribute("data-aborted", row.cells[2].textContent === "aborted");
    const rest = found.length - shown.length;
    this.part("rest").textContent = rest > 0 ? `and ${rest.toLocaleString("en")} more` : "";
  }

  /** A cell for each window: whether runs of those that are found committed or were aborted there; of a device its value too. */
  follow(found) {
    const groups = groupedBy(found, (run) => run.window);
    const { device } = this.chosen;
    const places = new Map((this.told.ofDevice.get(device) || []).map((place) => [place.window, place]));
    const cells = this.day.windows.map((window, index) => {
      const runs = groups.get(index + 1) || [];
      const aborted = runs.filter((run) => run.end === "aborted").length;
      const cell = element("button", { type: "button", className: "cell", title: this.cellTitle(index + 1, runs, aborted, places) });
      cell.style.setProperty("--aborted", `${runs.length ? (100 * aborted) / runs.length : 0}%`);
      cell.toggleAttribute("data-empty", !runs.length);
      cell.toggleAttribute("data-failed", Boolean(places.get(index + 1)?.fell));
      cell.setAttribute("aria-label", cell.title);
      const first = runs.find((run) => run.end === "aborted") || runs[0];
      cell.addEventListener("click", () => this.go(index + 1, first?.step, first ? { run: first.run } : {}));
      return cell;
    });
    this.part("follow").replaceChildren(...cells);
  }

  cellTitle(window, runs, aborted, places) {
    const { device } = this.chosen;
    const parts = [`window ${this.told.labelOf(window)}, ${this.told.timeOf(window)}`, `${counted(runs.length, "run")}, ${aborted} aborted`];
    if (device !== undefined) parts.push(`${this.day.devices[device].name} ${this.told.homes[window - 1]?.[device] ?? ""}`);
    const place = places.get(window);
    if (place?.waits) parts.push(`${counted(place.waits, "wait")}, ${milliseconds(place.ms || 0)}`);
    if (place?.fell) parts.push(counted(place.fell, "failure"));
    return parts.join(" · ");
  }
}
