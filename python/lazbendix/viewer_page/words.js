"use strict";

// What the page says in sentences.

const MODELS = {
  wv: "weak visibility",
  gsv: "global strict visibility",
  psv: "partitioned strict visibility",
  ev: "eventual visibility",
};
const SCHEDULERS = { fcfs: "first come, first served", jit: "just in time", timeline: "timeline" };

const MODEL_NOTES = {
  wv: "Runs wait for devices alone. No order is claimed, and what an aborted run did is not taken back.",
  gsv: "One run at a time acts on the home, in the order of the line.",
  psv: "A run waits for the end of the runs before it that share a device with it.",
  ev: "A device is free for the next run as soon as the run before it has nothing more to do there.",
};
const SCHEDULER_NOTES = {
  fcfs: "A run is placed at the end of the line.",
  jit: "A run is placed as far in front as it may stand, and has the devices of those behind it on lease.",
  timeline: "A run comes into gaps that its planned times fit, behind as few as may be, and has the devices of those behind it on lease.",
};

function milliseconds(count) {
  return `${count.toLocaleString("en")} ms`;
}

function ordinal(number) {
  const last = number % 100;
  const ending = last > 10 && last < 14 ? "th" : ["th", "st", "nd", "rd"][number % 10] || "th";
  return `${number}${ending}`;
}

function counted(count, thing) {
  return `${count} ${thing}${count === 1 ? "" : "s"}`;
}

function capital(text) {
  return text.charAt(0).toUpperCase() + text.slice(1);
}

/** The words of "a", "a and b", "a, b and c". */
function listed(parts) {
  return parts.length < 2 ? parts.join("") : `${parts.slice(0, -1).join(", ")} and ${parts[parts.length - 1]}`;
}

/** Tells the entries and the states of a window. */
class Words {
  constructor(window) {
    this.window = window;
  }

  run(number) {
    return `run ${number} (${this.window.run(number).name})`;
  }

  device(number) {
    return this.window.device(number).name;
  }

  item(item) {
    if (item.run !== undefined) return this.run(item.run);
    return `${item.event === "fell" ? "the failure" : "the restart"} of ${this.device(item.device)}`;
  }

  /** The few words for a failure or a restart in the line. */
  event(item) {
    return `${this.device(item.device)} ${item.event === "fell" ? "fails" : "is back"}`;
  }

  command(command) {
    return this.job(command) + this.guard(command.when);
  }

  job(command) {
    const device = this.device(command.device);
    switch (command.job) {
      case "set":
        return `set ${device} to ${command.value}`;
      case "check":
        return `check that ${device} is ${command.value}`;
      case "load":
        return `load ${device} into the register`;
      default:
        return `store the register into ${device}`;
    }
  }

  guard(when) {
    return when ? ` if the register is ${when.word === "is" ? "" : "below "}${when.value}` : "";
  }

  /** The command with its place and what the script says of it. */
  commandInFull(run, index) {
    const command = this.window.run(run).commands[index];
    const must = command.must ? "it must not fail" : "it may fail";
    return `${ordinal(index + 1)} of ${this.window.run(run).commands.length} commands: ${this.command(command)}; ${must}; ` +
      `estimated ${milliseconds(command.ms)}, takes ${milliseconds(command.takes)} in a replay`;
  }

  // Entries.

  entry(step) {
    const entry = this.window.entry(step);
    return capital(this[entry.kind](entry, step));
  }

  arrived(entry) {
    return `${this.run(entry.run)} arrives.`;
  }

  /** Between what the item stands that came into the line by this step. */
  neighbours(place, step) {
    const line = this.window.line.at(step);
    const before = line[place - 1];
    const behind = line[place + 1];
    const told = [before && `behind ${this.item(before)}`, behind && `before ${this.item(behind)}`].filter(Boolean);
    return told.length ? told.join(" and ") : "alone so far";
  }

  placed(entry, step) {
    const place = `the ${ordinal(entry.into + 1)}: ${this.neighbours(entry.into, step)}`;
    return `${this.run(entry.run)} gets its place in the line, ${place}.${this.passed(entry, step)}`;
  }

  /** Which items come past which, where the placing rearranges the line. */
  passed(entry, step) {
    if (!entry.first) return "";
    const line = this.window.line.at(step - 1);
    const outside = line.map((_, place) => place).filter((place) => !entry.first.includes(place));
    const forward = entry.first.filter((place) => outside[0] < place);
    const behind = outside.filter((place) => place < forward[forward.length - 1]);
    const named = (places) => (places.length > 4 ? counted(places.length, "item") : listed(places.map((place) => this.item(line[place]))));
    return ` For it ${named(forward)} ${forward.length > 1 ? "come" : "comes"} past ${named(behind)}, with no device in common.`;
  }

  did(entry, step) {
    const command = this.window.run(entry.run).commands[entry.command];
    const run = this.run(entry.run);
    const device = this.device(entry.device);
    if (entry.skipped) return `${run} skips its command on ${device}, which was to ${this.command(command)}.`;
    if (entry.down) {
      const may = command.must ? "must not" : "may";
      return `${run} is told that ${device} is down. Its command, to ${this.command(command)}, ${may} fail.`;
    }
    switch (command.job) {
      case "set":
        return `${run} sets ${device} to ${entry.value}${this.change(entry, step)}.`;
      case "store":
        return `${run} stores its register into ${device}, which is set to ${entry.value}${this.change(entry, step)}.`;
      case "load":
        return `${run} loads ${device} into its register: ${entry.value}.`;
      default:
        return `${run} finds ${device} ${entry.value}${this.checked(entry, command)}.`;
    }
  }

  change(entry, step) {
    const before = this.window.valueAt(entry.device, step - 1);
    return before === entry.value ? ", where it stood already" : `; it was ${before}`;
  }

  checked(entry, command) {
    if (entry.value === command.value) return ", as its check wants it";
    return `; its check wants ${command.value}, and ${command.must ? "must not" : "may"} fail`;
  }

  undid(entry) {
    const device = this.device(entry.device);
    if (!entry.drove) return `${this.run(entry.run)} drops what it wrote on ${device}, which is down: nothing is driven.`;
    return `${this.run(entry.run)} takes back what it wrote on ${device}, which is driven to ${entry.value}.`;
  }

  eventPlace(entry, step) {
    return this.window.isWeak ? "" : ` This stands ${ordinal(entry.into + 1)} in the line: ${this.neighbours(entry.into, step)}.`;
  }

  fell(entry, step) {
    return `${this.device(entry.device)} fails: it does not answer.${this.eventPlace(entry, step)}`;
  }

  rose(entry, step) {
    const driven = `is driven to ${entry.value}, where it should stand`;
    return `${this.device(entry.device)} is back, and ${driven}.${this.eventPlace(entry, step)}`;
  }

  doomed(entry) {
    return `${this.run(entry.run)} is doomed: ${this.cause(entry.run, entry.cause)}.`;
  }

  cause(run, cause) {
    switch (cause.kind) {
      case "must":
        return `its ${ordinal(cause.command + 1)} command, to ${this.command(this.window.run(run).commands[cause.command])}, ` +
          "found the device down, and must not fail";
      case "refuted":
        return `its ${ordinal(cause.command + 1)} command, to ${this.command(this.window.run(run).commands[cause.command])}, ` +
          `found ${cause.found}, and must not fail`;
      case "lost":
        return `${this.device(cause.device)} failed between its first and its last command there`;
      case "downatend":
        return `${this.device(cause.device)}, which it has touched, is down at its end`;
      default:
        return `${this.run(cause.run)} asks for ${this.device(cause.device)}, which this run has on lease; ` +
          `the lease ended at ${milliseconds(cause.deadline)}, and it is ${milliseconds(cause.moment)}`;
    }
  }

  ended(entry, step) {
    const run = this.run(entry.run);
    if (!entry.committed) return `${run} ends, aborted. It leaves the line.`;
    const line = this.window.line.at(step);
    const place = line.findIndex((item) => item.run === entry.run);
    return `${run} commits. What it did stays, ${ordinal(place + 1)} of ${line.length} in the line.`;
  }

  // States.

  wait(wait) {
    switch (wait.kind) {
      case "follow":
        return `waits for the end of ${this.run(wait.other)}, which it follows`;
      case "denied":
        return `is not placed yet: ${this.run(wait.other)} has ${this.device(wait.device)}`;
      case "behind":
        return `waits behind ${this.run(wait.other)}, which stands before it in the line and has, or still needs, ` +
          this.device(wait.device);
      case "dirty":
        return `waits to read ${this.device(wait.device)} until ${this.run(wait.other)}, which wrote it, has ended`;
      case "strict":
        return `waits for the end of ${this.run(wait.other)}, as the model wants it`;
      default:
        return `waits for ${this.device(wait.device)}, which is out`;
    }
  }

  /** The few words for a wait that stand on its line. */
  shortWait(wait) {
    const device = wait.device === undefined ? "" : ` · ${this.device(wait.device)}`;
    return wait.other === undefined ? `waits${device}` : `waits for ${wait.other}${device}`;
  }

  shortState(run, step) {
    if (!this.window.hasHistory) return this.window.run(run).end || "";
    const told = this.window.stateAt(run, step);
    if (told.state === "waits") return told.other === undefined ? "waits" : `waits for ${told.other}`;
    return { "to come": "to come", works: "at work", doomed: "doomed" }[told.state] || told.state;
  }

  state(run, step) {
    const told = this.window.stateAt(run, step);
    const name = capital(this.run(run));
    switch (told.state) {
      case "to come":
        return `${name} has not arrived.`;
      case "works":
        return `${name} is at work${this.next(run, step)}.`;
      case "waits":
        return `${name} ${this.wait(told)}.`;
      case "doomed":
        return `${name} is doomed${this.takesBack(run, step)}.`;
      case "committed":
        return `${name} has committed.`;
      default:
        return `${name} has ended, aborted.`;
    }
  }

  takesBack(run, step) {
    if (this.window.isWeak) return ", and what it wrote stays";
    return this.window.hasWritten(run, step) ? ", and takes back what it wrote" : "; it has written nothing";
  }

  next(run, step) {
    const command = this.window.run(run).commands[this.window.answersBy(run, step).length];
    return command ? `; next it is to ${this.command(command)}` : "; all its commands are answered";
  }

  lease(lease) {
    const lenders = listed(lease.lenders.map((run) => this.run(run)));
    return `${this.run(lease.borrower)} has it on lease from ${lenders} until ${milliseconds(lease.deadline)}`;
  }

  stand(device, step) {
    const how = this.window.isDownAt(device, step) ? "is down; it should stand" : "stands";
    const parts = [`${capital(this.device(device))} ${how} at ${this.window.valueAt(device, step)}`];
    for (const run of this.window.holdersAt(device, step)) parts.push(`${this.run(run)} has it`);
    for (const lease of this.window.leasesAt(device, step)) parts.push(this.lease(lease));
    return `${parts.join("; ")}.`;
  }

  shortStand(device, step) {
    if (!this.window.hasHistory) return this.window.told.home.devices[device]?.value || "";
    const value = this.window.valueAt(device, step);
    if (this.window.isDownAt(device, step)) return `down (${value})`;
    const holders = this.window.holdersAt(device, step);
    return holders.length ? `${value} · ${listed(holders)} has it` : value;
  }

  /** What stands at a place of the line behind the step. */
  place(place, step) {
    const item = this.window.line.at(step)[place];
    return item ? `${ordinal(place + 1)} in the line: ${this.item(item)}.` : `Nothing stands ${ordinal(place + 1)} in the line.`;
  }

  // What came of the window.

  outcome(run) {
    const told = this.window.run(run);
    if (told.end === null) return "The record ends before it says what came of the run.";
    if (told.end === "committed") return "Committed.";
    return `Aborted: ${this.cause(run, told.cause)}.`;
  }

  /** What was answered to a command, in a word. */
  shortAnswer(command, answer) {
    if (answer.down) return "down";
    if (answer.skipped) return "skipped";
    return command.job === "check" || command.job === "load" ? answer.value : "done";
  }

  /** The answers of a committed run, as its line has them. */
  answers(run) {
    const { commands, answers } = this.window.run(run);
    const answer = (word) => ({ ".": "done", "-": "down", "/": "skipped" })[word] || `found ${word}`;
    return capital(`${commands.map((command, index) => `${this.command(command)}: ${answer(answers[index])}`).join("; ")}.`);
  }
}
