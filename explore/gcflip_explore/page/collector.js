// The tab in which a trace is played: its text, its position, and the server's description of the heap there.

import { CommandButtons } from "./commands.js";
import { Editor, startOf } from "./editor.js";
import { byId, fill, make, save } from "./elements.js";
import { showCertificate, showLogs, showRoots } from "./lists.js";
import { meaning, plural } from "./meanings.js";
import { render } from "./picture.js";
import { LastText, say } from "./server.js";

// The first event is in this line.
const FIRST = 3;
const MOST_PAUSES = 60;
// The reader can take back so many changes.
const MOST_UNDONE = 100;
const REDUCED = matchMedia("(prefers-reduced-motion: reduce)");

// Returns the text of a trace with the line of an inserted event, in a version that has it.
function withEvent(text, { line, version, position }) {
  const at = startOf(text, FIRST + position - 2);
  return `heaptrace ${version}${text.slice(text.indexOf("\n"), at)}${line}\n${text.slice(at)}`;
}

// Returns how many lines the common beginning of two texts has.
function commonLines(one, other) {
  let same = 0;
  for (let most = Math.min(one.length, other.length); same < most;) {
    const middle = Math.ceil((same + most) / 2);
    [same, most] = one.startsWith(other.slice(same, middle), same) ? [middle, most] : [same, middle - 1];
  }
  let lines = 0;
  for (let at = one.indexOf("\n"); at >= 0 && at < same; at = one.indexOf("\n", at + 1)) {
    lines += 1;
  }
  return lines;
}

export class Collector {
  // `onPair` is called with the pair text of a certificate that the reader wants to see, and `onShow` when something else is shown.
  constructor(examples, onPair, onShow) {
    this.examples = examples;
    this.onPair = onPair;
    this.onShow = onShow;
    this.text = "";
    this.replies = [];
    this.position = 0;
    this.turn = Promise.resolve();
    this.past = [];
    this.last = new LastText();
    this.name = "";
    this.editor = new Editor(byId("trace-editor"), "The trace, one event a line", (text) => this.edit(text), (line) => this.goTo(line - FIRST + 1));
    this.buttons = new CommandButtons((line) => {
      this.editor.flush();
      this.stop();
      this.insert(line);
    });
    this.listen();
  }

  listen() {
    const select = byId("trace-examples");
    fill(select, [["Examples", this.examples.map(({ name }) => [name, name.replaceAll("_", " ")])], ["Other", [["", "your own text"]]]]);
    select.addEventListener("change", () => this.choose(select.value));
    const acts = {
      "play-start": () => this.go(() => 0),
      "play-back": () => this.go(() => this.position - 1),
      "play-step": () => this.go(() => this.position + 1),
      "play-run": () => this.run(),
      "play-flip": () => this.toFlip(),
      "play-work": () => this.insert(null),
      "play-undo": () => this.undo(),
    };
    for (const [id, act] of Object.entries(acts)) {
      const button = byId(id);
      button.addEventListener("click", () => {
        this.editor.flush();
        if (button.getAttribute("aria-disabled") === "true") {
          return;
        }
        if (id !== "play-run") {
          this.stop();
        }
        act();
      });
    }
    byId("play-to").addEventListener("change", () => this.goTo(Number(byId("play-to").value)));
    byId("play-to-flip").addEventListener("change", () => {
      const flip = Number(byId("play-to-flip").value);
      if (Number.isInteger(flip) && flip > 0) {
        this.editor.flush();
        this.stop();
        this.then(() => this.asked(this.position, { flip }));
      }
    });
    byId("trace-save").addEventListener("click", () => {
      this.editor.flush();
      save(this.text, `${this.name || "trace"}.trace`);
    });
    byId("to-commands").addEventListener("click", () => byId("commands").scrollIntoView());
    for (const place of ["timeline", "pauses"].map(byId)) {
      place.addEventListener("click", (event) => {
        const drawing = place.querySelector("svg");
        if (drawing && this.span && this.total > 0) {
          const [left, width] = this.span;
          const part = (event.clientX - drawing.getBoundingClientRect().left - left) / width;
          this.goTo(Math.round(part * this.total));
        }
      });
    }
    byId("pauses-view").addEventListener("toggle", () => this.then(() => this.showPauses()));
    new ResizeObserver(() => this.resized()).observe(byId("picture"));
  }

  // ---- texts

  choose(name) {
    const example = this.examples.find((each) => each.name === name);
    return example ? this.open(example.text, example) : Promise.resolve();
  }

  // Shows an example, played up to a position. The reader may have changed the trace meanwhile.
  showExample(name, position) {
    const { text } = this.examples.find((each) => each.name === name);
    if (this.text !== text) {
      this.stop();
      return this.then(() => this.shown({ text, name, position }));
    }
    return this.go(() => position);
  }

  // Opens a text, played up to its start.
  open(text, example = { name: "", about: "" }) {
    this.editor.flush();
    this.stop();
    return this.then(() => {
      this.remember();
      return this.shown({ text, name: example.name, position: 0 });
    });
  }

  // Shows a text at a position. A name is that of an example, or empty.
  shown({ text, name, position }) {
    this.named(name);
    this.take(text);
    this.position = 0;
    this.editor.show(text, FIRST + position - 1);
    return this.asked(position, {});
  }

  named(name) {
    this.name = name;
    byId("trace-examples").value = name;
    byId("trace-about").textContent = this.examples.find((each) => each.name === name)?.about ?? "";
  }

  // ---- changes that can be taken back

  // Returns what the reader sees, so that it can be shown again.
  state() {
    return { text: this.text, name: this.name, position: this.position };
  }

  // Keeps what is shown before it changes.
  remember() {
    if (this.text !== "") {
      this.past.push(this.state());
      this.past.splice(0, this.past.length - MOST_UNDONE);
    }
  }

  undo() {
    return this.then(() => (this.past.length > 0 ? this.shown(this.past.pop()) : undefined));
  }

  // Shows a state again that was kept.
  restore(state) {
    this.stop();
    return this.then(() => this.shown(state));
  }

  // Takes an edited text. The events before the first changed line stay played.
  edit(text) {
    this.stop();
    return this.then(() => {
      this.remember();
      this.named("");
      this.position = Math.min(this.position, this.take(text));
      return this.asked(this.position, {});
    });
  }

  // Takes another text in place of this one. Returns how many of the first events are the same; their replies stay known.
  take(text) {
    const kept = Math.max(0, commonLines(text, this.text) - (FIRST - 1));
    this.text = text;
    this.replies.length = Math.min(this.replies.length, kept);
    return kept;
  }

  // ---- playing

  // Performs an action after those before it are done.
  then(act) {
    this.turn = this.turn.then(async () => {
      try {
        await act();
      } catch (error) {
        this.stop();
        say(error.message);
      }
    });
    return this.turn;
  }

  // Goes to a position within the trace. It may depend on actions that are still waiting, so `where` is called after them.
  go(where) {
    return this.then(() => this.asked(Math.max(0, Math.min(where(), this.total ?? 0)), {}));
  }

  // Goes to an event that the reader names, by its number, its line, or a place of the timeline.
  goTo(position) {
    if (Number.isFinite(position)) {
      this.editor.flush();
      this.stop();
      this.go(() => position);
    }
  }

  toFlip() {
    return this.then(async () => {
      const before = this.position;
      await this.asked(this.position, { to_flip: true });
      if (this.position === before) {
        say("There is no further flip in this trace. 'Work' adds the steps that lead to one.");
      }
    });
  }

  // Inserts a line after the last event that was played, and plays it. Without a line, it plays the collector's useful step.
  insert(line) {
    return this.then(async () => {
      const answer = await this.answered("insert", this.position, line === null ? {} : { line });
      if (answer.fault) {
        say(`There is no such mutator in this trace: ${line}`);
      } else {
        this.remember();
        this.text = withEvent(this.text, answer);
        this.last.made(this.text);
        this.replies.length = Math.min(this.replies.length, this.position);
        this.editor.show(this.text, FIRST + answer.position - 1);
        this.named("");
        await this.show(answer);
      }
    });
  }

  async asked(position, more) {
    const answer = await this.answered("play", position, more);
    if (answer.fault) {
      this.showFault(answer.fault);
    } else {
      await this.show(answer);
    }
  }

  answered(name, position, more) {
    say("");
    const known = Math.min(this.replies.length, position);
    return this.last.ask(name, this.text, { position, known, width: this.width(), ...more });
  }

  width() {
    return Math.floor(byId("picture").clientWidth);
  }

  // Returns whether what is shown was drawn for another width.
  isStale() {
    return this.drawnWidth !== undefined && this.width() > 0 && this.width() !== this.drawnWidth;
  }

  // Redraws in another width, which the picture may have again when its turn comes.
  resized() {
    clearTimeout(this.waiting);
    if (this.isStale()) {
      this.waiting = setTimeout(() => this.then(() => (this.isStale() ? this.asked(this.position, {}) : undefined)), 200);
    }
  }

  run() {
    if (this.running) {
      this.stop();
      return;
    }
    this.running = true;
    byId("play-run").textContent = "Pause";
    const stride = Math.ceil(this.total / MOST_PAUSES);
    const next = async () => {
      await this.go(() => (REDUCED.matches ? this.total : this.position + stride));
      if (this.position >= this.total) {
        this.stop();
      } else if (this.running) {
        this.timer = setTimeout(next, Number(byId("play-speed").value));
      }
    };
    next();
  }

  stop() {
    this.running = false;
    clearTimeout(this.timer);
    byId("play-run").textContent = "Run";
  }

  // ---- what is shown

  show(answer) {
    // Replies to later events stay known, until the trace changes before them.
    for (const [at, reply] of answer.replies.entries()) {
      this.replies[answer.known + at] = reply;
    }
    this.position = answer.position;
    this.total = answer.total;
    this.drawnWidth = this.width();
    const played = (line) => (line - FIRST < this.position ? this.replies[line - FIRST] : undefined);
    this.editor.note(played, this.position > 0 ? this.position + FIRST - 1 : null, null);
    byId("trace-fault").textContent = "";
    byId("trace-fault").hidden = true;
    this.showEvent(answer);
    this.span = answer.span;
    byId("picture").replaceChildren(render(answer.picture));
    byId("picture-text").replaceChildren(...answer.told.map((line) => make("li", {}, line)));
    byId("play-to").value = String(answer.position);
    byId("timeline").replaceChildren(render(answer.timeline));
    showCertificate(answer, () => this.certificate());
    showLogs(answer);
    showRoots(answer);
    this.buttons.show(answer.mutators);
    this.enable(true);
    this.onShow();
    return this.showPauses();
  }

  // Shows how long the calls took, if the reader wants to see it.
  async showPauses() {
    if (!byId("pauses-view").open || !(this.total >= 0)) {
      return;
    }
    const { picture, told, fault } = await this.last.ask("pauses", this.text, { position: this.position, width: this.width() });
    if (!fault) {
      byId("pauses").replaceChildren(render(picture));
      byId("pauses-text").textContent = told;
    }
  }

  // Returns a line of the trace, whose lines are counted from 1.
  line(number) {
    const at = startOf(this.text, number - 1);
    return this.text.slice(at, this.text.indexOf("\n", at));
  }

  showEvent({ collection, position, total }) {
    const event = byId("event");
    if (position === 0) {
      event.replaceChildren(make("strong", {}, `Before the first of ${plural(total, "event")}.`), " All slots hold nil, and the space is empty.");
      return;
    }
    const line = this.line(position + FIRST - 1);
    const reply = this.replies[position - 1];
    event.replaceChildren(
      make("span", { className: "place" }, `Event ${position} of ${total}`), " ", make("code", {}, line), " \u2192 ",
      make("code", { className: "reply" }, reply), make("br"), meaning(line, reply, collection !== null));
  }

  showFault({ message, line }) {
    const lines = this.text.split("\n");
    const at = line ?? 1;
    const fault = byId("trace-fault");
    const cut = !this.text.endsWith("\n") && at === lines.length;
    fault.textContent = message + (cut ? ". The last line lacks its line feed: press Enter at its end." : "");
    fault.hidden = false;
    this.total = 0;
    this.editor.note((line) => (line === at ? message : undefined), null, at);
    this.enable(false);
  }

  // While the trace has a fault, nothing can be played.
  enable(enabled) {
    const at = { "play-start": this.position > 0, "play-back": this.position > 0, "play-step": this.position < this.total,
      "play-run": this.position < this.total, "play-flip": this.position < this.total, "play-work": true };
    for (const [id, useful] of Object.entries(at)) {
      // A disabled button would lose the focus, so these are only marked as disabled.
      byId(id).setAttribute("aria-disabled", String(!(enabled && useful)));
    }
    // A fault can be taken back too.
    byId("play-undo").setAttribute("aria-disabled", String(this.past.length === 0));
    byId("panel-collector").classList.toggle("stale", !enabled);
    this.buttons.enable(enabled);
  }

  certificate() {
    return this.then(async () => {
      const { text } = await this.last.ask("pair", this.text, { position: this.position });
      this.onPair(text);
    });
  }
}
