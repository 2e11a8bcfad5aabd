// The tab in which a pair text is checked, drawn and spoiled.

import { Editor } from "./editor.js";
import { byId, fill, make, save } from "./elements.js";
import { plural } from "./meanings.js";
import { render } from "./picture.js";
import { LastText, say } from "./server.js";

// Returns what is said of the shape of a drawing that is clicked.
const tipOf = (event) => event.target.querySelector?.("title")?.textContent ?? "";

// The server shows so many objects at once.
const MOST_OBJECTS = 8;

// What the frame of an object in an excerpt says.
const OBJECT = /^(?:object|rest of the object) at (\d+) of the (old|new) space$/;

// Returns the first and the last word of the block of a run that is clicked. `words` is the number of words of a block.
function blockAt(event, first, last, words) {
  const { left, width } = event.target.getBoundingClientRect();
  const count = Math.max(1, Math.round((last - first + 1) / words));
  const at = Math.min(count - 1, Math.max(0, Math.floor(((event.clientX - left) / width) * count)));
  return [first + at * words, Math.min(last, first + (at + 1) * words - 1)];
}

function holds(frame, { clientX, clientY }) {
  const { left, right, top, bottom } = frame.getBoundingClientRect();
  return left <= clientX && clientX <= right && top <= clientY && clientY <= bottom;
}

const refusedRows = (place) => (place ?? []).flatMap((each) => each.rows).filter((row) => row.refused);

// Returns the line of a text at which the editor opens, if an answer names one.
const faultyLine = ({ place, bad_line: bad }) => bad ?? refusedRows(place)[0]?.line;

export class Checker {
  // `onShow` is called when something else is shown.
  constructor(examples, onShow) {
    this.examples = examples;
    this.onShow = onShow;
    this.name = "";
    this.last = new LastText();
    this.past = [];
    this.turn = Promise.resolve();
    this.editor = new Editor(byId("pair-editor"), "The pair text", (text) => {
      this.own();
      this.check(text);
    });
    const select = byId("pair-examples");
    fill(select, [["Examples", examples.map(({ name }) => [name, name.replaceAll("_", " ")])], ["Other", [["", "your own text"]]]]);
    select.addEventListener("change", () => this.choose(select.value));
    byId("spoil").addEventListener("click", () => this.spoil());
    byId("mend").addEventListener("click", () => this.undo());
    byId("pair-save").addEventListener("click", () => {
      this.editor.flush();
      save(this.text, `${this.name || "heaps"}.pair`);
    });
    byId("pair-picture").addEventListener("click", (event) => this.look(event));
    byId("pair-looked").addEventListener("click", (event) => this.lookAtObject(event));
    byId("look-at").addEventListener("submit", (event) => {
      event.preventDefault();
      const word = Number(byId("look-word").value);
      if (byId("look-word").value !== "" && Number.isInteger(word) && word >= 0) {
        this.zoom(byId("look-heap").value, word, word);
      }
    });
    new ResizeObserver(() => this.resized()).observe(byId("pair-picture"));
  }

  choose(name) {
    const example = this.examples.find((each) => each.name === name);
    return example ? this.open(example.text, example) : Promise.resolve();
  }

  open(text, example = { name: "", about: "" }) {
    this.past = [];
    this.own(example);
    this.editor.show(text);
    return this.check(text);
  }

  // Returns what the reader sees, so that it can be shown again.
  state() {
    return { text: this.text, name: this.name, past: this.past };
  }

  restore({ text, name, past }) {
    this.open(text, this.examples.find((each) => each.name === name));
    this.past = past;
    byId("mend").disabled = past.length === 0;
  }

  own(example = { name: "", about: "" }) {
    byId("pair-examples").value = example.name;
    byId("pair-about").textContent = example.about;
    byId("spoiled").textContent = "";
    this.name = example.name;
    byId("mend").disabled = this.past.length === 0;
  }

  then(act) {
    this.turn = this.turn.then(async () => {
      try {
        say("");
        await act();
      } catch (error) {
        say(error.message);
      }
    });
    return this.turn;
  }

  check(text) {
    this.text = text;
    return this.then(async () => {
      this.show(await this.asked("check", text, {}));
    });
  }

  asked(name, text, data) {
    return this.last.ask(name, text, { ...data, width: this.width() });
  }

  // Gives back the pair that was shown before the last word was spoiled.
  undo() {
    const { text, name } = this.past.pop();
    this.own(this.examples.find((each) => each.name === name));
    this.editor.show(text);
    return this.check(text);
  }

  // Spoils a word of the pair that is shown.
  spoil() {
    this.editor.flush();
    return this.then(async () => {
      const answer = await this.asked("spoil", this.text, {});
      const { at, from, to } = answer.change;
      this.past.push({ text: this.text, name: this.name });
      this.own();
      this.text = this.text.slice(0, at) + to + this.text.slice(at + from.length);
      this.last.made(this.text);
      this.editor.show(this.text, faultyLine(answer));
      byId("spoiled").textContent = answer.said;
      this.show(answer);
    });
  }

  width() {
    return Math.floor(byId("pair-picture").clientWidth);
  }

  // Returns whether what is shown was drawn for another width.
  isStale() {
    return this.drawnWidth !== undefined && this.width() > 0 && this.width() !== this.drawnWidth;
  }

  resized() {
    clearTimeout(this.waiting);
    if (this.isStale()) {
      this.waiting = setTimeout(() => this.drawAgain(), 200);
    }
  }

  // Draws for another width, with the same objects below. They are those that are shown when its turn comes.
  drawAgain() {
    return this.then(async () => {
      if (!this.isStale()) {
        return;
      }
      const { looked } = this;
      const answer = await this.asked("check", this.text, {});
      const objects = looked && await this.asked("look", this.text, looked);
      this.show(answer);
      if (objects) {
        this.showLooked(looked, objects);
      }
    });
  }

  show({ line, fault, refused, meaning, where, picture, told, place, block, near, bad_line: bad }) {
    this.drawnWidth = this.width();
    this.block = block;
    byId("look-at").hidden = !block;
    const verdict = byId("verdict-line");
    verdict.textContent = line + (meaning ? ` (${meaning})` : "") + (where ? ` \u2014 ${where}` : "");
    verdict.className = fault || refused ? "verdict refused" : "verdict accepted";
    const rows = refusedRows(place);
    const noted = bad ? [bad] : rows.map((row) => row.line);
    this.editor.note((each) => (noted.includes(each) ? line : undefined), null, faultyLine({ place, bad_line: bad }) ?? null);
    byId("pair-place").replaceChildren(...(place ?? []).map((each) => this.table(each)));
    this.looked = null;
    this.showNear({ picture: near, places: [] });
    byId("pair-picture").replaceChildren(...(picture ? [render(picture)] : []));
    byId("pair-text").replaceChildren(...(told ?? []).map((each) => make("li", {}, each)));
    byId("spoil").disabled = Boolean(fault) || !this.text.startsWith("heappair ");
    this.onShow();
  }

  // Shows the objects of a block that is clicked.
  look(event) {
    const found = /^(old|new) space, words (\d+) to (\d+)/.exec(tipOf(event));
    if (found) {
      this.zoom(found[1], ...blockAt(event, Number(found[2]), Number(found[3]), this.block));
    }
  }

  // Shows an object that is clicked in an excerpt, with those that it refers to. Its words lie over its frame.
  lookAtObject(event) {
    const frames = [...(event.target.closest("svg")?.querySelectorAll("rect") ?? [])].filter((frame) => holds(frame, event));
    const found = frames.map((frame) => OBJECT.exec(frame.textContent)).find((match) => match);
    if (found) {
      this.zoom(found[2], Number(found[1]), Number(found[1]));
    }
  }

  zoom(heap, first, last, skipped = 0) {
    const range = { heap, first, last, skipped };
    return this.then(async () => this.showLooked(range, await this.asked("look", this.text, range)));
  }

  showLooked(range, answer) {
    this.looked = range;
    this.showNear(answer, this.pages(answer));
  }

  // Returns a line that says which objects of a range are shown, with buttons that go to the others.
  pages({ count, skipped, shown }) {
    const { heap, first, last } = this.looked;
    const range = first === last ? `word ${first}` : `words ${first} to ${last}`;
    const those = count === 0 ? "no object" : shown === count ? plural(count, "object") : `objects ${skipped + 1} to ${skipped + shown} of ${count}`;
    const button = (name, to, enabled) => make("button", { disabled: !enabled, onclick: () => this.zoom(heap, first, last, to) }, name);
    const buttons = shown < count ? [button("Previous", Math.max(0, skipped - MOST_OBJECTS), skipped > 0),
      button("Next", skipped + MOST_OBJECTS, skipped + shown < count)] : [];
    return [make("p", { className: "row" }, make("span", { role: "status" }, `The ${heap} heap, ${range}: ${those}.`), ...buttons)];
  }

  // Shows an excerpt of heaps that are drawn in blocks: what it is, its picture, and tables of words.
  showNear({ picture, places }, heads = []) {
    const drawing = picture ? [make("div", { className: "picture near" }, render(picture))] : [];
    byId("pair-looked").replaceChildren(...heads, ...drawing, ...places.map((each) => this.table(each)));
  }

  // Returns a table of the words of a refused object. A click on a line number shows that line in the editor.
  table({ heading, rows }) {
    const head = make("tr", {}, ...["part", "address", "word", "meaning", "line"].map((name) => make("th", { scope: "col" }, name)));
    const body = rows.map(({ part, address, word, meaning, line, refused }) => make("tr", { className: refused ? "refused" : "" },
      make("td", {}, part), make("td", {}, address === null ? "" : String(address)), make("td", {}, word), make("td", {}, meaning),
      make("td", {}, make("button", { className: "line", onclick: () => this.editor.reveal(line) }, String(line)))));
    return make("table", { className: "words" }, make("caption", {}, heading), make("thead", {}, head), make("tbody", {}, ...body));
  }
}
