// A text editor with line numbers at the left and notes next to its lines at the right. Only visible lines have elements.

import { make } from "./elements.js";

const LINE = 20;
const PADDING = 6;
// Browsers edit a longer text too slowly.
const MOST_SHOWN = 400000;
// Of a longer text so many lines are shown, around the place that matters, and cannot be edited.
const MOST_LINES = 2000;

// Returns where the line behind so many lines begins, or the length of a text that has fewer.
export function startOf(text, count) {
  let at = 0;
  for (let line = 0; line < count; line += 1) {
    at = text.indexOf("\n", at) + 1;
    if (at === 0) {
      return text.length;
    }
  }
  return at;
}

// Returns the first lines of a text.
function head(text, count) {
  const at = startOf(text, count);
  return at < text.length ? text.slice(0, at - 1) : text;
}

export class Editor {
  // `onEdit` is called with the text a moment after an edit, and `onLine` with the number of a line that is clicked.
  constructor(place, label, onEdit, onLine = () => {}) {
    this.onEdit = onEdit;
    this.place = place;
    this.text = "";
    this.before = 0;
    this.notes = () => undefined;
    this.current = null;
    this.bad = null;
    this.waiting = null;
    this.area = make("textarea", { wrap: "off", spellcheck: false, autocapitalize: "off", autocomplete: "off" });
    this.area.setAttribute("aria-label", label);
    this.numbers = make("div", { className: "numbers" });
    this.replies = make("div", { className: "replies" });
    this.numbers.setAttribute("aria-hidden", "true");
    this.marker = make("div", { className: "marker" });
    place.append(this.numbers, make("div", { className: "lines" }, this.marker, this.area), this.replies);
    this.numbers.addEventListener("click", (event) => {
      const line = Number(event.target.dataset.line);
      if (line > 0) {
        onLine(line);
      }
    });
    this.area.addEventListener("scroll", () => this.draw());
    this.area.addEventListener("input", () => this.edited());
    new ResizeObserver(() => this.draw()).observe(this.area);
  }

  // Shows a text, and of a long one the lines around `line`. Until it is edited, `text` stays as given, even if the browser changes its line ends.
  show(text, line = 1) {
    clearTimeout(this.waiting);
    this.waiting = null;
    this.text = text;
    this.cut = text.length > MOST_SHOWN;
    this.area.readOnly = this.cut;
    this.before = 0;
    this.area.value = this.cut ? this.part(line) : text;
    this.note(() => undefined, null, null);
  }

  // Returns the lines of a long text around one of them, which are shown in its place.
  part(line) {
    this.before = Math.max(0, line - 1 - MOST_LINES / 2);
    return head(this.text.slice(startOf(this.text, this.before)), MOST_LINES);
  }

  edited() {
    this.text = this.area.value;
    this.draw();
    clearTimeout(this.waiting);
    this.waiting = setTimeout(() => this.flush(), 300);
  }

  // Reports an edit that was not reported yet.
  flush() {
    if (this.waiting !== null) {
      clearTimeout(this.waiting);
      this.waiting = null;
      this.onEdit(this.text);
    }
  }

  // Sets the notes of lines, by a function of their numbers, the current line and the faulty one. Lines are counted from 1.
  note(notes, current, bad) {
    const moved = current !== this.current;
    Object.assign(this, { notes, current, bad });
    if (moved && current !== null) {
      this.reveal(current);
    } else if (bad !== null) {
      this.reveal(bad);
    }
    this.draw();
  }

  reveal(line) {
    if (this.cut && (line <= this.before + 10 || line > this.before + MOST_LINES - 10)) {
      this.area.value = this.part(line);
    }
    const top = (line - 1 - this.before) * LINE;
    const height = this.area.clientHeight - 2 * PADDING;
    if (top < this.area.scrollTop) {
      this.area.scrollTop = Math.max(0, top - LINE);
    } else if (top + 2 * LINE > this.area.scrollTop + height) {
      this.area.scrollTop = top + 2 * LINE - height;
    }
  }

  draw() {
    this.place.dataset.before = String(this.before);
    const lines = this.before + this.area.value.split("\n").length;
    const offset = PADDING - this.area.scrollTop - this.before * LINE;
    const first = this.before + Math.max(1, Math.floor(this.area.scrollTop / LINE));
    const last = Math.min(lines, first + Math.ceil(this.area.clientHeight / LINE) + 1);
    const place = (line) => `${offset + (line - 1) * LINE}px`;
    const inSight = Array.from({ length: Math.max(0, last - first + 1) }, (_, i) => first + i);
    this.numbers.style.width = `${14 + 8 * Math.max(3, String(lines).length)}px`;
    this.numbers.replaceChildren(...inSight.map((line) => this.placed(line, place(line), String(line))));
    this.replies.replaceChildren(...inSight.filter((line) => this.notes(line)).map((line) => this.placed(line, place(line), this.notes(line))));
    this.marker.hidden = this.current === null;
    this.marker.style.top = place(this.current);
  }

  placed(line, top, text) {
    const made = make("div", { className: line === this.bad ? "bad" : line === this.current ? "current" : "", title: text }, text);
    made.dataset.line = line;
    made.style.top = top;
    return made;
  }
}
