// Starts the page: its tabs, the keyboard, and the text that is opened first.

import { Checker } from "./checker.js";
import { Collector } from "./collector.js";
import { byId, onFiles } from "./elements.js";
import { noted, stateOf } from "./address.js";
import { ask, say, textOf } from "./server.js";
import { Tour } from "./tour.js";

const TABS = ["collector", "checker", "trust"];
const FIRST_TRACE = "write_while_scanning";
const FIRST_PAIR = "garbage_left_behind";

function show(shown) {
  for (const name of TABS) {
    const tab = byId(`tab-${name}`);
    tab.setAttribute("aria-selected", String(name === shown));
    tab.tabIndex = name === shown ? 0 : -1;
    byId(`panel-${name}`).hidden = name !== shown;
  }
  say("");
}

function listenToTabs(onShow) {
  for (const [at, name] of TABS.entries()) {
    const tab = byId(`tab-${name}`);
    tab.addEventListener("click", () => {
      show(name);
      onShow();
    });
    tab.addEventListener("keydown", (event) => {
      const step = { ArrowRight: 1, ArrowLeft: -1 }[event.key];
      if (step) {
        const other = TABS[(at + step + TABS.length) % TABS.length];
        show(other);
        onShow();
        byId(`tab-${other}`).focus();
        event.stopPropagation();
      }
    });
  }
}

const KEYS = { ArrowRight: "play-step", ArrowLeft: "play-back", Home: "play-start", r: "play-run", f: "play-flip", w: "play-work", u: "play-undo" };

// Keys play the trace, unless the reader is typing, choosing or scrolling.
function listenToKeys() {
  document.addEventListener("keydown", (event) => {
    const busy = event.target.closest("textarea, input, select, .picture") || event.ctrlKey || event.altKey || event.metaKey;
    const id = KEYS[event.key] ?? KEYS[event.key.toLowerCase()];
    const off = event.key.length === 1 && !byId("keys").checked;
    if (!busy && !off && id && !byId("panel-collector").hidden) {
      event.preventDefault();
      byId(id).click();
    }
  });
}

// Opens files in the tab of their kind. Any other text stays in the tab where it was opened, which says what is wrong with it.
function listenToFiles(tabs) {
  const places = { collector: ["trace-file", "panel-collector"], checker: ["pair-file", "panel-checker"] };
  for (const [tab, [input, area]] of Object.entries(places)) {
    onFiles(byId(input), byId(area), async (file) => {
      try {
        const text = await textOf(file);
        const shown = text.startsWith("heaptrace ") ? "collector" : /^heap(pair|images) /.test(text) ? "checker" : tab;
        show(shown);
        tabs[shown].open(text);
      } catch (error) {
        say(error.message);
      }
    });
  }
}

async function start() {
  const { examples, file } = await ask("start", {});
  const ofKind = (kind) => examples.filter((example) => example.kind === kind);
  let isReady = false;
  const note = () => isReady && noted({ tab: TABS.find((name) => !byId(`panel-${name}`).hidden), collector, checker });
  const checker = new Checker(ofKind("pair"), note);
  const collector = new Collector(ofKind("trace"), (text) => {
    show("checker");
    checker.open(text);
  }, note);
  listenToFiles({ collector, checker });
  const tour = new Tour(collector, checker, show);
  listenToTabs(note);
  listenToKeys();
  for (const button of document.querySelectorAll(".tour-start")) {
    button.addEventListener("click", () => tour.start());
  }
  // A picture needs the width of its place, so each tab is shown while it is first drawn.
  const { tab, trace, pair, event } = stateOf(location.hash, examples);
  show("checker");
  await (pair ? checker.open(pair.text, pair) : file?.kind === "pair" ? checker.open(file.text) : checker.choose(FIRST_PAIR));
  show("collector");
  await (trace ? collector.open(trace.text, trace) : file?.kind === "trace" ? collector.open(file.text) : collector.choose(FIRST_TRACE));
  if (event > 0) {
    await collector.go(() => event);
  }
  if (tab ?? file?.kind === "pair") {
    show(TABS.includes(tab) ? tab : "checker");
  }
  isReady = true;
  document.body.dataset.ready = "yes";
}

// If a file is dropped outside a place for files, the browser would open it instead of the page.
for (const kind of ["dragover", "drop"]) {
  addEventListener(kind, (event) => event.preventDefault());
}
start().catch((error) => say(error.message));
