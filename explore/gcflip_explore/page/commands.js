// Buttons for each step of the collector and each command of a mutator.

import { byId, make } from "./elements.js";

const SLOTS = ["r", "g"].flatMap((letter) => Array.from({ length: 16 }, (_, number) => `${letter}${number}`));
const GREATEST = { kind: 255, fields: 65535, field: 65535, words: 1048576 };

// For each step and each command: its name, what it does, its words, and another key if the name occurs twice.
const STEPS = [
  ["begin", "open a collection", []],
  ["roots", "replicate the target of a root", []],
  ["scan", "scan a field", []],
  ["flip", "flip, if the checker accepts", []],
  ["drop", "give the collection up", []],
  ["apply", "apply the oldest entry of a log", ["log of mutator"]],
  ["begin", "open a collection of another size", ["words"], "begin sized"],
];
const COMMANDS = [
  ["new", "make an object", ["to", "kind", "fields"]],
  ["raw", "make a raw object", ["to", "kind", "fields"]],
  ["num", "take a number", ["to", "number"]],
  ["nil", "take nil", ["to"]],
  ["move", "copy a slot", ["to", "from"]],
  ["get", "read a field", ["to", "from", "field"]],
  ["put", "write a field", ["into", "field", "value"]],
  ["same", "compare two slots", ["slot", "and"]],
  ["look", "look at a slot", ["slot"]],
];

// The initial values of the inputs. A slot's name makes an input for slots.
const FIRST_VALUES = {
  to: "r0", from: "r0", into: "r0", value: "r1", slot: "r0", and: "r1", kind: "1", fields: "2", field: "0", number: "7", words: "64",
};

function choice(values, value) {
  const select = make("select", {}, ...values.map((each) => make("option", { value: each }, each)));
  select.value = value;
  return select;
}

function input(word, mutators) {
  if (word === "log of mutator") {
    return choice(mutators, "0");
  }
  const value = FIRST_VALUES[word];
  if (SLOTS.includes(value)) {
    return choice(SLOTS, value);
  }
  // Numbers have up to 19 digits, more than a number input keeps exactly.
  return make("input", {
    type: "text", inputMode: "numeric", pattern: "0|[1-9][0-9]{0,18}", required: true, value, className: word in GREATEST ? "" : "wide",
    title: `0 to ${GREATEST[word] ?? "9223372036854775807"}`,
  });
}

// Returns a form: a button, and an input for each word. `act` is called with the name and the words.
function form([name, title, words, key = name], mutators, act) {
  const inputs = words.map((word) => [word, input(word, mutators)]);
  const made = make("form", { className: "command" }, make("button", { title }, name),
    ...inputs.map(([word, field]) => make("label", {}, word, " ", field)));
  made.dataset.command = key;
  made.addEventListener("submit", (event) => {
    event.preventDefault();
    act([name, ...inputs.map(([, field]) => field.value)].join(" "));
  });
  return made;
}

export class CommandButtons {
  // `act` is called with the line of an event.
  constructor(act) {
    this.act = act;
    this.mutators = 0;
  }

  // Shows the buttons for this many mutators.
  show(mutators) {
    if (mutators === this.mutators) {
      return;
    }
    this.mutators = mutators;
    const numbers = Array.from({ length: mutators }, (_, number) => String(number));
    const actor = choice(numbers, "0");
    actor.id = "commands-mutator";
    const steps = STEPS.map((step) => form(step, numbers, (line) => this.act(`c ${line}`)));
    const commands = COMMANDS.map((command) => form(command, numbers, (line) => this.act(`m ${actor.value} ${line}`)));
    byId("steps-body").replaceChildren(...steps);
    byId("commands-body").replaceChildren(make("label", {}, "Mutator ", actor), ...commands);
  }

  enable(enabled) {
    for (const button of byId("commands").querySelectorAll("button")) {
      button.disabled = !enabled;
    }
  }
}
