// Says in a sentence what an event did, from its line and its reply. docs/FORMATS.md of the repository has the rules.

export const plural = (count, name) => `${count} ${name}${String(count) === "1" ? "" : "s"}`;

const NOTHING = "Nothing changed.";

const withFields = (length, rest) => (length === "0" ? "without fields" : `with ${plural(length, "field")}${rest}`);

const COMMANDS = {
  new: ([d, kind, length]) => ({
    made: `made an object of kind ${kind} ${withFields(length, ", all nil")}. ${d} refers to it.`,
    full: `asked for an object ${withFields(length, "")}, and the space has no room for it. ${NOTHING}`,
  }),
  raw: ([d, kind, length]) => ({
    made: `made a raw object of kind ${kind} ${withFields(length, " of plain numbers, which the collector never follows")}. ${d} refers to it.`,
    full: `asked for a raw object ${withFields(length, "")}, and the space has no room for it. ${NOTHING}`,
  }),
  num: ([d, number]) => ({ done: `put the number ${number} into ${d}.` }),
  nil: ([d]) => ({ done: `put nil into ${d}. An object that nothing refers to any more is garbage.` }),
  move: ([d, s]) => ({ done: `copied the value of ${s} into ${d}.` }),
  get: ([d, s, field]) => ({
    saw: `read field ${field} of the object in ${s} into ${d}.`,
    "no object": `tried to read a field, but ${s} refers to no object. ${NOTHING}`,
    "no field": `tried to read field ${field}, which the object in ${s} does not have. ${NOTHING}`,
  }),
  put: ([s, field, t], open) => ({
    done: `wrote the value of ${t} to field ${field} of the object in ${s}.` +
      (open ? " A collection is open, so the write was logged: the object and the field, but not the value." : ""),
    "no object": `tried to write a field, but ${s} refers to no object. ${NOTHING}`,
    "no field": `tried to write field ${field}, which the object in ${s} does not have. ${NOTHING}`,
    "no number": `tried to write something else than a number to a raw object. ${NOTHING}`,
  }),
  same: ([s, t]) => ({
    yes: `found that ${s} and ${t} hold the same: nil, equal numbers, or references to one object.`,
    no: `found that ${s} and ${t} do not hold the same.`,
  }),
  look: ([s]) => ({ saw: `looked at ${s}.` }),
};

const STEPS = {
  begin: {
    begun: "The collector opened a collection: there is a new space, and an empty log for each mutator.",
    busy: "A collection is open already.",
  },
  roots: {
    copied: "The collector gave a replica to the target of a root. The fields of the replica are nil until they are scanned, unless it is raw.",
    clean: "The target of each root has a replica already.",
  },
  scan: {
    scanned: "The collector brought the field at the scan pointer up to date: it read the original's field and wrote it to the replica.",
    passed: "All fields of this replica are scanned, so the scan pointer moved on to the next replica.",
    clean: "The scan pointer is at the end of the new space. Nothing is left to scan.",
  },
  apply: {
    applied: "The collector took the oldest entry out of this log. It read the field that the entry names once more, and wrote it to the replica.",
    clean: "This log is empty.",
  },
  flip: {
    flipped: "The checker accepted the certificate. Each root refers to the replica now, and the new space took the place of the old one.",
    "not ready": "The collection is not ready for a flip. The list of conditions shows what is missing.",
  },
  drop: { dropped: "The collector gave the collection up, with its new space and its logs." },
};

// Describes a value, from its words in a reply.
function value([sort, first, second]) {
  const others = { nil: "nil", num: `the number ${first}` };
  return others[sort] ?? `a reference to ${sort === "raw" ? "a raw object" : "an object"} of kind ${first} ${withFields(second, "")}`;
}

// The first part of a reply, which says what sort it is.
function sortOf(reply) {
  return reply.replace(/^(saw|flipped) .*/, "$1");
}

// Returns a sentence. `open` says whether a collection is open.
export function meaning(line, reply, open) {
  const words = line.split(" ");
  const sort = sortOf(reply);
  const seen = sort === "saw" ? ` It saw ${value(reply.split(" ").slice(1))}.` : "";
  if (words[0] === "c") {
    const others = { idle: "No collection is open.", "no room": `The new space has no room for another replica. ${NOTHING}` };
    return { ...others, ...STEPS[words[1]] }[sort];
  }
  return `Mutator ${words[1]} ${COMMANDS[words[2]](words.slice(3), open)[sort]}${seen}`;
}
