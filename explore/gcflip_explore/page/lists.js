// The lists next to the picture: certificate, logs and roots.

import { byId, make } from "./elements.js";

function rest(shown, count) {
  return count > shown ? [make("p", {}, `and ${count - shown} more`)] : [];
}

// Shows the conditions of a flip, the pairs, and what the checker says of them.
export function showCertificate({ collection }, onText) {
  const body = byId("certificate-body");
  if (collection === null) {
    body.replaceChildren(make("p", {}, "No collection is open, so there is no certificate."));
    return;
  }
  const { conditions, ready, pairs, count, verdict, meaning, where } = collection;
  const listed = conditions.map(({ text, holds }) => make("li", { className: holds ? "holds" : "fails" }, `${holds ? "yes" : "no"}: ${text}`));
  const items = pairs.map(([old, replica], at) => make("li", {}, `pair ${at}: the object at ${old} has its replica at ${replica}`));
  body.replaceChildren(
    make("p", {}, ready ? "The collection is ready for a flip:" : "The collection is not ready for a flip:"),
    make("ul", { className: "conditions" }, ...listed),
    make("p", {}, count === 0 ? "There is no pair yet." : "The pairs of the certificate:"),
    make("ul", { className: "pairs" }, ...items), ...rest(pairs.length, count),
    make("p", {}, ready ? "The checker says of it:" : "If the collector flipped now, the checker would say:"),
    make("p", { id: "certificate-verdict", className: meaning ? "verdict refused" : "verdict accepted" },
      make("code", {}, verdict), meaning ? ` (${meaning}) \u2014 ${where}` : ""),
    make("p", {}, make("button", { id: "certificate-text", onclick: onText }, "See it as a pair text")));
}

export function showLogs({ collection, logs }) {
  const lists = logs.map(({ mutator, entries, count }) => make("div", { className: "log" },
    make("h3", {}, `Mutator ${mutator}`),
    count === 0 ? make("p", {}, "empty") : make("ol", {}, ...entries.map(([thing, field]) => make("li", {}, `object at ${thing}, field ${field}`))),
    ...rest(entries.length, count)));
  byId("logs-body").replaceChildren(...(collection === null ? [make("p", {}, "No collection is open, so nothing is logged.")] : lists));
}

export function showRoots({ roots }) {
  const lists = roots.map(({ owner, slots }) => make("div", { className: "owner" },
    make("h3", {}, owner === "all mutators" ? "Shared by all mutators" : `M${owner.slice(1)}`),
    slots.length === 0 ? make("p", {}, "all nil") : make("dl", {}, ...slots.flatMap(({ name, value, changed }) => [
      make("dt", {}, name), make("dd", { className: changed ? "just" : "" }, value.replace("\u2192", "the object at\u00a0"))]))));
  byId("roots-body").replaceChildren(...lists);
}
