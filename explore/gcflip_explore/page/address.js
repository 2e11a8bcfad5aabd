// Keeps what the reader sees in the address of the page, so that a reload, a bookmark and a link show it again.

// A longer text does not fit into an address.
const MOST_TEXT = 8000;

function coded(text) {
  return btoa(String.fromCharCode(...new TextEncoder().encode(text))).replaceAll("+", "-").replaceAll("/", "_").replaceAll("=", "");
}

function decoded(code) {
  const bytes = atob(code.replaceAll("-", "+").replaceAll("_", "/"));
  return new TextDecoder().decode(Uint8Array.from(bytes, (byte) => byte.charCodeAt(0)));
}

// Writes a text under a name: an example by its own, and another text with its characters.
function put(words, name, { text, name: example }) {
  if (example) {
    words.set(name, example);
  } else if (text && text.length <= MOST_TEXT) {
    words.set(`${name}-text`, coded(text));
  }
}

function taken(words, name, examples) {
  try {
    const text = words.get(`${name}-text`);
    return text === null ? examples.find((each) => each.name === words.get(name)) : { text: decoded(text), name: "", about: "" };
  } catch {
    return undefined;
  }
}

// Notes the tab, both texts and the event in the address.
export function noted({ tab, collector, checker }) {
  const words = new URLSearchParams({ tab });
  put(words, "trace", collector.state());
  words.set("event", String(collector.position));
  put(words, "pair", checker);
  history.replaceState(null, "", `#${words}`);
}

// Returns what an address notes, as far as it does: the tab, the trace, the pair, and the event.
export function stateOf(hash, examples) {
  const words = new URLSearchParams(hash.slice(1));
  return {
    tab: words.get("tab") ?? undefined,
    trace: taken(words, "trace", examples.filter((each) => each.kind === "trace")),
    pair: taken(words, "pair", examples.filter((each) => each.kind === "pair")),
    event: Math.max(0, Number.parseInt(words.get("event") ?? "0", 10) || 0),
  };
}
