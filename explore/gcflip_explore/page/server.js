// Asks the server. The address of the page has the token, so paths are relative.

// The server keeps the heaps of each tab apart.
const SESSION = crypto.randomUUID();

// A bar says that the server works on an answer, if it takes so many milliseconds.
const PATIENCE = 500;
const waiting = new Set();

function showBar() {
  document.getElementById("busy").hidden = waiting.size === 0;
}

// Returns the answer to a request. Throws an Error with a message for the reader if there is none.
export async function ask(name, data) {
  const request = {};
  const timer = setTimeout(() => {
    waiting.add(request);
    showBar();
  }, PATIENCE);
  try {
    return await answered(name, data);
  } finally {
    clearTimeout(timer);
    waiting.delete(request);
    showBar();
  }
}

async function answered(name, data) {
  let response;
  try {
    response = await fetch(name, {
      method: "POST", headers: { "Content-Type": "application/json" }, body: JSON.stringify({ ...data, session: SESSION }),
    });
  } catch {
    throw new Error("The server does not answer. Is 'python3 -m gcflip_explore' still running?");
  }
  if (!response.ok) {
    throw new Error((await response.text()).trim());
  }
  const answer = await response.json();
  if (answer.message) {
    throw new Error(answer.message);
  }
  return answer;
}

// Asks about a text. The server keeps the last one of each tab of the page, and the one from which it made that, so that a long text is sent once.
export class LastText {
  // Notes a text that the server made of the last one.
  made(text) {
    [this.sent, this.before] = [text, this.sent];
  }

  async ask(name, text, data) {
    const known = await this.askedAgain(name, text, data);
    if (!known.unknown) {
      return known;
    }
    this.sent = this.before = undefined;
    const answer = await ask(name, { ...data, text });
    this.sent = answer.fault ? undefined : text;
    return answer;
  }

  // Asks about a text that the server has, without the text.
  async askedAgain(name, text, data) {
    if (this.sent === text) {
      return ask(name, data);
    }
    if (this.before !== text || text === undefined) {
      return { unknown: true };
    }
    [this.sent, this.before] = [text, undefined];
    return ask(name, { ...data, before: true });
  }
}

// Shows a message above the page, or hides the last one.
export function say(text) {
  const message = document.getElementById("message");
  message.textContent = text || "";
  message.hidden = !text;
}

// The server refuses longer texts.
const MOST_BYTES = 67108864;

// Returns the text of a file. A byte that is not text becomes a character that no format has. Throws an Error if the file is too large.
export async function textOf(file) {
  if (file.size > MOST_BYTES) {
    throw new Error(`This page takes texts of up to ${MOST_BYTES >> 20} MiB. 'gcflip' itself takes longer ones.`);
  }
  return new TextDecoder("utf-8").decode(await file.arrayBuffer());
}
