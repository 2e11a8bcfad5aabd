// Makes elements of the page.

// Returns an element with properties and children, which are elements or texts.
export function make(name, properties = {}, ...children) {
  const made = Object.assign(document.createElement(name), properties);
  made.append(...children);
  return made;
}

export function byId(id) {
  return document.getElementById(id);
}

// Fills a select with groups of options: [label, [[value, text], ...]].
export function fill(select, groups) {
  const option = ([value, text]) => make("option", { value }, text);
  select.replaceChildren(...groups.map(([label, options]) => make("optgroup", { label }, ...options.map(option))));
}

// Saves a text as a file.
export function save(text, name) {
  const link = make("a", { href: URL.createObjectURL(new Blob([text], { type: "text/plain" })), download: name });
  link.click();
  setTimeout(() => URL.revokeObjectURL(link.href), 1000);
}

// Calls `act` with each file that is chosen in an input or dropped on an area.
export function onFiles(input, area, act) {
  input.addEventListener("change", () => {
    if (input.files.length > 0) {
      act(input.files[0]);
      input.value = "";
    }
  });
  area.addEventListener("dragover", (event) => {
    event.preventDefault();
    area.classList.add("over");
  });
  area.addEventListener("dragleave", () => area.classList.remove("over"));
  area.addEventListener("drop", (event) => {
    event.preventDefault();
    area.classList.remove("over");
    if (event.dataTransfer.files.length > 0) {
      act(event.dataTransfer.files[0]);
    }
  });
}
