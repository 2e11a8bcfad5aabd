// The body of a function that the tests run in the page. It returns the texts with less contrast to their background than WCAG AA requires
// (4.5 to 1, or 3 to 1 for large texts), the least contrast, and the number of texts.

// Returns the numbers of a colour as the browser writes it: red, green, blue, and opacity if it is not 1.
const parts = (colour) => (colour.match(/[\d.]+/g) ?? []).map(Number);

const isSeen = (colour) => parts(colour).length === 3 || parts(colour)[3] > 0;

function linear(value) {
  const part = value / 255;
  return part <= 0.04045 ? part / 12.92 : ((part + 0.055) / 1.055) ** 2.4;
}

// Returns the relative luminance of a colour.
function luminance(colour) {
  const [red, green, blue] = parts(colour).map(linear);
  return 0.2126 * red + 0.7152 * green + 0.0722 * blue;
}

function contrast(colour, other) {
  const [less, more] = [luminance(colour), luminance(other)].sort((a, b) => a - b);
  return (more + 0.05) / (less + 0.05);
}

// Returns the fill of the last box of a picture that is drawn before a text and contains the text's middle, or null.
function fillBehind(text) {
  const { x, y, width, height } = text.getBBox();
  const [middle, centre] = [x + width / 2, y + height / 2];
  for (let shape = text.previousElementSibling; shape; shape = shape.previousElementSibling) {
    const box = shape.tagName === "rect" ? shape.getBBox() : { width: 0, height: 0 };
    const isBehind = box.x <= middle && middle <= box.x + box.width && box.y <= centre && centre <= box.y + box.height;
    if (isBehind && isSeen(getComputedStyle(shape).fill)) {
      return getComputedStyle(shape).fill;
    }
  }
  return null;
}

function colourBehind(element) {
  const fill = element.tagName === "text" ? fillBehind(element) : null;
  for (let at = element; at && fill === null; at = at.parentElement) {
    const colour = getComputedStyle(at).backgroundColor;
    if (isSeen(colour)) {
      return colour;
    }
  }
  return fill ?? "rgb(255, 255, 255)";
}

function showsText(element) {
  const hasText = [...element.childNodes].some((node) => node.nodeType === Node.TEXT_NODE && node.textContent.trim());
  return hasText && element.getClientRects().length > 0 && !element.closest("option, optgroup, script, title");
}

const found = [...document.querySelectorAll("*")].filter(showsText).map((element) => {
  const style = getComputedStyle(element);
  const value = contrast(element.tagName === "text" ? style.fill : style.color, colourBehind(element));
  return { value, wanted: parseFloat(style.fontSize) >= 24 ? 3 : 4.5, name: `${element.tagName} '${element.textContent.slice(0, 20)}'` };
});
const low = found.filter(({ value, wanted }) => value < wanted).map(({ name, value }) => `${name} ${value.toFixed(2)}`);
return { low, least: Math.min(...found.map(({ value }) => value)), count: found.length };
