// Renders a picture as SVG. The server lays pictures out; gcflip_drawing/picture.py defines the descriptions.

const NAMESPACE = "http://www.w3.org/2000/svg";
// The roles of arrows that have a head.
const HEADS = ["reference", "stale", "rooted"];
let count = 0;

function element(name, attributes, text) {
  const made = document.createElementNS(NAMESPACE, name);
  for (const [key, value] of Object.entries(attributes)) {
    made.setAttribute(key, value);
  }
  if (text !== undefined) {
    made.textContent = text;
  }
  return made;
}

const points = (shape) => shape.points.map((point) => point.join(",")).join(" ");

const RENDERERS = {
  box(shape) {
    const { role, x, y, width, height } = shape;
    const box = element("rect", { class: role, x, y, width, height, rx: 2 });
    if (shape.tip) {
      box.append(element("title", {}, shape.tip));
    }
    if (!shape.text) {
      return [box];
    }
    const middle = { class: "value", x: x + width / 2, y: y + height / 2 + 4, "text-anchor": "middle" };
    return [box, element("text", middle, shape.text)];
  },
  text(shape) {
    const { role, x, y } = shape;
    const text = element("text", { class: role, x, y, "text-anchor": shape.anchor }, shape.text);
    if (shape.turned) {
      text.setAttribute("transform", `rotate(-90 ${x} ${y})`);
    }
    return [text];
  },
  line: (shape) => [element("polyline", { class: shape.role, points: points(shape) })],
  area: (shape) => [element("polygon", { class: shape.role, points: points(shape) })],
  arrow(shape, prefix) {
    const [start, bend, end] = shape.points;
    const path = element("path", { class: shape.role, d: `M${start} Q${bend} ${end}` });
    if (HEADS.includes(shape.role)) {
      path.setAttribute("marker-end", `url(#${prefix}-${shape.role})`);
    }
    return [path];
  },
};

function head(prefix, role) {
  const marker = element("marker", {
    id: `${prefix}-${role}`, viewBox: "0 0 8 8", refX: 8, refY: 4, markerWidth: 7, markerHeight: 7, orient: "auto",
  });
  marker.append(element("path", { class: `head-${role}`, d: "M0,0 L8,4 L0,8 z" }));
  return marker;
}

// Returns the SVG element of a picture.
export function render(picture) {
  count += 1;
  const prefix = `picture-${count}`;
  const { width, height } = picture;
  const svg = element("svg", { viewBox: `0 0 ${width} ${height}`, width, height, role: "img", "aria-label": picture.title });
  const heads = element("defs", {});
  heads.append(...HEADS.map((role) => head(prefix, role)));
  svg.append(heads, ...picture.shapes.flatMap((shape) => RENDERERS[shape.kind](shape, prefix)));
  return svg;
}
