"use strict";
// What is shown of the run as a file: a picture (PNG), or a drawing of lines and texts (SVG). Both are drawn by the
// functions that draw on the page, with the names of the lanes beside.

const SVG = "http://www.w3.org/2000/svg";
const END = "<" + "/svg>\n";   // together it would end the script that it stands in, for a careless reader
const NAMES_WIDTH = 220;   // at most, and what is longer is cut
const ENTITIES = { "&": "&amp;", "<": "&lt;", ">": "&gt;", "\"": "&quot;", "'": "&#39;" };
// How far below the height that a text is given for its line stands, in parts of its size.
const BASELINES = { top: 0.85, middle: 0.35, bottom: -0.2, alphabetic: 0 };
const ANCHORS = { left: "start", center: "middle", right: "end" };

// A text as it stands in an SVG file. What no XML may hold becomes a question mark.
function escaped(text) {
  return String(text).replace(/[^\t\n\r\u0020-\ud7ff\ue000-\ufffd\u{10000}-\u{10ffff}]/gu, "?")
    .replace(/[&<>"']/g, (sign) => ENTITIES[sign]);
}

function rounded(number) {
  return String(Math.round(number * 100) / 100);
}

// A colour and how opaque it is: not every program knows colours of eight digits.
function paintOf(kind, colour) {
  const [, plain, alpha] = /^(#[0-9a-f]{6})([0-9a-f]{2})$/i.exec(colour) ?? [];
  if (plain === undefined) return ` ${kind}="${escaped(colour)}"`;
  return ` ${kind}="${plain}" ${kind}-opacity="${rounded(parseInt(alpha, 16) / 255)}"`;
}

// What the drawing functions ask of a canvas, written as the elements of an SVG.
class SvgContext {
  constructor(palette) {
    this.palette = palette;
    this.parts = [];
    this.path = "";
    this.open = [0];
    this.clips = 0;
    this.dash = [];
    this.measure = document.createElement("canvas").getContext("2d");
    Object.assign(this, { fillStyle: "#000", strokeStyle: "#000", lineWidth: 1, lineCap: "butt", lineJoin: "miter",
                          globalAlpha: 1, font: "10px sans-serif", textAlign: "left", textBaseline: "alphabetic" });
  }

  add(text) {
    this.parts.push(text);
  }

  begin(attributes) {
    this.open[this.open.length - 1]++;
    this.add("<g" + attributes + ">");
  }

  save() {
    this.open.push(0);
  }

  restore() {
    this.add("</g>".repeat(this.open.pop()));
  }

  translate(x, y) {
    this.begin(` transform="translate(${rounded(x)} ${rounded(y)})"`);
  }

  // Clips to the path, which is made of rectangles.
  clip() {
    const id = "clip" + this.clips++;
    this.add(`<clipPath id="${id}"><path d="${this.path}"/></clipPath>`);
    this.begin(` clip-path="url(#${id})"`);
  }

  beginPath() {
    this.path = "";
  }

  moveTo(x, y) {
    this.path += "M" + rounded(x) + " " + rounded(y);
  }

  lineTo(x, y) {
    this.path += (this.path === "" ? "M" : "L") + rounded(x) + " " + rounded(y);
  }

  rect(x, y, width, height) {
    this.path += "M" + [x, y].map(rounded).join(" ") + "h" + rounded(width) + "v" + rounded(height) + "h" +
      rounded(-width) + "z";
  }

  // A whole circle: the drawing has no other arcs.
  arc(x, y, radius) {
    const around = "a" + rounded(radius) + " " + rounded(radius) + " 0 1 0 ";
    this.path += "M" + rounded(x - radius) + " " + rounded(y) + around + rounded(2 * radius) + " 0" + around +
      rounded(-2 * radius) + " 0";
  }

  alpha() {
    return this.globalAlpha === 1 ? "" : ` opacity="${rounded(this.globalAlpha)}"`;
  }

  pen() {
    return paintOf("stroke", this.strokeStyle) + ` stroke-width="${rounded(this.lineWidth)}"` +
      (this.lineJoin === "round" ? ` stroke-linejoin="round"` : "") +
      (this.dash.length === 0 ? "" : ` stroke-dasharray="${this.dash.map(rounded).join(" ")}"`) + this.alpha();
  }

  fill() {
    if (this.path !== "") this.add(`<path d="${this.path}"${paintOf("fill", this.fillStyle)}${this.alpha()}/>`);
  }

  stroke() {
    if (this.path !== "") this.add(`<path d="${this.path}" fill="none"${this.pen()}/>`);
  }

  fillRect(x, y, width, height) {
    const [left, top, wide, high] = [x, y, width, height].map(rounded);
    this.add(`<rect x="${left}" y="${top}" width="${wide}" height="${high}"${paintOf("fill", this.fillStyle)}` +
      `${this.alpha()}/>`);
  }

  setLineDash(dash) {
    this.dash = dash;
  }

  dots(list, radius, fill, stroke, lineWidth) {
    this.add(`<g${paintOf("fill", fill)}${paintOf("stroke", stroke)} stroke-width="${rounded(lineWidth)}">`);
    for (const [x, y] of list) this.add(`<circle cx="${rounded(x)}" cy="${rounded(y)}" r="${rounded(radius)}"/>`);
    this.add("</g>");
  }

  measureText(text) {
    this.measure.font = this.font;
    return this.measure.measureText(text);
  }

  text(text, x, y, look) {
    const [, bold, points, family] = /^(bold )?([\d.]+)px (.*)$/.exec(this.font);
    const below = y + BASELINES[this.textBaseline] * Number(points);
    const weight = bold === undefined ? "" : ` font-weight="bold"`;
    this.add(`<text x="${rounded(x)}" y="${rounded(below)}" text-anchor="${ANCHORS[this.textAlign]}" ` +
      `font-family="${escaped(family)}" font-size="${points}"${weight}${look}>${escaped(text)}</text>`);
  }

  fillText(text, x, y) {
    this.text(text, x, y, paintOf("fill", this.fillStyle));
  }

  strokeText(text, x, y) {
    this.text(text, x, y, ` fill="none"${this.pen()}`);
  }

  // The hatching of what comes after an event: the only pattern there is.
  createPattern() {
    this.add(`<pattern id="hatch" width="8" height="8" patternUnits="userSpaceOnUse"><rect width="8" height="8"` +
      `${paintOf("fill", this.palette.future)}/><path d="M-9 9L1 -1M-1 9L9 -1M7 9L17 -1" ` +
      `stroke-width="1.2"${paintOf("stroke", this.palette["future-line"])}/></pattern>`);
    return "url(#hatch)";
  }

  toFile(width, height, title) {
    const [wide, high] = [rounded(width), rounded(height)];
    return `<svg xmlns="${SVG}" width="${wide}" height="${high}" viewBox="0 0 ${wide} ${high}" role="img">` +
      `<title>${escaped(title)}</title>\n${this.parts.join("\n")}\n${END}`;
  }
}

function nameFont(palette, isFolded) {
  return (isFolded ? "11px " : "bold 13px ") + palette.font;
}

// How wide the names of the lanes are beside the drawing.
function widthOfNames(context, run, palette) {
  context.font = nameFont(palette, false);
  return Math.ceil(Math.min(NAMES_WIDTH, Math.max(...run.names.map((name) => context.measureText(name).width)))) + 24;
}

// Draws the names, and beside them what is shown.
function drawShown(context, run, state, palette, size, lanes, wide) {
  context.fillStyle = palette.surface;
  context.fillRect(0, 0, wide, size.height);
  for (const p of size.order) {
    const hasCount = !size.folded[p];
    context.textAlign = "right";
    context.textBaseline = "middle";
    context.font = nameFont(palette, size.folded[p]);
    context.fillStyle = palette.ink;
    context.fillText(fitting(context, run.names[p], wide - 24), wide - 12, laneY(size, p) - (hasCount ? 7 : 0));
    context.font = "12px " + palette.font;
    context.fillStyle = palette.muted;
    if (hasCount) context.fillText(lanes[p].count.textContent, wide - 12, laneY(size, p) + 9);
  }
  context.save();
  context.translate(wide, 0);
  context.beginPath();
  context.rect(0, 0, size.width, size.height);
  context.clip();
  drawDiagram(context, run, state, palette, size);
  context.restore();
}

// The address of the file is given back once it is saved.
function saveFile(blob, name) {
  const link = element("a", { href: URL.createObjectURL(blob), download: name });
  link.click();
  setTimeout(() => URL.revokeObjectURL(link.href), 1000);
}

function savePicture(run, state, palette, size, lanes, say) {
  const picture = document.createElement("canvas");
  const context = picture.getContext("2d", { alpha: false });
  const wide = widthOfNames(context, run, palette);
  picture.width = Math.round((wide + size.width) * size.ratio);
  picture.height = Math.round(size.height * size.ratio);
  context.scale(size.ratio, size.ratio);
  drawShown(context, run, state, palette, size, lanes, wide);
  picture.toBlob((blob) => {
    saveFile(blob, "run.png");
    say("The picture is saved as run.png.");
  });
}

// What is shown as the text of an SVG file, complete in itself.
function drawingText(run, state, palette, size, lanes) {
  const context = new SvgContext(palette);
  const wide = widthOfNames(context, run, palette);
  drawShown(context, run, state, palette, size, lanes, wide);
  return context.toFile(wide + size.width, size.height, document.title);
}

function saveDrawing(run, state, palette, size, lanes, say) {
  saveFile(new Blob([drawingText(run, state, palette, size, lanes)], { type: "image/svg+xml" }), "run.svg");
  say("The drawing is saved as run.svg.");
}

if (typeof module === "object") module.exports = { escaped, paintOf };
