// Draws values over months as SVG, with the same values as a table that a screen reader reads.

import { drawn, element, table } from "./elements.js";
import { dollarsText } from "./spelling.js";
import { TEXTS } from "./texts.js";

const HEIGHT = 240;
const [TOP, BOTTOM, SIDE] = [18, 26, 8];
const LINES = 4;

// A step of 1, 2 or 5 and zeros that makes at most this number of lines.
function niceStep(most, lines) {
  const rough = most / lines;
  const power = 10 ** Math.floor(Math.log10(rough));
  return [1, 2, 5, 10].map((one) => one * power).find((one) => one >= rough);
}

function scales(points, width) {
  const [first, last] = [points[0].month, points.at(-1).month];
  const step = niceStep(Math.max(...points.map((point) => point.cents), 100), LINES);
  const top = step * Math.ceil(Math.max(...points.map((point) => point.cents), 100) / step);
  const x = (month) => SIDE + ((month - first) / (last - first)) * (width - 2 * SIDE);
  const y = (cents) => HEIGHT - BOTTOM - (cents / top) * (HEIGHT - TOP - BOTTOM);
  return { first, last, step, top, x, y, width };
}

const levels = ({ step, top }) => Array.from({ length: Math.round(top / step) + 1 }, (_, place) => place * step);

function grid(scale) {
  const { y, width } = scale;
  return levels(scale).map((cents) => drawn("line", { class: "grid", x1: 0, x2: width, y1: y(cents), y2: y(cents) }));
}

function amounts(scale) {
  const named = levels(scale).filter((cents) => cents > 0);
  return named.map((cents) => drawn("text", { x: 2, y: scale.y(cents) - 4 }, dollarsText(cents).replace(".00", "")));
}

function years({ first, last, x, width }) {
  const every = (last - first) / 12 > 45 || width < 420 ? 10 : 5;
  const from = Math.ceil(first / 12 / every) * every;
  const list = Array.from({ length: Math.floor((last / 12 - from) / every) + 1 }, (_, place) => from + place * every);
  const anchor = (at) => (at < 20 ? "start" : at > width - 20 ? "end" : "middle");
  return list.map((year) => drawn("text", { x: x(12 * year), y: HEIGHT - 8, "text-anchor": anchor(x(12 * year)) }, String(year)));
}

function curve(points, { x, y }) {
  const line = points.map((point, place) => `${place === 0 ? "M" : "L"}${x(point.month).toFixed(1)} ${y(point.cents).toFixed(1)}`).join("");
  const area = `${line}L${x(points.at(-1).month).toFixed(1)} ${y(0)}L${x(points[0].month).toFixed(1)} ${y(0)}Z`;
  return [drawn("path", { class: "area", d: area }), drawn("path", { class: "curve", d: line })];
}

function nowLine(now, { first, last, x, width }) {
  if (now < first || now > last) return [];
  const at = x(now);
  const is_right = at > width / 2;
  const text = drawn("text", { class: "now", x: is_right ? at - 4 : at + 4, y: 11, "text-anchor": is_right ? "end" : "start" }, TEXTS.now);
  return [drawn("line", { class: "now", x1: at, x2: at, y1: 4, y2: HEIGHT - BOTTOM }), text];
}

function dots(points, marked, { x, y }) {
  return points.filter((point) => marked.includes(point.month)).map((point) => drawn("circle", { cx: x(point.month), cy: y(point.cents), r: 4 }));
}

function drawing(points, { label, now, marked }, width) {
  const scale = scales(points, width);
  const parts = [...curve(points, scale), ...grid(scale), ...amounts(scale), ...years(scale), ...nowLine(now, scale), ...dots(points, marked, scale)];
  return drawn("svg", { role: "img", "aria-label": label, viewBox: `0 0 ${width} ${HEIGHT}`, width, height: HEIGHT }, ...parts);
}

// A value for every year, and the last one.
function yearly(points) {
  const first = points[0].month;
  return points.filter((point, place) => (point.month - first) % 12 === 0 || place === points.length - 1);
}

function valueTable(points, caption) {
  const rows = yearly(points).map((point) => [TEXTS.month(point.month), dollarsText(point.cents)]);
  const made = element("table", { class: "small" }, ...table(caption, [TEXTS.curve_month, TEXTS.curve_value], rows));
  return element("details", {}, element("summary", {}, TEXTS.curve_table), made);
}

/** Draws a curve into an element, and again as its width changes. `marked` months get a dot. */
export class Chart {
  constructor(holder) {
    this.holder = element("div", { class: "drawing" });
    this.values = element("div");
    holder.replaceChildren(this.holder, this.values);
    this.points = [];
    this.words = { label: "", now: undefined, marked: [] };
    new ResizeObserver(() => this.#draw()).observe(this.holder);
  }

  show(points, { label, caption, now, marked = [] }) {
    [this.points, this.words] = [points, { label, now, marked }];
    const was_open = this.values.querySelector("details")?.open === true;
    this.values.replaceChildren(...(points.length === 0 ? [] : [valueTable(points, caption)]));
    if (was_open) this.values.querySelector("details").open = true;
    this.#draw();
  }

  #draw() {
    const width = Math.floor(this.holder.clientWidth);
    if (width === 0 || this.points.length === 0) return;
    this.holder.replaceChildren(drawing(this.points, this.words, width));
  }
}
