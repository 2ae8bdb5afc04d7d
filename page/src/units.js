// ---- Units and words. JSON counts tenths of a millimetre; people read and type millimetres.

const MAX_LINES = 200, MAX_TEXT = 65536, MAX_NUMBER = 4294967295, MAX_WANTED = 1000000;
const PART_NAME = /^[1-9]\d*\/(0|[1-9]\d*)$/;

// Under so many pixels of width all stands in one column.
const NARROW = 1000;

const $ = id => document.getElementById(id);

function mm(tenths) { return `${Math.floor(tenths / 10)}${POINT}${tenths % 10}`; }

function sizeText(kind, w, h) { return kind === "bar" ? `${mm(w)}\u00a0mm` : `${mm(w)}\u00a0×\u00a0${mm(h)}\u00a0mm`; }

// Tenths that a typed length says, or null. A decimal comma is taken for a point.
function readMm(text) {
  const found = /^(\d{1,6})(?:[.,](\d))?$/.exec(text.trim());
  return found ? Number(found[1]) * 10 + Number(found[2] || 0) : null;
}

function readWhole(text, low, high) {
  const value = /^\d{1,10}$/.test(text.trim()) ? Number(text) : NaN;
  return value >= low && value <= high ? value : null;
}

function grouped(number) { return String(number).replace(/\B(?=(\d{3})+(?!\d))/g, "\u202f"); }

// Cells as a length of bars or an area of sheets.
function cellsText(kind, cells) { return kind === "bar" ? metresText(cells) : areaText(cells); }

// Tenths of a millimetre, exactly: in mm, or from a metre on in m.
function metresText(tenths) {
  return tenths < 10000 ? `${mm(tenths)}\u00a0mm` : `${decimal(...exactMetres(tenths))}\u00a0m`;
}

// Hundredths of a square millimetre: exactly in mm², or from a hundredth of a square metre on rounded in m².
function areaText(cells) {
  if (cells < 1e6) return `${decimal(cells, 2)}\u00a0mm²`;
  const digits = cells < 1e7 ? 5 : cells < 1e8 ? 4 : 3;
  return `${decimal(Math.round(cells / 10 ** (8 - digits)), digits)}\u00a0m²`;
}

// A whole number with its last digits behind a point.
function plainDecimal(number, digits) {
  const per = 10 ** digits;
  return `${Math.floor(number / per)}.${String(number % per).padStart(digits, "0")}`;
}

function decimal(number, digits) {
  const [whole, rest] = plainDecimal(number, digits).split(".");
  return `${grouped(whole)}${POINT}${rest}`;
}

function percent(part, whole) { return `${percentOf(part, whole).replace(".", POINT)}\u00a0%`; }

function percentOf(part, whole) { return whole ? (Math.floor(part * 1000 / whole) / 10).toFixed(1) : "0.0"; }

// A day and a time, in German as TT.MM.JJJJ.
function timeText(time) {
  return new Date(time).toLocaleString(isGerman ? "de-DE" : navigator.language, {dateStyle: "medium", timeStyle: "short"});
}

// A day as the shop counts it, 20261203, as a text; and as a field of a form has it.
function dayOf(due) {
  const day = new Date(0);
  day.setUTCFullYear(Math.floor(due / 10000), Math.floor(due / 100) % 100 - 1, due % 100);
  return day.toLocaleDateString(isGerman ? "de-DE" : navigator.language, {timeZone: "UTC", day: "2-digit", month: isGerman ? "2-digit" : "short", year: "numeric"});
}

function dayField(due) { return due ? String(due).replace(/(....)(..)(..)/, "$1-$2-$3") : ""; }

function readDay(text) { return Number(text.replaceAll("-", "")) || 0; }

// The earliest day first, what has none last.
function byDay(a, b) { return (a.due || Infinity) - (b.due || Infinity) || 0; }

function count(number, one, many = one + "s") { return `${grouped(number)} ${word(number === 1 ? one : many)}`; }

// An order, as a column's head. (The button that orders has the same word in English.)
const ORDER = tr`Order${""}`;

// What people call demands.
const KINDS = ["kind of pieces", "kinds of pieces"], OTHER_KINDS = ["other kind of pieces", "other kinds of pieces"];

const NO_MATERIAL = tr`The shop has no material yet: write it into the shop file, and start the program again.`;

// What is wrong with a text that a person wrote, or nothing; it stands behind the field's name.
function lengthFault(text, high) {
  if (!/^\d+([.,]\d)?$/.test(text)) return tr`${quoted(text)}: write millimetres with at most one decimal, like 1250.5`;
  const value = readMm(text);
  return value >= 1 && value <= high ? "" : tr`${shortened(text)} mm: write 0.1 to ${mm(high)} mm`;
}

function wholeFault(text, high) {
  const isGood = /^\d+$/.test(text) && readWhole(text, 1, high) !== null;
  return isGood ? "" : tr`${quoted(text)}: write a whole number from 1 to ${grouped(high)}`;
}

function codeFault(code) {
  const other = /[^A-Z0-9-]/u.exec(code);
  if (other) return tr`“${shortened(code)}” has “${other[0]}”: write A–Z, 0–9 and - alone`;
  if (code.length > 16) return tr`“${shortened(code)}” has ${code.length} characters: write at most 16`;
  return code ? "" : tr`is empty: write 1 to 16 of A–Z, 0–9 and -`;
}

// Where a list of a material's rows would stand: that there is no material, or that it isn't read yet.
function noMaterial() { return shop.isKnown && !shop.materials.length ? NO_MATERIAL : "…"; }

function quoted(text) { return text ? tr`“${shortened(text)}”` : tr`is empty`; }

// A text that may be long, as it is told.
function shortened(text) { return text?.length > 60 ? `${text.slice(0, 59)}…` : text; }
