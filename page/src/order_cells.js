// ---- What heads and cells of an order's table say.

// The heads, in small letters, by which a column is known; height is a sheet's second side, or its first beside a width.
const HEADS = {
  line: ["line", "pos", "position", "zeile", "nr", "no", "item", "posten", "lfd nr", "lfdnr"],
  material: ["material", "werkstoff", "code", "materialcode", "sorte"],
  length: ["length", "länge", "laenge", "long", "lang", "l"],
  width: ["width", "breite", "breit", "b", "w"],
  size: [
    "size", "dimension", "dimensions", "maß", "maße", "mass", "masse", "abmessung", "abmessungen", "format", "größe", "groesse",
    "länge x breite", "breite x höhe", "l x b", "lxb", "b x h", "bxh", "length x width", "width x height", "l x w", "lxw",
    "w x h", "wxh"
  ],
  turn: ["turn", "turns", "drehen", "drehbar", "rotate", "rotation", "may turn"],
  count: [
    "count", "qty", "quantity", "anzahl", "anz", "stückzahl", "stück", "stueck", "stk", "menge", "pieces", "pcs", "wanted"
  ],
  worth: ["worth"],
  height: ["height", "höhe", "hoehe", "h"],
  customer: ["customer", "client", "kunde", "kundin", "kundenname", "auftraggeber", "kommission"],
  due: [
    "due", "due date", "date", "deadline", "delivery", "datum", "termin", "liefertermin", "lieferdatum", "fällig", "fällig am", "faellig"
  ]
};

// A unit as a head names it: (cm), [m], in mm. (m. is a shortened word, m² no length.)
const UNIT_IN_HEAD = /(?<![a-zäöüß])(?:in\s+)?(mm|cm|m)(?![a-zäöüß0-9²³.])/g;

// A head with money in it is no column of an order, whatever else it says (“Stück Preis”).
const MONEY =
  /preis|price|cost|kosten|betrag|amount|wert|value|[€$£]|(?<![a-zäöüß])(?:eur|euro|usd|chf|gbp|sum|summe)(?![a-zäöüß])/;

// So long is no head, and no number.
const MAX_CELL = 60;

function headLetters(text) { return text.length > 4 * MAX_CELL ? "" : text.toLowerCase().normalize("NFC"); }

// A head as it is looked up: without a unit, what stands in brackets, and signs.
function plainHead(text) {
  return headLetters(text)
    .replace(/[([][^()[\]]*[)\]]/g, " ")
    .replace(UNIT_IN_HEAD, " ")
    .replace(/[×*]/g, " x ")
    .replace(/[^a-zäöüß]+/g, " ")
    .trim();
}

// The unit that a head names, or none, also where it names several.
function unitOfHead(head) {
  const units = new Set([...headLetters(head).matchAll(UNIT_IN_HEAD)].map(([, unit]) => unit));
  return units.size === 1 ? [...units][0] : "";
}

// What a head means, known as a whole, or nothing.
function wholeMeaningOf(head) {
  const plain = MONEY.test(headLetters(head)) ? "" : plainHead(head);
  return Object.keys(HEADS).find(name => HEADS[name].includes(plain));
}

// What a head means, known as a whole or else by its first word, or nothing.
function meaningOf(head) {
  if (MONEY.test(headLetters(head))) return undefined;
  return wholeMeaningOf(head) || wholeMeaningOf(plainHead(head).split(" ")[0]);
}

// Which column is which field, as the heads say: the first that is known as a whole, else the first. A column of sizes is both
// sides.
function columnsOf(heads) {
  const names = heads.map(({name}) => name), whole = names.map(wholeMeaningOf), meanings = names.map(meaningOf);
  const at = name => whole.includes(name) ? whole.indexOf(name) : meanings.indexOf(name);
  const columns = Object.fromEntries(FIELDS.map(name => [name, at(name)]));
  const isHigh = columns.length < 0 && columns.width >= 0 && at("height") >= 0;
  if (isHigh) columns.length = columns.width;
  if (isHigh || columns.width < 0) columns.width = at("height");
  if (columns.length < 0) columns.length = at("size");
  if (columns.width < 0 && columns.length === at("size")) columns.width = at("size");
  return columns;
}

// A cell's text without spaces around it, and without the form that keeps a spreadsheet from taking a code for a date.
function plainCell(text) { return text.trim().replace(/^="(.*)"$/, "$1"); }

// A cell's text without the unit at its end, and that unit.
function splitUnit(text) {
  const [unit] = /(?:mm|cm|m)$/i.exec(text) || [""];
  return [text.slice(0, text.length - unit.length).trimEnd(), unit.toLowerCase()];
}

// By how many places a number of a unit is moved to be one of millimetres.
const PLACES = {mm: 0, cm: 1, m: 3};

// A number's digits before and behind its point, or none: of 1.200,5, 1,200.5 and 1 200,5 these are 1200 and 5. Whether 1.200
// is a thousand is told.
function digitsOf(text, isThousand) {
  const plain = text.length > MAX_CELL ? "" : text.replace(/(?<=\d)[ \u00a0\u202f'’](?=\d{3}(?!\d))/g, "");
  const isPointed = /^\d{1,3}(?:\.\d{3})+,\d+$/.test(plain), isGrouped = /^\d{1,3}(?:,\d{3})+\.\d+$/.test(plain);
  const bare = isPointed || isThousand ? plain.replaceAll(".", "") : plain;
  const found = /^(\d+)(?:[.,](\d+))?$/.exec(isGrouped || isThousand ? bare.replaceAll(",", "") : bare);
  return found && [found[1], found[2] || ""];
}

// A number's digits in a unit as millimetres, by the digits alone: to the tenth where no other follows, and else rounded.
function inMm([whole, behind], places) {
  const digits = behind.padEnd(places, "0"), rest = digits.slice(places);
  const before = places ? `${whole}${digits.slice(0, places)}`.replace(/^0+(?=\d)/, "") : whole;
  if (/^\d?0*$/.test(rest)) return {text: rest || places ? `${before}.${rest[0] || "0"}` : before};
  const tenths = BigInt(before + rest[0]) + (rest[1] >= "5" ? 1n : 0n);
  return {text: `${tenths / 10n}.${tenths % 10n}`, isFine: true};
}

// Whether a length may be a thousand or a decimal: 1.200, and 1,200 but where semicolons part the fields. A thousand metres are
// none.
function isUnclear(text, mark, unit) {
  const [plain, own] = splitUnit(text);
  return (own || unit) !== "m" && (mark === ";" ? /^\d{1,3}\.\d{3}$/ : /^\d{1,3}[.,]\d{3}$/).test(plain);
}

// A length of a spreadsheet as the shop reads it, in millimetres, and whether that is rounded. The cell's own unit goes before
// its column's. What may be a thousand or a decimal is as it was answered, and else stays; so does what is no number.
function readLength(text, unit, {mark, thousands}) {
  const [plain, own] = splitUnit(text), unclear = isUnclear(text, mark, unit), digits = digitsOf(plain, unclear && thousands);
  if (!digits || (unclear && thousands === null)) return {text: digits ? plain : text};
  return inMm(digits, PLACES[own || unit] || 0);
}

// The two sides that a cell has (797 x 597, 79,7 × 59,7 cm), or none.
function sidesOfCell(text) {
  const sides = text.length > MAX_CELL ? [] : text.split(/\s*[x×*]\s*/i), [, unit] = splitUnit(text);
  if (sides.length !== 2 || !sides.every(side => /^\d[\d.,' \u00a0\u202f]*(?:mm|cm|m)?$/i.test(side))) return null;
  return [splitUnit(sides[0])[1] || !unit ? sides[0] : `${sides[0]} ${unit}`, sides[1]];
}

// A count as the shop reads it: 3,0 and 3 Stk say 3.
function readCount(text) {
  return text.replace(/^(\d+)(?:[.,]0{1,2})?\s*(?:stk|stück|stueck|st|pcs|pc|pieces?|x)?\.?$/i, "$1");
}

// A day as a spreadsheet writes it, 3.12.2026, 3.12.26, 2026-12-03 or 12/31/2026, as the shop counts it; or 0. Of 3/4/2026 nobody knows
// which is the month.
function readAnyDay(text) {
  const [, year, month, day] = /^(\d{4})[-/.](\d{1,2})[-/.](\d{1,2})(?:[T ].*)?$/.exec(text) || [];
  if (year) return dayNumber(year, month, day);
  const [, first, mark, second, last] = /^(\d{1,2})([-/.])\s?(\d{1,2})[-/.]\s?(\d{4}|\d{2})$/.exec(text) || [];
  if (!first || (mark !== "." && first <= 12 && second <= 12 && first !== second)) return 0;
  const isMonthFirst = mark !== "." && second > 12, long = last.length < 4 ? `20${last}` : last;
  return isMonthFirst ? dayNumber(long, first, second) : dayNumber(long, second, first);
}

function dayNumber(year, month, day) {
  const date = new Date(Date.UTC(year, month - 1, day)), isDay = date.getUTCMonth() === month - 1 && year >= 1970;
  return isDay ? Number(year) * 10000 + Number(month) * 100 + Number(day) : 0;
}

const TURNS = new Map([
  ["ja", "yes"], ["j", "yes"], ["y", "yes"], ["x", "yes"], ["nein", "no"], ["n", "no"], ["-", "no"], ["", "no"]
]);

function readTurn(text) { return TURNS.get(text.toLowerCase()) ?? text.toLowerCase(); }

// A row whose first cell begins so is a sum.
const SUM =
  /^(?:(?:gesamt|zwischen|end)?summe|(?:ins)?gesamt(?:(?:an|stück)?zahl|menge)?|(?:sub|grand )?total|sum)(?![a-zäöüß])/i;
