// ---- Orders from files: from a table to the lines of orders, and to the messages that order them.

// A file of so many bytes is no order, in whatever form: it isn't read. So many lines are ordered by one file.
const MAX_FILE = 4 * MAX_TEXT, MAX_FILE_LINES = 10 * MAX_LINES;

// What a file may leave out, and what is taken where it does. The rest of the fields have to be in it.
const TAKEN = {
  line: () => [["", tr`none: 1, 2, 3, ..`]],
  material: () => shop.materials.map(row => [row.material, tr`none: all is ${row.material}`]),
  width: () => [["", tr`none: bars alone`]],
  turn: () => [["no", tr`none: no`], ["yes", tr`none: yes`]],
  count: () => [["1", tr`none: 1 each`]],
  worth: () => [["", tr`none: its size`]],
};

// The columns of a file, with what is taken for a field that it doesn't have; null where it has to be chosen. Of several
// materials one is chosen.
function takenFor(columns) {
  const taken = name => name === "material" && shop.materials.length > 1 ? null : TAKEN[name]?.()[0]?.[0] ?? null;
  return Object.fromEntries(FIELDS.map(name => [name, columns[name] >= 0 ? columns[name] : taken(name)]));
}

// Whether a file's heads are those of the shop's own form, whose lengths are millimetres.
function isAsWritten(heads) { return isSame(heads.map(({text}) => text.toLowerCase()), FIELDS); }

// An order file: its rows with their faults, those that are left out, what has to be asked, and the text of each order, as the
// shop reads it. `chosen` is what a person chose: the columns (each a number, or a text that all rows have), whether the first
// row is a line, whether 1.200 is a thousand, the unit of what has none, whether what is finer than a tenth is rounded, which
// material a text means, the cells that were mended (by row and field), and the rows to leave out. A file that is good as it
// stands is sent so, and the same import by another way stays the same; else the texts are made of the rows that are shown. Of
// a file that no order can be, that is told at once.
function readOrderFile(text, chosen = {}) {
  if (text.length > MAX_FILE) return {fault: longWords(MAX_FILE), isTooLarge: true};
  const table = readTable(text, chosen.headless), {heads, wide} = table;
  if (wide > MAX_COLUMNS) return {fault: manyColumnsWords(wide), isTooLarge: true};
  if (table.rows.length > MAX_FILE_LINES) return {fault: manyRowsWords(table.rows.length), isTooLarge: true};
  const how = howOf(table, chosen), {lines, left, sums} = sortRows(how, chosen.without || []);
  const areNumbered = !doRise(lines.map(({cells}) => cells[0]));
  const rows = lines.map((line, i) => readRow(line, areNumbered ? (i % MAX_LINES) + 1 : 0, how));
  const orders = ordersOf(rows), isWhole = table.isPlain && orders.length === 1 && isTextWhole(text, how, rows);
  const file = {
    ...how,
    rows,
    left,
    sums,
    unit: chosen.unit || "",
    unitless: isAsWritten(heads) ? [] : sidesWithoutUnit(rows, how),
    unclear: rows.flatMap(row => row.unclear),
    fine: rows.flatMap(row => row.fine),
    isRounded: Boolean(chosen.isRounded),
    foreign: foreignOf(rows, how.materials),
    bad: rows.filter(row => Object.keys(row.faults).length),
    texts: isWhole ? [text] : orders.map(textOfLines),
    isTurned: !isWhole,
    said: saidByFile(how, lines)
  };
  return {...file, fault: fileFault(file)};
}

// What a file says of its order: its customers as the text, the earliest of its days, and what its titles offer as a text.
function saidByFile({heads, titles}, lines) {
  const cells = name => {
    const at = heads.findIndex(head => meaningOf(head.name) === name);
    return at < 0 ? [] : [...new Set(lines.map(({fields}) => plainCell(fields[at] ?? "")).filter(Boolean))];
  };
  const days = cells("due").map(readAnyDay).filter(Boolean), offered = titles.map(({fields}) => fields.map(plainCell).filter(Boolean).join(" · "));
  return {due: days.length ? Math.min(...days) : 0, text: shortSaid(cells("customer").join(", ")), offered: offered.map(shortSaid)};
}

// A text with at most as many bytes as an order's may have.
function shortSaid(text) {
  const bare = text.replace(/[\u0000-\u001f\u007f-\u009f]+/g, " ").trim();
  let end = Math.min(bare.length, MAX_SAID);
  while (bytesOf(bare.slice(0, end)) > MAX_SAID) end--;
  return bare.slice(0, end);
}

// A table with what is known of how it is read: the columns, whether 1.200 is a thousand, the units of the sides (two sides of
// one cell have one unit), what materials mean, and the mended cells.
function howOf(table, {columns: given, thousands = null, unit = "", materials = {}, mended = {}}) {
  const {heads} = table, columns = {...takenFor(columnsOf(heads)), ...given};
  const at = name => typeof columns[name] === "number" ? columns[name] : columns.length;
  const units = Object.fromEntries(SIDES.map(name => [name, heads[at(name)]?.unit || unit]));
  return {...table, columns, thousands, units, materials, mended};
}

// Whether a text is already what the shop reads.
function isTextWhole(text, {headless, columns, rows: all}, rows) {
  return !headless && FIELDS.every((name, i) => columns[name] === i) && isShort(text) && rows.length === all.length &&
    rows.every(({fields, texts}) => isSame(fields, texts));
}

// A table's rows: those that are lines, with their cells by field, and those that are left out, with why. Sums are held against
// the pieces above them, of the whole table or since the sum before.
function sortRows(how, without) {
  const {heads, titles, rows, columns} = how, left = titles.map(row => ({...row, why: "title"})), lines = [], sums = [];
  let all = 0, part = 0;
  for (const row of rows) {
    const cells = cellsOf(row, how), why = without.includes(row.at) ? "by hand" : whyLeft(row, cells, how);
    const said = cells[5] ?? (why ? "" : columns.count ?? "");
    const number = readWhole(readCount(plainCell(said)), 1, MAX_NUMBER) || 0;
    if (!why) {
      lines.push({...row, cells});
      all += number;
      part += number;
      continue;
    }
    left.push({...row, why});
    if (why !== "sum") continue;
    if (number && number !== all && number !== part) sums.push({at: row.at, said: number, has: part || all});
    part = 0;
  }
  return {lines, left, sums};
}

// The cells of a row by field, as they were mended; null where the file has no column. A cell with two sides has both, unless another
// width stands beside it.
function cellsOf({at, fields}, {columns, mended}) {
  const own = mended[at] || {}, isBoth = columns.width === columns.length;
  const cells = FIELDS.map(name => own[name] ?? (typeof columns[name] === "number" ? fields[columns[name]] ?? "" : null));
  const sides = cells[2] === null ? null : sidesOfCell(plainCell(cells[2])), number = text => Number(text.replace(",", "."));
  const beside = isBoth || own.width !== undefined ? "" : cells[3]?.trim();
  if (sides && (!beside || number(beside) === number(sides[1]))) [cells[2], cells[3]] = [sides[0], own.width ?? sides[1]];
  else if (isBoth) cells[3] = own.width ?? "";
  return cells;
}

// Why a row is no line: it has the heads again, or it is a sum, as a word says or a count alone.
function whyLeft({fields}, cells, {heads}) {
  const [, material, length, width] = cells.map(cell => cell?.trim() || ""), full = fields.map(field => field.trim());
  const isAsHeads = () => full.every((field, i) => !field || field === heads[i]?.text) || isHeads(fields) || isSubHeads(fields);
  if (heads.length && !/\d/.test(length) && isAsHeads()) return "heads";
  const isUnnamed = !material || (SUM.test(material) && !length);
  const isSum = SUM.test(full.find(Boolean)) ? isUnnamed && !width : !length && full.some(field => SUM.test(field));
  return isSum || cells.every((cell, i) => Boolean(cell?.trim()) === (i === 5)) ? "sum" : "";
}

// Whether texts are whole numbers that rise, as the numbers of lines have to.
function doRise(texts) {
  let before = 0;
  return texts.every(text => {
    const number = readWhole(plainCell(text ?? ""), before + 1, MAX_NUMBER);
    before = number;
    return number !== null;
  });
}

// A row: the cells that it has, the seven texts of its line, what is wrong with them by field, and which lengths are unclear or
// finer than a tenth. A line has the number that is given, or else its own.
function readRow({at, fields, cells}, number, how) {
  const {mark, wide, columns, thousands, units} = how, plain = cells.map(cell => cell === null ? null : plainCell(cell));
  const read = FIELDS.map((name, i) => plain[i] === null ? {text: columns[name] ?? ""} : readField(name, plain[i], how));
  if (number) read[0] = {text: String(number)};
  const isWide = fields.slice(wide).some(field => field.trim()), bare = read.map(({text}) => text);
  const texts = isWide ? bare : fillLine(bare, 0);
  const faults = isWide ? {"the row": wideWords(fields, mark, wide)} : lineFaults(texts, 0);
  const unclear = [2, 3].filter(i => plain[i] !== null && isUnclear(plain[i], mark, units[FIELDS[i]]));
  // (these are asked above the rows)
  if (thousands === null) for (const i of unclear) delete faults[FIELDS[i]];
  if (!materialOf(texts[1])) delete faults.material;
  if (!materialOf(texts[1]) && !texts[3]) delete faults.width;
  const asked = i => ({at, text: plain[i], turned: texts[i], unit: splitUnit(plain[i])[1] || units[FIELDS[i]] || "mm"});
  const fine = [2, 3].filter(i => read[i].isFine && !faults[FIELDS[i]]);
  return {at, fields, cells, texts, faults, unclear: unclear.map(asked), fine: fine.map(asked)};
}

// What the shop reads for a cell of a field.
function readField(name, text, how) {
  if (SIDES.includes(name)) return readLength(text, how.units[name], how);
  if (name === "count") return {text: readCount(text)};
  if (name === "turn") return {text: readTurn(text)};
  if (name !== "material") return {text};
  const key = materialKey(text), code = how.materials[key];
  return {text: materialOf(key) ? key : materialOf(code) ? code : text};
}

// By what a file's material is known.
function materialKey(text) { return text.toUpperCase(); }

// The texts of materials that are no codes of the shop's, each once, with the row that has it first, how many rows have it, and
// the material that it means, if that is known.
function foreignOf(rows, materials) {
  const found = new Map();
  for (const {at, cells: [, cell]} of rows) {
    if (cell === null || materialOf(materialKey(plainCell(cell)))) continue;
    const text = plainCell(cell), key = materialKey(text), code = materialOf(materials[key]) ? materials[key] : "";
    const known = found.get(key) || {key, text, at, code, rows: 0};
    found.set(key, {...known, rows: known.rows + 1});
  }
  return [...found.values()];
}

// The lengths that have no unit, neither by their head nor by themselves, where all of them are under 100: what they are has to
// be asked. (A bar's width of 0.1 is none.)
function sidesWithoutUnit(rows, {heads, columns, mark, thousands}) {
  const bare = SIDES.filter(name => typeof columns[name] === "number" && !heads[columns[name]]?.unit);
  const texts = rows.flatMap(({cells}) => bare.map(name => plainCell(cells[FIELDS.indexOf(name)])));
  const numbers = texts.filter(text => !splitUnit(text)[1] && digitsOf(text, false) && !/^0[.,]10*$/.test(text));
  const isSmall = text => /^0*\d{1,2}$/.test(digitsOf(text, false)[0]) && (thousands === false || !isUnclear(text, mark, ""));
  return numbers.every(isSmall) ? numbers : [];
}

// The rows of each order: the fewest orders that have at most as many lines as one may have. (A line that is good has at most
// 66 bytes, so that the text of an order is short enough.)
function ordersOf(rows) {
  return Array.from({length: Math.ceil(rows.length / MAX_LINES)}, (_, i) => rows.slice(i * MAX_LINES, (i + 1) * MAX_LINES));
}

function textOfLines(rows) { return [FIELDS, ...rows.map(({texts}) => texts)].map(texts => texts.join(",")).join("\n") + "\n"; }

// The codes of so many orders of one file.
function codesOf(code, orders) {
  return orders > 1 ? Array.from({length: orders}, (_, i) => `${code}-${i + 1}`) : [code];
}

// The messages that order a file.
function importsOf({texts}, code) {
  return codesOf(code, texts.length).map((order, i) => ({do: "import", form: "csv", order, text: texts[i]}));
}

// The code that a file's name has for so many orders: KUECHE-12 of “Küche 12.csv”.
function codeOfName(name, orders = 1) {
  const plain = name.replace(/\.[^.]*$/, "").toUpperCase().normalize("NFC").replace(/[ÄÖÜ]/g, letter => SPELLED[letter]);
  const bare = plain.normalize("NFD").replace(/\p{M}/gu, "").replace(/[^A-Z0-9]+/g, "-").replace(/^-/, "");
  return bare.slice(0, orders > 1 ? 15 - String(orders).length : 16).replace(/-$/, "");
}

const SPELLED = {Ä: "AE", Ö: "OE", Ü: "UE"};

function wideWords(fields, mark, wide) {
  const between = word({",": "comma", ";": "semicolon", "\t": "tab"}[mark] || mark);
  const point = mark === "," ? tr`, and a point before a tenth` : "";
  return tr`has ${fields.length} fields and the first row ${wide}: write a ${between} between each two${point}`;
}

// Whether a text is short enough for the shop, also as a message, where a line's end takes two bytes.
function isShort(text) {
  return new TextEncoder().encode(text).length <= MAX_TEXT && JSON.stringify(text).length < 2 * MAX_TEXT - 200;
}

function longWords(bytes) { return tr`The file is over ${bytes} bytes long.`; }

function manyColumnsWords(columns) { return tr`The file has ${grouped(columns)} columns; at most ${MAX_COLUMNS} are read.`; }

function manyRowsWords(rows) {
  return tr`The file has ${grouped(rows)} rows; at most ${grouped(MAX_FILE_LINES)} are ordered at once.`;
}

// Why a file can't be ordered, but for its bad rows: what has to be chosen or answered.
function fileFault({rows, columns, unitless, unit, unclear, thousands, foreign, fine, isRounded}) {
  if (!rows.length) return tr`The file has no row below its first.`;
  const [missing] = ["length", "material"].filter(name => columns[name] === null || columns[name] === "");
  if (missing) return tr`No column's head says which is the ${fieldWords(missing)}: choose it.`;
  if (unitless.length && !unit) return tr`Say in which unit the lengths are.`;
  if (unclear.length && thousands === null) return tr`Say what “${unclear[0].text}” is.`;
  if (foreign.some(({code}) => !code)) return tr`Say which materials these are.`;
  return fine.length && !isRounded ? tr`Say that lengths are rounded to tenths of a millimetre.` : "";
}
