// ---- Lists for a spreadsheet: each view's button writes what the shop has, all of it, as CSV. A spreadsheet reads numbers by
// its own language, so each browser has a choice of two forms. Codes and names stand as ="1/2", so that none is taken for a
// date or a number.

const CSV_FORMS = {
  point: {mark: ",", point: ".", words: tr`numbers like 1250.5`},
  comma: {mark: ";", point: ",", words: tr`numbers like 1250,5`}
};

const DEMAND_HEADS =
  ["order", "line", "demand", "material", "length mm", "width mm", "turn", "wanted", "reserved", "made", "left", "worth"];

// By view: the file's name, the heads, and what reads the rows. A cell is a word, a whole number, or a decimal as text in a
// list of its own.
const CSV_LISTS = {
  tocut: {
    name: "to-cut",
    what: tr`pieces wanted of this material`,
    heads: DEMAND_HEADS,
    read: () => readDemandCells(`/demands/0/${shop.material}`)
  },
  orders: {
    name: "orders",
    get what() { return isFinishedToo() ? tr`all lines of all orders` : tr`pieces wanted of all materials`; },
    heads: DEMAND_HEADS,
    read: () => isFinishedToo() ? readOrderCells() : readDemandCells("/demands/0")
  },
  saw: {
    name: "waiting",
    what: tr`waiting jobs`,
    heads: ["job", "material", "part", "length mm", "width mm", "cuts"],
    read: readJobCells
  },
  stock: {
    name: "stock",
    what: tr`all that stands or is reserved`,
    heads: ["part", "kind", "material", "batch", "length mm", "width mm", "state", "job", "cut from unit"],
    read: readPartCells
  },
  yield: {
    name: "yield",
    what: tr`yield of all materials`,
    heads: [
      "material", "kind", "measured in", "received", "returned", "whole units", "remnants", "pieces", "kerf", "scrap",
      "used up", "pieces of used up %", "pieces of all %"
    ],
    read: readYieldCells
  }
};
function codeCell(text) { return `="${text}"`; }

function mmCell(tenths) { return [plainDecimal(tenths, 1)]; }

async function readDemandCells(start) {
  const [rows] = await readPages(start, Infinity);
  return rows.map(demandCells);
}

function demandCells(row) {
  return [
    codeCell(row.order), row.line, row.demand, codeCell(row.material), mmCell(row.w), mmCell(row.h),
    word(row.turn ? "yes" : "no"), row.wanted, row.reserved, row.made, leftOf(row), row.worth
  ];
}

async function readOrderCells() {
  const cells = [], [orders] = await readPages("/orders", Infinity);
  for (const {order} of orders) cells.push(...(await askCalmly(`/order/${order}`)).lines.map(demandCells));
  return cells;
}

async function readJobCells() {
  const [rows] = await readPages("/jobs/0", Infinity);
  return rows.map(
    row => [row.job, codeCell(row.material), codeCell(row.part), mmCell(row.w), mmCell(row.h), row.cuts]);
}

async function readPartCells() {
  const cells = [];
  for (const {material} of shop.materials) {
    const [parts] = await readPages(`/parts/${material}`, Infinity);
    cells.push(...parts.map(row => [
      codeCell(row.part), word(isRemnant(row) ? "remnant" : "unit"), codeCell(material), codeCell(row.batch), mmCell(row.w),
      mmCell(row.h), word(row.state), row.state === "reserved" ? row.of : "", codeCell(row.root)
    ]));
  }
  return cells;
}

// Metres and square metres to the last cell.
async function readYieldCells() {
  const cells = [];
  for (const {material, kind} of shop.materials) {
    const row = await askCalmly(`/totals/${material}`), used = usedOf(row), digits = kind === "bar" ? 4 : 8;
    const share = whole => whole ? [percentOf(row.pieces, whole)] : "";
    const heaps = [row.received, row.returned, row.stock, row.rack, row.pieces, row.kerf, row.scrap, used];
    cells.push([
      codeCell(material), word(kind), kind === "bar" ? "m" : "m²", ...heaps.map(heap => [plainDecimal(heap, digits)]),
      share(used), share(heldOf(row))
    ]);
  }
  return cells;
}

function csvText(rows, {mark, point}) {
  const textOf = cell => Array.isArray(cell) ? cell[0].replace(".", point) : String(cell);
  const inQuotes = text => /["\r\n]/.test(text) || text.includes(mark) ? `"${text.replaceAll('"', '""')}"` : text;
  return `\uFEFF${rows.map(row => row.map(cell => inQuotes(textOf(cell))).join(mark)).join("\r\n")}\r\n`;
}

// The form that was chosen in this browser, or that of its language.
function csvForm() {
  const isComma = new Intl.NumberFormat(navigator.language).format(1.5).includes(",");
  const name = storage.read("cutshop.csv", isComma ? "comma" : "point");
  return Object.hasOwn(CSV_FORMS, name) ? name : "point";
}

function showCsvButtons() {
  for (const holder of document.querySelectorAll("[data-csv]"))
    fill(holder, () => csvButtons(holder.dataset.csv));
}

function csvButtons(view) {
  const {what} = CSV_LISTS[view], now = csvForm();
  const options =
    Object.entries(CSV_FORMS).map(([name, {words}]) => el("option", {value: name, text: words, selected: name === now}));
  const button = {
    class: "small",
    text: "CSV",
    "data-key": "csv",
    title: what,
    "aria-label": tr`CSV file: ${what}`,
    on: {click: () => saveCsv(view)}
  };
  const choice = {
    "data-key": "csv form",
    "aria-label": tr`Numbers in CSV files`,
    on: {change: event => chooseCsvForm(event.target.value)}
  };
  return [el("button", button), el("select", choice, ...options)];
}

function chooseCsvForm(name) {
  try {
    storage.write("cutshop.csv", name);
  } catch { tell(tr`This browser can't keep the choice of numbers.`, "refused"); }
  showCsvButtons();
}

async function saveCsv(view) {
  const {name, heads, read} = CSV_LISTS[view], file = `${word(name)}-${new Date().toLocaleDateString("sv-SE")}.csv`;
  say(tr`${file} is being read`);
  try {
    await lookAtShop();
    const rows = await read();
    saveFile(file, csvText([heads.map(word), ...rows], CSV_FORMS[csvForm()]));
    tell(`${file}: ${count(rows.length, "row")}`, "good");
  } catch (error) { tell(`${file}: ${await faultWords(error)}`, "refused"); }
}

function saveFile(name, text) {
  const link = el("a", {href: URL.createObjectURL(new Blob([text], {type: "text/csv"})), download: name});
  link.click();
  setTimeout(() => URL.revokeObjectURL(link.href), MINUTE);
}
