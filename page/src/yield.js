// ---- Yield.

const owner = {
  report: null
};
const HEAPS = [
  ["pieces", "piece", tr`pieces`], ["rack", "kept", tr`rack: remnants`], ["stock", "unit", tr`stock: whole units`],
  ["kerf", "kerf", tr`kerf`], ["scrap", "scrap", tr`scrap`]
];

// The first materials, and the one that is chosen.
function yieldMaterials() { return shop.materials.filter((row, i) => i < 12 || row.material === shop.material); }

async function readTotals() {
  for (const {material} of yieldMaterials()) await askCalmly(`/totals/${material}`);
}

function showYield() {
  const rows = yieldMaterials().map(row => ({...row, ...toldOf(`/totals/${row.material}`)})).filter(row => row.ok);
  fill($("yieldBars"),
    () => [el("h2", {text: tr`Where the material is`}), rows.length ? null : quiet(noMaterial()), ...rows.map(yieldRow),
      ...(rows.length ? [yieldHint(), yieldTable(rows)] : []),
      rows.length && shop.materials.length > rows.length
        ? quiet(tr`Shown are ${rows.length} of ${
            shop.materials.length} materials, among them the one that is chosen under Stock.`)
        : null]);
  fill($("report"),
    () => owner.report ? reportRows(owner.report) : quiet(tr`Choose a material's report to read and print it.`));
  showBackups();
}

// All that came, but for what a supplier got back.
function heldOf(row) { return row.received - (row.returned || 0); }

// A heap of a material, by one unit for all of its heaps: m or m², and of less than a metre or a hundredth of a square metre in
// all mm or mm². Lengths are exact, square metres are rounded.
function heapText({kind, received}, cells) {
  if (kind === "bar") return received < 10000 ? `${mm(cells)}\u00a0mm` : `${decimal(...exactMetres(cells))}\u00a0m`;
  if (received < 1e6) return `${decimal(cells, 2)}\u00a0mm²`;
  return cells && cells < 1e4 ? tr`under 0.0001\u00a0m²` : `${decimal(Math.round(cells / 1e4), 4)}\u00a0m²`;
}

function exactMetres(tenths) { return tenths % 10 ? [tenths, 4] : [tenths / 10, 3]; }

// What is neither a whole unit nor a remnant any more.
function usedOf(row) { return row.pieces + row.kerf + row.scrap; }

const USED = ["pieces", "kerf", "scrap"];

function yieldRow(row) {
  const used = usedOf(row), held = heldOf(row);
  return el("div", {class: "yieldrow"},
    el("div", {class: "buttons"}, el("h3", {text: row.material}), el("button", {
      class: "small",
      text: tr`Report`,
      "data-key": `y${row.material}`,
      "aria-label": tr`Report of ${row.material}`,
      on: {click: () => openReport(row.material)}
    })),
    ...row.received ? [
      el("div", {class: "figures"}, figure(used ? percent(row.pieces, used) : "–", tr`of what was used up is in pieces`),
        figure(held ? percent(row.pieces, held) : "–", tr`of all is in pieces`)),
      ...sharesOf(row, tr`Used up: ${heapText(row, used)}`, HEAPS.filter(([heap]) => USED.includes(heap)), used),
      ...sharesOf(row, tr`All: ${heapText(row, held)}`, HEAPS, held)
    ] : [quiet(tr`Nothing yet.`)]);
}

// A picture of heaps of a material, and what each of them is of the whole.
function sharesOf(row, words, heaps, whole) {
  const size = heap => heapText(row, row[heap]), share = heap => percent(row[heap], whole);
  return [
    el("p", {text: words}),
    drawShares(heaps.map(([heap, fate, name]) => [fate, row[heap], `${name} ${size(heap)}`]), 28,
      heaps.map(([heap, , name]) => `${name} ${share(heap)}`).join(", ")),
    el("ul", {class: "legend"},
      ...heaps.map(([heap, fate, name]) => el("li", {}, swatch(fate), `${name} ${size(heap)} (${share(heap)})`)))
  ];
}

function yieldHint() {
  return quiet(
    tr`Used up is what is neither a whole unit nor a remnant any more: pieces, kerf and scrap, also what was scrapped whole. All is what came and wasn't returned. Shares are rounded down; square metres are rounded.`);
}

// All materials in a table: where each is, and how much of it became pieces.
function yieldTable(rows) {
  const heads = [
    tr`Material`, tr`Received`, tr`Returned`, tr`Whole units`, tr`Remnants`, tr`Pieces`, tr`Kerf`, tr`As scrap`, tr`Used up`, tr`Pieces of used up`,
    tr`Pieces of all`
  ];
  const cells = row => {
    const {received, returned = 0, stock, rack, pieces, kerf, scrap} = row, used = usedOf(row);
    return [
      ...[received, returned, stock, rack, pieces, kerf, scrap, used].map(heap => heapText(row, heap)),
      used ? percent(pieces, used) : "–", heldOf(row) ? percent(pieces, heldOf(row)) : "–"
    ];
  };
  return el("div", {class: "scroll", tabindex: "0", role: "region", "aria-label": tr`Yield of all materials`},
    el("table", {id: "yieldTable"},
      el("thead", {}, el("tr", {}, ...heads.map((text, i) => el("th", {text, scope: "col", class: i ? "right" : ""})))),
      el("tbody", {}, ...rows.map(row => el("tr", {}, el("th", {text: row.material, scope: "row"}),
                        ...cells(row).map((text, i) => el("td", {class: "right", text, "data-head": heads[i + 1]})))))));
}

// The report is made of a material's totals and its parts, as they are when it is asked for.
async function openReport(code) {
  try {
    await lookAtShop();
    const totals = await ask(`/totals/${code}`),
          [parts, more] = await readPages(`/parts/${code}`, 2 * MAX_PAGES);
    owner.report = {...materialOf(code), totals, parts, more, at: timeText(Date.now())};
  } catch (error) { tell(tr`Report: ${await faultWords(error)}`, "refused"); }
  showYield();
  $("report").scrollIntoView({block: "nearest"});
}

// So many parts of a report are no single page.
const MANY_PARTS = 30;

function reportRows({material, kind, totals, parts, more, at}) {
  const right = text => el("td", {class: "right", text}), head = text => el("th", {text, scope: "row"}), held = heldOf(totals), heap = cells => heapText({...totals, kind}, cells);
  const rows =
    ["received", "returned", "stock", "rack", "pieces", "kerf", "scrap"].filter(heap => totals[heap] !== undefined);
  return [
    el("div", {class: "buttons noprint"},
      el("button", {class: "act", id: "printReport", text: tr`Print the report`, on: {click: () => window.print()}})),
    el("p", {class: "printonly pagehead", text: pageWords(material)}),
    el("h2", {text: tr`Yield of ${material} (${word(kind)}), ${at}`}),
    el("table", {},
      el("tbody", {},
        ...rows.map(name => el("tr", {}, head(word(name)), right(heap(totals[name])),
                      right(["received", "returned"].includes(name) ? "" : percent(totals[name], held)))),
        el("tr", {}, head(tr`used up: pieces, kerf and scrap`), right(heap(usedOf(totals))), right("")),
        el("tr", {}, head(tr`pieces of what was used up`), right(""),
          right(usedOf(totals) ? percent(totals.pieces, usedOf(totals)) : "–")),
        el("tr", {}, head(tr`yield: pieces of all that came and wasn't returned`), right(""),
          right(percent(totals.pieces, held))))),
    el("h3", {text: tr`${count(parts.length, "part")}${more ? tr` and more` : ""} standing or reserved`}),
    el("table", {}, parts.length > MANY_PARTS ? el("thead", {class: "printonly"}, el("tr", {}, el("th", {colspan: "4", class: "pagehead", text: pageWords(material)}))) : null,
      headRow([tr`Part's name`, tr`Size in mm`, tr`Kind`, tr`state`], HEARD), el("tbody", {},
        ...parts.map(part => el("tr", {}, el("td", {text: part.part}), right(sizeText(kind, part.w, part.h)),
                       el("td", {text: isRemnant(part) ? tr`remnant` : tr`unit`}),
                       el("td", {text: part.state === "reserved" ? tr`reserved, job ${part.of}` : tr`standing`})))))
  ];
}
