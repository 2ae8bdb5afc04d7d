// ---- The import's view: a file is picked, what has to be said of it is asked, its bad cells are mended, and it is sent.

// A picked file's text. Where it is too large, or can't be read, the holder tells so, and there is none.
async function readText(file, holder) {
  const read = file.size > MAX_FILE ? null : await file.arrayBuffer().catch(() => null);
  if (read) return textOf(new Uint8Array(read));
  const fault = file.size > MAX_FILE ? longWords(MAX_FILE) : tr`The file can't be read. Pick it again.`;
  fill(holder, () => el("p", {class: "fault", text: fault}));
  return null;
}

// A demand, or null where there is none.
function readDemand(number) {
  return ask(`/demand/${number}`, {patience: 3000}).catch(error => {
    if (error.reply?.refused !== 42) throw error;
    return null;
  });
}

// The picked file as it was read, its text, and what was chosen for it; orders: how many it becomes; named: the code that its
// name gave; asked: how often it was asked which orders are there, behind a pause of the timer.
const csv = {
  text: "",
  chosen: {},
  file: null,
  orders: 1,
  named: "",
  asked: 0,
  timer: 0
};

// What the texts of materials mean is kept, for the next file.
const MEANT = "cutshop.materials", MAX_MEANT = 500;

async function showCsv() {
  const picked = $("csvFile").files[0];
  if (!picked) return empty("csvPreview");
  const text = await readText(picked, $("csvPreview"));
  if (text === null) return;
  Object.assign(csv, {text, chosen: {materials: storage.read(MEANT, {})}});
  showCsvFile();
  nameCode(picked.name);
}

// Fills in the code that a file's name gives, unless a person wrote one.
function nameCode(name) {
  const typed = $("fileCode").value;
  if (!typed || typed === csv.named) $("fileCode").value = csv.named = codeOfName(name, csv.orders);
  if ($("fileCode").value) markField($("fileCode"), "");
  showCodes();
}

function chooseForCsv(given) {
  Object.assign(csv.chosen, given);
  showCsvFile();
}

// What a text of a material means: for this file, and the next ones.
function chooseMeaning(key, code) {
  const kept = Object.entries({...storage.read(MEANT, {}), [key]: code}).slice(-MAX_MEANT);
  try {
    storage.write(MEANT, Object.fromEntries(kept));
  } catch { tell(tr`This browser can't keep what the materials are.`, "refused"); }
  chooseForCsv({materials: {...csv.chosen.materials, [key]: code}});
}

// A cell is mended. (Drawn once the focus is where it goes, unless the file was sent by then.)
function mendCell(at, name, text) {
  const {mended = {}} = csv.chosen;
  csv.chosen.mended = {...mended, [at]: {...mended[at], [name]: text}};
  const file = csv.file = readOrderFile(csv.text, csv.chosen);
  setTimeout(() => {
    if (csv.file === file) showCsvFile();
  });
}

function showCsvFile() {
  const file = csv.file = readOrderFile(csv.text, csv.chosen), {rows, bad} = file;
  csv.orders = file.texts?.length || 1;
  fill($("csvPreview"), () => file.isTooLarge ? el("p", {class: "fault", text: file.fault}) : drawCsvFile(file));
  if (file.isTooLarge) return;
  say(tr`${count(rows.length, "line")} read${bad.length ? tr`, ${bad.length} of them bad` : ""}`);
  showCodes();
}

// The heads of the preview's columns.
const FILE_LINE = tr`line of\u00a0the\u00a0file`;

function columnHead(name) { return SIDES.includes(name) ? `${fieldWords(name)} mm` : fieldWords(name); }

// So many rows of a file are drawn, and of those behind so many bad ones.
const MAX_DRAWN = 400, MAX_BAD_DRAWN = 50;

function drawCsvFile(file) {
  const {rows, bad} = file, behind = new Set(rows.slice(MAX_DRAWN));
  const shown = [...rows.slice(0, MAX_DRAWN), ...bad.filter(row => behind.has(row)).slice(0, MAX_BAD_DRAWN)];
  const lines = count(file.rows.length, "line"), orders = file.texts.length;
  return [
    el("p", file.fault ? {class: "fault", text: file.fault} : {text: readWords(file)}), materialQuestion(file),
    unitQuestion(file), csvQuestion(file), roundQuestion(file), csvColumns(file), ...leftRows(file),
    file.bad.length ? el("p", {class: "fault", text: badWords(file)}) : "",
    el("div", {class: "scroll", tabindex: "0", role: "region", "aria-label": tr`Rows of the file`},
      el("table", {}, headRow([FILE_LINE, ...FIELDS.map(columnHead)]),
        el("tbody", {}, ...shown.flatMap(csvRows)))),
    rows.length > shown.length ? quiet(tr`and ${rows.length - shown.length} more`) : "", csvSaid(file),
    el("div", {class: "buttons"}, csvButton("sendCsv", orders > 1 ? tr`Order ${lines} as ${orders} orders` : tr`Order ${lines}${""}`, () => sendCsv()),
      csvButton("planCsv", tr`Order and plan`, () => sendCsv(planAllOrdered)))
  ];
}

function csvButton(id, text, click) {
  const {file} = csv;
  return el("button", {class: id === "sendCsv" ? "act" : "", id, text, disabled: Boolean(file.fault) || file.bad.length > 0, on: {click}});
}

// What is said of the file's orders, and the titles that can be taken as their text.
function csvSaid({said: {due, text, offered}}) {
  const {chosen} = csv, field = (name, words, given) => el("label", {class: "field"}, words, el("input", {
    "data-field": name,
    "data-key": `csv ${name}`,
    id: `csv-${name}`,
    autocomplete: "off",
    on: {input: ({target: {value}}) => Object.assign(csv.chosen, {[name]: value})},
    ...given
  }));
  const take = title => el("button", {type: "button", class: "small", text: tr`Text: ${quoted(title)}`, on: {click: () => chooseForCsv({text: title})}});
  return el("div", {class: "fields"}, field("due", tr`Due`, {type: "date", value: chosen.due ?? dayField(due)}),
    field("text", tr`Text`, {value: chosen.text ?? text}), ...offered.filter(title => title !== (chosen.text ?? text)).slice(0, 3).map(take));
}

// What is said of the picked file's orders, or nothing; null where it is bad.
function readSaid() {
  const [due, text] = ["csv-due", "csv-text"].map($);
  markField(due, due.validity.valid ? "" : noDayWords());
  markField(text, saidFault(text.value.trim()));
  return goToFault($("csvPreview")) ? null : {due: readDay(due.value), text: text.value.trim()};
}

// Which column each field is, to be changed, or what all lines have; and whether the first row is a line.
function csvColumns({columns, heads, headless, wide, rows}) {
  const names = Array.from({length: wide}, (_, i) => columnWords(heads[i]?.text, i + 1));
  const isSaid = i => ["customer", "due"].includes(meaningOf(heads[i]?.name || ""));
  const left = names.filter((_, i) => !isSaid(i) && !FIELDS.some(name => columns[name] === i));
  return el("details", {
    id: "csvColumns",
    open: csv.chosen.isOpen ?? !isAsWritten(heads),
    on: {toggle: event => Object.assign(csv.chosen, {isOpen: event.target.open})}
  },
    el("summary", {text: tr`Which column is what`, "data-key": "csv columns"}),
    el("div", {class: "fields"}, ...FIELDS.map(name => columnChoice(name, columns[name], names))),
    left.length ? el("p", {id: "csvLeftOut", text: tr`Left out: ${left.join("; ")}.`}) : null,
    rows.length || headless ? headlessChoice(headless) : null);
}

function columnWords(head, number) { return head ? tr`${quoted(head)}, column ${number}` : tr`column ${number}`; }

// Which column a field is, or what is taken for it where it is none.
function columnChoice(name, chosen, names) {
  const now = typeof chosen === "number" ? `column ${chosen}` : chosen ?? "";
  const choose = chosen === null ? [["", tr`choose…`]] : [];
  const options = [...choose, ...names.map((text, i) => [`column ${i}`, text]), ...TAKEN[name]?.() || []];
  return csvSelect(fieldWords(name), name, now, options,
    value => chooseForCsv({columns: {...csv.chosen.columns, [name]: columnSaid(value)}}));
}

// A list to choose from: pairs of a value and its words.
function csvSelect(words, name, now, options, choose) {
  return el("label", {class: "field"}, words, el("select", {
    "data-key": `csv ${name}`,
    "data-column": name,
    on: {change: ({target: {value}}) => choose(value)}
  },
    ...options.map(([value, text]) => el("option", {value, text, selected: value === now}))));
}

function headlessChoice(headless) {
  return el("label", {class: "check"}, el("input", {
    type: "checkbox",
    "data-key": "csv headless",
    checked: headless,
    on: {change: event => chooseForCsv({headless: event.target.checked, columns: {}})}
  }),
    tr`the first row is a line, and no heads`);
}

function columnSaid(value) { return value.startsWith("column ") ? Number(value.split(" ")[1]) : value; }

// What a person has to say of lengths like 1.200.
function csvQuestion({unclear, thousands}) {
  if (!unclear.length) return "";
  const [{at, text, unit}] = unclear, [plain] = splitUnit(text);
  return el("fieldset", {class: "choice", id: "csvQuestion"},
    el("legend", {text: tr`Line ${at} of the file has “${text}”${othersWords(unclear)}: it is`}),
    csvChoice("thousands", true, thousands, `${plain.replace(/[.,]/, "")} ${unit}`),
    csvChoice("thousands", false, thousands, `${inMm(digitsOf(plain, false), 0).text.replace(".", POINT)} ${unit}`));
}

function othersWords({length}) { return length > 1 ? tr`, and ${length - 1} more are like it` : ""; }

// What a person has to say of lengths without a unit that may be centimetres.
function unitQuestion({unitless, unit}) {
  if (!unitless.length) return "";
  const size = text => inMm(digitsOf(text, false), 3).text.padStart(9, "0");
  const largest = unitless.reduce((a, b) => size(b) > size(a) ? b : a);
  return el("fieldset", {class: "choice", id: "csvUnit"},
    el("legend", {text: tr`The lengths have no unit, and none of them is 100 or more. The largest is`}),
    ...Object.keys(PLACES).map(name => csvChoice("unit", name, unit, `${largest} ${name}`)));
}

// What the materials are that the shop doesn't know by their texts, and of a file without any what all is made of.
function materialQuestion({columns, foreign}) {
  const codes = shop.materials.map(row => [row.material, row.material]), choose = [["", tr`choose…`]];
  const sayAll = material => chooseForCsv({columns: {...csv.chosen.columns, material}});
  if (columns.material === null) foreign = [{key: "", code: "", words: tr`all lines`, say: sayAll}];
  if (!foreign.length) return "";
  return el("fieldset", {class: "fields", id: "csvMaterials"}, el("legend", {text: tr`Which material is it?`}),
    ...foreign.map(({key, code, text, rows, words, say = chosen => chooseMeaning(key, chosen)}) =>
      csvSelect(words ?? `${text ? quoted(text) : tr`an empty cell`} (${count(rows, "line")})`, `material ${key}`, code,
        code ? codes : [...choose, ...codes], say)));
}

// That lengths are rounded, which a person has to say once.
function roundQuestion({fine, isRounded}) {
  if (!fine.length) return "";
  const [{at, text, turned}] = fine;
  return el("fieldset", {class: "choice", id: "csvRound"},
    el("legend", {text: tr`Line ${at} of the file has “${text}”${othersWords(fine)}, finer than a tenth of a millimetre`}),
    csvChoice("isRounded", true, isRounded, tr`round: ${turned.replace(".", POINT)} mm`));
}

// One answer to a question of a file.
function csvChoice(name, value, chosen, words) {
  return el("label", {}, el("input", {
    type: "radio",
    name: `csv ${name}`,
    "data-key": `csv ${value}`,
    checked: chosen === value,
    on: {change: () => chooseForCsv({[name]: value})}
  }),
    words);
}

// So many rows that are left out are shown.
const MAX_LEFT = 20;

// The rows that are left out, each with why, and sums that aren't those of the pieces.
function leftRows({left, sums}) {
  const why = {title: tr`title`, heads: tr`heads again`, sum: tr`sum`, "by hand": tr`left out by hand`};
  const text = ({fields}) => quoted(fields.map(field => field.trim()).filter(Boolean).join(" · "));
  const words = row => tr`line ${row.at}, ${why[row.why]}: ${text(row)}`;
  const more = left.length - MAX_LEFT, shown = left.slice(0, MAX_LEFT).map(words);
  const wrong = ({at, said, has}) =>
    tr`Line ${at} of the file says ${grouped(said)} pieces, and the lines above it have ${grouped(has)}.`;
  return [
    left.length ? el("div", {id: "csvRowsLeft", class: "quiet"}, tr`Left out of the file:`,
      el("ul", {}, ...shown.map(said => el("li", {text: said})), more > 0 ? el("li", {text: tr`and ${more} more`}) : null)) : "",
    ...sums.map(sum => el("p", {class: "fault", text: wrong(sum)}))
  ];
}

function readWords({isTurned, empty, told, bad}) {
  if (!isTurned) return bad.length ? "" : tr`The shop reads the file as it stands:`;
  const words = [tr`Turned into what the shop reads; ← tells what the file has.`];
  if (empty) words.push(tr`${count(empty, "empty row")} left out.`);
  if (told) words.push(tr`The line sep=${told[1]} isn't counted.`);
  return words.join(" ");
}

function badWords({bad}) {
  const names = bad.slice(0, 8).map(row => row.at).join(", "), more = bad.length > 8 ? tr` and ${bad.length - 8} more` : "";
  const s = bad.length > 1 ? "s" : "";
  return tr`Line${s} ${names}${more} of the file can't be ordered: mend what is marked, or leave it out.`;
}

// A row of the file, and below it what is wrong with its fields. What no column has is told above the rows.
function csvRows(row) {
  const {at, faults} = row, words = Object.entries(faults).map(([name, fault]) => `${fieldWords(name)} ${fault}`);
  const shown = el("tr", {}, el("th", {text: String(at), scope: "row", "data-head": FILE_LINE}), ...FIELDS.map((name, i) => csvCell(row, name, i)));
  const leave = el("button", {
    class: "small",
    text: tr`Leave out`,
    "data-key": `csv ${at}`,
    "aria-label": tr`Leave out line ${at} of the file`,
    on: {click: () => chooseForCsv({without: [...csv.chosen.without || [], at]})}
  });
  return words.length ? [shown, el("tr", {}, el("td", {class: "rowfaults", id: `csv-${at}`, colspan: String(1 + FIELDS.length)},
    ...words.map(text => el("div", {class: "fault", text})), leave))] : [shown];
}

// A cell: what is read, and what the file has where that is another text. A bad cell, and one that was mended, is a field.
function csvCell({at, fields, cells, texts, faults}, name, i) {
  const fault = faults[name], cell = cells[i], isMended = csv.chosen.mended?.[at]?.[name] !== undefined;
  const read = name === "turn" ? word(texts[i]) : texts[i];
  const was = cell === cell?.trim() ? shortened(cell) : quoted(cell ?? ""), isOther = cell !== null && read !== cell;
  const from = () => el("span", {class: "turned", text: was ? `← ${was}` : tr`← empty`});
  const head = {"data-head": columnHead(name)};
  if (!fault && !isMended) return el("td", {...head, text: shortened(read)}, isOther ? from() : null);
  const field = el("input", {
    value: cell ?? "",
    "data-key": `csv ${at} ${name}`,
    "aria-label": tr`${fieldWords(name)}, line ${at} of the file`,
    "aria-invalid": String(Boolean(fault)),
    "aria-describedby": fault ? `csv-${at}` : "",
    on: {change: () => mendCell(at, name, field.value)}
  });
  return el("td", {...head, class: fault ? "badfield" : "", text: fault ? "✗ " : isOther ? `${shortened(read)} ← ` : ""}, field);
}

// Which orders a file becomes, and a moment later which of them are there already.
function showCodes() {
  const code = readCode("fileCode"), codes = codesOf(code, csv.orders);
  const isPicked = $("csvPreview").firstChild || $("problemPreview").firstChild;
  const words = [];
  if (isPicked && csv.orders > 1 && code) words.push(tr`Orders ${codes[0]} to ${codes.at(-1)}, of at most ${MAX_LINES} lines.`);
  fill($("fileCodes"), () => words.map(quiet));
  clearTimeout(csv.timer);
  csv.asked++;
  if (isPicked && !codeFault(codes.at(-1))) csv.timer = setTimeout(() => showThere(codes, words), 250);
}

async function showThere(codes, words) {
  const there = [], {asked} = csv;
  for (const order of codes) {
    if (await ask(`/order/${order}`).catch(() => null)) there.push(order);
    if (csv.asked !== asked) return;
  }
  if (!there.length) return;
  const told = tr`There already: ${there.join(", ")}. The same file does nothing again; another one is refused.`, {file} = csv;
  const isGood = file && codes.length === 1 && !file.fault && !file.bad.length;
  const add = isGood ? el("button", {class: "small", id: "extendCsv", text: tr`Add these lines to ${there[0]}`, on: {click: () => extendByFile(there[0])}}) : "";
  fill($("fileCodes"), () => [...words.map(quiet), el("p", {class: "fault", text: told}), add]);
}

// Adds the picked file's lines to an order that is there.
async function extendByFile(order) {
  const {file} = csv, typed = [$("fileCode").value, "csv", {...csv}, {...problem}], back = givenBack(isFileEmpty, () => fillFile(...typed));
  const isSent = await extend(order, file.rows.map(({texts}) => lineOf(texts)), back).catch(async error => {
    tell(`${tr`Add lines to order ${order}`}: ${await faultWords(error)}`, "refused");
  });
  if (isSent && csv.file === file) clearFile();
}

function isFileEmpty() { return !$("fileCode").value && !$("csvPreview").firstChild && !$("problemPreview").firstChild; }


// What a file is ordered as, marked where it can't be.
function readFileCode(orders) {
  const code = readCode("fileCode"), fault = codeFault(code) || codeFault(codesOf(code, orders).at(-1));
  markField($("fileCode"), fault);
  if (fault) $("fileCode").focus();
  return fault ? "" : code;
}

// Orders the picked file: one order, or several by one press.
function sendCsv(ordered = () => {}) {
  const {file} = csv, code = file.fault || file.bad.length ? "" : readFileCode(file.texts.length), said = code && readSaid();
  if (said) sendImports(code, importsOf(file, code), "csv", said, ordered);
}

function sendProblemFile() {
  const order = readFileCode(1), {text} = problem, material = $("problemMaterial").value;
  if (order) sendImports(order, [{do: "import", form: "cgcut", material, order, text}], "cgcut");
}

// Orders are sent with what is said of them; behind the last one all is done that is to follow.
function sendImports(code, commands, form, said = {due: 0, text: ""}, ordered = () => {}) {
  const what = tr`Order ${code} from a file`, typed = [$("fileCode").value, form, {...csv}, {...problem}];
  const refused = givenBack(isFileEmpty, () => fillFile(...typed)), note = said.due || said.text ? said : null;
  const over = told => {
    takeBack(told, commands, typed, isFileEmpty);
    if (told.done) ordered();
  };
  const isSent = commands.length === 1
    ? send(commands[0], what, () => ordered(), refused, note)
    : sendMany(what, commands.map(command => [command.order, command]), () => {}, over, "", note);
  if (isSent) clearFile();
}

// Of a file that became several orders, the lines of those that were refused come back where the form is empty.
function takeBack({refused}, commands, [code, form, sheet], isEmpty) {
  if (!refused.length || !isEmpty()) return;
  const areDone = commands.map(({order}) => refused.every(([name]) => name !== order));
  const done = ordersOf(sheet.file.rows).filter((_, i) => areDone[i]).flat().map(({at}) => at);
  fillFile(code, form, {...sheet, chosen: {...sheet.chosen, without: [...sheet.chosen.without || [], ...done]}});
}

function clearFile() {
  for (const id of ["csvFile", "problemFile", "fileCode"]) $(id).value = "";
  empty("csvPreview", "problemPreview");
  problem.text = null;
  Object.assign(csv, {file: null, named: "", orders: 1});
  showCodes();
}

// Shows a file again that was sent.
function fillFile(code, form, sheet, pieces) {
  clearFile();
  $("fileCode").value = code;
  if (form === "csv") {
    Object.assign(csv, sheet);
    showCsvFile();
  } else {
    Object.assign(problem, pieces);
    showProblemFile();
  }
}
