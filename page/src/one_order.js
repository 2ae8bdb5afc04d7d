// ---- One order: what is said of it, the lines that are added to it, its jobs, and where its pieces came from.

// notes: of orders what was typed of their day and text and isn't sent; extending: the order to which lines are added by hand.
const oneOrder = {
  notes: new Map(),
  extending: ""
};

const MAX_SAID = 200;

function bytesOf(text) { return new TextEncoder().encode(text).length; }

// How much of a text's room is left, or by how much it is too long.
function bytesLeftWords(text) {
  const left = MAX_SAID - bytesOf(text.trim());
  return left < 0 ? tr`${count(-left, "byte")} too long` : tr`${left} of ${MAX_SAID} bytes left`;
}

function saidFault(text) {
  if (/[\u0000-\u001f\u007f-\u009f]/.test(text)) return tr`has a control character`;
  return bytesOf(text) > MAX_SAID ? tr`has ${bytesOf(text)} bytes: write at most ${MAX_SAID}` : "";
}

// The day on which an order is due and a text of it, saved by one press.
function noteForm(order, key) {
  const said = sentNote(order) || facts.orders.get(order) || {due: 0, text: ""}, typed = oneOrder.notes.get(order);
  const input = (name, given) => el("input", {
    "data-field": name,
    "data-key": `${key}${name}${order}`,
    autocomplete: "off",
    on: {input: () => {
      oneOrder.notes.set(order, {day: due.value, text: text.value});
      left.textContent = left.live();
    }},
    ...given
  });
  const due = input("due", {type: "date", min: "1970-01-01", max: "9999-12-31", value: dayField(said.due), typed: typed?.day});
  const text = input("text", {value: said.text, typed: typed?.text}), left = el("span", {class: "quiet", live: () => bytesLeftWords(text.value)});
  const submit = event => {
    event.preventDefault();
    saveNote(order, due, text);
  };
  return el("form", {class: "noted", novalidate: "", on: {submit}},
    el("label", {class: "field"}, tr`Due`, due), el("label", {class: "field"}, tr`Text`, text),
    el("button", {class: "small", text: tr`Save`, "data-key": `${key}save${order}`, "aria-label": tr`Save what is said of order ${order}`}), left);
}

// A note of an order that waits for its answer.
function sentNote(order) {
  return terminal.keptHere().map(({command}) => command).reverse().find(command => command.do === "note" && command.order === order);
}

function saveNote(order, dueField, textField) {
  const due = readDay(dueField.value), text = textField.value.trim(), typed = {day: dueField.value, text: textField.value};
  markField(dueField, dueField.validity.valid ? "" : noDayWords());
  markField(textField, saidFault(text));
  if (goToFault(dueField.form)) return;
  const what = tr`Order ${order}: ${noteWords({due, text})}`, isEmpty = () => !oneOrder.notes.has(order);
  const fillIn = () => {
    oneOrder.notes.set(order, typed);
    drawAllAnew();
    showView();
  };
  if (send({do: "note", due, order, text}, what, () => {}, givenBack(isEmpty, fillIn))) oneOrder.notes.delete(order);
}

function noDayWords() { return tr`is no day: write one from 1970 to 9999, or none`; }

function noteWords({due, text}) { return [due ? dueWords({due}) : tr`no day`, text ? quoted(text) : tr`no text`].join(", "); }

// Reads what is known of the order that was looked for.
async function readFound() {
  const {found} = inOrders;
  if (!found) return;
  await readTexts([found]);
  await readPages(storyOf(`order/${found}`));
  await readPages(`/pieces/order/${found}`);
}

// The jobs of an order, the newest first, each by the last entry of the order's story that says how it stands.
function jobsOf(order) {
  const jobs = new Map(), {entries = []} = toldOf(storyOf(`order/${order}`));
  for (const {at, message, reply} of entries) {
    const job = message.job || reply.job, state = message.do === "reserve" ? "waiting" : ENDS[message.do];
    if (job && state) jobs.set(job, {job, at, state, by: message.terminal});
  }
  return [...jobs.values()].sort((a, b) => b.job - a.job);
}

function orderJobs() {
  const words = ({at, state, by}) => `${STATES[state]}, ${momentText(at)}, ${terminalWords(by)}`;
  const rows = jobsOf(inOrders.found).map(row => el("li", {}, linkTo(`saw/${row.job}`, tr`Job ${row.job}`), el("span", {class: "quiet", text: words(row)})));
  return rows.length ? [el("h3", {text: tr`Jobs`}), el("ul", {class: "links"}, ...rows)] : [];
}

// Pieces by batch, each with the units from which they came; or, of a batch or a unit, by order.
function piecesBy(rows, kind) {
  return groupsOf(rows, row => row[kind]).map(same => {
    const [row] = same, units = [...new Set(same.map(({root}) => root))], ofBatch = kind === "batch", name = row[kind];
    const link = ofBatch ? linkTo(`batch/${name}`, tr`Batch ${name}`) : linkTo(`order/${name}`, tr`Order ${name}`);
    const [size] = same.every(({w, h}) => w === row.w && h === row.h) ? [sizeText(kindOf(row.material), row.w, row.h)] : [""];
    const shown = units.slice(0, MAX_OPEN).map(unit => linkTo(`part/${unit}`, unit, tr`Part ${unit}`));
    const more = units.length - shown.length;
    return el("li", {}, link, el("span", {text: `${count(same.length, "piece")}${size ? ` ${size}` : ""}, ${row.material}:`}), ...shown,
      more ? el("span", {class: "quiet", text: tr`and ${more} more`}) : null);
  });
}

function pieceRows(head, rows, kind, more) {
  return rows.length ? [el("h3", {text: head}), el("ul", {class: "links"}, ...piecesBy(rows, kind)), andMore(more)] : [];
}

function whereFrom() {
  const {pieces = [], more} = toldOf(`/pieces/order/${inOrders.found}`);
  return pieceRows(tr`Where from`, pieces, "batch", more);
}

// What can be done with an order: it is planned alone, lines are added.
function orderActs(order, lines) {
  const act = (text, key, words, go) => el("button", {type: "button", class: "small", text, "data-key": `${key}${order}`, "aria-label": words, on: {click: go}});
  return [
    lines.some(row => leftOf(row) > 0) ? act(tr`Cut now`, "cutnow", tr`Plan order ${order} alone`, () => cutNow(order, lines)) : null,
    lines.length < MAX_LINES ? act(tr`Add lines`, "extend", tr`Add lines to order ${order}`, () => extendByHand(order)) : null
  ];
}

// Plans an order alone: of each of its materials, one behind another.
async function cutNow(order, lines) {
  const [first, ...others] = [...new Set(lines.filter(row => leftOf(row) > 0).map(({material}) => material))];
  go(others.length ? "cut" : `cut/${first}`);
  if (!others.length) chooseMaterial(first);
  await readCut();
  await (others.length ? planEach(order) : planOnly(order));
}

// From then on the form of orders by hand adds lines to an order, until they are sent or it is left.
function extendByHand(order) {
  oneOrder.extending = order;
  showHand();
  $("orderLines").querySelector("[data-field=length]")?.focus();
}

function showHand() {
  const {extending} = oneOrder;
  markField($("orderCode"), "");
  $("handTitle").textContent = extending ? tr`Add lines to order ${extending}` : tr`New order by hand`;
  $("sendOrder").textContent = extending ? tr`Add lines` : tr`Order`;
  $("codeField").hidden = Boolean(extending);
  $("stopExtend").hidden = !extending;
}

function stopExtending() {
  oneOrder.extending = "";
  showHand();
}

// Sends lines that are added to an order, numbered behind its last one; false where they can't be sent.
async function extend(order, lines, refused) {
  const there = await readLines(order, ask), last = there.reduce((most, {line}) => Math.max(most, line), 0), what = tr`Add lines to order ${order}`;
  if (there.length + lines.length > MAX_LINES) {
    tell(`${what}: ${tr`An order has at most ${MAX_LINES} lines.`}`, "refused");
    return false;
  }
  return send({do: "extend", lines: lines.map((line, i) => ({...line, line: last + 1 + i})), order}, what, () => {}, refused);
}
