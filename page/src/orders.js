// ---- Which orders there are, and how many pieces of their lines are wanted.

// folds: which orders a person opened or closed; typed: of demands the numbers that were typed; found: the order that was looked for; sought:
// what is looked for; note: what came of that.
const inOrders = {
  folds: new Map(),
  typed: new Map(),
  found: "",
  sought: "",
  note: ""
};

function isFinishedToo() { return $("finishedToo").checked; }

async function readOrders() {
  await readOpenOrders();
  const [all] = isFinishedToo() ? await readPages("/orders", shop.allOrderPages) : [[]];
  const open = new Set(openOrders()), shown = all.map(row => row.order).filter(order => inOrders.folds.get(order));
  for (const order of new Set([inOrders.found, ...shown]))
    if (order && (order === inOrders.found || !open.has(order)) && !await readIfThere(order)) inOrders.found = "";
  await readFound();
}

// The open orders with their sums; of unfolded ones all lines.
async function readOpenOrders() {
  await readPages("/demands/0");
  await readSums(openOrders());
  const shown = new Set(ordersToShow().filter(([, isOpen]) => isOpen).map(([row]) => row.order));
  for (const order of openOrders())
    if (shown.has(order)) await readLines(order);
}

// The orders of which something is open, the earliest due first.
function openOrders() {
  const rows = toldOf("/demands/0").demands || [];
  return groupsOf(rows, row => row.order).sort(([a], [b]) => byDay(a, b)).map(([{order}]) => order);
}

// Reads the sums of orders: the list of all is asked behind the greatest code below one that isn't told yet.
async function readSums(codes) {
  const told = new Set();
  let pages = 0;
  for (const code of [...codes].sort()) {
    if (told.has(code) || pages++ >= MAX_PAGES) continue;
    const below = codeBelow(code), {orders} = await askCalmly(below ? `/orders/${below}` : "/orders");
    for (const {order} of orders) told.add(order);
  }
}

const LETTERS = "-0123456789ABCDEFGHIJKLMNOPQRSTUVWXYZ";

// The greatest code below this one.
function codeBelow(code) {
  const start = code.slice(0, -1), place = LETTERS.indexOf(code[code.length - 1]);
  return place > 0 ? `${start}${LETTERS[place - 1]}`.padEnd(16, "Z") : start;
}

async function readLines(order, read = askCalmly) { return (await read(`/order/${order}`)).lines; }

// All lines of an order, or nothing where they were never read.
function linesOf(order) { return toldOf(`/order/${order}`).lines; }

// The lines of an order, or null where there is none of this code.
function readIfThere(order, read = askCalmly) {
  return readLines(order, read).catch(error => {
    if (error.reply?.refused !== 43) throw error;
    return null;
  });
}

// What became of the pieces of an order, over all of its lines.
function sumsOf(order, lines) {
  const sum = key => lines.reduce((all, row) => all + row[key], 0);
  return {order, lines: lines.length, wanted: sum("wanted"), reserved: sum("reserved"), made: sum("made")};
}

function stateOf({wanted, made}) { return wanted === 0 ? tr`cancelled` : made === wanted ? tr`finished` : tr`open`; }

function showOrders() {
  notePromised();
  if (!$("orderLines").children.length && shop.materials.length) addOrderLine();
  fill($("orderList"), () => orderRows(ordersToShow().filter(([{order}, isOpen]) => !isOpen || inOrders.folds.has(order) || linesOf(order))));
  fill($("foundOrder"), foundRows);
}

// The orders of the list, and whether each is unfolded: few are at first, and come with their lines.
function ordersToShow() {
  const rows = isFinishedToo() ? toldOf("/orders").orders || [] : openOrders().map(order => facts.orders.get(order)).filter(Boolean);
  const isFew = !isFinishedToo() && rows.reduce((all, row) => all + row.lines, 0) <= MAX_OPEN;
  return rows.map(row => [row, inOrders.folds.get(row.order) ?? isFew]);
}

function orderRows(rows) {
  const {ok, more} = toldOf(isFinishedToo() ? "/orders" : "/demands/0"), isEmpty = ok && (isFinishedToo() || !openOrders().length);
  if (!rows.length) return [quiet(!isEmpty ? "…" : isFinishedToo() ? tr`There is no order.` : tr`No order is open.`)];
  return [
    quiet(tr`How many pieces of a line are wanted can be changed to more or fewer, down to what is made and reserved.`),
    ...rows.map(([row, isOpen]) => orderCard(row, isOpen, "", orderFold(row.order, isOpen), "")),
    isFinishedToo() ? moreButton(more, "allOrderPages") : andMore(more)
  ];
}

function foundRows() {
  const {found, note} = inOrders, lines = linesOf(found);
  if (!found) return note ? [el("p", {class: note === "…" ? "quiet" : "fault", text: note})] : [];
  if (!lines) return [quiet("…")];
  const card = orderCard(sumsOf(found, lines), true, tr`Order ${found}`, null, "f", orderActs(found, lines));
  card.append(alsoJob(), ...orderJobs(), ...whereFrom().filter(Boolean));
  return [card];
}

// The job that has the number by which an order was found.
function alsoJob() {
  const {found, sought} = inOrders, {ok, job} = found === sought ? {} : toldOf(`/job/${readWhole(sought, 1, 2147483647)}`);
  return ok ? linkTo(`saw/${job}`, tr`Job ${job}`) : "";
}

function orderFold(order, isOpen) {
  return el("button", {
    class: "unfold",
    text: order,
    "data-key": `u${order}`,
    "aria-expanded": String(isOpen),
    on: {click: () => unfold(order, !isOpen)}
  });
}

async function unfold(order, isOpen) {
  inOrders.folds.set(order, isOpen);
  showOrders();
  if (!isOpen) return;
  await readLines(order, ask).catch(() => {});
  showOrders();
}

// An order: its state, what is said of it, its sums, and where it is unfolded its lines.
function orderCard(row, isOpen, title, fold, key, acts = []) {
  const {order} = row, lines = isOpen && linesOf(order), sums = lines ? sumsOf(order, lines) : row;
  const shown = lines ? lineForms(order, lines, key, !fold) : isOpen ? [quiet("…")] : [], go = () => cancelOrder(order);
  const words = [stateOf(sums), saidOf(order)].filter(Boolean).join(" · ");
  return el("div", {class: "ordered"},
    el("div", {class: "orderedhead"}, fold || el("h3", {text: title}), el("span", {class: "quiet", text: words}),
      leftOf(sums) ? cancelButton(`${key}o${order}`, tr`Cancel order`, tr`Cancel order ${order}`, go) : null),
    drawProgress(sums), quiet(progressWords(sums)), isOpen ? noteForm(order, key) : null, ...shown,
    isOpen ? el("div", {class: "buttons"}, ...acts, fold ? linkTo(`order/${order}`, tr`Jobs, batches, more lines`, tr`Order ${order}`) : null, storyLink("order", order)) : null);
}

// The lines of an order; many are folded where other things stand behind them.
function lineForms(order, lines, key, hasMore) {
  const forms = lines.map(line => lineForm(line, key)), name = `lines ${order}`;
  if (!hasMore || lines.length <= MAX_OPEN) return forms;
  return [el("details", {class: "fold", open: inOrders.folds.get(name) ?? false, on: {toggle: ({target}) => inOrders.folds.set(name, target.open)}},
    el("summary", {text: count(lines.length, "line"), "data-key": name}), ...forms)];
}

function cancelButton(key, text, words, go) {
  return el("button", {
    type: "button",
    class: "small",
    text,
    "data-key": `c${key}`,
    "aria-label": words,
    on: {click: go}
  });
}

// A line: how many of its pieces are wanted can be changed, and what is left of it cancelled.
function lineForm(row, key) {
  const {demand, line, order} = row, going = shop.amending.get(demand), size = sizeText(kindOf(row.material), row.w, row.h);
  const field = el("input", {
    inputmode: "numeric",
    autocomplete: "off",
    "data-key": `${key}w${demand}`,
    "data-field": "wanted",
    "aria-label": tr`How many are wanted of line ${line} of order ${order}`,
    value: String(going ?? row.wanted),
    typed: inOrders.typed.get(demand),
    on: {input: () => inOrders.typed.set(demand, field.value)}
  });
  const change = el("button", {
    class: "small",
    text: tr`Change`,
    "data-key": `${key}a${demand}`,
    "aria-label": tr`Change line ${line} of order ${order}`
  });
  const state = going !== undefined ? tr`waits for its answer` : row.wanted ? progressWords(row) : tr`cancelled`;
  // (where nothing is left its room stays, so that the lines' fields and buttons stand below one another)
  const cancel = cancelButton(`${key}l${demand}`, tr`Cancel`, tr`Cancel line ${line} of order ${order}`, () => cancelLine(row));
  if (!leftOf(row)) {
    cancel.style.visibility = "hidden";
    delete cancel.dataset.key;
  }
  const submit = event => {
    event.preventDefault();
    changeLine(row, field);
  };
  return el("form", {class: "stocked", novalidate: "", on: {submit}},
    el("div", {}, el("b", {text: `${tr`line ${line}`}: ${row.material} ${size}`}), el("div", {class: "quiet", text: state})),
    el("div", {class: "buttons"}, el("label", {class: "quiet"}, tr`wanted `, field), change, cancel));
}

// What is wrong with a number that is typed for a demand, or nothing.
function wantedFault(text, row) {
  const least = row.reserved + row.made, number = readWhole(text, 0, MAX_NUMBER);
  if (number === null) return tr`${quoted(text)}: write a whole number from ${grouped(least)} to ${grouped(MAX_WANTED)}`;
  if (number < least) return `${grouped(number)}: ${leastWords(row)}`;
  return number > MAX_WANTED ? `${grouped(number)}: ${mostWords()}` : "";
}

function leastWords({made, reserved}) {
  return tr`${grouped(made)} made, ${grouped(reserved)} reserved: ${grouped(made + reserved)} is the least`;
}

function mostWords() { return tr`${grouped(MAX_WANTED)} is the most`; }

// Why the shop refused an amend, as the demand is now.
async function amendFault({demand}, {refused}) {
  if (refused === 41) return mostWords();
  const row = refused === 63 ? await readDemand(demand).catch(() => null) : null;
  return row ? leastWords(row) : "";
}

function changeLine(row, field) {
  const {demand, line, order} = row, text = field.value.trim(), fault = wantedFault(text, row), wanted = Number(text);
  markField(field, fault);
  if (fault) return field.focus();
  const what = tr`Order ${order}, line ${line}: ${grouped(wanted)} wanted in place of ${grouped(row.wanted)}`;
  const back = givenBack(() => !inOrders.typed.has(demand), () => {
    inOrders.typed.set(demand, text);
    drawAllAnew();
    showView();
  });
  if (wanted === row.wanted || send({demand, do: "amend", wanted}, what, showView, back)) inOrders.typed.delete(demand);
  showOrders();
}

function cancelLine(row) { return cancel(tr`Cancel line ${row.line} of order ${row.order}`, [row]); }

async function cancelOrder(order) {
  const what = tr`Cancel order ${order}`;
  try {
    await cancel(what, await readLines(order, ask));
  } catch (error) { tell(`${what}: ${await faultWords(error)}`, "refused"); }
}

// Cancels what is neither made nor reserved of lines of an order, after one question.
async function cancel(what, rows) {
  const {made, reserved} = sumsOf("", rows), left = rows.filter(row => leftOf(row) > 0);
  if (!left.length) return tell(tr`${what}: nothing of it is left`, "refused");
  const words = [tr`${what}? ${count(left.reduce((all, row) => all + leftOf(row), 0), "piece")} fewer are wanted then.`];
  if (made + reserved) words.push(tr`${grouped(made)} made and ${grouped(reserved)} reserved stay wanted.`);
  if (reserved) words.push(tr`To cancel what is reserved too, give its jobs back first.`);
  if (!await confirmed(words.join(" "), what)) return;
  const commands = left.map(({demand, line, made: done, reserved: kept}) =>
    [tr`line ${line}`, {demand, do: "amend", wanted: done + kept}]);
  for (const {demand} of left) inOrders.typed.delete(demand);
  if (commands.length === 1) send(commands[0][1], what, showView);
  else sendMany(what, commands, showView);
  showOrders();
}

function findOrder(event) {
  event.preventDefault();
  const text = readCode("findOrder");
  markField($("findOrder"), text ? "" : tr`is empty: write a code or a number`);
  if (!goToFault($("findForm"))) showOrder(text);
}

function forgetFound() {
  Object.assign(inOrders, {found: "", sought: "", note: ""});
  $("findOrder").value = "";
}

// Shows an order by its code or the number of its pieces wanted, or else the job, part or batch that is meant, unless another is
// looked for meanwhile.
async function showOrder(text) {
  const told = {found: "", note: ""};
  let place = "";
  if ($("findOrder").value.trim().toUpperCase() !== text) $("findOrder").value = text;
  Object.assign(inOrders, {sought: text, found: "", note: "…"});
  showOrders();
  try {
    told.found = PART_NAME.test(text) ? "" : await orderOf(text);
    place = told.found === text ? "" : await otherPlaceOf(text);
  } catch (error) { told.note = await faultWords(error); }
  if (inOrders.sought !== text) return;
  Object.assign(inOrders, told);
  if (told.found && viewName() === "orders") go(`order/${told.found}`);
  if (place && !(told.found && place.startsWith("saw/"))) return go(place);
  showOrders();
  refreshNow();
  if (!told.found && !told.note) markField($("findOrder"), tr`${quoted(text)} is no code of an order or a batch, and no number of pieces wanted, a job or a part`);
  if (!goToFault($("findForm")) && window.innerWidth < NARROW) $("findForm").scrollIntoView({block: "center"});
}

// The address of the part, the job or the batch that a text names, or nothing.
async function otherPlaceOf(text) {
  if (PART_NAME.test(text)) return `part/${text}`;
  const job = readWhole(text, 1, 2147483647);
  if (job && await ask(`/job/${job}`).catch(() => null)) return `saw/${job}`;
  return !codeFault(text) && (await partsOfBatch(text)).length + (await piecesOfBatch(text))[0].length ? `batch/${text}` : "";
}

// The code of the order that has this code, or of which the pieces of this number are; or nothing.
async function orderOf(text) {
  if (!codeFault(text) && await readIfThere(text, ask)) return text;
  const number = readWhole(text, 1, 2147483647), row = number && await readDemand(number);
  if (row) await readLines(row.order, ask);
  return row ? row.order : "";
}
