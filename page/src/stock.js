// ---- Stock.

// name: the part that is looked for; batch: the batch that is; isNew: whether it wasn't shown yet.
const traced = {
  name: "",
  batch: "",
  isNew: false
};

// folds: which sizes a person opened or closed; wanted: how many of a row are to go.
const inStock = {
  folds: new Map(),
  wanted: new Map()
};

function showStock() {
  notePromised();
  $("stockTitle").textContent = shop.material ? tr`${shop.material}: standing and reserved` : tr`Standing and reserved`;
  fill($("stockList"), stockRows);
  showTraced();
  adaptReceive();
}

// Rows by what they have in common, in the order in which they come.
function groupsOf(rows, keyOfRow) {
  const groups = new Map();
  for (const row of rows) {
    const key = keyOfRow(row);
    if (groups.has(key)) groups.get(key).push(row);
    else groups.set(key, [row]);
  }
  return [...groups.values()];
}

// Over so many rows each size is folded at first.
const MAX_OPEN = 12;

// All remnants, then the units size by size, the largest first; standing ones of one batch and size are one row.
function stockRows() {
  if (!shop.parts.length) return [quiet(shop.partsOf ? tr`Nothing stands.` : noMaterial()), shop.partsOf ? receiveOpener() : ""];
  const large = [...shop.parts].sort((a, b) => b.w * b.h - a.w * a.h || b.w - a.w);
  const remnants = large.filter(isRemnant), units = large.filter(part => !isRemnant(part));
  const sizes = groupsOf(units, part => `${part.w} ${part.h}`);
  const folds = [remnants, ...sizes].filter(parts => parts.length).map(parts => [parts, stockGroups(parts)]);
  const isOpen = folds.reduce((sum, [, rows]) => sum + rows.length, 0) <= MAX_OPEN;
  return [...folds.map(([parts, rows]) => stockFold(parts, rows, isOpen)), andMore(shop.moreParts)];
}

function receiveOpener() {
  return el("button", {class: "small", text: tr`Receive`, "data-key": "receive", on: {click: () => $("receiveBatch").focus()}});
}

function stockGroups(parts) {
  const isGoing = part => shop.partsGoing.has(part.part);
  return groupsOf(parts, part => part.state !== "standing" ? part.part
    : `${isRemnant(part) ? "" : part.batch} ${part.w} ${part.h} ${isGoing(part)}`);
}

// A size, or all remnants, with its rows, which are shown when it is opened.
function stockFold(parts, rows, isOpen) {
  const [part] = parts, isRest = isRemnant(part), key = `f${shop.material} ${isRest ? "" : `${part.w} ${part.h}`}`;
  const reserved = parts.filter(row => row.state === "reserved").length;
  const what = isRest ? count(parts.length, "remnant") : sizeText(kindOf(shop.material), part.w, part.h);
  const more = [isRest ? "" : count(parts.length, "unit"), reserved ? tr`${reserved} reserved` : ""].filter(Boolean).join(", ");
  return el("details", {
    class: "fold",
    open: inStock.folds.get(key) ?? isOpen,
    on: {toggle: event => inStock.folds.set(key, event.target.open)}
  },
    el("summary", {"data-key": key}, what, el("span", {text: more})),
    el("div", {}, ...rows.map(stockRow)));
}

// Parts' names, those that follow one another as a range.
function namesOf(parts) {
  const runs = [];
  for (const {part} of parts) {
    const [act, node] = part.split("/").map(Number), run = runs[runs.length - 1];
    if (run && run.act === act && run.last === node - 1) run.last = node;
    else runs.push({act, first: node, last: node});
  }
  return runs.map(({act, first, last}) => `${act}/${first}${last > first ? tr` to ${act}/${last}` : ""}`).join(", ");
}

function stockRow(parts) {
  const [part] = parts, isGoing = shop.partsGoing.has(part.part), isMany = parts.length > 1 && isFree(part);
  const batches = [...new Set(parts.map(row => row.batch))].join(", ");
  const state = isGoing ? tr`waits for its answer` : part.state === "standing" ? tr`standing` : tr`reserved, job ${part.of}`;
  const what = parts.length > 1 ? count(parts.length, isRemnant(part) ? "remnant" : "unit")
    : isRemnant(part)           ? tr`remnant`
                                : tr`unit`;
  const rest = parts.length > 1
    ? el("details", {}, el("summary", {text: tr`one by one`, "data-key": `e${part.part}`}),
        ...parts.map(other => el("div", {class: "stocked"}, el("span", {class: "number", text: other.part}),
                       el("div", {class: "buttons"}, ...stockActs([other])))))
    : null;
  return el("div", {class: "stocked"},
    el("div", {}, el("b", {class: "number", text: sizeText(kindOf(shop.material), part.w, part.h)}),
      el("div", {text: `${what}, ${state}`}), el("div", {class: "quiet", text: tr`${namesOf(parts)}, batch ${batches}`})),
    el("div", {class: "buttons"}, isMany ? howManyField(parts) : null, ...stockActs(parts)), rest);
}

// How many parts of a row are to go, the first ones.
function howManyField(parts) {
  const [{part}] = parts;
  return el("label", {class: "quiet"}, tr`how many `, el("input", {
    inputmode: "numeric",
    autocomplete: "off",
    "data-key": `n${part}`,
    "data-count": part,
    "aria-label": tr`How many of the ${parts.length} that begin with ${part}`,
    value: "1",
    typed: inStock.wanted.get(part),
    on: {
      input: event => {
        inStock.wanted.set(part, event.target.value);
        event.target.removeAttribute("aria-invalid");
      }
    }
  }));
}

function stockActs(parts) {
  const [part] = parts, key = parts.length > 1 ? "m" : "";
  const act = (text, letter, go) => el("button", {
    class: "small",
    text,
    "data-key": `${key}${letter}${part.part}`,
    "aria-label": `${text} ${parts.length > 1 ? tr`of the ${parts.length} that begin with ` : ""}${part.part}`,
    on: {click: go}
  });
  return [
    parts.length === 1 ? act(tr`Trace`, "t", () => trace(part.part)) : null,
    isFree(part) ? act(tr`Scrap`, "s", () => takeAway("scrap", tr`Scrap`, parts)) : null,
    isFree(part) && !isRemnant(part) ? act(tr`Return`, "r", () => takeAway("return", tr`Return`, parts)) : null
  ];
}

// Scraps or returns the first of these parts, as many as are wanted, after one question.
async function takeAway(word, words, parts) {
  const field = document.querySelector(`[data-count="${CSS.escape(parts[0].part)}"]`);
  const wanted = parts.length > 1 ? readWhole(field.value, 1, parts.length) : 1;
  if (wanted === null) {
    field.setAttribute("aria-invalid", "true");
    field.focus();
    return tell(tr`${words}: write how many, a whole number from 1 to ${parts.length}`, "refused");
  }
  const chosen = parts.slice(0, wanted), [{part, w, h}] = chosen, size = sizeText(kindOf(shop.material), w, h);
  const what = wanted > 1 ? `${words} ${wanted} × ${shop.material} ${size}` : `${words} ${part}`;
  const asked = wanted > 1 ? `${what} (${namesOf(chosen)})` : `${what}, ${shop.material} ${size}`;
  if (!await confirmed(tr`${asked}? This can't be taken back.`, wanted > 1 ? `${words} ${wanted}` : words)) return;
  inStock.wanted.delete(part);
  if (wanted === 1) send({do: word, part}, what, showView);
  else {
    const commands = chosen.map(({part: name}) => [`${words} ${name}`, {do: word, part: name}]);
    sendMany(what, commands, showView);
  }
  showView();
}

function adaptReceive() {
  const isBar = kindOf($("receiveMaterial").value) === "bar";
  $("receiveH").disabled = isBar;
  if (!isBar) return;
  $("receiveH").value = "";
  markField($("receiveH"), "");
}

function receive(event) {
  event.preventDefault();
  const material = $("receiveMaterial").value, kind = kindOf(material), batch = readCode("receiveBatch");
  const [length, high, pieces] = ["receiveW", "receiveH", "receiveCount"].map(id => $(id).value.trim());
  const width = kind === "bar" ? "0.1" : high;
  showFault("receiveFault", material ? "" : NO_MATERIAL);
  if (!material) return;
  markFields($("receiveForm"), {
    batch: codeFault(batch),
    length: lengthFault(length, 200000),
    width: lengthFault(width, 60000),
    units: wholeFault(pieces, 100)
  });
  if (goToFault($("receiveForm"))) return;
  const w = readMm(length), h = readMm(width), units = Number(pieces);
  const typed = RECEIPT_FIELDS.map(id => $(id).value), isEmpty = () => !RECEIPT_FIELDS.slice(1, 4).some(id => $(id).value);
  const what = tr`Receive ${units} × ${material} ${sizeText(kind, w, h)}`;
  const command = {batch, count: units, do: "receive", h, material, w};
  const shown = () => viewName() === "stock" && pickMaterial(material);
  if (send(command, what, shown, givenBack(isEmpty, () => fillReceipt(typed)))) fillReceipt([material, "", "", "", "1"]);
}

const RECEIPT_FIELDS = ["receiveMaterial", "receiveBatch", "receiveW", "receiveH", "receiveCount"];

function fillReceipt(texts) {
  markFields($("receiveForm"), {});
  RECEIPT_FIELDS.forEach((id, i) => {
    $(id).value = texts[i];
  });
  adaptReceive();
}

// Looks for a part, for a batch, or for neither.
function seek(name, batch = "") {
  Object.assign(traced, {name, batch, isNew: Boolean(name || batch)});
  if (name || batch) $("tracePart").value = name;
}

function trace(name) {
  seek(name);
  if (PART_NAME.test(name)) go(`part/${name}`);
  showStock();
}

const MAX_CHAIN = 50;

// As `told` has it the part, then the part that its job cut, and so on, the unit last; lacks: the path of what isn't told of it. A job's
// number is its act's.
function chainOf(name, told) {
  const chain = [];
  for (let part = name; part !== chain[chain.length - 1]?.part;) {
    const path = `/trace/${part}`, row = told(path), by = `/job/${part.split("/")[0]}`, isUnit = row?.root === part;
    if (!row?.ok || !(isUnit || told(by)?.ok)) return {chain, lacks: row?.ok ? by : path};
    chain.push(row);
    if (!isUnit) part = chain.length < MAX_CHAIN ? told(by).part : row.root;
  }
  const [{state, of}] = chain;
  return {chain, lacks: state === "piece" && !lineOfDemand(of).order ? `/demand/${of}` : ""};
}

async function readTraced() {
  const {name, batch} = traced;
  if (batch) await partsOfBatch(batch);
  if (batch) await piecesOfBatch(batch);
  if (!PART_NAME.test(name)) return;
  for (let lacks; lacks = chainOf(name, factOf).lacks;) await askCalmly(lacks);
  if (chainOf(name, toldOf).chain.length === 1) await readPages(`/pieces/unit/${name}`);
}

// What is looked for comes into sight where it lies below all else.
function showTraced() {
  const {name, batch} = traced, isPart = PART_NAME.test(name), {chain, lacks} = isPart ? chainOf(name, toldOf) : {lacks: "none"};
  fill($("traceWords"), () => batch ? batchRows(batch) : isPart ? partRows(name, chain, lacks)
    : name ? el("p", {class: "fault", text: tr`A part's name is a number, / and a number, like 2/4.`}) : []);
  fill($("tracePicture"), () => lacks ? [] : drawTrace($("tracePicture"), chain, chainKind(chain)));
  if (!traced.isNew || (lacks && !toldOf(`/pieces/batch/${batch}`).ok)) return;
  traced.isNew = false;
  if (window.innerWidth < NARROW) $("tracePanel").scrollIntoView({block: "nearest"});
}

function partRows(name, chain, lacks) {
  const {refused, ...reply} = toldOf(lacks), {pieces = [], more} = chain.length === 1 ? toldOf(`/pieces/unit/${name}`) : {};
  if (refused) return el("p", {class: "fault", text: refusedWords({refused, ...reply})});
  return lacks ? quiet("…") : [...traceWords(chain), ...pieceRows(tr`Pieces of orders`, pieces, "order", more)];
}

// The trace doesn't tell the kind of the material: a unit that is a tenth high is a bar.
function chainKind(chain) { return chain[chain.length - 1].h === 1 ? "bar" : "sheet"; }

function traceWords(chain) {
  const part = chain[0], unit = chain[chain.length - 1], kind = chainKind(chain);
  const {order, line} = lineOfDemand(part.of);
  const state = {
    reserved: tr`reserved for job ${part.of}`,
    cut: tr`cut by job ${part.of}`,
    piece: tr`a piece of order ${order}, line ${line} (no. ${part.of})`,
    kerf: tr`taken by the saw`,
    standing: tr`stands`,
    scrap: tr`scrap`,
    returned: tr`returned to its supplier`,
    undone: tr`not cut, as job ${part.of} was taken back`
  }[part.state];
  const at = kind === "bar" ? `${mm(part.x)}\u00a0mm` : tr`${mm(part.x)}\u00a0mm from the left, ${mm(part.y)}\u00a0mm from the top`;
  const where = chain.length === 1 ? tr`It is a unit as it was received.`
                                   : tr`It lay in unit ${unit.part} (${sizeText(kind, unit.w, unit.h)}) at ${at}.`;
  const came = chain.slice(0, -1)
                 .map((from, i) => tr`${from.part} came of job ${from.part.split("/")[0]}, which cut ${chain[i + 1].part}`)
                 .join("; ");
  return [
    el("p", {}, el("b", {text: `${part.part}, ${sizeText(kind, part.w, part.h)}: ${state}.`})),
    el("p", {text: where}), came ? quiet(`${came}.`) : "", linkTo(`batch/${part.batch}`, tr`Batch ${part.batch}`),
    part.state === "piece" ? linkTo(`order/${order}`, tr`Order ${order}`) : "",
    ["reserved", "cut"].includes(part.state) ? linkTo(`saw/${part.of}`, tr`Job ${part.of}`) : "", storyLink("part", part.part)
  ];
}

// The units and remnants of a batch that stand or are reserved, of all materials, as far as they are known.
function partsKnown(batch) { return shop.materials.flatMap(({material}) => knownOf(material).parts).filter(part => part.batch === batch); }

async function partsOfBatch(batch) {
  for (const {material} of shop.materials) await readParts(material);
  return partsKnown(batch);
}

function piecesOfBatch(batch) { return readPages(`/pieces/batch/${batch}`); }

function batchRows(batch) {
  const parts = partsKnown(batch), {ok, pieces = [], more} = toldOf(`/pieces/batch/${batch}`);
  const rows = groupsOf(parts, ({material, w, h, state, of, root, part}) => [material, w, h, state, of, root === part].join(" "));
  return !ok ? quiet("…") : [
    el("h3", {text: tr`Batch ${batch}`}), parts.length ? null : quiet(tr`Nothing of it stands or is reserved.`),
    ...rows.map(same => {
      const [part] = same, what = count(same.length, isRemnant(part) ? "remnant" : "unit");
      return el("div", {class: "stocked"},
        el("div", {}, el("b", {class: "number", text: `${part.material} ${sizeText(kindOf(part.material), part.w, part.h)}`}),
          el("div", {text: `${what}, ${part.state === "standing" ? tr`standing` : tr`reserved, job ${part.of}`}`}),
          el("div", {class: "quiet", text: namesOf(same)})),
        el("div", {class: "buttons"}, linkTo(`part/${part.part}`, tr`Trace`, `${tr`Trace`} ${part.part}`)));
    }),
    ...pieceRows(tr`Pieces of orders`, pieces, "order", more)
  ];
}
