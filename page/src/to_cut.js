// ---- To cut.

// leftOut, partsOut: the demands and the parts that are left out, by their keys. Of each material, and so of the chosen one: part:
// the one that is planned alone, or none where all that stands is; like: what others have in common with it; only: the order that
// is planned alone, if one is; found: the plans that were found; waits: whether planning waits for the answer to what was reserved
// before; note: what became of what was planned.
const NO_PLANS = {part: "", like: "", only: "", found: null, planning: null, waits: false, note: "", fault: ""};

const plansByMaterial = new Map();

// The plans of a material stay until they are reserved or something of them changes, whatever is looked at meanwhile.
function plansOf(code = shop.material) {
  if (!plansByMaterial.has(code)) plansByMaterial.set(code, {...NO_PLANS, code});
  return plansByMaterial.get(code);
}

// all: what stops the planning of all materials, while it goes on; isOne: whether one material was looked at last; folds: which orders a
// person unfolded or folded.
const toCut = {
  all: null,
  isOne: true,
  folds: new Map(),
  leftOut: readOut("cutshop.leftOut"),
  partsOut: readOut("cutshop.partsOut")
};
for (const key of Object.keys(NO_PLANS))
  Object.defineProperty(toCut, key, {get: () => plansOf()[key], set: value => { plansOf()[key] = value; }});

function showToCut() {
  const hadFocus = $("planPanel").contains(document.activeElement);
  notePromised();
  fill($("wanted"), wantedRows);
  $("fromPanel").hidden = isAllShown();
  if (isAllShown()) return showAllMaterials();
  passOverTaken();
  fill($("cutFrom"), () => cutFromRows(partChoices()));
  showQuestion();
  showPlans();
  if (hadFocus && isLost(document.activeElement)) focusNextStep();
}

// Where the part that is planned alone was taken by another terminal, its plans go, and that is told; the next of its batch and
// size is planned in its place.
function passOverTaken() {
  const {part, like} = toCut;
  if (!part || shop.partsOf !== shop.material || shop.moreParts) return;
  if (shop.parts.some(row => row.part === part && row.state === "standing")) return;
  const next = shop.parts.find(row => isFree(row) && likenessOf(row) === like);
  const words = tr`Part ${part} doesn't stand any more: it was taken elsewhere.`;
  if (next) planOrder({part: next.part});
  else forgetPlans();
  toCut.note = next ? `${words} ${tr`${next.part} is planned in its place.`}` : words;
  say(toCut.note);
}

// Where the next step is: what was planned is reserved, then printed; else all is planned.
function focusNextStep() {
  const next = ["planAgain", "reserve", toCut.found?.sent ? "printAll" : "planAll", "planAll"].find(id => !$(id).disabled && !$(id).hidden);
  $(next || "planTitle").focus({preventScroll: true});
}

function wantedRows() {
  const demands = wantedNow();
  if (!demands.length)
    return [
      quiet(shop.materials.length ? tr`Nothing to cut.` : noMaterial()), opener("orders", tr`New order`)
    ];
  const left = demands.filter(row => leftOf(row) > 0), out = left.filter(isLeftOut);
  const going = shownCodes().flatMap(code => knownOf(code).demands).filter((row, i) => leftOf(row) > 0 && leftOf(demands[i]) === 0).length;
  const all = demands.length - left.length - going;
  return [
    out.length ? el("div", {class: "buttons"}, tr`${count(out.length, ...KINDS)} left out`, putBackButton(out)) : null,
    left.length ? demandTable(left) : null,
    going ? quiet(tr`${count(going, ...KINDS)}: all being reserved.`) : null,
    all ? quiet(tr`${count(all, ...left.length ? OTHER_KINDS : KINDS)}: all made or reserved.`) : null,
    left.length ? null : opener("saw", tr`At the saw`), andMore(shownCodes().some(code => knownOf(code).moreDemands))
  ];
}

// The orders of which something is left, the earliest due first, and below those that are unfolded their lines: few are at first.
function demandTable(rows) {
  const isFew = rows.length <= MAX_OPEN, isOpen = ([{order}]) => toCut.folds.get(order) ?? isFew;
  const orders = groupsOf(rows, row => row.order).sort(([a], [b]) => byDay(a, b));
  const head = ["", tr`Line`, tr`Size in mm`, tr`Left`, tr`No.`].map(
    (text, i) => el("th", {text, scope: "col", class: i > 2 ? "right" : "", title: i === 4 ? tr`the number of these pieces wanted` : ""}));
  return el("div", {class: "scroll"}, el("table", {class: "demands"}, el("thead", {hidden: !orders.some(isOpen)}, el("tr", {}, ...head)),
    ...orders.map(same => el("tbody", {}, orderRow(same, isOpen(same)), ...isOpen(same) ? same.map(demandRow) : []))));
}

function putBackButton(rows) {
  return el("button",
    {class: "small", id: "putBack", text: tr`Put all back`, "data-key": "back", on: {click: () => passOver(rows, false)}});
}

// An order, with one box for all of its demands, and a button that unfolds them.
function orderRow(rows, isOpen) {
  const chosen = rows.filter(row => !isLeftOut(row)), [{order}] = rows;
  const box = el("input", {
    type: "checkbox",
    "data-key": `o${order}`,
    checked: chosen.length > 0,
    indeterminate: chosen.length > 0 && chosen.length < rows.length,
    "aria-label": tr`All of order ${order}`,
    on: {change: event => passOver(rows, !event.target.checked)}
  });
  const fold = el("button", {
    class: "unfold",
    text: order,
    "data-key": `fold${order}`,
    "aria-expanded": String(isOpen),
    "aria-label": tr`Lines of order ${order}`,
    on: {
      click: () => {
        toCut.folds.set(order, !isOpen);
        showToCut();
      }
    }
  });
  const only = el("button", {
    class: "small",
    text: tr`Only this`,
    "data-key": `only${order}`,
    "aria-label": tr`Plan order ${order} alone`,
    "aria-pressed": String(shownCodes().some(code => plansOf(code).only === order)),
    on: {click: () => isAllShown() ? planEach(order) : planOnly(order)}
  });
  const said = [dueWords(rows[0]), facts.orders.get(order)?.text, tr`${grouped(sumLeft(rows))} left`].filter(Boolean).join(", ");
  return el("tr", {class: "order"}, el("td", {colspan: "5"},
    el("div", {class: "orderhead"}, box, fold, only, el("span", {class: "quiet", text: said}))));
}

function sumLeft(rows) { return rows.reduce((sum, row) => sum + leftOf(row), 0); }

// Reads what is said of the orders that are wanted.
function readWantedTexts() { return readTexts([...new Set(wantedNow().map(({order}) => order))]); }


// What is left out stays so in this browser: a demand by its number, order and line, a part by what it has in common with
// others, so that no other store's is meant.
const MAX_LEFT_OUT = 1000;

function readOut(key) { return new Set(storage.read(key, [])); }

function leftOutKey(row) { return `${row.demand} ${row.order} ${row.line}`; }

function partOutKey(part) {
  const rest = isRemnant(part) ? [part.root, part.w, part.h] : [];
  return [part.material, likenessOf(part), ...rest].join(" ");
}

function isLeftOut(row) { return toCut.leftOut.has(leftOutKey(row)); }

function isPartOut(part) { return toCut.partsOut.has(partOutKey(part)); }

function passOver(rows, isOver) {
  leaveOut("leftOut", rows, leftOutKey, isOver);
  say(`${count(rows.length, ...KINDS)} ${isOver ? tr`left out` : tr`taken in`}`);
}

function passOverParts(parts, isOver) {
  leaveOut("partsOut", parts, partOutKey, isOver);
  say(`${parts.map(part => part.part).join(", ")} ${isOver ? tr`left out` : tr`taken in`}`);
}

// The plans of what is left out or taken in go.
function leaveOut(name, rows, keyOfRow, isOver) {
  const out = toCut[name];
  for (const key of rows.map(keyOfRow))
    if (isOver) out.add(key);
    else out.delete(key);
  try {
    storage.write(`cutshop.${name}`, [...out].slice(-MAX_LEFT_OUT));
  } catch { tell(tr`This browser can't keep what is left out: it is forgotten with this page.`, "refused"); }
  for (const {material} of rows) forgetPlans(material);
  showToCut();
}

// A demand of which something is left; a click anywhere in its line takes it in or leaves it out.
function demandRow(row) {
  const size = sizeText(kindOf(row.material), row.w, row.h), right = text => el("td", {class: "right", text});
  const box = el("input", {
    type: "checkbox",
    "data-key": `d${row.demand}`,
    checked: !isLeftOut(row),
    "aria-label": tr`Line ${row.line} of order ${row.order}: ${leftOf(row)} of ${size}`,
    on: {change: event => passOver([row], !event.target.checked)}
  });
  return el("tr", {
    class: "demand",
    title: tr`${progressWords(row)}; price for the planner ${grouped(row.worth)}${row.turn ? tr`; may turn` : ""}`,
    on: {click: event => event.target === box || box.click()}
  },
    el("td", {}, box), el("td", {text: String(row.line)}),
    el("td", {class: "number"}, el("b", {text: size.replace("\u00a0mm", "")}),
      row.turn ? el("span", {text: " ↻", "aria-label": tr`may turn`}) : null, isAllShown() ? el("div", {class: "quiet", text: row.material}) : null),
    right(tr`${grouped(leftOf(row))} of ${grouped(row.wanted)}`), right(String(row.demand)));
}

// What is planned: of one order alone its lines, also those that are left out where all are; else all that isn't left out.
function chosenDemands(code = shop.material, only = plansOf(code).only) {
  const left = demandsToCut(code).filter(row => leftOf(row) > 0).sort(byDay), chosen = left.filter(row => !isLeftOut(row));
  if (!only) return chosen;
  const lines = rows => rows.filter(row => row.order === only);
  return lines(chosen).length ? lines(chosen) : lines(left);
}

// What units have in common that are one row: batch and size. A remnant is a row of its own.
function likenessOf(part) { return isRemnant(part) ? part.part : `${part.batch} ${part.w} ${part.h}`; }

// Standing parts, those first that something fits, remnants before units and small ones before large ones; units of one
// batch and size are one row.
function partChoices() {
  const groups = new Map(), chosen = chosenDemands();
  for (const part of shop.parts.filter(isFree)) {
    const key = likenessOf(part);
    if (groups.has(key)) groups.get(key).units++;
    else
      groups.set(
        key, {...part, units: 1, remnant: isRemnant(part), fits: chosen.filter(row => fitsPart(row, part)).length});
  }
  return [...groups.values()].sort((a, b) => (b.fits > 0) - (a.fits > 0) || b.remnant - a.remnant || a.w * a.h - b.w * b.h);
}

function cutFromRows(choices) {
  if (!choices.length)
    return [quiet(shop.partsOf ? tr`No stock of ${shop.material}.` : noMaterial()), opener("stock", tr`Receive`)];
  const out = choices.filter(isPartOut);
  const back = el("button",
    {class: "small", text: tr`Put all back`, "data-key": "parts back", on: {click: () => passOverParts(out, false)}});
  return [
    out.length ? el("div", {class: "buttons"}, tr`${count(out.length, "size")} left out`, back) : null, ...choices.map(partRow),
    andMore(shop.moreParts)
  ];
}

function fitWords(fits) { return fits === 1 ? tr`${count(1, ...KINDS)} fits` : tr`${count(fits, ...KINDS)} fit`; }

// A part, or units of one size: a box takes them in or leaves them out, a button plans one of them alone.
function partRow(part) {
  const size = sizeText(kindOf(shop.material), part.w, part.h), isChosen = part.part === toCut.part;
  return el("div", {class: `row${isChosen ? " chosen" : ""}`},
    el("label", {}, el("input", {
      type: "checkbox",
      "data-key": `b${part.part}`,
      checked: !isPartOut(part),
      "aria-label": tr`Cut from ${size}, ${part.part}`,
      on: {change: event => passOverParts([part], !event.target.checked)}
    }),
      el("b", {class: "number", text: size}),
      el("span", {class: "tag", text: part.remnant ? tr`remnant` : count(part.units, "unit")}),
      el("div", {}, el("div", {class: "quiet", text: tr`${part.part}, batch ${part.batch}`}), el("div", {
          class: "quiet",
          text: part.fits ? fitWords(part.fits) : tr`nothing chosen fits`
        }))),
    el("button", {
      class: "small",
      text: tr`Alone`,
      "data-key": `p${part.part}`,
      "aria-label": tr`Plan ${part.part} alone`,
      disabled: !part.fits,
      on: {click: () => planAlone(part.part)}
    }));
}

function forgetPlans(code = shop.material) {
  plansByMaterial.get(code)?.planning?.abort();
  Object.assign(plansOf(code), NO_PLANS);
}

// How often a sheet may be turned between cuts, which is kept by material: a glass table or a panel saw takes so many runs of
// parallel cuts, 0 is any.
const STAGES = [0, 2, 3, 4], DEFAULT_STAGES = 4;

function stagesOf(code) {
  const kept = storage.read("cutshop.stages", {})[code];
  return STAGES.includes(kept) ? kept : DEFAULT_STAGES;
}

function chooseStages(code, stages) {
  try {
    storage.write("cutshop.stages", {...storage.read("cutshop.stages", {}), [code]: stages});
  } catch { tell(tr`This browser can't keep how often a sheet may be turned.`, "refused"); }
  forgetPlans(code);
  showToCut();
}

function showStages() {
  $("stagesField").hidden = !shop.material || kindOf(shop.material) === "bar";
  const now = stagesOf(shop.material);
  fill($("stages"),
    () => STAGES.map(stages => el("option", {value: String(stages), text: stages ? String(stages) : tr`any`, selected: stages === now})));
  if ($("stages").value !== String(now)) $("stages").value = String(now);
}
