// ---- What has to be bought: the same question, where units of one size may be bought besides.

// A receipt is of at most so many units.
const MAX_RECEIVED = 100;

// By material, what a person typed of the size to buy, by field.
const buying = new Map();

// The largest unit's sides, as they are filled in.
function sidesToBuy(code) {
  const [large] = knownOf(code).parts.filter(row => !isRemnant(row)).sort((a, b) => b.w * b.h - a.w * a.h);
  return large ? [mm(large.w), mm(large.h)] : ["", ""];
}

function buyForm(code, id = code) {
  const [length, width] = sidesToBuy(code), typed = buying.get(code) || {};
  const field = (letter, name, words, value) => el("label", {class: "field"}, words, el("input", {
    id: `buy${letter}${id}`,
    "data-key": `buy ${name} ${code}`,
    "data-field": name,
    inputmode: "decimal",
    autocomplete: "off",
    value,
    typed: typed[name],
    on: {input: ({target}) => buying.set(code, {...buying.get(code), [name]: target.value})}
  }));
  return el("form", {id: `buyForm${id}`, novalidate: "", on: {submit: event => planBuying(event, code)}},
    el("div", {class: "fields"}, field("W", "length", tr`Length in mm`, length),
      kindOf(code) === "bar" ? null : field("H", "width", tr`Width in mm`, width), el("button", {text: tr`Plan with such to buy`})));
}

// How much of what is bought the plans of a material take.
function boughtRows({asked: {buy, code}, plans}) {
  if (!buy) return [];
  const kind = kindOf(code), bought = plans.reduce((sum, plan) => sum + plan.buy, 0);
  const size = sizeText(kind, buy.w, buy.h), units = count(bought, ...unitWords(kind));
  if (!bought) return [el("p", {text: tr`None of ${size} has to be bought.`})];
  const words = bought === 1 ? tr`${units} of ${size} has to be bought.` : tr`${units} of ${size} have to be bought.`;
  const receive = bought > MAX_RECEIVED ? tr`Receive ${MAX_RECEIVED} of them` : tr`Receive them`;
  return [
    el("p", {}, el("b", {text: words})),
    el("button", {class: "small", text: receive, "data-key": `receive ${code}`, on: {click: () => receiveBought(code, buy, bought)}})
  ];
}

// What has to be bought of the chosen material.
function showBuying(isOpen) {
  const {found, part} = toCut, {isRead} = knownOf();
  $("buyPanel").hidden = !isOpen || Boolean(part);
  fill($("buyBox"), () => isRead ? buyForm(shop.material, "") : []);
  fill($("buyWords"), () => found ? boughtRows(found) : []);
}

// The same of one of several materials.
function buyPanel(found) {
  const {asked: {code}, missing} = found, key = `buy ${code}`;
  return el("details", {
    class: "buy",
    open: toCut.folds.get(key) ?? missing.length > 0,
    on: {toggle: ({target}) => toCut.folds.set(key, target.open)}
  },
    el("summary", {text: tr`What has to be bought?`, "data-key": key}), buyForm(code), ...boughtRows(found));
}

// Opens the stock with what was bought filled in.
function receiveBought(code, {w, h}, units) {
  fillReceipt([code, $("receiveBatch").value, mm(w), mm(h), String(Math.min(units, MAX_RECEIVED))]);
  go(`stock/${code}`);
}

function planBuying(event, code) {
  event.preventDefault();
  const form = event.target, text = name => form.querySelector(`[data-field=${name}]`)?.value.trim() ?? "0.1";
  markFields(form, {length: lengthFault(text("length"), kindOf(code) === "bar" ? MAX_BAR : 200000), width: lengthFault(text("width"), 60000)});
  if (!goToFault(form)) planOrder({code, only: plansOf(code).only, buy: {h: readMm(text("width")), w: readMm(text("length"))}});
}
