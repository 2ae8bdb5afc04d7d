// ---- What the plans of all look like: a list of pictures to one scale, and what they come to.

const MAX_CARDS = 60;

function showPlans() {
  const plans = shownPlans(), {found, part} = toCut;
  fill($("planList"), () => plans.length ? planCards(plans) : []);
  fill($("planFigures"), () => plans.length ? planFigures(found, part) : []);
  fill($("boundSays"), () => found && !part ? boundRow(found) : []);
  fill($("missing"), () => part ? [] : missingRows(found));
  $("reserve").disabled = !canReserve(plans);
  $("reserve").hidden = Boolean(staleWords());
  $("planAgain").hidden = !staleWords();
  $("reserve").textContent = part ? tr`Reserve ${part}` : tr`Reserve all`;
}

function canReserve(plans) {
  return plans.some(plan => plan.parts.length && plan.counts.size) && !toCut.found.sent && !staleWords();
}

// What the bound says, and a button that searches longer, where that may find more.
function boundRow(found) {
  const {asked: {code}, proved, sent, calls, goes} = found;
  const isOver = plansOf(code).planning || proved || sent || calls >= MAX_CALLS || goes.length > 1;
  const longer = {class: "small", text: tr`Search longer`, "data-key": `longer ${code}`, on: {click: () => searchOn(code)}};
  return el("p", {}, el("b", {text: boundSays(found)}), " ", isOver ? null : el("button", longer));
}

// The largest plan gives the scale of all. Where there is room the pieces stand beside the picture.
function planCards(plans) {
  const largest = {w: Math.max(...plans.map(plan => plan.w)), h: Math.max(...plans.map(plan => plan.h))};
  const wide = $("planList").clientWidth - 22, isBeside = wide >= 460 && plans[0].material.kind !== "bar";
  const size = {room: Math.max(180, isBeside ? wide - 202 : wide), largest, isPlain: true};
  const cards = plans.slice(0, MAX_CARDS).map(plan => planCard(plan, size, isBeside));
  if (plans.length > MAX_CARDS) cards.push(quiet(tr`And ${count(plans.length - MAX_CARDS, "other plan")}.`));
  const [{material}] = plans, boxes = plans.slice(0, MAX_CARDS).flatMap(plan => layPlan(plan.root, material));
  return [...cards, legendOf(boxes, material)];
}

// A plan with how often it is cut, from which parts, and whose its pieces are.
function planCard(plan, size, isBeside) {
  const {material, root, parts, buy, isRest} = plan, many = unitsOf(plan), holder = el("div", {class: "picture"});
  drawPlan(holder, root, material, {wordsOf: pieceWords, hasLegend: false, ...size});
  const kindTag = buy ? tr`to buy` : isRest ? tr`remnant` : "";
  const head = el("h3", {}, many > 1 ? el("span", {class: "same", text: `${many} × `}) : null,
    sizeText(material.kind, plan.w, plan.h), kindTag ? el("span", {class: "tag", text: kindTag}) : null,
    parts.length ? el("span", {class: "quiet", text: `${namesOf(parts.map(part => ({part})))}${jobsWords(parts, material)}`}) : null);
  return el("section", {class: `planned${isBeside ? " beside" : ""}`}, head, holder,
    pieceList(material.kind, layPlan(root, material)));
}

// Whose the pieces of a plan are, and what is kept of it.
function pieceList(kind, boxes) {
  const pieces = groupsOf(boxes.filter(box => box.fate === "piece"), box => box.demand);
  const rests = groupsOf(boxes.filter(box => box.fate === "kept"), box => `${box.w} ${box.h}`).map(same =>
    `${same.length > 1 ? `${same.length} × ` : ""}${sizeText(kind, same[0].w, same[0].h)}`);
  return el("ul", {}, ...pieces.map(same => pieceItem(same.length, pieceSize(kind, same[0]), same[0].demand)),
    rests.length ? el("li", {class: "rests"}, el("span", {text: tr`Kept on the rack: ${rests.join(", ")}`})) : null);
}

function pieceItem(pieces, size, demand) {
  return el("li", {}, el("b", {class: "number", text: `${grouped(pieces)} × ${size}`}), el("span", {text: lineWords(demand)}));
}

// Whose a demand is.
function lineWords(demand) {
  const {order = "?", line = "?"} = lineOfDemand(demand);
  return tr`${order}, line ${line} (no. ${demand})`;
}

// The jobs that parts were reserved as.
function jobsWords(parts, {material}) {
  const jobs = parts.map(part => plansOf(material).found?.jobs.get(part)).filter(Boolean);
  return jobs.length ? `: ${jobs.length > 1 ? tr`jobs ${jobs.join(", ")}` : tr`job ${jobs[0]}`}` : "";
}

function planFigures({plans}, part) {
  const [{material}] = plans, {kind} = material, cells = {piece: 0, kept: 0, kerf: 0, scrap: 0};
  let whole = 0, cuts = 0;
  for (const plan of plans) {
    const many = unitsOf(plan), by = cellsByFate(layPlan(plan.root, material));
    for (const fate of Object.keys(cells)) cells[fate] += many * by[fate];
    whole += many * plan.w * plan.h;
    cuts += many * plan.root.cuts;
  }
  const rests = plans.flatMap(plan => layPlan(plan.root, material)).filter(box => box.fate === "kept");
  const largest = rests.reduce((a, b) => a && a.w * a.h >= b.w * b.h ? a : b, null), pieces = countOf(plans);
  return [
    part ? null : figure(usedWords({plans, material}), tr`are cut up`),
    figure(grouped(pieces), word(pieces === 1 ? "piece" : "pieces")),
    figure(grouped(cuts), word(cuts === 1 ? "cut" : "cuts")),
    figure(percent(cells.piece, whole), tr`in pieces`),
    largest ? figure(sizeText(kind, largest.w, largest.h), tr`largest rest`) : null,
    figure(percent(cells.kept, whole), part ? tr`kept as rests` : tr`kept as rests, ${cellsText(kind, cells.kept)}`),
    figure(percent(cells.kerf + cells.scrap, whole), tr`kerf and scrap`),
    part ? null : figure(String(plans.length), word(plans.length === 1 ? "different plan" : "different plans"))
  ];
}

// Whose the pieces are that aren't planned.
function missingRows(found) {
  if (!found?.missing.length) return [];
  const {missing, asked: {code}, material: {kind}} = found, {demands} = knownOf(code), rows = missing.map(({demand, pieces}) => {
    const row = demands.find(other => other.demand === demand);
    return pieceItem(pieces, row ? sizeText(kind, row.w, row.h) : "", demand);
  });
  return [el("h3", {text: plansOf(code).planning ? tr`Not placed yet` : tr`Not planned`}), el("ul", {}, ...rows)];
}

// A piece's demand and order, and whether it is turned.
function pieceWords({demand, turned}) {
  const {order} = lineOfDemand(demand);
  return [`${demand}${order ? ` · ${order}` : ""}${turned ? " ↻" : ""}`];
}
