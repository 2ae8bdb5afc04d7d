// ---- Plans of all that is open from all that stands: the shop is asked again and again, each time for a longer search, as
// long as what it found isn't proved best, nobody stops it, and the time isn't over. Of sheets it makes its first plans only
// when it has a bound.

const ROUNDS = {bar: [20, 100, 500, 2000], sheet: [20, 200, 600, 2000]}, MAX_CALLS = 5000;
const PLAN_TIME = 18000, TIME_ALONE = 3000, CALLS_ALONE = 50;
const MAX_KINDS = 100, MAX_PARTS = 1000, MAX_BAR = 150000;
// A remnant costs so many hundredths of a unit of its size, so that what lies on the rack goes first.
const REMNANT_COST = 90;

function planAll() { return isAllShown() ? planEach() : planOrder(); }

function planAlone(part) {
  $("planTitle").focus({preventScroll: true});
  return planOrder({part});
}

// Plans one order alone; what is left out or taken in besides stays as it is.
function planOnly(only) {
  $("planTitle").focus({preventScroll: true});
  return planOrder({only});
}

// Plans what was planned once more, as it is left and stands by now.
function planAgain() {
  if (isAllShown()) return planEach(allFound()[0]?.asked.only, code => plansOf(code).found?.asked.buy);
  const {part, only, found} = toCut;
  return planOrder({part: found?.asked.part || part, only, buy: found?.asked.buy});
}

async function planOrder({part = "", only = "", buy = null, code = shop.material} = {}) {
  forgetPlans(code);
  const it = plansOf(code), planning = it.planning = new AbortController(), row = knownOf(code).parts.find(other => other.part === part);
  Object.assign(it, {part, only, like: row ? likenessOf(row) : "", waits: shop.promisedParts.size > 0});
  showToCut();
  if (!await promisesKept(it, planning)) return;
  await readLists(code);
  if (planning === it.planning) await searchPlans(it, planning, {code, part, only, buy}, roundAfter(code, 0), part ? TIME_ALONE : PLAN_TIME);
}

// What is planned has to be known as it is now; where it can't be read the question itself will tell.
async function readLists(code) {
  for (const read of [lookAtShop, readDemands, readParts]) await read(code).catch(() => {});
  if (viewName() === "tocut") showView();
}

// Waits for the answers to what was reserved before, on which a plan hangs; false where it is stopped meanwhile.
async function promisesKept(it, planning) {
  while (shop.promisedParts.size && !planning.signal.aborted) {
    await pause(50);
    notePromised();
  }
  if (planning !== it.planning) return false;
  it.waits = false;
  if (planning.signal.aborted) it.planning = null;
  showToCut();
  return !planning.signal.aborted;
}

// A question names at most MAX_KINDS demands. Of more the next ones get a question of their own, and the parts that are left.
// Plans of several questions count together only where nothing happened in the shop from before the first until behind the last: else the
// first one's stand alone.
async function searchPlans(it, planning, asked, calls, time) {
  const goes = [], before = facts.last, chosen = chosenDemands(asked.code, asked.only).map(row => row.demand);
  do {
    const from = goes.length * MAX_KINDS, taken = new Set(goes.flatMap(go => go.plans.flatMap(plan => plan.parts)));
    const named = {...asked, demands: chosen.slice(from, from + MAX_KINDS), taken};
    if (!await searchGo(it, planning, named, goes, goes.length, calls, time)) break;
  } while (goes.length * MAX_KINDS < chosen.length && !planning.signal.aborted);
  if (goes.length > 1) await lookAtShop().catch(() => {});
  if (planning !== it.planning) return;
  if (goes.length > 1 && facts.last !== before) {
    it.found = {...it.found, ...foundBy(goes.slice(0, 1)), goes: goes.slice(0, 1)};
    it.note = tr`Something happened meanwhile: these are the most urgent ${MAX_KINDS} kinds alone.`;
  }
  searchOver(it);
}

function searchOver(it) {
  const isShown = it.code === shop.material;
  it.planning = null;
  if (it.found?.missing.length && !it.part && isShown && !isAllShown()) $("buyPanel").open = true;
  showToCut();
  if (isShown || isAllShown()) sayPlans(it.code);
  if (isShown && window.innerWidth < NARROW && viewName() === "tocut" && shownPlans().length) $("planTitle").scrollIntoView();
}

// Searches for the plans of one question, and puts what it found at this place; false where it found none or another search began.
async function searchGo(it, planning, asked, goes, place, calls, time) {
  const begun = performance.now(), stop = new AbortController(), {code} = asked;
  planning.signal.addEventListener("abort", () => stop.abort());
  const late = Number.isFinite(time) && setTimeout(() => goes[place] && stop.abort(), time);
  let early = null;
  while (calls && !planning.signal.aborted) {
    const from = performance.now(), told = await askPlans(it, asked, calls, stop.signal);
    if (told) await learnPieces(told.reply);
    if (planning !== it.planning || !told) break;
    const next = roundAfter(code, calls);
    early = !goes[place] && isEarly(told.reply) && next ? told : null;
    if (!early) takePlans(it, asked, goes, place, told, calls);
    showToCut();
    const isOver = !early && (goes[place].proved || (asked.part && calls > CALLS_ALONE));
    calls = isOver ? 0 : early ? next : nextCalls(code, calls, performance.now() - from, begun + time - performance.now());
  }
  clearTimeout(late);
  if (planning !== it.planning) return false;
  if (early) takePlans(it, asked, goes, place, early, calls);
  return Boolean(goes[place]);
}

function roundAfter(code, calls) { return ROUNDS[kindOf(code)].find(round => round > calls) || 0; }

// Whether the search hadn't come to plans of its own yet: what it couldn't leave open fills the units piece by piece.
function isEarly({bound, missing}) { return bound === 0 && missing.length > 0; }

// How long the next search may be, or 0 where no longer one comes to its end in the time that is left.
function nextCalls(code, calls, took, left) {
  const fit = Math.floor(calls * left * 0.8 / took), next = Math.min(roundAfter(code, calls), fit);
  return next >= 1.5 * calls ? next : 0;
}

// Searches on from what was found, as long as it takes, for what is left and stands by now.
async function searchOn(code = shop.material) {
  const it = plansOf(code), planning = it.planning = new AbortController(), {asked, goes} = it.found;
  showToCut();
  await readLists(it.code);
  const demands = chosenDemands(it.code, asked.only).slice(0, MAX_KINDS).map(row => row.demand);
  if (planning !== it.planning || !await searchGo(it, planning, {...asked, demands}, goes.slice(), 0, MAX_CALLS, Infinity)) return;
  searchOver(it);
}

function stopPlan() {
  toCut.all?.abort();
  for (const it of plansByMaterial.values()) it.planning?.abort();
  $("stopPlan").disabled = true;
}

// What is asked: the demands and the parts are named, so that what is found is known to be of these; parts aren't where there are
// more than are known.
function plansQuestion({code, part, buy, demands, taken = new Set()}, calls) {
  const query = {ask: "plans", calls, demands, material: code}, stock = freeParts(code), {moreParts} = knownOf(code);
  if (kindOf(code) !== "bar" && stagesOf(code)) query.stages = stagesOf(code);
  if (part) query.parts = [part];
  else if (!moreParts || shop.partsGoing.size || taken.size || stock.some(isPartOut))
    query.parts = partNames(stock.filter(row => !isPartOut(row) && !taken.has(row.part)));
  if (buy) query.buy = [buy];
  return query;
}

// What an answer is of: how many pieces of which demands, from which parts and units to buy; or nothing where the question didn't
// name its parts. (Each piece that is left is planned or told as missing.)
function answerOf({parts, buy, material}, {plans, missing}) {
  const pieces = new Map(missing.map(row => [row.demand, row.pieces]));
  for (const plan of plans)
    for (const [demand, inOne] of countPieces(plan.tree)) pieces.set(demand, (pieces.get(demand) || 0) + inOne * unitsOf(plan));
  return parts ? JSON.stringify([material, parts, buy, [...pieces].sort((a, b) => a[0] - b[0])]) : null;
}

function partNames(parts) { return parts.slice(0, MAX_PARTS).map(row => row.part); }

// The parts of which plans may be made.
function freeParts(code = shop.material) {
  const isBar = kindOf(code) === "bar";
  return knownOf(code).parts.filter(row => isFree(row) && !(isBar && row.w > MAX_BAR));
}

// So often a question is asked again, each time without the parts that another terminal took just now.
const MAX_AGAIN = 5;

// The shop's answer with what it is of, or nothing where it was stopped or refused.
async function askPlans(it, asked, calls, signal, again = MAX_AGAIN) {
  const query = plansQuestion(asked, calls);
  try {
    const reply = await ask("/plans", {body: JSON.stringify(query), patience: 600000, signal, beside: true});
    return {reply, of: answerOf(query, reply)};
  } catch (error) {
    if (signal.aborted) return null;
    if (again && !asked.part && (isRefused(error, 50) || isRefused(error, 51))) {
      await readLists(asked.code);
      return askPlans(it, asked, calls, signal, again - 1);
    }
    it.fault = tr`No plan came: ${await faultWords(error)}.`;
    return null;
  }
}

// Reads whose the pieces are, where that isn't known yet.
async function learnPieces({plans, missing}) {
  const demands = new Set([...plans.flatMap(plan => [...countPieces(plan.tree).keys()]), ...missing.map(row => row.demand)]);
  for (const demand of demands)
    if (!lineOfDemand(demand).order) await ask(`/demand/${demand}`).catch(() => {});
}

// Takes what was found where it is better than what is shown: plans, bound and what is proved are one answer's own. What is shown
// counts only where both are of the same pieces and parts: else it goes.
function takePlans(it, asked, goes, place, {reply, of}, calls) {
  const material = materialOf(asked.code), old = of !== null && goes[place]?.of === of ? goes[place] : null;
  const isWorse =
    old && (piecesOf(old.missing) - piecesOf(reply.missing) || old.cost - reply.cost || reply.rest - old.rest) < 0;
  const best = isWorse ? old : {...reply, plans: reply.plans.map(plan => foundPlan(plan, material))};
  goes[place] = {...best, of, calls};
  it.found = {...foundBy(goes), asked, of, material, goes, calls, sizes: sizesOfStock(asked), jobs: new Map(), refused: [], sent: null};
}

// What several questions found, one behind another: nothing is known of all together but what they take.
function foundBy(goes) {
  if (goes.length === 1) return goes[0];
  const all = key => goes.flatMap(go => go[key]), sum = key => goes.reduce((so, go) => so + go[key], 0);
  return {plans: all("plans"), missing: all("missing"), cost: sum("cost"), bound: 0, proved: false, short: goes.some(go => go.short)};
}

// A plan with its parts: whether they are remnants, and what it is made of.
function foundPlan(plan, material) {
  const part = knownOf(material.material).parts.find(row => row.part === plan.parts[0]);
  return {
    ...plan,
    part: plan.parts[0],
    material,
    isRest: Boolean(part && isRemnant(part)),
    root: readPlan(plan.tree, plan.w, plan.h, material.kerf),
    counts: countPieces(plan.tree)
  };
}

// What the sizes of a question's stock cost, each once: sides, whether of a remnant, cost.
function sizesOfStock({code, part, buy}) {
  const parts = part ? knownOf(code).parts.filter(row => row.part === part) : freeParts(code).filter(row => !isPartOut(row));
  const sizes = new Map(parts.map(row => [`${row.w} ${row.h} ${isRemnant(row)}`,
    {w: row.w, h: row.h, isRest: isRemnant(row), cost: row.w * row.h * (isRemnant(row) ? REMNANT_COST : 100)}]));
  if (buy) sizes.set(`${buy.w} ${buy.h} false`, {...buy, isRest: false, cost: buy.w * buy.h * 100});
  return [...sizes.values()];
}

function unitsOf({parts, buy}) { return parts.length + buy; }

function unitWords(kind) { return kind === "bar" ? ["bar", "bars"] : ["sheet", "sheets"]; }

// How many units, remnants and units to be bought the plans take.
function usedWords({plans, material: {kind}}) {
  const sum = (test, many) => plans.filter(test).reduce((all, plan) => all + many(plan), 0);
  const units = sum(plan => !plan.isRest, plan => plan.parts.length), rests = sum(plan => plan.isRest, plan => plan.parts.length);
  const bought = sum(() => true, plan => plan.buy);
  const words = [];
  if (units || !(rests || bought)) words.push(count(units, ...unitWords(kind)));
  if (rests) words.push(count(rests, "remnant"));
  if (bought) words.push(tr`${count(bought, ...unitWords(kind))} to buy`);
  return words.join(", ");
}

// The cost and the bound as people count them: in units where the stock has one size alone, else as material, where a remnant
// counts less.
function boundOf({sizes, cost, bound, material: {kind}}) {
  const [one] = sizes, isOne = sizes.length === 1 && cost % one.cost === 0;
  const text = number => isOne ? grouped(Math.ceil(number / one.cost)) : cellsText(kind, Math.ceil(number / 100));
  return {isOne, cost: text(cost), bound: text(bound), hasRests: sizes.some(size => size.isRest)};
}

// How far the search is: “9 sheets so far, 4 pieces not placed yet”; what it came to is told at its end alone: “9 sheets, at least 8”.
function progressNow(found, isSearching = false) {
  const {missing, proved, asked} = found, used = usedWords(found), {isOne, cost, bound} = boundOf(found);
  if (asked.part) return tr`${count(countOf(found.plans), "piece")} of this part`;
  const pieces = missing.length ? count(piecesOf(missing), "piece") : "";
  if (isSearching) return pieces ? tr`${used} so far, ${pieces} not placed yet` : tr`${used} so far`;
  if (pieces) return tr`${used}, ${pieces} missing`;
  if (proved) return tr`${used}: proved best`;
  if (found.goes.length > 1) return used;
  return isOne ? tr`${used}, at least ${bound}` : tr`${used}: ${cost}, at least ${bound}`;
}

// How many pieces plans have.
function countOf(plans) {
  const inOne = plan => [...plan.counts.values()].reduce((a, b) => a + b, 0);
  return plans.reduce((sum, plan) => sum + inOne(plan) * unitsOf(plan), 0);
}

// What the bound says, once the search is over.
function boundSays(found) {
  const {missing, proved, short, asked, goes} = found, {isOne, cost, bound, hasRests} = boundOf(found);
  if (asked.part || plansOf(asked.code).planning) return "";
  if (missing.length)
    return short ? tr`The stock doesn't suffice: no plan cuts all of it.` : tr`What is missing found no room: search longer or buy.`;
  if (goes.length > 1) return tr`Planned in ${goes.length} questions, each of at most ${MAX_KINDS} kinds.`;
  const counted = isOne || !hasRests ? "" : ` ${tr`A remnant counts nine tenths of its size.`}`;
  if (proved) return isOne ? tr`No plan takes fewer.` : `${tr`No plan takes less.`}${counted}`;
  if (isOne) return tr`No plan takes fewer than ${bound}.`;
  return `${tr`These take ${cost}; no plan takes less than ${bound}.`}${counted}`;
}

// Says what was found, once the search is over.
function sayPlans(code) {
  const {found, part} = plansOf(code), plans = found?.plans || [], cuts = plans.reduce((sum, plan) => sum + plan.root.cuts, 0);
  if (!found) return;
  if (part) say(tr`Plan of ${part}: ${count(countOf(plans), "piece")}, ${count(cuts, "cut")}`);
  else say(tr`Plan of ${found.material.material}: ${progressNow(found)}`);
}

function shownPlans() { return toCut.found?.plans || []; }

// The plan of the part that is planned alone.
function chosenPlan() { return toCut.part ? shownPlans()[0] || null : null; }

function showQuestion() {
  const material = materialOf(shop.material), {part, only, found} = toCut, row = shop.parts.find(other => other.part === part);
  const chosen = chosenDemands(), hasStock = freeParts().some(other => !isPartOut(other));
  $("planTitle").textContent = part && row ? tr`Plan of ${part}, ${sizeText(material.kind, row.w, row.h)}`
    : only                                ? tr`Plan of ${material.material}: order ${only} alone`
    : material                            ? tr`Plan of ${material.material}`
                                          : tr`Plan`;
  const words = [promisedWords(), toCut.note, part ? questionWords(row, chosen) : questionOfAll(chosen)];
  $("planWords").textContent = words.filter(Boolean).join(" ");
  $("planAll").disabled = !chosenDemands(shop.material, "").length || !hasStock;
  $("stopPlan").disabled = !toCut.planning || toCut.planning.signal.aborted;
  for (const id of PRINT_BUTTONS) $(id).disabled = !found?.sent && !shop.jobs.some(job => job.material === shop.material);
  showStages();
  showProgress();
  fill($("nextStep"), () => nextSteps().map(stepButton));
  showFault("planFault", toCut.fault || staleWords());
  showBuying(chosen.length);
}

// What is planned on one part.
function questionWords(part, chosen) {
  if (!part) return "";
  const fitting = chosen.filter(row => fitsPart(row, part)).length, large = chosen.length - fitting;
  const words = [fitting ? tr`${count(fitting, ...KINDS)} planned.` : tr`Nothing chosen can be planned on this part.`];
  if (large) words.push(tr`${large} too large for it.`);
  return words.join(" ");
}

function showProgress() {
  const {found, planning, waits} = toCut, bar = $("planBar"), sent = found?.sent && [...found.sent];
  const open = sent ? sent.filter(part => shop.promisedParts.has(part)).length : 0;
  const words = waits ? tr`Planned once the answer is there to what was reserved…`
    : open            ? tr`${sent.length - open} of ${sent.length} answered`
    : found           ? `${progressNow(found, Boolean(planning))}${planning ? ` · ${tr`searching on…`}` : ""}`
    : planning        ? tr`Planning…`
                      : "";
  if ($("planNow").textContent !== words) $("planNow").textContent = words;
  $("planProgress").classList.toggle("idle", !words);
  bar.classList.toggle("found", Boolean(found));
  if (!found) return bar.removeAttribute("value");
  [bar.max, bar.value] = open ? [sent.length, sent.length - open] : nearness(found);
}

// How near what was found is to what is wanted: the bound to the cost, or where pieces are missing those that are planned.
function nearness({asked, missing, plans, bound, cost}) {
  const planned = countOf(plans);
  if (asked.part) return [1, 1];
  if (missing.length) return [planned + piecesOf(missing), planned];
  return [cost || 1, Math.min(bound, cost)];
}

function piecesOf(missing) { return missing.reduce((sum, row) => sum + row.pieces, 0); }

function promisedWords() {
  const parts = [...shop.promisedParts].map(part => ({part}));
  return parts.length ? tr`${namesOf(parts)} ${parts.length === 1 ? "is" : "are"} being reserved.` : "";
}

function questionOfAll(chosen) {
  const pieces = chosen.reduce((sum, row) => sum + leftOf(row), 0), stock = freeParts().filter(row => !isPartOut(row));
  if (!chosen.length) return shop.material && shop.partsOf && demandsToCut().some(row => leftOf(row)) ? tr`Nothing chosen is left to cut.` : "";
  const words = [tr`${count(pieces, "piece")} of ${count(chosen.length, isGerman ? "kind of pieces" : "kind", "kinds")}, ${count(stock.length, "part")} to cut from.`];
  if (chosen.length > MAX_KINDS) words.push(tr`They are planned ${MAX_KINDS} kinds at a time, the most urgent first.`);
  if (stock.length > MAX_PARTS || shop.moreParts) words.push(tr`At most ${MAX_PARTS} parts are taken at once, the oldest first.`);
  return words.join(" ");
}

// Why what was found can't be reserved any more.
function staleWords() { return toCut.planning ? "" : takenWords(toCut.found); }

// What another terminal took of what was found and isn't reserved yet.
function takenWords(found) {
  if (!found || found.sent) return "";
  const {demands, parts, moreParts, isRead} = knownOf(found.material.material);
  const isGone = part => !parts.some(row => row.part === part && isFree(row));
  if (!isRead) return "";
  const gone = moreParts ? [] : found.plans.flatMap(plan => plan.parts).filter(isGone);
  if (gone.length) return tr`Taken elsewhere meanwhile: ${namesOf(gone.map(part => ({part})))}. Plan again.`;
  const planned = new Map();
  for (const plan of found.plans)
    for (const [demand, pieces] of plan.counts) planned.set(demand, (planned.get(demand) || 0) + pieces * plan.parts.length);
  const over = demands.find(row => (planned.get(row.demand) || 0) > leftOf(row));
  return over ? tr`${onlyLeftWords(over)}, and the plans have ${planned.get(over.demand)}. Plan again.` : "";
}

// What may be done once all that was found has its answer: [words, act].
function nextSteps() {
  const {found} = toCut;
  if (!found?.sent || [...found.sent].some(part => shop.promisedParts.has(part))) return [];
  const steps = [], other = shop.materials.find(row => row.material !== shop.material && sumLeft(knownOf(row.material).demands) > 0);
  const isLeft = found.refused.length || (!found.missing.length && chosenDemands().length);
  if (isLeft && !$("planAll").disabled) steps.push([tr`Plan what is left`, planAll]);
  if (other) steps.push([tr`Plan all of ${other.material}`, () => planMaterial(other.material)]);
  steps.push([tr`To the saw`, () => go(addressOfView("saw"))]);
  return steps;
}

function stepButton([text, act]) { return el("button", {class: "small", text, "data-key": text, on: {click: act}}); }

// Plans all of another material.
function planMaterial(code) {
  go(`cut/${code}`);
  chooseMaterial(code);
  $("planTitle").focus({preventScroll: true});
  return planAll();
}

// Opens the view, and plans all of the material of an order's first line.
async function planOrdered(demand) {
  const it = plansOf();
  it.planning?.abort();
  const planning = it.planning = new AbortController();
  go(addressOfView("tocut"));
  const row = await ask(`/demand/${demand}`).catch(() => null);
  if (planning !== it.planning) return;
  it.planning = null;
  if (row) await planMaterial(row.material);
  else showView();
}
