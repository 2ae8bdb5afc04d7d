// ---- All materials at once: what is wanted of all, each material planned behind another, and all of it reserved by one press.

function isAllShown() {
  const {word, of} = readAddress();
  return word === "cut" && !of && shop.materials.length > 1;
}

// The materials that are looked at.
function shownCodes() { return isAllShown() ? shop.materials.map(({material}) => material) : [shop.material]; }

// What is wanted of the materials that are looked at.
function wantedNow() { return shownCodes().flatMap(code => demandsToCut(code)); }

// Reads what is wanted, and of what is wanted the parts.
async function readCut() {
  if (isAllShown()) return readAllShown();
  await readDemands();
  await readParts();
}

async function readAllShown() {
  await readPages("/demands/0");
  for (const code of shownCodes()) if (knownOf(code).demands.some(row => leftOf(row) > 0)) await readParts(code);
}

// The materials of which something can be planned.
function codesToPlan(only = "") {
  return shownCodes().filter(code => chosenDemands(code, only).length && freeParts(code).some(part => !isPartOut(part)));
}

// Plans each material, one behind another, until it is stopped; of one order alone where it is named; with units to buy as they are told.
async function planEach(only = "", buyOf = () => null) {
  const all = toCut.all = new AbortController(), codes = codesToPlan(only), buys = new Map(codes.map(code => [code, buyOf(code)]));
  for (const code of shownCodes()) forgetPlans(code);
  $("planTitle").focus({preventScroll: true});
  for (const code of codes) {
    if (!all.signal.aborted) await planOrder({code, only, buy: buys.get(code)});
  }
  if (toCut.all === all) toCut.all = null;
  showView();
}

// Plans all that is open, of all materials, behind an order.
async function planAllOrdered() {
  go("cut");
  await lookAtShop();
  await readCut();
  await planAll();
}

function allFound() { return shownCodes().map(code => plansOf(code).found).filter(Boolean); }

function isReservable(found) {
  return !found.sent && found.plans.some(plan => plan.parts.length && plan.counts.size) && !takenWords(found) && !plansOf(found.material.material).planning;
}

function showAllMaterials() {
  const its = shownCodes().map(code => plansOf(code)), founds = allFound(), isPlanning = Boolean(toCut.all) || its.some(it => it.planning);
  const stale = founds.map(takenWords).filter(Boolean), [now] = its.filter(it => it.planning), isFound = founds.length > 0;
  $("planTitle").textContent = tr`Plan of all materials`;
  $("planWords").textContent = [promisedWords(), ...its.map(it => it.note)].filter(Boolean).join(" ");
  $("planAll").disabled = !codesToPlan().length;
  $("reserve").textContent = tr`Reserve all`;
  $("reserve").disabled = isPlanning || !founds.some(isReservable);
  $("reserve").hidden = stale.length > 0;
  $("planAgain").hidden = !stale.length;
  $("stopPlan").disabled = !isPlanning;
  for (const id of PRINT_BUTTONS) $(id).disabled = !founds.some(found => found.sent) && !shop.jobs.length;
  for (const id of ["stagesField", "buyPanel"]) $(id).hidden = true;
  empty("planFigures", "boundSays", "missing");
  const isSent = founds.some(found => found.sent) && !shop.promisedParts.size && !isPlanning;
  fill($("nextStep"), () => isSent ? [stepButton([tr`To the saw`, () => go(addressOfView("saw"))])] : []);
  showFault("planFault", [...new Set([...its.map(it => it.fault), ...stale])].filter(Boolean).join(" "));
  $("planNow").textContent = now ? tr`${now.code} is planned…` : isFound ? tr`${count(founds.length, "material")} planned` : "";
  $("planProgress").classList.toggle("idle", !now && !isFound);
  [$("planBar").max, $("planBar").value] = [Math.max(1, founds.length + (now && !now.found ? 1 : 0)), founds.length];
  fill($("planList"), () => [...shownCodes().flatMap(noStockRows), ...founds.flatMap(materialPlans)]);
}

// Where something of a material is wanted, and nothing of it stands.
function noStockRows(code) {
  if (!chosenDemands(code).length || !knownOf(code).isRead || freeParts(code).length) return [];
  const receive = {class: "small", text: tr`Receive`, "data-key": `receive ${code}`, on: {click: () => go(`stock/${code}`)}};
  return [el("p", {}, tr`No stock of ${code}.`, " ", el("button", receive))];
}

// A material's plans, below what they come to.
function materialPlans(found) {
  const {material: {material}, plans, missing} = found, isSearching = Boolean(plansOf(material).planning);
  return [
    el("h3", {text: `${material} · ${progressNow(found, isSearching)}`}), linkTo(`cut/${material}`, tr`Only ${material}`),
    plans.length ? el("div", {class: "figures"}, ...planFigures(found, "").filter(Boolean)) : null, boundRow(found),
    missing.length ? el("div", {class: "missing"}, ...missingRows(found)) : null,
    buyPanel(found), ...plans.length ? planCards(plans) : []
  ];
}

function reserveEach() {
  const founds = allFound().filter(isReservable);
  for (const found of founds) {
    const parts = found.plans.flatMap(plan => plan.parts.map(name => [name, plan.tree]));
    if (sendReserves(parts, found)) found.sent = new Set(parts.map(([name]) => name));
  }
  showToCut();
  focusNextStep();
}

// The jobs that were just reserved of all materials, or all that wait.
async function allJobs() {
  const founds = allFound().filter(found => found.sent), jobs = [];
  for (const found of founds) jobs.push(...await reservedJobs(found));
  return founds.length ? jobs : readTickets("");
}
