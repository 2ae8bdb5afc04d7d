// ---- What views show of what is known, and what was pressed here and has no answer yet.

// Lists are what the shop told last; what was answered here since is in them. moreX: whether list X goes on; partsOf: the material whose
// parts these are; jobPages, allOrderPages: how many pages are shown; promised: by demand the pieces in reservations that were pressed here
// and have no answer yet; promisedParts: the parts of those; partsGoing: those that are being scrapped or returned; amending: by demand how
// many are wanted of it by a message without an answer yet.
const shop = {
  material: storage.read("cutshop.material", ""),
  jobPages: 1,
  allOrderPages: 1,
  promised: new Map(),
  promisedParts: new Set(),
  partsGoing: new Set(),
  amending: new Map(),
  get materials() { return toldOf("/materials").materials || []; },
  get isKnown() { return Boolean(toldOf("/materials").ok); },
  get jobs() { return toldOf("/jobs/0").jobs || []; },
  get moreJobs() { return toldOf("/jobs/0").more; },
  get demands() { return knownOf().demands; },
  get parts() { return knownOf().parts; },
  get moreParts() { return knownOf().moreParts; },
  get partsOf() { return knownOf().isRead ? shop.material : ""; }
};

// What is known of a material: its open demands, and its parts.
function knownOf(code = shop.material) {
  const {demands = [], more} = demandsTold(code), told = toldOf(`/parts/${code}`), parts = told.parts || [];
  return {
    demands: demands.filter(row => row.material === code),
    moreDemands: more,
    parts: parts.map(row => ({...row, material: code})),
    moreParts: told.more,
    isRead: Boolean(told.ok)
  };
}

// What tells a material's open demands, its own list or that of all: one that is read to its end; of what isn't known any more the later one.
function demandsTold(code) {
  const [known, old] = [facts.by, facts.old].map(map => [`/demands/0/${code}`, "/demands/0"].map(path => map.get(path)).filter(Boolean));
  const fact = known.find(it => !it.reply.more) || known[0] || old.sort((a, b) => b.asOf - a.asOf)[0];
  return fact?.reply || {};
}

// Takes from the kept messages which parts and pieces are promised, and what is amended.
function notePromised() {
  const sent = terminal.keptHere().map(message => message.command), reserved = sent.filter(command => command.do === "reserve");
  shop.promisedParts = new Set(reserved.map(command => command.part));
  shop.partsGoing = new Set(sent.filter(command => ["scrap", "return"].includes(command.do)).map(command => command.part));
  shop.amending = new Map(sent.filter(command => command.do === "amend").map(({demand, wanted}) => [demand, wanted]));
  shop.promised = new Map();
  for (const {tree} of reserved)
    for (const [demand, pieces] of countPieces(tree)) shop.promised.set(demand, (shop.promised.get(demand) || 0) + pieces);
}

// The open demands of a material as they are once what was pressed here is answered.
function demandsToCut(code = shop.material) {
  const reserved = row => Math.min(row.wanted - row.made, row.reserved + (shop.promised.get(row.demand) || 0));
  return knownOf(code).demands.map(row => ({...row, reserved: reserved(row)}));
}

// Whether a part stands, and nothing was pressed here that takes it.
function isFree({part, state}) {
  return state === "standing" && !shop.promisedParts.has(part) && !shop.partsGoing.has(part);
}

function materialOf(code) { return shop.materials.find(row => row.material === code); }

function kindOf(code) { return materialOf(code)?.kind || "sheet"; }

function isRemnant(part) { return part.root !== part.part; }

async function readMaterials() {
  const wasKnown = shop.isKnown;
  await askCalmly("/materials");
  if (!shop.isKnown) return;
  if (!wasKnown) fillTyped();
  const {word, of} = readAddress();
  if (["cut", "stock"].includes(word) && of && !materialOf(of)) settle(word);
  if (!materialOf(shop.material) && (shop.material || shop.materials.length)) chooseMaterial(shop.materials[0]?.material || "");
}

// Reads what is said of orders, where it isn't known.
async function readTexts(codes) {
  await readSums(codes.filter(code => facts.orders.get(code)?.isOld !== false));
}

// What is said of an order: its day and its text.
function saidOf(order) {
  const {due = 0, text = ""} = facts.orders.get(order) || {};
  return [dueWords({due}), text].filter(Boolean).join(", ");
}

async function readDemands(code = shop.material) {
  if (code) await readPages(`/demands/0/${code}`);
}

// The open demands of one other material a pass, so that each material's button tells how much is open.
async function readOthers() {
  const other = shop.materials.find(({material}) => material !== shop.material && !factOf(`/demands/0/${material}`));
  if (other && shop.materials.length <= MANY && !isAllShown()) await askCalmly(`/demands/0/${other.material}`);
}

function openWords(code) {
  const {demands, more} = demandsTold(code);
  return demands ? tr`${grouped(sumLeft(knownOf(code).demands))}${more ? tr` and more` : ""} to cut` : "";
}

function readJobs() { return readPages("/jobs/0", shop.jobPages); }

// The kind of a job's material, as far as that is known.
function kindOfJob(job) {
  const {material = shop.jobs.find(row => row.job === job)?.material} = toldOf(`/job/${job}`);
  return kindOf(material);
}

async function readParts(code = shop.material) {
  if (code) await readPages(`/parts/${code}`);
}

function chooseMaterial(code) {
  if (code === shop.material && code) return;
  shop.material = code;
  storage.write("cutshop.material", code);
  $("receiveMaterial").value = code;
  showView();
  refreshNow();
}

// A person chooses a material: the address has it, and what was shown before keeps its own.
function pickMaterial(code) {
  const {word, of, view} = readAddress(), name = view === "stock" ? "stock" : "cut";
  if (!of && shop.material && !isAllShown()) settle(`${word}/${shop.material}`);
  go(`${name}/${code}`);
  chooseMaterial(code);
}

// Where a list isn't read to its end.
function andMore(more) { return more ? quiet(tr`And more that aren't shown.`) : null; }

function moreButton(more, key, pages = 1) {
  return more ? el("button", {
    text: tr`Show ${pages}00 more`,
    "data-key": key,
    on: {
      click: () => {
        shop[key] += pages;
        refreshNow();
      }
    }
  })
              : null;
}

// Over so many materials are chosen from a list.
const MANY = 8;

function showMaterials() {
  for (const holder of document.querySelectorAll("[data-materials]")) {
    fill(holder,
      () => shop.materials.length > MANY ? materialSelect(holder.closest("#tocut")) : [...holder.closest("#tocut") && shop.materials.length > 1 ? [allButton()] : [], ...shop.materials.map(materialButton)]);
  }
  const options = chosen => shop.materials.map(
    row => el("option", {value: row.material, text: row.material, selected: row.material === chosen}));
  for (const id of ["receiveMaterial", "problemMaterial"]) fill($(id), () => options(shop.material));
  fill($("jobMaterial"), () => [el("option", {value: "", text: tr`all materials`}), ...options("")]);
  $("jobCount").textContent = `${shop.jobs.length}${shop.moreJobs ? "+" : ""}`;
  $("jobCount").hidden = !shop.jobs.length;
}

function materialWords(row) {
  return tr`${word(row.kind)}, kerf ${mm(row.kerf)}\u00a0mm, keeps from ${sizeText(row.kind, row.min_long, row.min_short)}`;
}

function materialButton(row) {
  const open = openWords(row.material);
  return el("button", {
    "data-key": row.material,
    "aria-pressed": String(row.material === shop.material && !isAllShown()),
    on: {click: () => pickMaterial(row.material)}
  },
    row.material, open ? el("span", {class: "tag", text: open, style: "margin-left:.6rem"}) : null,
    el("small", {text: materialWords(row)}));
}

function allButton() {
  return el("button", {"data-key": "all", "aria-pressed": String(isAllShown()), on: {click: () => go("cut")}}, tr`All materials`,
    el("small", {text: tr`each planned behind another`}));
}

function materialSelect(hasAll) {
  const all = hasAll ? el("option", {value: "", text: tr`All materials`, selected: isAllShown()}) : "";
  return el("label", {class: "field"}, tr`Material`,
    el("select", {"data-key": "material", on: {change: ({target: {value}}) => value ? pickMaterial(value) : go("cut")}}, all,
      ...shop.materials.map(row => el("option", {
        value: row.material,
        text: `${row.material}: ${materialWords(row)}`,
        selected: row.material === shop.material && !(hasAll && isAllShown())
      }))));
}
