// ---- Jobs on paper: bars as one list, a row for each plan; sheets as tickets, small ones two on a page; and labels, 24 on a page, or as
// a list.

// What prints the jobs of To cut, and those that wait at the saw, as each of PAPERS.
const PRINT_BUTTONS = ["printAll", "labelAll", "listAll"], PRINT_WAITING = ["printWaiting", "labelWaiting", "listWaiting"];
const PAPERS = [workSheets, labelPages, labelList];

// The jobs that were just reserved, or all of the material that wait.
async function toCutJobs() {
  const {found} = toCut;
  if (isAllShown()) return allJobs();
  return found?.sent ? reservedJobs(found) : readTickets(shop.material);
}

// The jobs that were just reserved, once all are answered: what their tickets show is known.
async function reservedJobs({sent, jobs, plans, material}) {
  while ([...sent].some(part => shop.promisedParts.has(part))) {
    await pause(50);
    notePromised();
  }
  return plans.flatMap(({parts, tree, w, h, root}) => parts.filter(part => jobs.has(part)).map(part => ({
    job: jobs.get(part), part, tree, w, h, root, material: material.material, kind: material.kind, kerf: material.kerf})));
}

// All jobs that wait, of one material or of all.
async function readTickets(material) {
  const [rows] = await readPages("/jobs/0", Infinity), jobs = [];
  for (const row of rows)
    if (!material || row.material === material) jobs.push(await readJob(row.job));
  return jobs.filter(told => told.state === "waiting");
}

async function printSheets(read, build) {
  say(tr`The tickets are being read`);
  try {
    const jobs = await read(), kinds = groupsOf(jobs, told => kindOfPlan(told, told.tree));
    if (!jobs.length) return tell(tr`No job waits.`, "good");
    $("sheets").replaceChildren(...await build(kinds));
  } catch (error) { return tell(tr`Print: ${await faultWords(error)}`, "refused"); }
  document.body.classList.add("sheets");
  window.print();
}

// What stands on each page: the shop's name, the day and the material.
function pageWords(material) { return [document.title, timeText(Date.now()), material].filter(Boolean).join(" · "); }

// The same above a view that is printed as it stands; a ticket and a report have their own.
function nameView() {
  const view = viewName();
  $("viewPage").hidden = ["saw", "yield"].includes(view);
  $("viewPage").textContent = pageWords(["tocut", "stock"].includes(view) && !isAllShown() && shop.material);
}

async function workSheets(kinds) {
  await readTexts([...new Set(kinds.flatMap(([told]) => ordersOfJob(told)))]);
  const [bars, sheets] = ["bar", "sheet"].map(kind => kinds.filter(([told]) => told.kind === kind));
  const small = sheets.filter(([told]) => told.root.cuts <= HALF_CUTS), large = sheets.filter(kind => !small.includes(kind));
  return [...groupsOf(bars, ([told]) => told.material).map(barList), ...[...small, ...large].map(ticketSheet)];
}

// The plans of bars of one material; its head stands on each page.
function barList(kinds) {
  const [[{material}]] = kinds, right = text => el("th", {text, scope: "col", class: "right"}), head = text => el("th", {text, scope: "col"});
  const heads = [right(tr`Times`), head(tr`Cuts in mm, with order and line`), head(tr`Rest`), head(tr`Jobs`), head(tr`Done`)];
  return el("section", {class: "barlist"}, paperTable(pageWords(material), heads, kinds.map(barRow)));
}

function barRow(jobs) {
  const [first] = jobs, numbers = jobs.map(({job}) => job), boxes = layPlan(first.root, limitsOf(first));
  const pieces = runsOf(boxes.filter(box => box.fate === "piece").map(box => {
    const {order = "?", line = "?"} = lineOfDemand(box.demand);
    return `${mm(box.w)} ${order}/${line}`;
  }));
  const rests = boxes.filter(box => ["kept", "scrap"].includes(box.fate)).map(box => box.fate === "scrap"
    ? `${mm(box.w)} ${word("scrap")}` : `${mm(box.w)}: ${tr`label ${restNames(numbers, box.node)}`}`);
  return el("tr", {}, el("td", {class: "right"}, el("b", {text: `${jobs.length} ×`})),
    el("td", {}, el("span", {class: "quiet", text: `${mm(first.w)}: `}), pieces.join(" | ")), el("td", {text: rests.join("; ")}),
    el("td", {text: rangesOf(numbers)}), el("td", {class: "boxes", text: jobs.map(() => "☐").join(" ")}));
}

// Equal texts that follow one another, once with how often.
function runsOf(texts) {
  const runs = [];
  for (const text of texts)
    if (runs[runs.length - 1]?.text === text) runs[runs.length - 1].many++;
    else runs.push({text, many: 1});
  return runs.map(({text, many}) => many > 1 ? `${many} × ${text}` : text);
}

// The names of a rest of several jobs, those of jobs that follow one another from the first to the last.
function restNames(jobs, node) {
  return rangesOf(jobs).split(", ").map(range => range.split(/ \D+ /).map(job => `${job}/${node}`).join(" … ")).join(", ");
}

// A ticket that has so many cuts leaves room for a second one on its page, with more rows in smaller print. One that is taller all the
// same has a page of its own, as nothing of it is cut off.
const HALF_CUTS = 24, HALF_ROWS = 36;

// A sheet for jobs of one plan: picture, pieces and cuts.
function ticketSheet(jobs) {
  const [first] = jobs, told = {...first, jobs: jobs.map(({job}) => job)}, {kind, root, material, w, h} = told;
  const limits = limitsOf(told), boxes = layPlan(root, limits), holder = el("div", {class: "picture"});
  const left = new Map(boxes.filter(box => box.fate !== "kerf").map(box => [box.node, box]));
  const work = {told, boxes, left, halt: null, made: new Set(), isWaiting: true}, isHalf = root.cuts <= HALF_CUTS;
  drawPlan(holder, root, limits,
    {wordsOf: pieceWords, restName: box => namesIn(told, box), made: work.made, room: 720});
  const isMany = jobs.length > 1, many = isMany ? `${jobs.length} × ` : "";
  const saids = ordersOfJob(told).map(order => [order, saidOf(order)]).filter(([, said]) => said);
  const name = isMany ? tr`Jobs ${told.jobs.join(", ")}` : tr`Job ${told.job}`, [pieces] = jobPieces(work);
  const half = `half${pieces.rows.length + root.cuts > HALF_ROWS ? " dense" : ""}`;
  return el("section", {class: `ticket ${isHalf ? half : linesClass(root)}`}, el("p", {class: "pagehead", text: pageWords(material)}),
    el("h2", {text: `${many}${material} ${sizeText(kind, w, h)}`}),
    el("p", {text: `${name} (${namesOf(jobs)}), ${count(root.cuts, "cut")}  ${jobs.map(() => "☐").join(" ")}`}),
    saids.length ? el("p", {class: "said", text: saids.map(([order, said]) => `${order}: ${said}`).join("; ")}) : null,
    el("div", {class: "flow"}, holder, el("div", {class: "pieces"}, pieces), el("div", {class: `cutlines ${linesClass(root)}`}, ...cutLines(work))));
}

const LABELS_A_PAGE = 24;

// What a label of each piece says, in the order in which they come from the saw. They are counted on from those of the line that are
// made or wait besides.
async function labelsOf(kinds) {
  const pieces = kinds.flatMap(jobs => jobs.flatMap(({job, root, kind, material}) =>
    nodesOf(root).filter(box => box.kind === "piece").map(box => ({demand: box.demand, job, material, size: pieceSize(kind, box)}))));
  const counts = new Map(), wanted = new Map();
  for (const {demand} of pieces) counts.set(demand, (counts.get(demand) || 0) + 1);
  for (const [demand, here] of counts) {
    const row = await ask(`/demand/${demand}`);
    wanted.set(demand, row.wanted);
    counts.set(demand, Math.max(0, row.made + row.reserved - here));
  }
  await readTexts([...new Set([...counts.keys()].map(demand => lineOfDemand(demand).order))]);
  return pieces.map(({demand, job, material, size}) => {
    const {order, line} = lineOfDemand(demand), number = counts.get(demand) + 1;
    counts.set(demand, number);
    return {order, line, size, nth: tr`piece ${number} of ${wanted.get(demand)}`, job, material, said: facts.orders.get(order)?.text || ""};
  });
}

function materialsOf(labels) { return pageWords([...new Set(labels.map(({material}) => material))].join(", ")); }

async function labelPages(kinds) {
  const labels = await labelsOf(kinds), pages = [];
  for (let from = 0; from < labels.length; from += LABELS_A_PAGE) {
    const here = labels.slice(from, from + LABELS_A_PAGE);
    pages.push(el("section", {class: "labels"}, ...here.map(({order, line, size, nth, job, said}) =>
      el("div", {class: "label"}, el("b", {text: order}), el("span", {text: tr`line ${line}`}), el("span", {text: size}), el("span", {text: nth}),
        el("span", {text: tr`job ${job}`}), said ? el("span", {class: "said", text: said}) : null)), el("p", {class: "pagehead", text: materialsOf(here)})));
  }
  return pages;
}

// The same as one list; its head stands on each page.
async function labelList(kinds) {
  const labels = await labelsOf(kinds), heads = [ORDER, tr`Line`, tr`Size in mm`, tr`Piece`, tr`Job`, tr`Text`];
  const rows = labels.map(({order, line, size, nth, job, said}) => el("tr", {}, ...[order, line, size, nth, job, said].map(text => el("td", {text: String(text)}))));
  return [el("section", {class: "barlist labellist"}, paperTable(materialsOf(labels), heads.map(text => el("th", {text, scope: "col"})), rows))];
}

// A table whose page's words and heads stand on each page.
function paperTable(words, heads, rows) {
  return el("table", {}, el("thead", {}, el("tr", {}, el("th", {class: "pagehead", colspan: String(heads.length), text: words})), el("tr", {}, ...heads)),
    el("tbody", {}, ...rows));
}

// A piece's size as it was ordered.
function pieceSize(kind, {w, h, turned}) { return turned ? sizeText(kind, h, w) : sizeText(kind, w, h); }

// The names of a node in all jobs of a plan.
function namesIn({job, jobs = [job]}, {node}) { return jobs.map(other => `${other}/${node}`).join(", "); }
