// ---- At the saw.

// job, told: the job that is shown, and what was told of it last; key: its key when it was opened; opening: the number that was asked for last;
// isListed: whether the list of jobs is unfolded where it lies above the ticket; deaf: until when *Done* takes no press.
const atSaw = {
  job: 0,
  key: "",
  opening: 0,
  breaking: false,
  lost: null,
  canvas: null,
  isListed: false,
  deaf: 0,
  get told() {
    const told = toldOf(`/job/${atSaw.job}`);
    return told.ok ? withPlan(told) : null;
  }
};

// Of jobs whose break is marked: the wrong cut and the rest that was typed, by the job's key.
const breaks = new Map();

function noteBreak() {
  if (atSaw.breaking) breaks.set(atSaw.key, {lost: atSaw.lost, rest: $("breakRest").value});
}

// Behind *One done* the next job opens, and a second press of the same hand is none of it.
const DEAF = 1000;

// A job with all that its plan hangs on: a store that was restored, or another one, has another job under the same number.
function keyOf({job, material, part, w, h, kerf, tree}) { return [job, material, part, w, h, kerf, tree].join(" "); }

// The cuts that were made, kept in this browser while their job waits.
const ticks = {
  of(job) { return new Set(this.kept(job)?.made || []); },
  kept(job) { return storage.read("cutshop.ticks", {})[job]; },
  set(told, made) {
    this.write(all => {
      all[told.job] = {key: keyOf(told), made: [...made]};
    });
  },
  forget(job) {
    this.write(all => {
      delete all[job];
    });
  },
  // Those of another plan, or of a job that is over, are dropped.
  keepTo(told) {
    const kept = this.kept(told.job);
    if (kept && (kept.key !== keyOf(told) || told.state !== "waiting")) this.forget(told.job);
  },
  write(change) {
    const all = storage.read("cutshop.ticks", {});
    change(all);
    try {
      storage.write("cutshop.ticks", all);
    } catch { tell(tr`This browser can't keep ticks.`, "refused"); }
  },
};

// The jobs that wait, of the chosen material where one is chosen, those due first.
function waitingJobs() {
  const code = $("jobMaterial").value;
  return shop.jobs.filter(row => !code || row.material === code).sort(byDay);
}

// Reads the plans of waiting jobs whose material, sides and cuts are those of another.
async function readPlans() {
  const alike = groupsOf(shop.jobs, row => [row.material, row.w, row.h, row.cuts].join(" ")).filter(rows => rows.length > 1);
  await learnPlans(alike.flat());
  for (const {job} of alike.flat()) await askCalmly(`/job/${job}`);
}

// Of many jobs the plans come from the entries that reserved them, back from the newest; the others are asked for one by one.
const MANY_PLANS = 3, MAX_BACK = 20;

async function learnPlans(rows) {
  const {lacking, look} = plansLacking(rows);
  await readBack(() => lacking.size > MANY_PLANS, look);
}

// The jobs whose plan isn't known, and what learns it of the entry that reserved one.
function plansLacking(rows) {
  const lacking = new Map(rows.filter(({job}) => !factOf(`/job/${job}`)).map(row => [row.job, row]));
  const look = ({message, reply}) => {
    if (message.do !== "reserve" || !lacking.has(reply.job)) return;
    noteWaiting(lacking.get(reply.job), message.tree);
    lacking.delete(reply.job);
  };
  return {lacking, look};
}

// Reads entries page by page back from the last one, as long as some are lacking.
async function readBack(isLacking, look) {
  for (let page = 0, end = lastEntry(); page < MAX_BACK && end > 0 && isLacking(); page++, end -= ENTRIES)
    (await readEntries(end - ENTRIES, end)).forEach(look);
}

// Waiting jobs of one plan: the same material, sides and cuts for the same demands.
function kindOfPlan(row, tree = planOfJob(row)) {
  return tree ? [row.material, row.w, row.h, tree].join(" ") : tr`job ${row.job}`;
}

function showSaw() {
  const rows = waitingJobs(), kinds = groupsOf(rows, row => kindOfPlan(row)).sort(([a], [b]) => byDay(a, b) || byMaterial(a, b));
  fill($("jobList"),
    () => [...kinds.map(jobRow), ...(kinds.length ? [] : [quiet(tr`No job waits.`), opener("tocut", tr`Plan`)]),
      moreButton(shop.moreJobs, "jobPages")]);
  const ended = lastEnded();
  fill($("endedJobs"), () => ended.length && [el("h3", {text: tr`Ended last`}), ...ended.map(endedRow)]);
  $("jobsWords").textContent = `${rows.length}${shop.moreJobs ? "+" : ""}`;
  for (const id of PRINT_WAITING) $(id).disabled = !kinds.length;
  foldJobs();
  showJob();
}

function byMaterial(a, b) { return a.material < b.material ? -1 : a.material > b.material ? 1 : a.job - b.job; }

// The list lies above the ticket where there is no room beside it: there it is folded while a ticket is shown.
function foldJobs() {
  const isNarrow = window.innerWidth < NARROW, isOpen = !isNarrow || !atSaw.told || atSaw.isListed;
  $("jobsFold").tabIndex = isNarrow ? 0 : -1;
  $("jobsPanel").classList.toggle("folds", isNarrow);
  if ($("jobsPanel").open !== isOpen) $("jobsPanel").open = isOpen;
}

// What is known of a waiting job's plan.
function planOfJob({job}) { return toldOf(`/job/${job}`).tree || ""; }

// Waiting jobs of one plan, as one row: what it cuts, how often, which jobs these are, when they are due, and which are begun.
function jobRow(rows) {
  const [row] = rows, isShown = rows.some(({job}) => job === atSaw.job), plan = planWords(row, planOfJob(row));
  const many = rows.length > 1 ? `${rows.length} × ` : "", jobs = rows.map(({job}) => job), job = isShown ? atSaw.job : row.job;
  const words = [row.material, jobs.length > 1 ? tr`jobs ${rangesOf(jobs)}` : tr`job ${row.job}`, dueWords(row)].filter(Boolean);
  const begun = groupsOf(rows.filter(other => other.begun), other => other.begun).map(same =>
    el("div", {}, el("span", {class: "tag", text: tr`${rangesOf(same.map(other => other.job))} begun by terminal ${same[0].begun}`})));
  return rowButton(`j${row.job}`, job, isShown, el("b", {text: `${many}${plan}`}), el("div", {class: "quiet", text: words.join(", ")}), ...begun);
}

function dueWords({due}) { return due ? tr`due ${dayOf(due)}` : ""; }

function rowButton(key, job, isShown, ...words) {
  return el("button", {
    class: `row${isShown ? " chosen" : ""}`,
    "data-key": key,
    value: String(job),
    "aria-pressed": String(isShown),
    on: {click: () => openJob(job)}
  },
    el("div", {}, ...words));
}

// A job that ended: how, when and by whom.
function endedRow({at, message: {job, do: done, terminal: by}}) {
  const words = `${STATES[ENDS[done]]}, ${momentText(at)}, ${terminalWords(by)}`;
  return rowButton(`e${job}`, job, job === atSaw.job, el("b", {text: tr`Job ${job}`}), el("div", {class: "quiet", text: words}));
}

// The last jobs that ended, each by the entry that ended it last, as far back as no entry is lacking.
const MAX_ENDED = 10;

function lastEnded() {
  const ended = new Map();
  for (let entry = lastEntry(); facts.entries.has(entry) && ended.size < MAX_ENDED; entry--) {
    const row = facts.entries.get(entry), {do: done, job} = row.message;
    if (Object.hasOwn(ENDS, done) && !ended.has(job)) ended.set(job, row);
  }
  return [...ended.values()];
}

// Reads the jobs that ended last; the entries tell plans of jobs that wait, too.
async function readEnded() {
  const {lacking, look} = plansLacking(shop.jobs);
  await readBack(() => lastEnded().length < MAX_ENDED, () => {});
  for (const entry of lacking.size ? facts.entries.values() : []) look(entry);
}

// Numbers that rise, those that follow one another as a range.
function rangesOf(numbers) {
  const runs = [];
  for (const number of [...numbers].sort((a, b) => a - b)) {
    const run = runs[runs.length - 1];
    if (run && run.last === number - 1) run.last = number;
    else runs.push({first: number, last: number});
  }
  return runs.map(({first, last}) => first === last ? String(first) : tr`${first} to ${last}`).join(", ");
}

// A plan in a line: of a bar its pieces as they come from the saw, of a sheet how many; without one its cuts.
function planWords({material, w, h, cuts}, tree) {
  const kind = kindOf(material), size = sizeText(kind, w, h).replace("\u00a0mm", "");
  if (!tree) return `${size}: ${count(cuts, "cut")}`;
  const pieces = nodesOf(readPlan(tree, w, h, materialOf(material)?.kerf || 0)).filter(node => node.kind === "piece");
  return kind === "bar" ? `${size}: ${pieces.map(node => mm(node.w)).join(" | ")}` : `${size}: ${count(pieces.length, "piece")}`;
}

// The waiting jobs that have the plan of a job, by rising number.
function sameJobs(told) {
  const same = shop.jobs.filter(row => row.job !== told.job && kindOfPlan(row) === kindOfPlan(told, told.tree));
  return [...same.map(({job}) => job), told.job].sort((a, b) => a - b);
}

// Opens a job that somebody chose. What is shown stays where there is no such job, or no answer.
async function openJob(job) {
  atSaw.opening = job;
  if (viewName() !== "saw") go(`saw/${job}`);
  let told = null, fault = "";
  try {
    told = await readJob(job, ask);
  } catch (error) { fault = isRefused(error, 70) ? noJobWords(job) : tr`Job ${job}: ${await faultWords(error)}.`; }
  if (atSaw.opening !== job) return;
  atSaw.opening = 0;
  showFault("jobFault", fault);
  if (!told) {
    atSaw.isListed = true;
    if (viewName() === "saw") settle(addressOfView("saw"));
    return showSaw();
  }
  atSaw.isListed = false;
  takeJob(told);
  if (viewName() === "saw") go(`saw/${job}`);
  showSaw();
  faceJob();
  refreshNow();
}

function isRefused(error, number) { return error instanceof Refused && error.reply.refused === number; }

function noJobWords(job) { return tr`There is no job ${job}.`; }

// Brings the ticket's head in sight.
function faceJob() {
  const {top} = $("jobTitle").getBoundingClientRect();
  $("jobTitle").focus({preventScroll: true});
  if (top < $("top").offsetHeight || top > window.innerHeight / 2) $("jobTitle").scrollIntoView();
}

// Reads the job that is shown, or where none is the first that waits, with what is said of its orders; of a broken one then how the
// work halted.
async function readShown() {
  const shown = atSaw.job, job = shown || waitingJobs()[0]?.job;
  if (!job) return;
  try {
    const told = await readJob(job);
    if (atSaw.job !== shown) return;
    takeJob(told);
    if (readAddress().word === "saw" && !readAddress().of) settle(`saw/${job}`);
  } catch (error) {
    if (!isRefused(error, 70) || atSaw.job !== shown) throw error;
    atSaw.job = 0;
    showFault("jobFault", noJobWords(job));
    if (readAddress().word === "saw") settle("saw");
  }
  if (!atSaw.told) return;
  if (atSaw.told.state === "broken" && !haltKnown(atSaw.told)) {
    showView();
    await readHalt(atSaw.told);
  }
  await readTexts(ordersOfJob(atSaw.told));
}

function ordersOfJob({tree}) { return [...new Set([...countPieces(tree).keys()].map(demand => lineOfDemand(demand).order).filter(Boolean))]; }

// A job with its plan, and whose its pieces are.
async function readJob(job, by = askCalmly) {
  const told = withPlan(await by(`/job/${job}`));
  if ([...countPieces(told.tree).keys()].some(demand => !lineOfDemand(demand).order)) await by(`/steps/${job}`);
  return told;
}

// What was told of a job, with its plan, which is read of each answer once.
const roots = new WeakMap();

function withPlan(told) {
  if (!roots.has(told)) roots.set(told, readPlan(told.tree, told.w, told.h, told.kerf));
  return {...told, kind: kindOf(told.material), root: roots.get(told)};
}

// How a broken job halted: the message tells it that broke it off; of one that has no entry the steps do. Nothing where that isn't known.
function haltKnown(told) {
  const {job, end} = told, {ok, entries = []} = toldOf(storyOf(`job/${job}`)), {steps} = toldOf(`/steps/${job}`);
  const messages = [...entries, ...facts.entries.values()].map(({message}) => message);
  const message = end || messages.find(it => it.do === "break" && it.job === job);
  return message ? haltOf(message) : ok && steps ? haltOfSteps(told, steps) : null;
}

async function readHalt(told) {
  await readPages(storyOf(`job/${told.job}`));
  if (!haltKnown(told)) await askCalmly(`/steps/${told.job}`);
}

// A cut that was made left its strip, or nothing where the saw takes nothing; of another its rectangle is one part.
function haltOfSteps(told, steps) {
  const halt = {made: new Set(), lost: null, scrapped: new Set()};
  for (const cut of cutsOf(told.root)) {
    const {state} = steps[cut.node];
    if (cut.above.some(above => !halt.made.has(above))) continue;
    if (!state || state === "kerf") halt.made.add(cut.cut);
    else if (state === "scrap") halt.scrapped.add(cut.cut);
  }
  return halt;
}

// A job is shown; a break of it that was being marked is marked on.
function takeJob(told) {
  noteBreak();
  const key = keyOf(told), marked = told.state === "waiting" ? breaks.get(key) : null;
  if (atSaw.key !== key) $("breakRest").value = marked?.rest ?? "";
  Object.assign(atSaw, {job: told.job, key, breaking: Boolean(marked), lost: marked?.lost ?? null});
  ticks.keepTo(told);
}

function limitsOf(told) {
  return materialOf(told.material) || {kind: told.kind, kerf: told.kerf, min_long: 1, min_short: 1};
}

// The message that ends a job, while it has no answer.
function endSent(job) {
  return terminal.keptHere().map(entry => entry.command).find(command => command.job === job && Object.hasOwn(ENDS, command.do));
}

// The halt that is marked, or to which a job that isn't done was sent or came; none where no trace was read yet.
function shownHalt(told, sent, state) {
  if (atSaw.breaking) return {made: ticks.of(told.job), lost: atSaw.lost, rest: restMeasured()};
  if (isUncut(state)) return {made: new Set(), lost: null};
  if (state === "broken") return sent ? haltOf(sent) : haltKnown(told);
  return null;
}

// Whether nothing of a job's plan is cut, as it was given back or taken back.
function isUncut(state) { return ["released", "undone"].includes(state); }

// What is known of a job: the state to which it came or was sent, its halt, the cuts that were made, what they left, and
// whether the plan alone is known, as nothing was cut or no trace was read yet.
function workOf(told) {
  const sent = endSent(told.job), state = sent ? ENDS[sent.do] : told.state, isWaiting = state === "waiting";
  const halt = shownHalt(told, sent, state), isPlan = isUncut(state) || (state === "broken" && !halt);
  const all = state === "done" ? cutsOf(told.root).map(cut => cut.cut) : [];
  const made = halt ? halt.made : isWaiting ? ticks.of(told.job) : new Set(all);
  const boxes = isPlan ? [] : layPlan(told.root, limitsOf(told), halt);
  const left = new Map(boxes.filter(box => box.fate !== "kerf").map(box => [box.node, box]));
  return {told, sent, state, isWaiting, isPlan, halt, made, boxes, left};
}

function showJob() {
  const told = atSaw.told;
  $("jobPanel").hidden = !told;
  if (!told) return;
  const work = workOf(told), {isWaiting, made} = work;
  const same = isWaiting && !atSaw.breaking ? sameJobs(told) : [told.job];
  $("jobTitle").textContent = tr`Job ${told.job}${isWaiting ? "" : `, ${stateWords(work)}`}: ${told.material}, part ${told.part}`;
  $("jobWords").textContent = jobWords(work);
  $("jobPage").textContent = pageWords(told.material);
  $("jobButtons").hidden = atSaw.breaking;
  $("done").textContent = same.length > 1 ? tr`One done` : tr`Done`;
  $("allDone").textContent = tr`All ${same.length} done`;
  $("allDone").hidden = same.length < 2;
  for (const id of ["done", "release"]) $(id).hidden = !isWaiting;
  $("begin").hidden = !isWaiting || isBegunHere(told);
  $("takeBack").hidden = Boolean(work.sent) || !["done", "broken"].includes(work.state);
  $("startBreak").hidden = !isWaiting || !told.root.cuts;
  $("nextJob").hidden = !jobBehind();
  $("breakPanel").hidden = !atSaw.breaking;
  $("tickWords").textContent =
    atSaw.breaking || !isWaiting ? "" : tr`Click a cut to tick it off. Ticks stay in this browser.`;
  fill($("jobFigures"), () => jobFigures(work));
  const saids = ordersOfJob(told).map(order => [order, saidOf(order)]);
  fill($("jobOrders"), () => saids.filter(([, said]) => said).map(([order, said]) => el("p", {}, el("b", {text: `${order}: `}), said)));
  fill($("nextCut"), () => nextCut(work));
  fill($("jobPieces"), () => jobPieces(work, same));
  fill($("jobStory"), () => storyLink("job", told.job));
  fill($("cutList"), () => cutsOf(told.root).map(cut => el("li", {}, cutRow(cut, work))));
  fill($("jobSheet"), () => jobSheet(work));
  fill($("jobPicture"), () => jobPicture(work));
  if (atSaw.breaking) showBreakWords(made);
}

function jobPicture({told, made, halt, isWaiting, isPlan}) {
  const restName = box => `${told.job}/${box.node}`, holder = el("div", {});
  atSaw.canvas = drawPlan(holder, told.root, limitsOf(told), {
    room: Math.max(200, $("jobPicture").clientWidth - 2),
    wordsOf: pieceWords,
    restName,
    made,
    halt,
    planned: isPlan,
    onCut: isWaiting ? clickCut : null
  });
  return [...holder.childNodes];
}

// Shows in the picture what a cut divides.
function pointOut(cut) {
  const shown = $("jobPicture").querySelector(".shown");
  if (!shown) return;
  if (!cut) return shown.setAttribute("visibility", "hidden");
  for (const [key, value] of Object.entries({...place(atSaw.canvas, cut), visibility: "visible"}))
    shown.setAttribute(key, value);
}

const STATES = {
  waiting: tr`waits`,
  done: tr`done`,
  broken: tr`broken off`,
  released: tr`given back`,
  undone: tr`taken back`
};

// The state to which a message brings its job.
const ENDS = {
  done: "done",
  break: "broken",
  release: "released",
  undo: "undone"
};

function stateWords({state, sent}) { return `${STATES[state]}${sent ? tr`, unanswered` : ""}`; }

function jobWords({told, sent, state, isPlan}) {
  if (sent) return tr`The message waits for its answer.`;
  if (state === "released") return tr`The job was given back: nothing was cut, and part ${told.part} stands as it was.`;
  if (state === "undone") return tr`The job was taken back: part ${told.part} stands again, and its pieces are wanted again.`;
  if (isPlan) return tr`The work was broken off. What was cut is being asked for; until then this is what was planned.`;
  return state === "broken" ? tr`The work was broken off: this is what was cut, and what was left.` : "";
}

function jobFigures(work) {
  const {told, isPlan, halt, made, boxes} = work, {cuts} = told.root;
  const pieces = boxes.filter(box => box.fate === "piece").length;
  return [
    figure(sizeText(told.kind, told.w, told.h), tr`part to cut`), figure(`${mm(told.kerf)} mm`, tr`kerf`),
    halt ? figure(tr`${made.size} of ${cuts}`, tr`cuts made`) : figure(cuts, word(cuts === 1 ? "cut" : "cuts")),
    isPlan ? null : figure(pieces, word(pieces === 1 ? "piece" : "pieces")), figure(stateWords(work), tr`state`),
    work.isWaiting && told.begun ? figure(terminalWords(told.begun), tr`has begun it`) : null
  ];
}

// The first cut that isn't ticked, to be ticked where the hand is.
function nextCut(work) {
  if (!work.isWaiting || atSaw.breaking || !work.told.root.cuts) return [];
  const cuts = cutsOf(work.told.root), cut = cuts.find(it => !work.made.has(it.cut));
  if (!cut) return [quiet(tr`All ${cuts.length} cuts are ticked.`)];
  const row = cutRow(cut, work);
  row.dataset.key = "next cut";
  return [el("h3", {text: tr`Next: cut ${cut.cut + 1} of ${cuts.length}`}), row];
}

// Whose the pieces are, and which rests are kept under which name.
function jobPieces({told, boxes}, jobs = told.jobs) {
  return piecesTable(told.kind, boxes, box => tr`kept: label it ${namesIn({...told, ...jobs ? {jobs} : {}}, box)}`);
}

function piecesTable(kind, boxes, restWords) {
  const right = text => el("td", {class: "right", text}), pieces = boxes.filter(box => box.fate === "piece");
  const rows = [...new Set(pieces.map(box => box.demand))].map(demand => {
    const {order, line} = lineOfDemand(demand), same = pieces.filter(box => box.demand === demand), [one] = same;
    return el("tr", {}, right(`${same.length} ×`), right(pieceSize(kind, one)),
      el("td", {text: tr`order ${order}, line ${line} (no. ${demand})`}));
  });
  const kept = boxes.filter(box => box.fate === "kept").map(box => el("tr", {}, right(tr`rest`),
                      right(sizeText(kind, box.w, box.h)), el("td", {text: restWords(box)})));
  return [el("table", {}, headRow([tr`Times`, tr`Size in mm`, ORDER], HEARD), el("tbody", {}, ...rows, ...kept))];
}

function cutWords(cut, told) {
  const across = told.kind === "bar" ? tr`Saw` : cut.axis === "x" ? tr`Saw across` : tr`Saw along`;
  const from = told.kind === "bar" ? "" : cut.axis === "x" ? tr` from the left` : tr` from the top`;
  return [tr`${across} at ${mm(cut.at)} mm`, tr`${from} of ${sizeText(told.kind, cut.w, cut.h)}`];
}

function cutState({cut}, {halt, made}) {
  if (halt?.lost === cut) return ["lost", tr`✗ went wrong: `];
  if (made.has(cut)) return ["made", tr`✓ made: `];
  if (halt?.scrapped?.has(cut)) return ["", tr`not made, or went wrong: `];
  return ["", halt ? tr`not made: ` : ""];
}

function cutRow(cut, work) {
  const [state, came] = cutState(cut, work), [at, of] = cutWords(cut, work.told);
  const words = el("div", {}, came ? el("span", {class: "state", text: came}) : null,
    el("b", {class: "number", text: at}), of, el("div", {class: "quiet", text: cutGives(cut, work)}));
  const given = {
    class: `cut ${state}`,
    on: {
      mouseenter: () => pointOut(cut),
      mouseleave: () => pointOut(null),
      focus: () => pointOut(cut),
      blur: () => pointOut(null)
    }
  };
  const mark = el("span", {class: "mark", text: String(cut.cut + 1)});
  if (!work.isWaiting) return el("div", given, mark, words);
  given.on.click = () => clickCut(cut.cut);
  return el("button", {...given, "data-key": `c${cut.cut}`, "aria-pressed": String(state !== "")}, mark, words);
}

// The rectangles that lie beside a cut and aren't cut again; one that a wrong cut spoiled lies at that.
function besideCut(cut, left) {
  return [cut.first, cut.second].map(node => node && left.get(node.node)).filter(box => box && box.fate !== "lost");
}

// What falls off at a cut: pieces and rests, or nothing that is named yet; of one that isn't made what it was to give.
function cutGives(cut, {told, isPlan, halt, made, left}) {
  const isMade = !isPlan && (!halt || made.has(cut.cut));
  const ends = [cut.first, cut.second].filter(node => node && node.kind !== "cut");
  const given = (isMade ? besideCut(cut, left) : ends).map(box => partWords(box, told));
  const trims = !cut.second && cut.first.kind === "cut", isWrong = halt?.lost === cut.cut, lost = isWrong && left.get(cut.node);
  const saved = isWrong && halt.rest ? left.get(cut.node + 1) : null;
  return [
    lost ? partWords(lost, told) : "", saved ? tr`left of it: ${partWords(saved, told)}` : "",
    given.length ? `${isMade ? tr`gives` : tr`was to give`} ${given.join("; ")}` : "",
    trims ? tr`${isMade ? tr`trims` : tr`was to trim`} ${mm(cut.side - cut.at)} mm off` : ""
  ].filter(Boolean).join("; ");
}

// A piece, a rest with what becomes of it, or a rest of a plan, which has no fate.
function partWords(box, told) {
  const size = sizeText(told.kind, box.w, box.h);
  if (box.kind !== "piece") {
    const name = box.kind === "rest" ? tr`rest ` : box.uncut ? tr`uncut ` : "";
    const fate = box.fate === "kept" ? tr`, kept as ${told.job}/${box.node}` : box.fate ? `, ${word(box.fate)}` : "";
    return `${name}${size}${fate}`;
  }
  const {order, line} = lineOfDemand(box.demand);
  return tr`piece ${size} of ${order} line ${line} (no. ${box.demand})${box.turned ? tr` turned` : ""}`;
}

// The ticket on paper: a line a cut, in smaller print where there are many, so that it stays on one sheet with the picture.
function linesClass({cuts}) { return cuts > 90 ? "many most" : cuts > 24 ? "many" : ""; }

function jobSheet(work) {
  $("jobSheet").className = `printonly cutlines ${linesClass(work.told.root)}`;
  $("jobPanel").classList.toggle("most", work.told.root.cuts > 90);
  return cutLines(work);
}

function cutLines({told, halt, made, isWaiting, left}) {
  return cutsOf(told.root).map(cut => {
    const across = told.kind === "bar" ? "" : cut.axis === "x" ? tr`across ` : tr`along `;
    const gives = besideCut(cut, left).map(box => sheetWords(box, told));
    const mark = isWaiting ? "☐" : made.has(cut.cut) ? "✓" : halt?.lost === cut.cut ? "✗" : halt ? "–" : "☐";
    return el("p", {}, `${mark} ${cut.cut + 1} `, el("b", {text: `${across}${mm(cut.at)} mm`}),
      tr` of ${sizeText(told.kind, cut.w, cut.h)}${gives.length ? ` → ${gives.join(", ")}` : ""}`);
  });
}

function sheetWords(box, told) {
  if (box.kind !== "piece") return box.fate === "kept" ? tr`keep ${namesIn(told, box)}` : word(box.fate);
  const {order, line} = lineOfDemand(box.demand);
  return `${order}/${line}${box.turned ? " ↻" : ""}`;
}

// A click ticks a cut with all above it, or takes it back with all below it; or marks the one that went wrong.
function clickCut(number) {
  const {told} = atSaw, made = ticks.of(told.job), cuts = cutsOf(told.root), cut = cuts[number];
  const takeBack = from => {
    for (const other of cuts)
      if (other.cut === from || other.above.includes(from)) made.delete(other.cut);
  };
  const isWrong = atSaw.breaking && document.querySelector("[name=breakMode]:checked").value === "lost";
  const isCleared = atSaw.breaking && atSaw.lost === number, isFirst = !atSaw.breaking && !made.size;
  if (isCleared || isWrong) atSaw.lost = isCleared ? null : number;
  if (isWrong || made.has(number)) takeBack(number);
  else if (!isCleared) made.add(number);
  if (made.has(number) || (isWrong && !isCleared))
    for (const above of cut.above) made.add(above);
  if (atSaw.lost !== null && (made.has(atSaw.lost) || cuts[atSaw.lost].above.some(above => !made.has(above))))
    atSaw.lost = null;
  ticks.set(told, made);
  if (isFirst && !isBegunHere(told)) beginJob();
  showJob();
  say(tr`${made.size} of ${count(cuts.length, "cut")} ticked`);
}

// Whether this terminal has begun a job, or says so in a message without an answer.
function isBegunHere({job, begun}) {
  return (begun > 0 && begun === terminal.number) || terminal.keptHere().some(({command}) => command.do === "begin" && command.job === job);
}

// Tells that work on the shown job begins here; who else had begun it is told.
function beginJob() {
  const {job} = atSaw;
  send({do: "begin", job}, tr`Begin job ${job}`, showView);
  showView();
}

// Takes back that a job was done or broken off.
function undoJob(job) {
  send({do: "undo", job}, tr`Take back job ${job}`, showView);
  showView();
}

function undoJobs(jobs) {
  if (jobs.length === 1) return undoJob(jobs[0]);
  return sendMany(tr`Take back jobs ${rangesOf(jobs)}`, jobs.map(job => [tr`Job ${job}`, {do: "undo", job}]), showView);
}

// What was measured of the rectangle that the wrong cut was to divide, 0 for nothing; and what is wrong with it.
function restMeasured() {
  const fault = restFault();
  return fault || atSaw.lost === null ? 0 : readMm($("breakRest").value) || 0;
}

function restFault() {
  const {lost, told} = atSaw, text = $("breakRest").value.trim();
  return lost === null || !text ? "" : lengthFault(text, cutsOf(told.root)[lost].side - 1);
}

function showBreakWords(made) {
  const fault = restFault(), words = fault ? tr`Rest measured: ${fault}` : breakWords(made), field = $("breakRest");
  if ($("breakWords").textContent !== words) $("breakWords").textContent = words;
  $("breakWords").classList.toggle("fault", Boolean(fault));
  $("restField").hidden = atSaw.lost === null;
  field.classList.toggle("badfield", Boolean(fault));
  field.setAttribute("aria-invalid", String(Boolean(fault)));
  $("sendBreak").disabled = !canBreak(made) || Boolean(fault);
}

// Whether something was begun, and not all made.
function canBreak(made) { return (made.size > 0 || atSaw.lost !== null) && made.size < atSaw.told.root.cuts; }

function breakWords(made) {
  const {told, lost} = atSaw, {root, kind} = told;
  if (made.size === root.cuts) return tr`All cuts are marked as made: the job is done, not broken.`;
  if (!canBreak(made)) return tr`No cut is marked yet. If none was begun, give the job back instead.`;
  const boxes = layPlan(root, limitsOf(told), {made, lost, rest: restMeasured()}), cells = cellsByFate(boxes);
  const wrong = lost === null ? tr`none went wrong` : tr`cut ${lost + 1} went wrong`, size = box => sizeText(kind, box.w, box.h);
  const left = leftWords(kind, cells.piece, cells.kept, cells.kerf, cells.scrap + cells.lost);
  const kept = boxes.filter(box => box.fate === "kept").map(box => `${told.job}/${box.node} (${size(box)})`);
  const lostSize = boxes.filter(box => box.fate === "lost").map(size);
  return [
    tr`${made.size} of ${count(root.cuts, "cut")} made, ${wrong}. Then: ${left}.`,
    kept.length ? tr`Kept: ${kept.join(", ")}.` : tr`Nothing is kept.`, lostSize.length ? tr`Lost: ${lostSize[0]}.` : ""
  ].filter(Boolean).join(" ");
}

// Opens or closes the panel of a break. The first cut that isn't ticked is taken for the one that went wrong.
function setBreaking(isOn) {
  const made = isOn ? ticks.of(atSaw.told.job) : null, first = isOn && cutsOf(atSaw.told.root).find(({cut}) => !made.has(cut));
  breaks.delete(keyOf(atSaw.told));
  Object.assign(atSaw, {breaking: isOn, lost: first ? first.cut : null});
  $("breakRest").value = "";
  document.querySelector("[name=breakMode][value=made]").checked = true;
  showJob();
}

async function finish() {
  if (performance.now() < atSaw.deaf) return;
  const {told} = atSaw, made = ticks.of(told.job).size, all = told.root.cuts;
  if (!made || made === all || await confirmed(tr`Only ${made} of ${count(all, "cut")} are ticked. Were all made?`, tr`Done`))
    endJob(told, {do: "done", job: told.job}, tr`Job ${told.job} done`);
}

// All waiting jobs of one plan are done, after one question.
async function finishAll() {
  const {told} = atSaw, jobs = sameJobs(told), what = tr`Jobs ${rangesOf(jobs)} done`;
  const words = tr`All ${jobs.length} jobs of this plan, ${rangesOf(jobs)}: were all their cuts made?`, ended = [];
  if (!await confirmed(words, tr`All ${jobs.length} done`)) return;
  sendMany(what, jobs.map(job => [tr`Job ${job} done`, {do: "done", job}]), command => {
    ended.push(command.job);
    ticks.forget(command.job);
    showView();
  }, () => ended.length ? {words: tr`Take back`, go: () => undoJobs(ended)} : null);
  showView();
  faceJob();
}

function sendBreak() {
  const {told, lost} = atSaw, made = [...ticks.of(told.job)].sort((a, b) => a - b), rest = restMeasured();
  const command = {cuts: made, do: "break", job: told.job, lost: lost === null ? false : lost, ...rest ? {rest} : {}};
  const marked = {lost, rest: $("breakRest").value};
  endJob(told, command, tr`Break off job ${told.job}`, () => {
    breaks.set(keyOf(told), marked);
    if (atSaw.told && keyOf(atSaw.told) === keyOf(told)) {
      $("breakRest").value = marked.rest;
      takeJob(atSaw.told);
    }
    showView();
  });
}

async function release() {
  const {told} = atSaw;
  if (await confirmed(releaseWords(told), tr`Give back`))
    endJob(told, {do: "release", job: told.job}, tr`Give back job ${told.job}`);
}

function releaseWords({job, part, root}) {
  const made = ticks.of(job).size;
  if (!made) return tr`Give back job ${job}, of which no cut was made? Its part ${part} stands again, as it was.`;
  const marked = tr`${made} of ${count(root.cuts, "cut")} ${made === 1 ? "is" : "are"} marked as made`;
  const other = made === root.cuts ? tr`Done` : tr`Broken off…`;
  return tr`${marked}, and “${other}” is for that. Give back job ${job} all the same, as if part ${part} was never cut?`;
}

// Sends what ends a job. From then on nothing on the ticket ends it a second time, unless the shop refuses.
function endJob(told, command, what, refused) {
  send(command, what, () => {
    ticks.forget(told.job);
    if (!atSaw.told || keyOf(atSaw.told) !== keyOf(told)) return;
    setBreaking(false);
    if (command.do === "done") openSame(told);
  }, refused);
  setBreaking(false);
  faceJob();
}

// Opens the next waiting job with the plan of one that was done, where the saw is still looked at.
function openSame(told) {
  const next = waitingJobs().find(row => row.job !== told.job && kindOfPlan(row) === kindOfPlan(told, told.tree));
  if (!next || viewName() !== "saw") return;
  atSaw.deaf = performance.now() + DEAF;
  openJob(next.job);
}

function showAnyJob(event) {
  event.preventDefault();
  const job = readWhole($("jobNumber").value, 1, 2147483647);
  if (job === null) return showFault("jobFault", tr`A job's number is a whole number from 1 on.`);
  openJob(job);
}

// The job that waits behind the shown one, or the first; of the chosen material where there is another of it.
function jobBehind() {
  const others = rows => rows.filter(row => row.job !== atSaw.job), near = others(waitingJobs());
  const rows = near.length ? near : others([...shop.jobs].sort(byDay)), shown = shop.jobs.find(row => row.job === atSaw.job);
  const isBehind = row => (shown ? byDay(row, shown) : 0) || row.job - atSaw.job;
  return rows.find(row => isBehind(row) > 0) || rows[0];
}
