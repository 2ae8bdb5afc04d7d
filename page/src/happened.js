// ---- What happened: the shop's entries, the newest first, a hundred a page; or those about an order, a job or a part.

const ENTRIES = 100, LOOKED = "cutshop.looked";

// looked: the last entry that was seen before this visit, null where none is under way.
const happened = {
  looked: null
};

function leaveHappened() { happened.looked = null; }

function isStory(of) { return of.includes("/"); }

function storyOf(of) { return `/story/${of}/0`; }

// The entries that an address names, where it is no story: those behind a number up to another.
function pageOf(of) {
  const entries = lastEntry(), last = Math.min(Number(of) || entries, entries);
  return [Math.max(0, last - ENTRIES), last];
}

// What is known of the entries that an address names, the newest first.
function happenedTold(of) {
  const page = pageOf(of), {entries, more, refused, name} = isStory(of) ? toldOf(storyOf(of)) : {};
  if (isStory(of)) return {rows: entries && [...entries].reverse(), more, refused, name};
  return facts.last && !lackingEntry(...page) ? {rows: entriesKnown(...page)} : {};
}

async function readHappened() {
  const {of} = readAddress();
  if (!facts.last) return;
  await (isStory(of) ? readPages(storyOf(of)) : readEntries(...pageOf(of)));
  if (readAddress().of === of && viewName() === "happened") noteLook(of, lastEntry());
}

// What is new since the newest entries were shown the last time; of another store nothing is known.
function noteLook(of, entries) {
  const looked = storage.read(LOOKED, 0);
  happened.looked ??= looked > entries ? 0 : looked;
  if (of || looked === entries) return;
  try {
    storage.write(LOOKED, entries);
  } catch { return; }  // (then the line stays where it is)
}

function showHappened() {
  const {of} = readAddress(), told = happenedTold(of), {rows = []} = told, [kind, ...name] = of.split("/");
  $("happenedTitle").textContent = isStory(of) ? storyWords(kind, name.join("/")) : tr`What happened`;
  showNarrow(rows);
  fill($("happenedList"), () => happenedRows(of, told));
  fill($("happenedPages"), () => told.rows ? pageLinks(of, rows) : []);
}

function happenedRows(of, {rows, more, ...reply}) {
  if (reply.refused) return [el("p", {class: "fault", text: refusedWords(reply)})];
  if (!rows) return [quiet("…")];
  const shown = rows.filter(isNarrowed);
  return [andMore(more), ...shown.length ? dayRows(of, shown, filesAgain(rows)) : [quiet(emptyWords(of, rows))]];
}

// Which entries are files that came again, and so made nothing.
function filesAgain(rows) {
  const made = new Set();
  return rows.toReversed().filter(({message: {do: done}, reply: {order}}) => {
    const isAgain = done === "import" && made.has(order);
    if (order) made.add(order);
    return isAgain;
  });
}

function storyWords(kind, name) {
  return {order: tr`What happened to order ${name}`, job: tr`What happened to job ${name}`, part: tr`What happened to part ${name}`}[kind];
}

// What a person narrows the entries to.
function chosenOf() { return [$("ofTerminal").value, $("ofWord").value]; }

function isNarrowed({message}) {
  const [terminal, done] = chosenOf();
  return (!terminal || message.terminal === Number(terminal)) && (!done || message.do === done);
}

function showNarrow(rows) {
  const [terminal] = chosenOf(), there = new Set(rows.map(({message}) => message.terminal));
  if (terminal) there.add(Number(terminal));
  const numbers = [...there].sort((a, b) => a - b), option = ([value, text]) => el("option", {value, text});
  fill($("ofTerminal"), () => [["", tr`all`], ...numbers.map(number => [String(number), terminalWords(number)])].map(option));
  fill($("ofWord"), () => [["", tr`all`], ...Object.entries(DONE_WORDS)].map(option));
}

function terminalWords(number) { return number ? tr`Terminal ${number}` : tr`shop file`; }

const DONE_WORDS = {
  receive: tr`Received`,
  order: tr`Ordered`,
  import: tr`Ordered by a file`,
  extend: tr`Lines added`,
  note: tr`Noted`,
  amend: tr`Changed`,
  reserve: tr`Reserved`,
  begin: tr`Begun`,
  done: tr`Done`,
  break: tr`Broken off`,
  release: tr`Given back`,
  undo: tr`Taken back`,
  scrap: tr`Scrapped`,
  return: tr`Returned`,
  material: tr`Material`
};

// The entries by days, with a line above those that were seen before.
function dayRows(of, rows, again) {
  const isNew = ({entry}) => entry > happened.looked, marks = of === "" && happened.looked && isNew(rows[0]);
  const seen = marks ? rows.find(row => !isNew(row)) : null, back = jobsBack(rows);
  return groupsOf(rows, ({at}) => dayText(at)).flatMap(same => [
    el("h3", {text: dayText(same[0].at)}),
    el("ol", {class: "entries"}, ...same.flatMap(row => [row === seen ? el("li", {class: "looked", text: tr`since your last look ↑`}) : null, entryRow(of, row, again, back)]))
  ]);
}

function emptyWords(of, rows) {
  if (rows.length) return tr`Nothing of it among entries ${rows[rows.length - 1].entry} to ${rows[0].entry}.`;
  return isStory(of) ? tr`Before records began.` : tr`Nothing yet.`;
}

// A day and a time of day, in the reader's own time zone and language.
function dayText(at) {
  const how = {weekday: "long", day: "2-digit", month: isGerman ? "2-digit" : "long", year: "numeric"};
  return at ? new Date(at * 1000).toLocaleDateString(isGerman ? "de-DE" : navigator.language, how) : tr`No time is known`;
}

function clockText(at) {
  return at ? new Date(at * 1000).toLocaleTimeString(isGerman ? "de-DE" : navigator.language, {hour: "2-digit", minute: "2-digit"}) : "–";
}

function entryRow(of, row, again, back) {
  const {at, entry, message, reply} = row;
  return el("li", {class: String(entry) === of ? "chosen" : ""},
    el("a", {class: "button small", href: `#happened/${entry}`, title: tr`entry ${entry}`, "aria-label": tr`entry ${entry}`}, el("time", {text: clockText(at)})),
    el("span", {class: "quiet", text: terminalWords(message.terminal)}),
    el("span", {text: `${entryWords(message, reply)}${again.includes(row) ? tr`, which was there: nothing done` : ""}`}),
    el("span", {class: "links"}, ...linksOf(message, reply), takeBackButton(message, entry, back)));
}

function entryWords(message, reply) {
  const {do: done, material, batch, count: units, demand, part, tree, job, wanted} = message;
  const of = lineOfDemand(demand), kind = message.kind || kindOf(material);
  switch (done) {
    case "material": return tr`material ${material}, ${materialWords(message)}`;
    case "receive": return tr`${units} × ${material} ${sizeText(kind, message.w, message.h)} received, batch ${batch}`;
    case "order": return tr`order ${message.order}: ${count(reply.count, "line")}`;
    case "extend": return tr`order ${message.order}: ${count(reply.count, "line")} added`;
    case "note": return tr`order ${message.order}: ${noteWords(message)}`;
    case "import": return tr`file of order ${message.order}: ${count(reply.count, "line")}`;
    case "amend": return of.order
      ? tr`${grouped(wanted)} wanted of order ${of.order}, line ${of.line}`
      : tr`${grouped(wanted)} wanted of pieces no. ${demand}`;
    case "reserve": return tr`${part} reserved as job ${reply.job}: ${count([...countPieces(tree).values()].reduce((a, b) => a + b, 0), "piece")}`;
    case "begin": return tr`job ${job} begun`;
    case "done": return tr`job ${job} done`;
    case "break": return breakSentence(job, haltOf(message));
    case "undo": return tr`job ${job} taken back, ${reply.part} stands again`;
    case "release": return tr`job ${job} given back`;
    case "scrap": return tr`${part} scrapped`;
    case "return": return tr`${part} returned`;
    default: return done;
  }
}

function breakSentence(job, {made, lost, rest}) {
  const wrong = lost === null ? "" : tr`, cut ${lost + 1} went wrong`;
  return tr`job ${job} broken off, ${count(made.size, "cut")} made${wrong}${rest ? tr`, rest ${mm(rest)}\u00a0mm` : ""}`;
}

// The jobs that were taken back, as far as entries tell it.
function jobsBack(rows) {
  return new Set([...rows, ...facts.entries.values()].filter(({message}) => message.do === "undo").map(({message}) => message.job));
}

// What a done or broken job's entry has, unless the job was taken back since or is being.
function takeBackButton({do: done, job}, entry, back) {
  if (!["done", "break"].includes(done) || back.has(job) || endSent(job)) return null;
  return el("button", {class: "small", text: tr`Take back`, "data-key": `back${entry}`, "aria-label": tr`Take back job ${job}`, on: {click: () => undoJob(job)}});
}

// Links to what an entry is about.
function linksOf({order, part, batch, demand, do: done, job}, reply) {
  const of = order || lineOfDemand(demand).order, number = job || reply.job, name = done === "receive" ? `${reply.act}/0` : part;
  return [
    of ? linkTo(`order/${of}`, tr`Order ${of}`) : null, number ? linkTo(`saw/${number}`, tr`Job ${number}`) : null,
    name ? linkTo(`part/${name}`, tr`Part ${name}`) : null, batch ? linkTo(`batch/${batch}`, tr`Batch ${batch}`) : null
  ];
}

// The pages before and behind the one that is shown.
function pageLinks(of, rows) {
  const entries = lastEntry(), first = Number(of) || entries, links = [];
  if (isStory(of)) return [linkTo("happened", tr`All that happened`)];
  if (first < entries) links.push(linkTo(first + ENTRIES < entries ? `happened/${first + ENTRIES}` : "happened", tr`Newer`));
  if (rows.length && rows[rows.length - 1].entry > 1) links.push(linkTo(`happened/${rows[rows.length - 1].entry - 1}`, tr`Older`));
  return links;
}

function narrow(event) {
  event.preventDefault();
  const code = readCode("ofOrder");
  markField($("ofOrder"), codeFault(code));
  if (goToFault($("narrowForm"))) return;
  $("ofOrder").value = "";
  go(`happened/order/${code}`);
}

// A link to what happened to something.
function storyLink(kind, name) {
  return linkTo(`happened/${kind}/${name}`, tr`What happened`, storyWords(kind, name));
}
