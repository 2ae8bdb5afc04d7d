// ---- The server: the one place that talks to it. One request at a time; what people ask for goes first. What takes long goes
// beside them.

// came: what came in place of an answer of the shop, if anything did.
class NoAnswer extends Error {
  constructor(came = "") {
    super(came || tr`no answer came`);
    this.came = came;
  }
}
class NumbersSpent extends Error {}
class Refused extends Error {
  constructor(reply) {
    super(reply.name);
    this.reply = reply;
  }
}

// sent: how many requests were sent.
const queue = {
  sent: 0,
  asked: [],
  calm: [],
  busy: false
};

// `run`: the one that is asked, where it isn't the one that answers as far as is known.
function request(path, {body, calm = false, beside = false, patience = 20000, signal, run} = {}) {
  if (beside) return fetchOnce({path, body, patience, signal, run});
  return new Promise((resolve, reject) => {
    (calm ? queue.calm : queue.asked).push({path, body, patience, signal, run, resolve, reject});
    serveQueue();
  });
}

async function serveQueue() {
  const next = queue.busy ? null : queue.asked.shift() || queue.calm.shift();
  if (!next) return;
  queue.busy = true;
  try {
    next.resolve(await fetchOnce(next));
  } catch (error) { next.reject(error); }
  queue.busy = false;
  serveQueue();
}

// Asks the shop once it is known which run of it answers.
async function fetchOnce(asked) {
  if (!running.isMet) await meetShop();
  const {run = running.run} = asked, answer = await fetchAlone({...asked, run});
  if (run && answer.status === 412) leaveRun();
  return answer;
}

// An answer's status and its reply, which is none where the answer isn't the shop's, or where another run answers than is asked.
async function fetchAlone({path, body, patience, signal, run}) {
  const stop = new AbortController(), timer = setTimeout(() => stop.abort(), patience);
  if (signal) signal.addEventListener("abort", () => stop.abort());
  try {
    if (signal && signal.aborted) stop.abort();
    queue.sent++;
    const method = body === undefined ? "GET" : "POST", headers = run ? {"If-Match": `"${run}"`} : {};
    const answer = await fetch(path, {method, body, headers, signal: stop.signal, cache: "no-store"});
    const {status} = answer, reply = readReply(await answer.text());
    if (reply) showLink(true);
    else if (!isBare(path, status)) showLink(false, strangeWords(status));
    return {status, reply};
  } catch {
    if (!(signal && signal.aborted)) showLink(false);
    throw new NoAnswer();
  } finally { clearTimeout(timer); }
}

// What the shop answers without a reply: of a route that the program may be without, and of another run than is asked.
function isBare(path, status) {
  return status === 412 || (path === "/backup" && status === 405) || (["/backup", "/health"].includes(path) && status === 404);
}

// A reply's object.
async function fetchReply(path, options) {
  const {status, reply} = await request(path, options);
  if (!reply) throw new NoAnswer(status === 412 ? tr`the program was started anew` : strangeWords(status));
  return reply;
}

// The same; a refusal is thrown.
function unlessRefused(reply) {
  if (reply.refused !== undefined) throw new Refused(reply);
  return reply;
}

// A question, whose answer, or refusal, is known from then on; or what is no message and is sent.
async function ask(path, options = {}) {
  const {last, shops} = facts, reply = await fetchReply(path, options);
  if (options.body === undefined && shops === facts.shops) {
    learn(reply);
    noteFact(path, {...reply}, last);
  }
  return unlessRefused(reply);
}

// What is known still, or else what the shop says when nobody waits for another answer.
async function askCalmly(path) {
  const known = facts.by.get(path);
  if (!known) return ask(path, {calm: true});
  keepFact(facts.by, path, known);
  return unlessRefused({...known.reply});
}

// A list is read up to so many pages of so many rows.
const MAX_PAGES = 20, ROWS = 100;

// A list, as many of its pages as are shown, and whether there are more: one answer, which is known by the path of the first page once all
// of it was read and nothing was dropped meanwhile.
async function readPages(start, pages = MAX_PAGES) {
  const [, word] = start.split("/"), key = word === "story" ? "entries" : word, {last, shops} = facts;
  const told = {...factOf(start) || await fetchReply(start, {calm: true})}, {drops} = facts, rows = told[key] = [...told[key] || []];
  while (told.more && rows.length < pages * ROWS) {
    const next = unlessRefused(await fetchReply(pathBehind(start, key, rows[rows.length - 1]), {calm: true}));
    rows.push(...next[key]);
    told.more = next.more && next[key].length > 0;
  }
  if (shops === facts.shops) learn(told);
  if (shops === facts.shops && drops === facts.drops && (pages < Infinity || rows.length <= ROWS)) noteFact(start, told, last);
  return [rows, unlessRefused(told).more];
}

// Reads the entries behind a number up to another, as far as they aren't known, the newest first.
async function readEntries(after, last) {
  for (let page = 0, lacking; page < MAX_PAGES && (lacking = lackingEntry(after, last)); page++)
    if (!(await ask(`/history/${lacking - 1}`, {calm: true})).entries.length) break;
  return entriesKnown(after, last);
}

// The path of the page behind a row.
function pathBehind(start, key, row) {
  if (key === "entries") return start.replace(/0$/, row.entry);
  const last = key === "pieces" ? row.part : row[key.slice(0, -1)];
  return ["demands", "jobs"].includes(key) ? start.replace("0", last) : `${start}/${last}`;
}

// An answer of the shop is a JSON object that says what was done or why not; another program may listen at its port, or stand
// between.
function readReply(text) {
  try {
    const told = JSON.parse(text), isReply = told?.ok !== undefined || told?.refused !== undefined;
    return isReply && !Array.isArray(told) ? told : null;
  } catch { return null; }
}

// What came that is no answer of the shop.
function strangeWords(status) {
  return status === 403
    ? tr`the shop takes this from its own page alone: open it at 127.0.0.1 or localhost (status 403)`
    : tr`status ${status} came, which is no answer of the shop`;
}

async function faultWords(error, command) {
  if (error instanceof Refused) return refusalWords(error.reply, command);
  return error instanceof NoAnswer ? error.message : String(error);
}

// Whether the shop answers; where something else did, that is told beside it, and where nothing does for a while, since when.
const AWAY = 3000;

function showLink(isOn, why = "") {
  const words = isOn ? tr`connected` : tr`no connection`;
  if (!isOn) {
    refresh.lost = true;
    running.isMet = false;
  }
  if (isOn === running.away > 0) {
    running.away = isOn ? 0 : Date.now();
    showKeptSoon();
    setTimeout(showKept, AWAY + 50);
  }
  if ($("link").textContent !== words) $("link").textContent = words;
  $("link").title = why;
  $("link").classList.toggle("off", !isOn);
}
