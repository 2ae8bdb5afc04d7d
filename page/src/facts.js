// ---- The one store of what is known of the shop: each answer by its path, as of the entry that was the last one known when it was asked
// for. An entry drops what it may have changed, so that a pass asks for what a view needs and what isn't known, and for nothing else.
// What was dropped is shown until it is read anew. Views keep nothing of it.

// by: what is known; old: what was known, and is shown where nothing is known in its place; entries: entries by their numbers, and lines: whose
// each demand is, which never change; orders: the row that was told last of each order, with what is said of it; last: the last entry that is
// known, as `lastOf` has it, null where nothing of the shop is known; shops: how often all was dropped, as another shop answered; drops: how
// often something was dropped.
const facts = {
  by: new Map(),
  old: new Map(),
  entries: new Map(),
  lines: new Map(),
  orders: new Map(),
  last: null,
  shops: 0,
  drops: 0
};

// So many answers are kept, and so many entries, the latest ones; of others it is asked again where they are shown.
const MAX_FACTS = 3000;

const OF_ORDERS = ["demands", "demand", "orders", "order", "story"], OF_STOCK = ["parts", "totals"], OF_PART = [...OF_STOCK, "trace", "story"];
const OF_ENDS = [...OF_ORDERS, ...OF_PART, "jobs", "job", "steps", "pieces"];

// By what an entry did: the first words of the paths whose answers it may have changed.
const STALE = {
  material: ["materials"],
  receive: OF_STOCK,
  order: OF_ORDERS,
  import: [...OF_ORDERS, ...OF_STOCK],
  extend: OF_ORDERS,
  note: ["demands", "orders", "order", "story", "jobs"],
  amend: OF_ORDERS,
  reserve: [...OF_ORDERS, ...OF_PART, "jobs", "steps"],
  begin: ["story", "jobs", "job"],
  done: OF_ENDS,
  break: OF_ENDS,
  release: OF_ENDS,
  undo: OF_ENDS,
  scrap: [...OF_PART, "steps"],
  return: [...OF_PART, "steps"]
};

const KEPT_FACTS = new Set([...OF_ENDS, "materials"]);

// Whether an entry may have changed an answer: a word that isn't known may have changed any. `of`: the orders and materials that it is
// about, null where these aren't known.
function isStaleBy({do: done, job, part}, of, path) {
  const [, kind] = path.split("/"), [, about, name, last] = path.replace("/story", "").split("/");
  const kinds = Object.hasOwn(STALE, done) ? STALE[done] : null;
  if (!kinds?.includes(kind)) return !kinds;
  if (about === "job") return Number(name) === job;
  if (about === "order") return !of.orders || of.orders.includes(name);
  if (["part", "trace"].includes(about)) return Boolean(job) || path.includes(`/${part}`);
  const material = kind === "demands" ? last : OF_STOCK.includes(kind) ? name : "";
  return !material || !of.materials || of.materials.includes(material);
}

// The same of an answer that is known: what was refused may be there behind any entry, and to a story that isn't told to its end no entry comes.
function isFactStaleBy(message, of, path, {ok, more, refused}) {
  return refused !== undefined || (!(ok === "story" && more) && isStaleBy(message, of, path));
}

function whatIsAbout({order, lines, material, demand, tree, job}) {
  if (order || material) return {orders: order ? [order] : [], materials: material ? [material] : lines?.map(line => line.material) || null};
  const text = tree || toldOf(`/job/${job}`).tree, demands = demand ? [demand] : text ? [...countPieces(text).keys()] : [];
  const known = demands.map(lineOfDemand), isKnown = known.length > 0 && known.every(it => it.order);
  return {orders: isKnown ? known.map(it => it.order) : null, materials: isKnown ? known.map(it => it.material) : null};
}

// Keeps an answer that was asked for when this was the last entry. Where another one is known by now, it is to be read anew.
function noteFact(path, reply, asOf = facts.last) {
  const isOld = asOf !== facts.last, fact = {reply, asOf: asOf?.entry || 0};
  if (!KEPT_FACTS.has(path.split("/")[1])) return;
  for (const row of reply.orders || []) facts.orders.set(row.order, {...row, isOld});
  if (isOld) return dropFact(path, fact);
  facts.old.delete(path);
  keepFact(facts.by, path, fact);
}

function keepFact(map, path, fact) {
  map.delete(path);
  map.set(path, fact);
  if (map.size > MAX_FACTS) map.delete(map.keys().next().value);
}

// What may have changed is shown until it is read anew.
function dropFact(path, fact) {
  facts.by.delete(path);
  keepFact(facts.old, path, fact);
}

function factOf(path) { return facts.by.get(path)?.reply; }

// What the shop told last of a path: nothing where that was never asked for.
function toldOf(path) { return (facts.by.get(path) || facts.old.get(path))?.reply || {}; }

// Learns the entries that an answer tells, and whose the demands are.
function learn({ok, demands, lines, steps, entries, ...row}) {
  const told = ["history", "story"].includes(ok) ? entries : [], made = ok === "demand" ? [row] : told.flatMap(linesMade);
  for (const it of told) keepFact(facts.entries, it.entry, it);
  learnLines(demands || lines || steps?.filter(step => step.demand).map(step => ({...step, material: row.material})) || made);
}

function learnLines(rows) {
  for (const {demand, order, line, material} of rows) facts.lines.set(demand, {order, line, material});
}

// The lines that an entry made, as far as it tells them.
function linesMade({message: {lines = []}, reply: {first, order}}) {
  return order ? lines.map(({line, material}, i) => ({demand: first + i, order, line, material})) : [];
}

function lastEntry() { return facts.last?.entry || 0; }

// The first entry behind a number up to another that isn't known, or 0.
function lackingEntry(after, last) {
  let entry = Math.max(0, after) + 1;
  while (facts.entries.has(entry)) entry++;
  return entry <= last ? entry : 0;
}

// The entries behind a number up to another that are known, the newest first.
function entriesKnown(after, last) {
  const numbers = Array.from({length: last - Math.max(0, after)}, (_, i) => last - i);
  return numbers.map(entry => facts.entries.get(entry)).filter(Boolean);
}

// Whose a demand is: its order, line and material, or nothing where that isn't known.
function lineOfDemand(demand) { return facts.lines.get(demand) || {}; }

// Drops what a message may have changed, unless that was read behind its entry. Where the message was answered here, what is shown meanwhile
// has what it did.
function dropStale(message, entry = Infinity, answer = null) {
  const of = whatIsAbout(message), {order, due, text} = message, row = facts.orders.get(order);
  if (message.do === "note" && row) facts.orders.set(order, {...row, due, text});
  facts.drops++;
  for (const [path, fact] of facts.by)
    if (fact.asOf < entry && isFactStaleBy(message, of, path, fact.reply)) dropFact(path, fact);
  for (const [path, fact] of answer ? facts.old : [])
    if (isStaleBy(message, of, path)) fact.reply = withAnswer(fact.reply, message, answer);
}

// What was told, with what a message did that was answered since: its part is reserved or gone, its pieces are reserved, a line is changed, its
// job is begun or over.
function withAnswer(told, message, {job}) {
  const {do: done, part, tree = "", demand, wanted} = message;
  const counts = countPieces(tree), {parts = [], demands = [], lines = [], begun} = told;
  const partOf = row => row.part !== part ? [row] : done === "reserve" ? [{...row, state: "reserved", of: job}] : [];
  const lineOf = row => ({
    ...row,
    reserved: row.reserved + (counts.get(row.demand) || 0),
    wanted: row.demand === demand ? wanted : row.wanted
  });
  return {
    ...told,
    parts: parts.flatMap(partOf),
    demands: demands.map(lineOf),
    lines: lines.map(lineOf),
    begun: done === "begin" ? terminal.number : begun,
    ...told.ok === "job" && ENDS[done] ? {state: ENDS[done], end: message} : {}
  };
}

function lastOf({entry, at, message: {terminal: sender, number}}) { return {entry, at, sender, number}; }

function isSameEntry(row, last) { return JSON.stringify(lastOf(row)) === JSON.stringify(last); }

// Anything may have changed: all is to be read anew.
function forgetFacts() {
  for (const [path, fact] of facts.by) dropFact(path, fact);
  facts.drops++;
  for (const [order, row] of facts.orders) facts.orders.set(order, {...row, isOld: true});
}

// Reads through `get` what happened since the last entry that is known; false where the shop isn't the one that is known: it has fewer
// entries, or another one in that place. `isSure`: whether nothing but an entry can have changed since.
async function readNews(get, isSure) {
  const {entries, last: at} = await get("/shop"), known = facts.last, {shops} = facts;
  if (isSure && known && entries === known.entry && at === known.at) return true;
  if (known && entries < known.entry) return false;
  const {entries: rows, more} = await get(`/history/${Math.max(0, (known ? known.entry : entries) - 1)}`);
  if (shops !== facts.shops) return true;
  if (known?.entry && !(rows[0] && isSameEntry(rows[0], known))) return false;
  const newest = more ? (await get(`/history/${entries - 1}`)).entries[0] : rows[rows.length - 1];
  if (shops !== facts.shops) return true;
  learn({ok: "history", entries: newest ? [...rows, newest] : rows});
  const fresh = known ? rows.filter(({entry}) => entry > known.entry) : [];
  if (!known || more) forgetFacts();
  else for (const {entry, message} of fresh) dropStale(message, entry);
  if (!facts.last || newest?.entry > facts.last.entry) facts.last = newest ? lastOf(newest) : {entry: 0, at: 0, sender: 0, number: 0};
  findStranger(fresh);
  return true;
}

// Looks what happened since, before something is asked that has to be as it is now.
async function lookAtShop() {
  if (!await readNews(path => ask(path, {calm: true}), !refresh.lost)) meetOther();
}
