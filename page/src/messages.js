// ---- The terminal: numbered messages, kept until they are answered.

const storage = {
  read(key, otherwise) {
    try {
      return JSON.parse(localStorage.getItem(key)) ?? otherwise;
    } catch { return otherwise; }
  },
  write(key, value) { localStorage.setItem(key, JSON.stringify(value)); },
  forget(key) { localStorage.removeItem(key); },
  keys(prefix) {
    try {
      return Object.keys(localStorage).filter(key => key.startsWith(prefix)).sort();
    } catch { return []; }
  },
};

// A message has a key of its own, so that no tab overwrites what another keeps: its mark, by which messages stand in the
// order in which they were typed. With its answer it is kept on, for the tab that typed it and for the log.
const MESSAGE = "cutshop.message.", MAX_ANSWERED = 60, MAX_LOGGED = 12;

const terminal = {
  number: storage.read("cutshop.terminal", 0),
  message(mark) { return storage.read(MESSAGE + mark, null); },
  messages() { return storage.keys(MESSAGE).map(key => storage.read(key, null)).filter(Boolean); },
  kept() { return this.messages().filter(message => !message.reply && message.terminal === this.number); },
  keptHere() { return this.kept().filter(isTypedHere); },  // those that are for the shop that is shown
  answered() { return this.messages().filter(message => message.reply); },
  keep(message) {
    storage.write(MESSAGE + message.mark, message);
    showKeptSoon();
  },
  forget(mark) {
    storage.forget(MESSAGE + mark);
    showKept();
  },
  trouble: "",
  isSpent: false,  // whether a message was sent under the last number that there is
};

// What to do in this tab when a message that was typed here is accepted or refused, by the message's mark.
const whenAccepted = new Map(), whenRefused = new Map();

// Two tabs of one browser are one terminal: one of them at a time numbers and sends.
function alone(work) { return navigator.locks ? navigator.locks.request("cutshop.terminal", work) : work(); }

function pause(time) { return new Promise(resolve => setTimeout(resolve, time)); }

// Keeps a command as a message and sends it; false where it can't be kept. One that waits already isn't kept twice. `refused` is
// called where the shop refuses it, and may give a link for that notice. `note` is what is said of the order that it makes.
function send(command, what, accepted = () => {}, refused = () => null, note = null) {
  try {
    whenRefused.set(keepCommand({what, command, note}, accepted), refused);
  } catch {
    tell(tr`${what}: not sent, because this browser can't keep it until it is answered`, "refused");
    return false;
  }
  sendOrAsk();
  return true;
}

// What is kept waits until this terminal has a number, for which the first message asks.
function sendOrAsk() {
  if (terminal.number) sendKept();
  else chooseTerminal();
}

function keepCommand({what, command, many, note}, accepted, known = terminal.keptHere()) {
  const text = JSON.stringify(command), same = known.find(kept => JSON.stringify(kept.command) === text);
  const mark = same ? same.mark : newMark();
  const {run} = running, sender = terminal.number;
  if (!same)
    terminal.keep(
      {mark, terminal: sender, number: 0, what, command, end: endOf(command), many, note, run, seen: facts.last});
  whenAccepted.set(mark, reply => {
    dropStale(command, Infinity, reply);
    accepted(reply);
  });
  return mark;
}

// Takes over what waits in lists, one for each terminal, as earlier pages kept it.
function adoptLists() {
  for (const key of storage.keys("cutshop.kept.")) {
    const sender = Number(key.split(".")[2]);
    for (const message of storage.read(key, []))
      storage.write(MESSAGE + message.mark, {...message, terminal: sender, end: endOf(message.command)});
    storage.forget(key);
  }
}

let marks = 0;

function newMark() { return `${Date.now()}.${String(marks++).padStart(6, "0")}.${Math.random()}`; }

function timeOf(mark) { return Number(mark.split(".")[0]); }

// last: the last number that the shop told for a terminal, or that was sent as it, while this tab alone sends.
const sending = {
  busy: false,
  last: null,
  timer: 0,
  dropping: new Set()
};

async function sendKept() {
  if (sending.busy || !terminal.number || !terminal.kept().length) return;
  clearTimeout(sending.timer);
  sending.busy = true;
  sending.last = null;
  try {
    await alone(async () => {
      while (terminal.kept().length && await sendFirst()) {}
    });
    terminal.isSpent = false;
  } catch (error) {
    terminal.isSpent = error instanceof NumbersSpent;
    if (error instanceof NoAnswer) terminal.trouble = error.came;
    if (!(error instanceof NoAnswer || error instanceof Refused || terminal.isSpent)) console.error(error);
  }
  sending.busy = false;
  showKept();
  sendLater();
}

function sendLater() {
  clearTimeout(sending.timer);
  if (terminal.number && terminal.kept().length) sending.timer = setTimeout(sendKept, 3000);
}

// True where the first kept message waits no more, or was typed under a run that isn't the one that answers.
async function sendFirst() {
  if (!await isForThisShop()) return false;
  const first = await numbered(terminal.kept()[0]);
  if (!first) return true;
  const body = JSON.stringify({...first.command, number: first.number, terminal: first.terminal});
  const {status, reply} = await request("/message", {body, run: first.run});
  if (first.run && status === 412) {
    await meetShop();
    return running.run !== first.run;
  }
  const isDone = reply && status < 500;
  if (reply?.refused !== undefined) sending.last = null;
  terminal.trouble = isDone ? "" : reply ? await refusalWords(reply) : strangeWords(status);
  if (isDone) await answered(first, reply);
  return isDone;
}

// The message with its number, which is kept before it is sent, and stays. What waits is read anew once the shop told the
// last number, so that what another tab sent before gets no second one. Nothing where it waits no more.
async function numbered(message) {
  if (message.number) return message;
  const last = await lastNumber(message.terminal), kept = terminal.kept(), waiting = kept.find(other => other.mark === message.mark);
  if (!waiting || waiting.number) return waiting;
  if (waiting.terminal !== message.terminal) return undefined;
  if (sending.dropping.has(waiting.mark)) return forgetUnsent(waiting);
  waiting.number = Math.max(last, ...kept.map(other => other.number)) + 1;
  if (waiting.number > MAX_NUMBER) throw new NumbersSpent();
  terminal.keep(waiting);
  noteSent(waiting);
  sending.last = {terminal: waiting.terminal, number: waiting.number};
  return waiting;
}

// The last number of a terminal: the shop is asked where it isn't known from the message before.
async function lastNumber(sender) {
  if (sending.last?.terminal !== sender || !navigator.locks)
    sending.last = {terminal: sender, number: (await ask(`/terminal/${sender}`)).last};
  return sending.last.number;
}

// The numbers under which this browser sent messages, as ranges [terminal, first, last], the latest ones. An entry of this terminal
// under another one comes from another device.
const SENT = "cutshop.sent", MAX_SENT = 200;

function noteSent({terminal: sender, number}) {
  const ranges = storage.read(SENT, []), [of, first, last] = ranges[ranges.length - 1] || [];
  const isNext = of === sender && last === number - 1;
  try {
    storage.write(SENT, isNext ? [...ranges.slice(0, -1), [of, first, number]] : [...ranges, [sender, number, number]].slice(-MAX_SENT));
  } catch { return; }  // (then the message itself can't be kept either)
}

// What another tab kept last may take a moment to be seen here: so it is looked twice.
const LATE = 2000;

async function findStranger(entries) {
  if (!strangerOf(entries)) return;
  await pause(LATE);
  const other = strangerOf(entries);
  if (other) tell(tr`Another device is terminal ${other.terminal}, too: it sent message ${other.number}. Choose another number for one of them.`, "refused");
}

function strangerOf(entries) {
  const ranges = [...storage.read(SENT, []), ...terminal.messages().map(({terminal: sender, number}) => [sender, number, number])];
  const isSent = ({terminal: sender, number}) => ranges.some(([of, first, last]) => of === sender && first <= number && number <= last);
  return entries.map(({message}) => message).find(message => terminal.number && message.terminal === terminal.number && !isSent(message));
}

function spentWords(number) {
  return tr`The numbers of terminal ${number} are spent, as a message was sent under the last one, ${MAX_NUMBER}.`;
}

// What was surely not sent yet goes along to another number of the terminal.
function moveUnsent(number) {
  for (const message of terminal.kept().filter(other => !other.number))
    storage.write(MESSAGE + message.mark, {...message, terminal: number});
  storage.write("cutshop.terminal", number);
  Object.assign(terminal, {number, isSpent: false});
}

// Keeps an answer in place of its command, and tells it. What is said of an order that a file made is kept as a message before: it goes
// on whatever becomes of the tab in which it was typed.
async function answered({mark, terminal: sender, number, what, command, end, many, note, run}, reply) {
  const quicker = reply.refused === undefined ? null : await quickerOf(command, reply), isRefused = isRefusal(reply, quicker);
  const why = isRefused ? await refusalWords(reply, command, quicker?.words) : "";
  const old = command.do === "import" && !isRefused ? await orderedBefore(command, sender, number, note) : "", isOld = Boolean(old);
  const words = isRefused ? tr`Refused: ${what}: ${why}` : quicker?.words || `${what}: ${old || outcomeWords(command, reply, end)}`;
  if (!isRefused && !whenAccepted.has(mark)) dropStale(command, Infinity, reply);
  if (note && !isRefused && !isOld)
    keepCommand({what: tr`Order ${command.order}: ${noteWords(note)}`, command: {do: "note", ...note, order: command.order}}, () => {});
  terminal.keep({mark, terminal: sender, number, words, reply, many, run, isSame: Boolean(quicker?.isSame)});
  if (many)
    changeMany(many, told => {
      if (isRefused) told.refused.push([command.part || what, why]);
      else told.done++;
      if (isOld) told.old = [...told.old || [], [what, old]];
    });
  for (const {mark: old} of terminal.answered().slice(0, -MAX_ANSWERED)) terminal.forget(old);
  tellAnswer({mark, words, reply, many, isSame: quicker?.isSame});
}

// Who ordered before what a file orders, as the first entry of the order's story tells; nothing where this message did. Where that can't be
// read, and something is to be noted of the order, the message is sent once more.
async function orderedBefore({order}, sender, number, note) {
  const told = await ask(`/story/order/${order}/0`).catch(error => {
    if (note) throw error;
  }), [first] = told?.entries || [];
  if (!told) return tr`done`;
  if (!first || !["order", "import"].includes(first.message.do)) return tr`was ordered before records began: nothing done`;
  const {at, message: {terminal: by, number: nth}} = first;
  return by === sender && nth === number ? "" : tr`was ordered at ${momentText(at)} by terminal ${by}: nothing done`;
}

// Whether an answer is a refusal of what was wanted: another may have done the same before.
function isRefusal({refused}, other) { return refused !== undefined && !other?.isSame; }

function tellAnswer({mark, words, reply, many, isSame}) {
  const isRefused = isRefusal(reply, {isSame}), isOthers = reply.before > 0 && reply.before !== terminal.number;
  const link = isRefused ? whenRefused.get(mark)?.() : linkOf(reply);
  if (reply.ok === "begin" && !isOthers) say(words);
  else if (isOthers) tell(tr`Job ${reply.job}: terminal ${reply.before} had begun it. Ask there before you cut.`, "refused");
  else if (!many) tell(words, isRefused ? "refused" : "good", link);
  if (!isRefused) whenAccepted.get(mark)?.(reply);
  for (const when of [whenAccepted, whenRefused]) when.delete(mark);
  if (many) tellMany(many);
  if (!many || manyTold.has(many)) refreshNow();
  else showKept();
}

// A form is emptied when it is sent. What is refused comes back into it where it is still empty, and stands where it stood in
// the window; else a link of the notice brings it back.
function givenBack(isEmpty, fillIn) {
  const view = viewName(), place = scrollY;
  return () => {
    if (!isEmpty()) return {words: tr`Take back what was typed`, go: fillIn, isTyped: true};
    fillIn();
    if (viewName() === view) scrollTo(0, place);
    return null;
  };
}

// Where to go on from an answer.
function linkOf({ok, job, first}) {
  if (ok === "reserve") return {words: tr`To the saw`, go: () => openJob(job)};
  if (["done", "break"].includes(ok)) return {words: tr`Take back`, go: () => undoJob(job)};
  if (ok === "undo") return {words: tr`To cut`, go: () => go(addressOfView("tocut"))};
  return ["order", "import", "extend"].includes(ok) ? {words: tr`Plan all`, go: () => planOrdered(first)} : null;
}

// Another tab keeps a message or its answer, which it may be closed before it sends.
function hearOfMessage(key) {
  hearAnswers();
  showKeptSoon();
  sendLater();
  if (storage.read(key, null)?.reply) refreshNow();
}

// Tells the answers of messages that were typed in this tab and sent by another.
function hearAnswers() {
  for (const mark of [...whenAccepted.keys()]) {
    const message = terminal.message(mark);
    if (message?.reply) tellAnswer(message);
    else if (!message) whenAccepted.delete(mark);
  }
}

// A message has its number before it is sent. One without was surely not sent, unless another tab is just sending it: so it
// is dropped in turn, and not where tabs can't take turns. What another tab kept last may take a moment to be seen here.
function canDrop(message) { return Boolean(navigator.locks) && !message.number; }

async function drop(messages) {
  for (const {mark} of messages) sending.dropping.add(mark);
  showKept();
  await alone(async () => {
    await pause(200);
    for (const {mark, what} of messages) {
      const message = terminal.message(mark);
      if (message && canDrop(message) && !message.reply) forgetUnsent(message);
      else if (message && !message.many) tell(tr`${what}: it was sent before it could be dropped`, "refused");
    }
  });
  for (const {mark} of messages) sending.dropping.delete(mark);
  hearAnswers();
  showKept();
}

function forgetUnsent({mark, many}) {
  terminal.forget(mark);
  whenAccepted.delete(mark);
  if (!many) return;
  changeMany(many, told => {
    told.dropped++;
  });
  tellMany(many);
}

function outcomeWords(command, reply, end) {
  const more = reply.count - 1, ordered = tr`${count(reply.count, "line")} ordered, pieces wanted from no. ${reply.first} on`;
  switch (command.do) {
    case "receive":
      return tr`${count(reply.count, "unit")} received, ${reply.act}/0${more ? tr` to ${reply.act}/${more}` : ""}`;
    case "order": return ordered;
    case "import":
      return reply.act ? tr`${ordered}, unit ${reply.act}/0 received` : ordered;
    case "reserve": return tr`job ${reply.job}, ${count(reply.cuts, "cut")}`;
    case "extend": return tr`${count(reply.count, "line")} added, pieces wanted from no. ${reply.first} on`;
    case "undo": return tr`part ${reply.part} stands again, and its pieces are wanted again`;
    case "done":
    case "break": return endWords(reply, end);
    default: return tr`done`;
  }
}

// What is known of a job's end when it is typed: its kind, and which rests want a label, where the job is shown.
function endOf(command) {
  if (!["done", "break"].includes(command.do)) return undefined;
  const told = command.job === atSaw.job && atSaw.told,
        kind = told ? told.kind : kindOfJob(command.job);
  const halt = command.do === "break" ? haltOf(command) : null;
  const kept = told ? layPlan(told.root, limitsOf(told), halt).filter(box => box.fate === "kept") : [];
  return {kind, labels: kept.map(box => `${command.job}/${box.node} (${sizeText(kind, box.w, box.h)})`)};
}

function endWords(reply, {kind, labels}) {
  const words = leftWords(kind, reply.pieces, reply.rack, reply.kerf, reply.scrap);
  return labels.length ? tr`${words}. Label what is kept: ${labels.join(", ")}` : words;
}

function leftWords(kind, ...cells) {
  const [pieces, kept, kerf, scrap] = cells.map(number => cellsText(kind, number));
  return tr`pieces ${pieces}, kept ${kept}, kerf ${kerf}, scrap ${scrap}`;
}

// ---- Many messages of one press: each is kept and sent like all others, and they are told together. How far they are is
// kept beside them: how many there are, how many were done, refused (with their names and why) and dropped.

const MANY_KEPT = "cutshop.many.";

const manyTold = new Set();

// What to do in this tab when none of many messages waits any more; it may give a link for their notice.
const whenManyOver = new Map();

// `parts` are pairs of a name and its command; `view` is where to go then; `note` is what is said of each order that they make. False where
// not all can be kept.
function sendMany(what, parts, accepted, over = () => {}, view = "", note = null) {
  for (const key of storage.keys(MANY_KEPT))
    if (isOver(storage.read(key, {}))) storage.forget(key);
  const many = newMark(), known = terminal.keptHere();
  let kept = 0;
  try {
    storage.write(MANY_KEPT + many, {what, of: parts.length, done: 0, dropped: 0, refused: [], view});
    whenManyOver.set(many, over);
    for (const [name, command] of parts) {
      keepCommand({what: name, command, many, note}, reply => accepted(command, reply), known);
      kept++;
    }
  } catch {
    tell(tr`${what}: ${parts.length - kept} not sent, because this browser can't keep them until they are answered`, "refused");
    changeMany(many, told => {
      told.of = kept;
    });
  }
  sendOrAsk();
  return kept === parts.length;
}

function isOver({of = 0, done = 0, dropped = 0, refused = []}) { return done + dropped + refused.length >= of; }

function changeMany(many, change) {
  const told = storage.read(MANY_KEPT + many, null);
  if (!told) return;
  change(told);
  try {
    storage.write(MANY_KEPT + many, told);
  } catch { return; }  // (then what came of them isn't told as a sum; the log has each answer)
}

// Tells what came of many messages, once none of them waits.
function tellMany(many) {
  const told = storage.read(MANY_KEPT + many, null);
  if (!told || !isOver(told) || manyTold.has(many)) return;
  manyTold.add(many);
  const link = whenManyOver.get(many)?.(told);
  whenManyOver.delete(many);
  const {what, of, done, dropped, refused, view, old = []} = told, parts = [tr`${done} of ${of} done`, ...old.map(([name, words]) => `${name} ${words}`)];
  if (dropped) parts.push(tr`${dropped} dropped`);
  for (const words of new Set(refused.map(([, why]) => why))) {
    const names = refused.filter(([, why]) => why === words).map(([name]) => name);
    parts.push(tr`${names.length} refused (${names.join(", ")}): ${words}`);
  }
  tell(`${refused.length ? tr`Refused: ` : ""}${what}: ${parts.join("; ")}`, refused.length ? "refused" : "good",
    link || (view && done ? {words: tr`To the saw`, go: () => go(addressOfView(view))} : null));
}

// How far many messages are, in a row of what waits.
function manyRow(many, messages) {
  const told = storage.read(MANY_KEPT + many, {what: "", of: messages.length, done: 0, dropped: 0, refused: []});
  const gone = told.of - messages.length, unsent = messages.filter(canDrop);
  const refused = told.refused.length ? tr`, ${told.refused.length} refused` : "";
  const words = tr`${told.what}: ${gone} of ${told.of} answered${refused}`;
  const button = el("button", {
    class: "small",
    text: tr`Drop the rest`,
    "data-key": many,
    "aria-label": tr`Drop the rest of: ${told.what}`,
    on: {click: () => drop(unsent)}
  });
  return el("div", {class: "waiting"}, el("span", {text: words}), unsent.length ? button : null,
    el("progress", {max: told.of, value: gone, "aria-label": words}));
}
