// ---- Which run of the program answers. Each start of the program has another run, which /health tells; a program that tells none
// may be another one whenever it was away. No answer is read before it is known whether it comes from the shop that is shown.

// run: the last one that was told, "" where none is told, null where none was asked for yet; isMet: whether it is known to be the
// one that answers; isOver: whether it was told that another one answers; meeting: the question that is under way; away: since when
// nothing of the shop answers, 0 where it does.
const running = {
  run: null,
  isMet: false,
  isOver: false,
  meeting: null,
  away: 0
};

function meetShop() {
  running.meeting ??= greetShop().finally(() => {
    running.meeting = null;
  });
  return running.meeting;
}

// While its store fails a program tells no run: it has the one that it had, unless that is over. Under another run the shop may be
// another one; where it isn't, what was shown stays, and is read anew.
async function greetShop() {
  const {status, reply} = await fetchAlone({path: "/health", patience: 20000});
  if (!reply && status !== 404) throw new NoAnswer(strangeWords(status));
  const before = running.run, same = reply && !running.isOver ? before ?? "" : "";
  const run = typeof reply?.run === "string" ? reply.run : same, isNew = before !== null && !(run && run === before);
  const isKnown = !isNew || await readNews(path => getAlone(path, run), false);
  Object.assign(running, {run, isMet: true, isOver: false});
  if (!isNew) return;
  doubts.clear();
  forgetFacts();
  if (isKnown) refresh.lost = true;
  else meetOther();
}

// What the shop that answers says, before it is known whether it is the one that is shown.
async function getAlone(path, run) {
  const {status, reply} = await fetchAlone({path, patience: 20000, run});
  if (!reply || reply.refused !== undefined) throw new NoAnswer(strangeWords(status));
  return reply;
}

// The shop is another one than was shown, or is as it was before: all that is known is dropped.
function meetOther() {
  forgetShop();
  tellOther().catch(() => {});
}

// Tells as when the shop is, and which messages that were answered here it doesn't have.
async function tellOther() {
  const {last} = await ask("/shop"), lost = [];
  for (const message of terminal.answered().filter(({reply, isLost}) => reply.ok && !isLost))
    if (message.number > (await ask(`/terminal/${message.terminal}`)).last) lost.push(message);
  for (const message of lost) terminal.keep({...message, isLost: true});
  const when = last ? tr`The shop is as it was at ${momentText(last)}.` : tr`The shop has no entry.`;
  const words = tr`${when} What was shown is dropped and read anew.`;
  tell(lost.length ? tr`${words} It doesn't have: ${lost.map(message => message.words).join("; ")}.` : words, "refused");
}

// Another run answers than the one that was asked.
function leaveRun() {
  Object.assign(running, {isMet: false, isOver: true});
  refreshNow();
}

// All that is known of the shop is dropped, as another may answer by now, with what was asked and typed about it. What is typed
// into the forms stays, and so does what waits.
function forgetShop() {
  const {by, old, entries, lines, orders} = facts;
  for (const it of [by, old, entries, lines, orders, breaks, inStock.wanted, inOrders.typed]) it.clear();
  Object.assign(facts, {last: null, shops: facts.shops + 1});
  Object.assign(inOrders, {found: "", sought: "", note: ""});
  Object.assign(atSaw, {key: "", opening: 0, breaking: false, lost: null, canvas: null});
  seek("");
  leaveHappened();
  dropNotices();
  owner.report = held.target = null;
  refresh.lost = true;
  toCut.all?.abort();
  for (const code of [...plansByMaterial.keys()]) forgetPlans(code);
  drawAllAnew();
  if ($("confirm").open) $("confirmNo").click();
  followAddress();
  showView();
  refreshNow();
}

// ---- Messages that were typed under another run. They go on under this one where its shop is the one in which they were typed;
// else a person says of each whether to send it, and nothing is sent meanwhile.

// The runs whose shop may be another than the one that answers.
const doubts = new Set();

function isDoubted(message) { return doubts.has(message.run); }

// Whether a message was typed for the shop that is shown. (One that was typed before any run was told is for the one that is met.)
function isTypedHere({run}) { return (run ?? null) === null || run === running.run; }

// Whether all that waits may be sent to the shop that answers.
async function isForThisShop() {
  if (!running.isMet) await meetShop();
  const {run} = running, others = terminal.kept().filter(message => message.run !== run && !isDoubted(message));
  for (const same of groupsOf(others, message => message.run ?? null)) {
    if (isTypedHere(same[0]) || await isShopOf(same)) takeOver(same);
    else doubts.add(same[0].run);
  }
  if (doubts.size) showKept();
  return !terminal.kept().some(isDoubted);
}

// Whether the shop that answers is the one in which these messages were typed under one run: the terminal's last number isn't
// below one that was answered then, and the last entry that was known then is there. It isn't, too, where none was known.
async function isShopOf(messages) {
  const [{run, terminal: sender}] = messages, {last} = await ask(`/terminal/${sender}`);
  const answered = terminal.answered().filter(other => other.run === run && other.terminal === sender && other.reply.ok);
  if (answered.some(({number}) => number > last)) return false;
  const seen = messages.map(message => message.seen?.entry ? message.seen : null).reduce((a, b) => a && b && b.entry > a.entry ? b : b && a);
  if (!seen) return false;
  const {entries: [row]} = await ask(`/history/${seen.entry - 1}`);
  return Boolean(row) && isSameEntry(row, seen);
}

// What waits still of these messages goes on under the run that answers.
function takeOver(messages) {
  for (const {mark} of messages) {
    const message = terminal.message(mark);
    if (message && !message.reply) terminal.keep({...message, run: running.run});
  }
}

async function sendDoubted(messages) {
  await alone(() => takeOver(messages));
  showKept();
  sendKept();
}

async function throwAway(messages) {
  await alone(() => {
    for (const {mark} of messages) {
      const message = terminal.message(mark);
      if (message && !message.reply) forgetUnsent(message);
    }
  });
  showKept();
  sendKept();
}

// Asks of messages that may be another shop's: of all together, of each, and of those of one press as of one.
function doubtRows(messages) {
  const groups = groupsOf(messages, message => message.many || message.mark);
  return [
    el("div", {class: "waiting"},
      el("b", {
        text:
          tr`The program was started anew, and it isn't sure that it is the shop for which this was typed. Nothing is sent until you say of each message whether to send it.`
      }),
      ...groups.length > 1 ? doubtButtons("all", messages, tr`Send all`, tr`Throw all away`, "") : []),
    ...groups.map(same => {
      const [{mark, many, what}] = same, words = many ? storage.read(MANY_KEPT + many, {what}).what : what;
      const typed = tr`${words}, typed ${timeText(timeOf(mark))}`;
      return el("div", {class: "waiting"}, el("span", {text: typed}), ...doubtButtons(mark, same, tr`Send`, tr`Throw away`, words));
    })
  ];
}

function doubtButtons(key, messages, send, away, words) {
  const button = (text, letter, go) => el("button", {
    class: "small",
    text,
    "data-key": `${letter}${key}`,
    "aria-label": words ? `${text}: ${words}` : text,
    on: {click: () => go(messages)}
  });
  return [button(send, "s", sendDoubted), button(away, "t", throwAway)];
}
