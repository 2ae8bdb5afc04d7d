// ---- Notices: what was done, what was refused, what waits, and what is asked.

// A notice of a success goes when there was time to read it, but not while the pointer or the focus is on it; a refusal stays
// until it is closed. Two are shown, the newest and with it the newest refusal, and a button unfolds the others.
const READING = 8000, LEAVING = 2000, SHOWN_NOTICES = 2;

// isOpen: whether all are unfolded; told: how many notices there were; timer: when it is looked again which were read.
const inNotices = {
  isOpen: false,
  told: 0,
  timer: 0
};

function forgetRead() {
  const now = Date.now(), goes = notice => Number(notice.dataset.goes);
  for (const notice of [...$("successes").children])
    if (notice.matches(":hover, :focus-within")) notice.dataset.goes = String(Math.max(goes(notice), now + LEAVING));
    else if (now >= goes(notice)) notice.remove();
  foldNotices();
  clearTimeout(inNotices.timer);
  const left = [...$("successes").children];
  if (left.length) inNotices.timer = setTimeout(forgetRead, Math.max(200, Math.min(...left.map(goes)) - now));
}

// What a notice offers is of the shop that told it: behind another shop's those stay alone that bring back what was typed, or offer
// nothing.
function dropNotices() {
  for (const notice of $("lastNotice").querySelectorAll(".notice:not(.typed)"))
    if (notice.querySelector("button:not(.close)")) notice.remove();
  foldNotices();
}

// Which notices are shown, and how many more there are.
function foldNotices() {
  const notices = [...$("lastNotice").querySelectorAll(".notice")].sort((a, b) => b.dataset.nth - a.dataset.nth);
  const refusal = notices.findIndex(notice => notice.classList.contains("refused"));
  if (refusal > 1) notices.splice(1, 0, ...notices.splice(refusal, 1));
  const over = Math.max(0, notices.length - SHOWN_NOTICES), isOpen = inNotices.isOpen && over > 0;
  inNotices.isOpen = isOpen;
  notices.forEach((notice, i) => {
    notice.hidden = !isOpen && i >= SHOWN_NOTICES;
  });
  const shown = [...$("lastNotice").querySelectorAll(".notice:not([hidden])")];
  for (const notice of notices) notice.classList.toggle("last", notice === shown[shown.length - 1]);
  $("lastNotice").classList.toggle("several", !isOpen && notices.length > 1);
  $("moreNotices").hidden = !over;
  $("moreNotices").setAttribute("aria-expanded", String(isOpen));
  $("moreNotices").textContent = !over ? "" : isOpen ? tr`fewer` : tr`${over} more`;
}

function tell(words, how, link) {
  const isRefused = how === "refused", holder = $(isRefused ? "refusals" : "successes"), now = Date.now();
  const button = (text, go, given) => el("button", {
    class: "small",
    ...given,
    on: {
      click: () => {
        notice.remove();
        foldNotices();
        go?.();
      }
    }
  }, text);
  const close = button("✕", null, {class: "small close", "aria-label": tr`Close`, title: tr`Close`});
  const mark = isRefused ? "✗" : "✓";
  const notice = el("div",
    {class: `notice ${how}${link?.isTyped ? " typed" : ""}`, "data-nth": String(inNotices.told++), "data-goes": String(now + READING)},
    el("span", {text: `${mark} ${words}`, title: words}), link ? button(link.words, link.go) : null, close);
  for (const same of [...holder.children].filter(other => other.textContent === notice.textContent)) same.remove();
  holder.prepend(notice);
  forgetRead();
  bringUp(notice);
}

// Scrolls the notices, where they are too many for their place, to one of them.
function bringUp(notice) {
  const {top, bottom} = $("notices").getBoundingClientRect(), at = notice.getBoundingClientRect();
  if (at.top < top || at.bottom > bottom) $("notices").scrollTop += at.top - top;
}

// What waits is told when its answer doesn't come at once.
const SLOW = 500;

let isKeptShownSoon = false;

function showKeptSoon() {
  if (isKeptShownSoon) return;
  isKeptShownSoon = true;
  queueMicrotask(() => {
    isKeptShownSoon = false;
    showKept();
  });
  setTimeout(showKept, SLOW + 50);
}

function showKept() {
  const kept = terminal.kept().filter(message => Date.now() - timeOf(message.mark) >= SLOW), doubted = kept.filter(isDoubted);
  const sure = kept.filter(message => !isDoubted(message)), shown = waitingRows().length;
  const rows = sure.map(message => [message, sending.dropping.has(message.mark)]);
  const away = running.away && Date.now() - running.away >= AWAY ? running.away : 0, hasWords = sure.length > 0 || away > 0;
  fill($("keptNotice"), () => (kept.length || away) && el("div", {class: "notice kept"},
    el("div", {}, ...(doubted.length ? doubtRows(doubted) : []), hasWords ? el("span", {text: keptWords(sure, away)}) : null,
      ...keptRows(rows)),
    numberButton(sure)));
  if (waitingRows().length > shown) bringUp(waitingRows()[waitingRows().length - 1]);
}

function numberButton(kept) {
  const words = terminal.isSpent ? tr`Another number` : terminal.number || !kept.length ? "" : tr`Choose the number`;
  return words ? el("button", {class: "small", text: words, on: {click: chooseTerminal}}) : null;
}

// A row for each message, and one for all of one press.
function keptRows(rows) {
  const single = rows.filter(([message]) => !message.many).map(([message, isDropping]) => keptRow(message, isDropping));
  const many = [...new Set(rows.map(([message]) => message.many).filter(Boolean))];
  return [
    ...single, ...many.map(id => manyRow(id, rows.map(([message]) => message).filter(message => message.many === id)))
  ];
}

function waitingRows() { return $("keptNotice").querySelectorAll(".waiting"); }

function keptWords(kept, away) {
  if (terminal.isSpent) return tr`${spentWords(terminal.number)} Choose another number: what waits is sent under it.`;
  const trouble = terminal.trouble ? tr` Last time ${terminal.trouble}.` : "", since = momentText(away / 1000);
  if (!terminal.number && kept.length) return tr`${count(kept.length, "message")} ${kept.length === 1 ? "waits" : "wait"} for the number of this terminal.`;
  const shown = ` ${tr`What is shown is as it was then.`}`;
  if (away && !kept.length) return tr`No connection since ${since}.` + shown;
  if (away) return tr`No connection since ${since}; ${count(kept.length, "message")} ${kept.length === 1 ? "waits" : "wait"}.${trouble}` + shown;
  return tr`… ${count(kept.length, "message")} without an answer, sent again until it comes.${trouble}`;
}

function keptRow(message, isDropping) {
  const {mark, what, number} = message;
  const button = el("button", {
    class: "small",
    text: isDropping ? tr`Dropping…` : tr`Drop`,
    "data-key": mark,
    "aria-label": tr`Drop: ${what}`,
    disabled: isDropping,
    on: {click: () => drop([message])}
  });
  return el("div", {class: "waiting"}, el("span", {text: `${what} ${number ? tr`(number ${number})` : tr`(not sent yet)`}`}),
    canDrop(message) ? button : null);
}

// Asks in a dialog; Enter takes the answer that has the focus, which is no where what follows can't be taken back lightly.
function confirmed(words, yes, first = "no") {
  const dialog = $("confirm");
  $("confirmWords").textContent = words;
  $("confirmYes").textContent = yes;
  dialog.showModal();
  $(first === "yes" ? "confirmYes" : "confirmNo").focus();
  return new Promise(resolve => {
    const settle = isYes => {
      dialog.close();
      resolve(isYes);
    };
    $("confirmYes").onclick = () => settle(true);
    $("confirmNo").onclick = () => settle(false);
    dialog.oncancel = () => resolve(false);
  });
}
