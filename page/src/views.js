// ---- Views and their refreshing: a pass looks what happened, and asks for what the view needs and isn't known any more, one request
// after another; some seconds after the last, and not at all while the page is hidden.

const VIEWS = {
  tocut: {show: showToCut, read: [readCut, readWantedTexts, readOthers]},
  saw: {show: showSaw, read: [readShown, showView, readPlans, readEnded]},
  orders: {show: showOrders, read: [readOrders]},
  stock: {show: showStock, read: [readTraced, showView, readParts, readDemands, readOthers]},
  yield: {show: showYield, read: [readTotals, readBackups]},
  happened: {show: showHappened, read: [readHappened]},
};

// The pause between two passes, each of which asks what happened, and nothing else where nothing did; longer where nobody does
// anything and nothing changes.
const MINUTE = 60000, PAUSE = 2000, PAUSES = [[10 * MINUTE, PAUSE], [Infinity, 5 * PAUSE]];
// lively: when something was done or changed; ended: when the last pass ended; lost: the shop didn't answer since it was looked what
// happened.
const refresh = {
  timer: 0,
  running: false,
  again: false,
  lively: 0,
  ended: 0,
  lost: true
};

function showView() {
  const name = viewName();
  for (const view of document.querySelectorAll(".view")) {
    view.hidden = view.id !== name;
    view.classList.toggle("current", view.id === name);
  }
  for (const button of document.querySelectorAll("nav button")) {
    if (button.dataset.view === name) button.setAttribute("aria-current", "page");
    else button.removeAttribute("aria-current");
  }
  $("terminalButton").textContent = tr`Terminal ${terminal.number || "?"}`;
  showName();
  showMaterials();
  showCsvButtons();
  VIEWS[name].show();
}

// The focus goes to the head of a view, at the saw to that of the ticket: what is done with it lies behind.
function focusView(view) {
  const [head] = [{saw: "jobTitle", tocut: "planTitle"}[view]].map(id => id && $(id)).filter(it => it?.getClientRects().length);
  if (head) head.focus({preventScroll: true});
  else focusHeading($(view));
}

// The shop's name, as it was written into this browser, is the window's title and the page's.
function showName() {
  const name = storage.read("cutshop.name", "") || "cutshop";
  if (document.title !== name) document.title = name;
  if ($("shopTitle").textContent !== name) $("shopTitle").textContent = name;
  $("shopTitle").title = name;
}

function refreshNow() {
  refresh.lively = performance.now();
  clearTimeout(refresh.timer);
  if (refresh.running) refresh.again = true;
  else refreshPass();
}

// Somebody does something: the next pass comes at once, or the shortest pause behind the last.
function wake() {
  refresh.lively = performance.now();
  if (!refresh.running) waitForPass(pauseOf());
}

function waitForPass(time = pauseOf()) {
  clearTimeout(refresh.timer);
  refresh.timer = setTimeout(passOrWait, Math.max(0, refresh.ended + time - performance.now()));
}

// While messages of one press are answered one behind another, what is shown is read behind the last.
function passOrWait() {
  if (!sending.busy || !terminal.kept().some(message => message.many)) return refreshPass();
  refresh.timer = setTimeout(passOrWait, PAUSE);
}

function pauseOf() {
  const quiet = performance.now() - refresh.lively;
  return refresh.lost ? PAUSE : PAUSES.find(([end]) => quiet < end)[1];
}

// A question that fails stops neither the others nor the view's drawing.
async function refreshPass() {
  Object.assign(refresh, {running: true, again: false});
  const before = facts.last, steps = document.hidden ? [] : [renewShop, readMaterials, readJobs, ...VIEWS[viewName()].read, showView];
  for (const step of steps) {
    try {
      await step();
    } catch (error) {
      if (!(error instanceof NoAnswer || error instanceof Refused)) console.error(error);
    }
  }
  Object.assign(refresh, {running: false, ended: performance.now()});
  if (facts.last !== before) refresh.lively = refresh.ended;
  if (refresh.again) refreshPass();
  else waitForPass();
}

async function renewShop() {
  await lookAtShop();
  if (refresh.lost) backups.isKnown = false;
  refresh.lost = false;
}
