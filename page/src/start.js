// ---- Start.

function onClick(id, act) { $(id).addEventListener("click", act); }

function listenToPlans() {
  onClick("planAll", planAll);
  PRINT_BUTTONS.forEach((id, i) => onClick(id, () => printSheets(toCutJobs, PAPERS[i])));
  onClick("stopPlan", stopPlan);
  onClick("planAgain", planAgain);
  $("stages").addEventListener("change", () => chooseStages(shop.material, Number($("stages").value)));
  onClick("reserve", reserve);
  window.addEventListener("storage", () => {
    for (const name of ["leftOut", "partsOut"]) toCut[name] = readOut(`cutshop.${name}`);
  });
}

function listenToSaw() {
  $("jobMaterial").addEventListener("change", () => {
    showSaw();
    refreshNow();
  });
  $("jobNumber").addEventListener("input", () => showFault("jobFault", ""));
  $("jobForm").addEventListener("submit", showAnyJob);
  onClick("done", finish);
  onClick("allDone", finishAll);
  $("jobsFold").addEventListener("click", event => {
    event.preventDefault();
    atSaw.isListed = !$("jobsPanel").open;
    foldJobs();
  });
  onClick("startBreak", () => {
    setBreaking(true);
    document.querySelector("[name=breakMode]:checked").focus();
  });
  onClick("stopBreak", () => {
    setBreaking(false);
    $("startBreak").focus();
  });
  onClick("sendBreak", sendBreak);
  onClick("begin", beginJob);
  onClick("takeBack", () => undoJob(atSaw.told.job));
  $("breakRest").addEventListener("input", showJob);
  onClick("release", release);
  onClick("nextJob", () => openJob(jobBehind().job));
  onClick("printJob", () => window.print());
  PRINT_WAITING.forEach((id, i) => onClick(id, () => printSheets(() => readTickets($("jobMaterial").value), PAPERS[i])));
  window.addEventListener("beforeprint", nameView);
  window.addEventListener("afterprint", () => document.body.classList.remove("sheets"));
}

function listenToOrders() {
  onClick("addLine", () => {
    addOrderLine();
    $("orderLines").lastChild.querySelector("[data-field=length]").focus();
  });
  $("orderForm").addEventListener("submit", sendOrder);
  onClick("stopExtend", stopExtending);
  // (so that a file that was mended can be picked again)
  for (const id of ["csvFile", "problemFile"])
    $(id).addEventListener("click", () => {
      $(id).value = "";
    });
  $("csvFile").addEventListener("change", showCsv);
  $("fileCode").addEventListener("input", showCodes);
  $("problemFile").addEventListener("change", showProblem);
  $("problemMaterial").addEventListener("change", showProblemFile);
  $("findForm").addEventListener("submit", findOrder);
  $("finishedToo").addEventListener("change", () => {
    showView();
    refreshNow();
  });
}

function listenToStock() {
  $("receiveMaterial").addEventListener("change", adaptReceive);
  $("receiveForm").addEventListener("submit", receive);
  $("traceForm").addEventListener("submit", event => {
    event.preventDefault();
    trace($("tracePart").value.trim());
  });
}

function listenToHappened() {
  for (const id of ["ofTerminal", "ofWord"]) $(id).addEventListener("change", showHappened);
  $("narrowForm").addEventListener("submit", narrow);
}

function listenToTerminal() {
  onClick("terminalButton", chooseTerminal);
  onClick("terminalCancel", () => $("terminalDialog").close());
  $("terminalForm").addEventListener("submit", useTerminal);
}

// Leads past a list, to what stands behind it.
function passList(event) {
  const behind = $(event.target.dataset.past);
  event.preventDefault();
  if (behind.tabIndex < 0) behind.tabIndex = -1;
  behind.focus();
  behind.scrollIntoView({block: "nearest"});
}

function listenToWindow() {
  for (const link of document.querySelectorAll("[data-past]")) link.addEventListener("click", passList);
  onClick("moreNotices", () => {
    inNotices.isOpen = !inNotices.isOpen;
    foldNotices();
  });
  for (const button of document.querySelectorAll("nav button"))
    button.addEventListener("click", () => go(addressOfView(button.dataset.view)));
  window.addEventListener("hashchange", () => {
    followAddress();
    showView();
    say($(viewName()).getAttribute("aria-label"));
    refreshNow();
  });
  window.addEventListener("resize", showView);
  window.addEventListener("storage", event => {
    const number = storage.read("cutshop.terminal", 0);
    if (number !== terminal.number) Object.assign(terminal, {number, isSpent: false});
    if (event.key?.startsWith(MESSAGE)) hearOfMessage(event.key);
    showView();
  });
  document.addEventListener("visibilitychange", () => {
    if (document.hidden) return;
    hearAnswers();
    refreshNow();
  });
  for (const done of ["pointerdown", "keydown"]) {
    document.addEventListener(done, hold, true);
    document.addEventListener(done, wake);
  }
  // (a click comes behind its pointer's or key's release, and what it does is drawn at once)
  for (const done of ["pointerup", "keyup"]) document.addEventListener(done, () => setTimeout(letGo), true);
  for (const done of ["click", "pointercancel"]) document.addEventListener(done, letGo, true);
  window.addEventListener("blur", letGo);
  window.addEventListener("pagehide", keepTyped);
  new ResizeObserver(keepInPlace).observe($("top"));
  document.addEventListener("keydown", viewByKey);
}

const above = {
  high: 0,
  width: 0
};

// Where a notice comes or goes, what lies below stays where it is in the window.
function keepInPlace() {
  const {height: high} = $("top").getBoundingClientRect(), more = high - above.high;
  const isSameWindow = above.width === window.innerWidth;
  Object.assign(above, {high, width: window.innerWidth});
  document.documentElement.style.setProperty("--above", `${high}px`);
  if (isSameWindow && more) window.scrollBy(0, more);
}

// The keys 1 to 6 open the views, where no field takes them.
function viewByKey(event) {
  const isTyping =
    event.target.closest?.("input:not([type=checkbox], [type=radio], [type=file]), select, textarea, dialog");
  const name = !isTyping && !event.ctrlKey && !event.metaKey && Object.keys(VIEWS)[Number(event.key) - 1];
  if (!name) return;
  event.preventDefault();
  go(addressOfView(name));
  showView();
  focusView(name);
}

translateDocument();
for (const listen of [listenToPlans, listenToSaw, listenToOrders, listenToStock, listenToHappened, listenToTerminal, listenToWindow]) listen();
followAddress();
showView();
refreshNow();
adoptLists();
showKept();
sendKept();
