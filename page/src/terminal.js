// ---- The terminal's own number.

async function chooseTerminal() {
  $("terminalNumber").value = terminal.isSpent ? "" : terminal.number || "";
  $("shopName").value = storage.read("cutshop.name", "");
  $("terminalWords").textContent = "";
  showFault("terminalFault", terminal.isSpent ? spentWords(terminal.number) : "");
  const log = terminal.answered().slice(-MAX_LOGGED).reverse();
  $("messageLog")
    .replaceChildren(log.length ? el("h3", {text: tr`Last messages of this browser`}) : "",
      ...log.map(({number, words, reply, isSame}) => el("div", {text: `${number}: ${isRefusal(reply, {isSame}) ? "✗" : "✓"} ${words}`})));
  if (!$("terminalDialog").open) $("terminalDialog").showModal();
  if (!terminal.number || terminal.isSpent) await offerTerminal();
}

// Offers the least number by which no message was sent.
async function offerTerminal() {
  for (let number = 1; number <= 30; number++) {
    const reply = await ask(`/terminal/${number}`).catch(() => null);
    if (!reply) return;
    if (reply.last) continue;
    if (!$("terminalNumber").value) $("terminalNumber").value = number;
    $("terminalNumber").select();
    $("terminalWords").textContent = tr`No message was sent as terminal ${number} yet.`;
    return;
  }
}

async function useTerminal(event) {
  event.preventDefault();
  const number = readWhole($("terminalNumber").value, 1, MAX_NUMBER);
  if (number === null) return showFault("terminalFault", tr`Write a whole number from 1 on.`);
  if (number !== terminal.number && terminal.kept().some(message => message.number))
    return showFault(
      "terminalFault", tr`Messages of this terminal wait for an answer. Change the number when they are answered.`);
  const reply = await ask(`/terminal/${number}`, {patience: 3000}).catch(() => null);
  if (reply?.last === MAX_NUMBER) return showFault("terminalFault", tr`${spentWords(number)} Choose another number.`);
  try {
    storage.write("cutshop.name", $("shopName").value.trim());
    if (terminal.kept().length) await alone(() => moveUnsent(number));
    else moveUnsent(number);
  } catch { return showFault("terminalFault", tr`This browser can't keep the number. Allow this page to store data.`); }
  $("terminalDialog").close();
  showView();
  if (reply && reply.last)
    tell(tr`Terminal ${number} goes on behind its message ${reply.last}. No other device may have this number.`, "good");
  sendKept();
}
