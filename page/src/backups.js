// ---- Backups: the shop makes them where it has a folder for them, which a GET tells, as the route is there then, though for
// another method. A backup is no message: each press makes one more.

// isKnown: whether it was asked for since the materials were read; isThere: whether there is a folder; isMaking: whether a
// backup is being made; last: the last one from this tab, its number and when it was made.
const backups = {
  isKnown: false,
  isThere: null,
  isMaking: false,
  last: null
};

class NoFolder extends Error {}
class OtherRun extends Error {}

const LAST_BACKUP = "cutshop.backup";

async function readBackups() {
  if (backups.isKnown) return;
  const {status} = await request("/backup", {calm: true});
  if (status === 404 || status === 405) Object.assign(backups, {isKnown: true, isThere: status === 405});
}

function showBackups() {
  const {isThere, isMaking} = backups, last = lastBackup();
  $("backupPanel").hidden = isThere === null;
  fill($("backup"), () => isThere ? backupRows(isMaking, last) : quiet(
    tr`The program has no folder for backups. Whoever starts it adds --backup and the name of a folder, best on another disk than the store's: then a button here makes one, while the shop is open.`));
}

function backupRows(isMaking, last) {
  const words = isMaking ? tr`A backup is being made…`
    : last               ? tr`The last one from this browser has the number ${last.number}: ${timeText(last.at)}.`
                         : tr`None was made from this browser yet.`;
  return [
    quiet(tr`A backup is a copy of all that the shop has, in a folder with a number. All others wait while it is made.`),
    el("div", {class: "buttons"}, el("button", {
      id: "makeBackup",
      text: tr`Make a backup`,
      "data-key": "backup",
      "aria-disabled": String(isMaking),
      on: {click: makeBackup}
    })),
    el("p", {text: words})
  ];
}

async function makeBackup() {
  if (backups.isMaking) return;
  backups.isMaking = true;
  showView();
  say(tr`A backup is being made…`);
  try {
    const {backup} = await askForBackup();
    noteBackup({number: backup, at: Date.now()});
    tell(tr`Backup ${backup} was made`, "good");
  } catch (error) {
    backups.isKnown = false;
    tell(await noBackupWords(error), "refused");
  }
  backups.isMaking = false;
  showView();
  refreshNow();
}

async function askForBackup() {
  const {status, reply} = await request("/backup", {body: "", patience: 600000});
  if (reply?.ok) return reply;
  if (reply) throw new Refused(reply);
  throw status === 404 ? new NoFolder() : status === 412 ? new OtherRun() : new NoAnswer(strangeWords(status));
}

// The later one of what this tab was told and what is kept for all tabs.
function lastBackup() {
  const kept = storage.read(LAST_BACKUP, null), {last} = backups;
  return last && !(kept?.at > last.at) ? last : kept;
}

function noteBackup(last) {
  backups.last = last;
  try {
    storage.write(LAST_BACKUP, last);
  } catch { return; }  // (then it is told until the page is closed)
}

// Why no backup was made, or that it isn't known whether one was.
async function noBackupWords(error) {
  if (error instanceof NoAnswer) return tr`No answer came, so whether a backup was made isn't known. Make another one.`;
  const words = error instanceof NoFolder ? tr`the program has no folder for backups any more`
    : error instanceof OtherRun           ? tr`the program was started anew`
    : isRefused(error, 99)                ? tr`look at its folder and that folder's disk, the program's log says what it was (99 StoreFault)`
                                          : await faultWords(error);
  return tr`No backup was made: ${words}. The shop goes on.`;
}
