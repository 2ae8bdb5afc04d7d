// ---- Refusals in words.

const REFUSALS = {
  10: tr`the shop can't read this message`,
  11:
    tr`this number was used for another message: is another device the same terminal? Choose another number for one of them`,
  20: tr`there is no such material`,
  21: tr`the material is known with other values`,
  22: tr`a material of this kind can't have these limits`,
  30: tr`this material can't have these sides: nothing is over 20000.0\u00a0×\u00a06000.0\u00a0mm`,
  31: tr`1 to 100 units are received at a time`,
  32: tr`that is more of the material than the books can count`,
  33: tr`the shop's numbers are spent`,
  40: tr`an order with this code is there already`,
  41: tr`a line can't be ordered so: line numbers have to rise, sides have to be the material's, a bar can't turn`,
  42: tr`there are no such pieces wanted`,
  43: tr`there is no order with this code`,
  44: tr`an order's day is one of the calendar, and its text has at most 200 bytes and no control characters`,
  50: tr`there is no such part`,
  51: tr`the part doesn't stand any more: it is reserved, cut, scrap or returned`,
  52: tr`only a whole unit, as it was received, can be returned`,
  60: tr`the plan isn't one of this part, or has no piece`,
  61: tr`the plan has a piece of another material`,
  62: tr`a piece of the plan hasn't the size that is wanted`,
  63: tr`the plan has more pieces than are left of some that are wanted`,
  70: tr`there is no such job`,
  71: tr`the job is over already`,
  72: tr`work can't have halted so: each cut needs all cuts above it, and a rest is shorter than what was to be divided`,
  73: tr`the job is neither done nor broken off, so there is nothing to take back`,
  74: tr`a part that the job made isn't as the job left it any more`,
  80: tr`the file's text isn't of its form`,
  90: tr`none of the pieces fits the part`,
  91: tr`a plan is of bars of at most 15000.0 mm`,
  93: tr`there is nothing to plan: choose kinds of pieces of which some are left, at most 100`,
  98: tr`the shop is out of memory`,
  99: tr`the shop's store failed`,
};

// What a refusal says, with its number; of 63 also which demand it is or what is the least, of 61 and 62 nothing that isn't
// told.
async function refusalWords(reply, command = {}, quicker = "") {
  let words = quicker || undefined;
  if (command.do === "amend") words = await amendFault(command, reply) || words;
  else if (reply.refused === 63) words = await overdrawnWords(countPieces(command.tree)) || words;
  else if (reply.refused === 74) words = await movedWords(command).catch(() => "") || words;
  return refusedWords(reply, words);
}

function refusedWords({refused, name}, words = REFUSALS[refused] || tr`the shop refused it`) { return `${words} (${refused} ${name})`; }

// Which parts aren't as their job left them any more.
async function movedWords({job}) {
  const {material, steps} = await ask(`/steps/${job}`), limits = materialOf(material);
  const isMoved = ({state, w, h}) => ["reserved", "cut"].includes(state) || (state === "scrap" && isKept(w, h, limits));
  const moved = steps.filter(isMoved).map(({part, state}) => tr`${part} is ${MOVED[state]}`);
  return moved.length ? tr`${moved.join(", ")}: the job isn't as it was left any more` : "";
}

const MOVED = {
  reserved: tr`reserved`,
  cut: tr`cut up`,
  scrap: tr`scrap`
};

// What ended a job or took a part before, by whom and when, and whether that is what was wanted; nothing where no entry tells it.
async function quickerOf({do: wanted, job, part}, {refused}) {
  const ofJob = [71, 73].includes(refused), path = ofJob ? storyOf(`job/${job}`) : refused === 51 && part ? storyOf(`part/${part}`) : "";
  facts.by.delete(path);  // (a refusal tells of an entry that may not be known)
  const [rows] = path ? await readPages(path).catch(() => [[]]) : [[]];
  const entry = rows.findLast(({message}) => Object.hasOwn(BEFORE, message.do) && !(ofJob && message.do === "reserve"));
  if (!entry || (refused === 73 && entry.message.do !== "undo")) return null;
  const {at, message} = entry, was = !ofJob && ["done", "break"].includes(message.do) ? tr`cut up` : BEFORE[message.do];
  const by = tr`${was} by terminal ${message.terminal}, ${momentText(at)}`;
  return {words: `${ofJob ? tr`Job ${job}` : tr`Part ${part}`}: ${by}`, isSame: message.do === wanted && ["done", "release", "undo", "scrap", "return"].includes(wanted)};
}

const BEFORE = {
  done: tr`done`,
  break: tr`broken off`,
  release: tr`given back`,
  undo: tr`taken back`,
  reserve: tr`reserved`,
  scrap: tr`scrapped`,
  return: tr`returned`
};

// A time of today, or a day with its time.
function momentText(at) {
  const time = at * 1000;
  return new Date(time).toDateString() === new Date().toDateString() ? clockText(at) : at ? timeText(time) : tr`no time is known`;
}

async function overdrawnWords(counts) {
  for (const [demand, pieces] of counts) {
    const row = await ask(`/demand/${demand}`).catch(() => null);
    if (row && pieces > leftOf(row)) return onlyLeftWords(row);
  }
  return "";
}

function onlyLeftWords(row) {
  return tr`only ${leftOf(row)} of pieces no. ${row.demand} ${leftOf(row) === 1 ? "is" : "are"} left`;
}
