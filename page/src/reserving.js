// ---- What was planned is reserved: by a message for each part, all by one press.

// From then on it is passed over, and the focus goes to the next step.
function reserve() {
  if (isAllShown()) return reserveEach();
  const {part, found} = toCut, plans = shownPlans(), [{tree}] = plans;
  if (part) {
    if (!sendReserve(part, tree)) return;
    forgetPlans();
    showToCut();
    focusNextStep();
    return say(tr`Reserve ${part}: sent`);
  }
  const parts = plans.flatMap(plan => plan.parts.map(name => [name, plan.tree]));
  toCut.planning?.abort();
  if (!(parts.length === 1 ? sendReserve(...parts[0], found) : sendReserves(parts, found))) return;
  Object.assign(toCut, {planning: null, note: "", fault: ""});
  found.sent = new Set(parts.map(([name]) => name));
  showToCut();
  focusNextStep();
  say(tr`Reserve all: ${count(parts.length, "message")} sent`);
}

function sendReserve(part, tree, found = null) {
  return send({do: "reserve", part, tree}, tr`Reserve ${part}`, reply => reserved(part, tree, reply, found));
}

function sendReserves(parts, found) {
  const commands = parts.map(([part, tree]) => [tr`Reserve ${part}`, {do: "reserve", part, tree}]);
  return sendMany(tr`Reserve all of ${found.material.material}`, commands,
    ({part, tree}, reply) => reserved(part, tree, reply, found), told => reservesOver(told, found), "saw");
}

function reserved(part, tree, {job, cuts}, found) {
  found?.jobs.set(part, job);
  noteJob(part, tree, job, cuts);
  showView();
}

// The plan of a job that was reserved here is known without a question.
function noteJob(part, tree, job, cuts) {
  const row = shop.materials.flatMap(({material}) => knownOf(material).parts).find(other => other.part === part);
  if (row) noteWaiting({...row, job, cuts}, tree);
}

// A waiting job is known by its row and its plan.
function noteWaiting({job, part, cuts, material, w, h, begun = 0}, tree) {
  const {kerf} = materialOf(material) || {};
  if (kerf !== undefined) noteFact(`/job/${job}`, {ok: "job", job, part, tree, cuts, state: "waiting", material, kerf, w, h, begun});
}

// Some that were refused are told, and what is left is planned anew by one press.
function reservesOver({refused}, found) {
  const it = plansOf(found.material.material);
  found.refused = refused.map(([part]) => part);
  if (it.found !== found || !refused.length) return showView();
  it.note = tr`Not reserved: ${namesOf(found.refused.map(part => ({part})))}. The others are.`;
  showView();
  readLists(it.code);
}
