// ---- What is typed stays over a reload: it is kept for this tab, and filled in again once the materials are known.

const TYPED = "cutshop.typed", TYPED_FIELDS = ["orderCode", "fileCode", "problemMaterial", ...RECEIPT_FIELDS];

function keepTyped() {
  const fields = TYPED_FIELDS.map(id => $(id).value), lines = isOrderTyped() ? [...$("orderLines").children].map(typedLine) : [];
  const {extending, notes} = oneOrder, file = csv.file ? {text: csv.text, chosen: csv.chosen, named: csv.named} : null;
  noteBreak();
  const maps = [notes, inOrders.typed, buying, breaks].map(map => [...map]);
  const typed = {fields, lines, extending, maps, file, problem: problem.text};
  try {
    sessionStorage.setItem(TYPED, JSON.stringify(typed));
  } catch { return; }  // (then it is too large, or nothing can be kept)
}

function fillTyped() {
  let typed = null;
  try {
    typed = JSON.parse(sessionStorage.getItem(TYPED));
    sessionStorage.removeItem(TYPED);
  } catch { return; }  // (then nothing was kept)
  if (!typed) return;
  const {fields, lines, extending, maps, file} = typed;
  showMaterials();
  TYPED_FIELDS.forEach((id, i) => {
    $(id).value = fields[i];
  });
  adaptReceive();
  if (lines.length) fillOrder(fields[0], lines, extending);
  [oneOrder.notes, inOrders.typed, buying, breaks].forEach((map, i) => {
    for (const [key, value] of maps?.[i] || []) map.set(key, value);
  });
  if (atSaw.told) {
    $("breakRest").value = breaks.get(keyOf(atSaw.told))?.rest ?? "";
    takeJob(atSaw.told);
  }
  problem.text = typed.problem;
  showProblemFile();
  if (!file) return;
  Object.assign(csv, file);
  showCsvFile();
}
