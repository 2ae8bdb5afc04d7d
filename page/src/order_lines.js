// ---- Orders: one checker of a line's seven texts, for the form and for files.

const FIELDS = ["line", "material", "length", "width", "turn", "count", "worth"], SIDES = ["length", "width"];

// A field's name as people read it.
function fieldWords(name) { return word(name === "worth" ? tr`price for the planner` : name); }

// What is wrong with the seven texts of a line, by field.
function lineFaults([line, material, length, width, turn, pieces, worth], before) {
  const isBar = materialOf(material)?.kind === "bar", isTurn = ["yes", "no"].includes(turn);
  const faults = {
    line: wholeFault(line, 4294967295) || (Number(line) > before ? "" : tr`${line}: line numbers have to rise`),
    material: materialOf(material) ? "" : tr`${quoted(material)}: no such material`,
    length: lengthFault(length, 200000),
    width: lengthFault(width, 60000) || (isBar && readMm(width) !== 1 ? tr`${width} mm: a bar's is 0.1 mm` : ""),
    turn: !isTurn ? tr`${quoted(turn)}: write yes or no` : isBar && turn === "yes" ? tr`yes: a bar can't turn, write no` : "",
    count: wholeFault(pieces, MAX_WANTED),
    worth: worth ? wholeFault(worth, 1000000000) : ""
  };
  return Object.fromEntries(Object.entries(faults).filter(([, words]) => words));
}

// The line of a message that seven good texts say.
function lineOf([line, material, length, width, turn, pieces, worth]) {
  return {
    count: Number(pieces),
    h: readMm(width),
    line: Number(line),
    material,
    turn: turn === "yes",
    w: readMm(length),
    worth: Number(worth)
  };
}

// A line's seven texts with what may be left empty: a bar's width, and where all else is good a worth, which is the piece's
// size in mm or mm².
function fillLine([line, material, length, width, turn, pieces, worth], before) {
  const isBar = kindOf(material) === "bar", high = width || (isBar ? "0.1" : "");
  const texts = [line, material, length, high, turn, pieces, worth];
  if (worth || Object.keys(lineFaults(texts, before)).length) return texts;
  const w = readMm(length), h = readMm(high);
  const size = Math.min(1000000000, Math.max(1, Math.round(isBar ? w / 10 : w * h / 100)));
  return [...texts.slice(0, 6), String(size)];
}

function readCode(id) { return $(id).value.trim().replace(/[a-z]/g, letter => letter.toUpperCase()); }

function addOrderLine() {
  if ($("orderLines").children.length >= MAX_LINES)
    return showFault("orderFault", tr`An order has at most ${MAX_LINES} lines.`);
  const input = (name, words, mode) =>
    el("label", {class: "field"}, words, el("input", {"data-field": name, inputmode: mode, autocomplete: "off"}));
  const material = el("select", {"data-field": "material", on: {change: adaptLines}},
    ...shop.materials.map(
      row => el("option", {value: row.material, text: row.material, selected: row.material === shop.material})));
  const line = el("div", {class: "orderline", role: "group"}, el("label", {class: "field"}, tr`Material`, material),
    input("length", tr`Length mm`, "decimal"), input("width", tr`Width mm`, "decimal"),
    el("label", {class: "field"}, tr`Turn`, el("input", {type: "checkbox", "data-field": "turn"})),
    input("count", tr`Count`, "numeric"), input("worth", tr`Price for the planner`, "numeric"), el("button", {
      type: "button",
      class: "small",
      text: "✗",
      on: {
        click: () => {
          line.remove();
          if (!$("orderLines").children.length) addOrderLine();
          else adaptLines();
        }
      }
    }));
  $("orderLines").append(line);
  adaptLines();
}

// A bar's line has no width and doesn't turn; lines are numbered as they stand.
function adaptLines() {
  [...$("orderLines").children].forEach((line, i) => {
    const isBar = kindOf(line.querySelector("[data-field=material]").value) === "bar";
    for (const name of ["width", "turn"]) {
      const field = line.querySelector(`[data-field=${name}]`);
      field.disabled = isBar;
      if (isBar) markField(field, "");
    }
    line.setAttribute("aria-label", tr`Line ${i + 1}`);
    line.querySelector("button").setAttribute("aria-label", tr`Remove line ${i + 1}`);
  });
}

function lineTexts(line, number) {
  const field = name => line.querySelector(`[data-field=${name}]`), text = name => field(name).value.trim();
  const isBar = field("width").disabled, turn = !isBar && field("turn").checked ? "yes" : "no";
  return fillLine([
    String(number), text("material"), text("length"), isBar ? "" : text("width"), turn, text("count"), text("worth")
  ], number - 1);
}

function sendOrder(event) {
  event.preventDefault();
  const {extending} = oneOrder, order = extending || readCode("orderCode"), lines = [...$("orderLines").children];
  const texts = lines.map((line, i) => lineTexts(line, i + 1));
  showFault("orderFault", lines.length ? "" : NO_MATERIAL);
  markField($("orderCode"), extending ? "" : codeFault(order));
  lines.forEach((line, i) => markFields(line, lineFaults(texts[i], i)));
  if (goToFault($("orderForm")) || !lines.length) return;
  const typed = [$("orderCode").value, lines.map(typedLine), extending], isEmpty = () => !isOrderTyped();
  const command = {do: "order", lines: texts.map(lineOf), order}, back = givenBack(isEmpty, () => fillOrder(...typed));
  if (extending) sendExtend(extending, command.lines, back);
  else if (send(command, tr`Order ${order}`, () => {}, back)) fillOrder("", [{}]);
}

// Lines are added once it is known which one is the order's last.
async function sendExtend(order, lines, back) {
  $("sendOrder").disabled = true;
  const isSent = await extend(order, lines, back).catch(async error => {
    tell(`${tr`Add lines to order ${order}`}: ${await faultWords(error)}`, "refused");
  });
  $("sendOrder").disabled = false;
  if (isSent) fillOrder("", [{}]);
}

function fieldsOf(line) { return [...line.querySelectorAll("[data-field]")]; }

function isTick(field) { return field.type === "checkbox"; }

// What is typed into a line, by field.
function typedLine(line) {
  return Object.fromEntries(fieldsOf(line).map(field => [field.dataset.field, isTick(field) ? field.checked : field.value]));
}

function isOrderTyped() {
  const fields = [...$("orderLines").children].flatMap(fieldsOf).filter(field => field.tagName === "INPUT");
  return Boolean($("orderCode").value) || fields.some(field => isTick(field) ? field.checked : field.value);
}

// Fills the form of an order anew; the focus stays in it.
function fillOrder(code, lines, extending = "") {
  const hadFocus = $("orderLines").contains(document.activeElement);
  $("orderCode").value = code;
  oneOrder.extending = extending;
  showHand();
  $("orderLines").replaceChildren();
  for (const typed of lines) {
    addOrderLine();
    for (const field of fieldsOf($("orderLines").lastChild)) {
      const value = typed[field.dataset.field];
      if (isTick(field)) field.checked = Boolean(value);
      else if (value !== undefined) field.value = value;
    }
  }
  adaptLines();
  if (hadFocus) $("orderCode").focus({preventScroll: true});
}
