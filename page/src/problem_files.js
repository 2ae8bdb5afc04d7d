// ---- Problem files: a rectangle, and the pieces that may be cut from it.

// The picked problem file's text, or none.
const problem = {
  text: null
};

async function showProblem() {
  const picked = $("problemFile").files[0];
  problem.text = null;
  if (!picked) return empty("problemPreview");
  problem.text = await readText(picked, $("problemPreview"));
  csv.orders = 1;
  showProblemFile();
  nameCode(picked.name);
}

function showProblemFile() {
  const {text} = problem;
  if (text === null) return;
  const fault = problemFault(text);
  fill($("problemPreview"), () => [
    fault ? el("p", {class: "fault", text: fault}) : problemRows(text), el("div", {class: "buttons"}, el("button", {
      class: "act",
      id: "sendProblem",
      text: tr`Receive and order`,
      disabled: Boolean(fault),
      on: {click: sendProblemFile}
    }))
  ]);
}

function problemRows(text) {
  const numbers = text.match(/\d+/g).map(Number), kind = kindOf($("problemMaterial").value), pieces = [];
  for (let i = 3; i < numbers.length; i += 4) pieces.push(numbers.slice(i, i + 4));
  return el("div", {},
    el("p", {text: tr`A unit of ${sizeText(kind, numbers[1], numbers[2])} and ${count(pieces.length, "line")}:`}),
    el("ul", {}, ...pieces.slice(0, 20).map(([w, h, most,
      worth]) => el("li", {text: tr`${grouped(most)} of ${sizeText(kind, w, h)}, price for the planner ${grouped(worth)}`}))),
    pieces.length > 20 ? quiet(tr`and ${pieces.length - 20} more`) : null);
}

function problemFault(text) {
  if (!isShort(text)) return longWords(MAX_TEXT);
  const bad = /[^0-9 \t\r\n]/.exec(text), isBar = kindOf($("problemMaterial").value) === "bar";
  if (bad) return tr`A problem file has numbers alone, but “${bad[0]}” stands at place ${bad.index}.`;
  const numbers = (text.match(/\d+/g) || []).map(Number), wanted = 3 + 4 * (numbers[0] || 0);
  if (numbers.length !== wanted)
    return tr`The file has ${count(numbers.length, "number")}; its first says that ${wanted} are wanted.`;
  const highest = i => i === 0 ? 200
    : i < 3                    ? [200000, isBar ? 1 : 60000][i - 1]
                               : [200000, isBar ? 1 : 60000, 1000000, 1000000000][(i - 3) % 4];
  const out = numbers.findIndex((number, i) => number < 1 || number > highest(i));
  return out < 0 ? "" : tr`Number ${out + 1} of the file is ${numbers[out]}; 1 to ${grouped(highest(out))} is wanted.`;
}
