// ---- Pictures: the one place that draws SVG, to scale. Each fate has a form beside its colour: kept rests are dashed,
// scrap is hatched, what is lost is hatched twice, kerf is solid.

const FATES = {
  piece: {words: tr`piece`},
  kept: {words: tr`rest kept`},
  scrap: {words: tr`scrap`, hatch: "/"},
  kerf: {words: tr`kerf`},
  lost: {words: tr`lost: scrap`, hatch: "x"},
  planned: {words: tr`only planned`},
  unit: {words: tr`unit`},
  within: {words: tr`cut before`},
};

function svgEl(name, given = {}, ...children) {
  const made = document.createElementNS("http://www.w3.org/2000/svg", name);
  for (const [key, value] of Object.entries(given))
    if (key === "text") made.textContent = value;
    else made.setAttribute(key, value);
  made.append(...children);
  return made;
}

const BAR_HIGH = 72;

// A canvas on which a rectangle of w by h tenths is drawn as large as the room allows, which is the holder's, or as the
// largest of several on one scale. A bar's height isn't to scale.
function canvasFor(holder, w, h, isBar, label, given = {}) {
  const {room = Math.max(200, holder.clientWidth - 2), largest = {w, h}, isPlain = false} = given;
  const most = Math.max(240, Math.min(560, window.innerHeight - 330)), top = isPlain ? 4 : isBar ? 34 : 22, side = isBar ? 12 : 22;
  const scale = isBar ? (room - 2 * side) / largest.w : Math.min((room - 2 * side) / largest.w, most / largest.h);
  const high = isBar ? (isPlain ? 44 : BAR_HIGH) / h : scale, below = isPlain ? 20 : top;
  const canvas = {scale, high, isBar, left: side, top, below, width: w * scale + 2 * side, height: h * high + top + below};
  canvas.svg = svgEl("svg", {
    width: canvas.width,
    height: canvas.height,
    viewBox: `0 0 ${canvas.width} ${canvas.height}`,
    role: "img",
    "aria-label": label
  });
  return canvas;
}

function place(canvas, box) {
  return {
    x: canvas.left + box.x * canvas.scale,
    y: canvas.top + box.y * canvas.high,
    width: box.w * canvas.scale,
    height: box.h * canvas.high
  };
}

function addBox(canvas, box, fate, title) {
  const at = place(canvas, box);
  if (fate === "kerf") Object.assign(at, {width: Math.max(1.2, at.width), height: Math.max(1.2, at.height)});
  const rect = svgEl("rect", {...at, class: `box ${fate}`});
  if (title) rect.append(svgEl("title", {text: title}));
  canvas.svg.append(rect);
  const how = FATES[fate].hatch;
  if (how) canvas.svg.append(svgEl("path", {d: hatch(at, how), class: `hatch ${fate}`}));
  return at;
}

// Slanting lines inside a rectangle.
function hatch(at, how) {
  let path = "";
  const gap = how === "x" ? 12 : 9;
  for (let d = gap; d < at.width + at.height; d += gap) {
    const a = Math.max(0, d - at.height), b = Math.min(d, at.width);
    path += `M${at.x + a} ${at.y + d - a}L${at.x + b} ${at.y + d - b}`;
    if (how === "x") path += `M${at.x + at.width - a} ${at.y + d - a}L${at.x + at.width - b} ${at.y + d - b}`;
  }
  return path;
}

// As many of the lines of words as the rectangle holds, upright where it is narrow; where none fits, the number or the name alone.
// Gives the rectangle that they cover, or null.
function addWords(canvas, at, words) {
  const upright = at.height > at.width * 1.3 && at.width < 90;
  const room = upright ? at.height : at.width, depth = upright ? at.width : at.height;
  for (const [size, lines] of [
         [14, words], [12, words], [10, words], [10, words.slice(0, 1).map(text => text.replace(/^\D*(?=\d)/, "").split(" ")[0])]]) {
    const fitting =
      lines.filter(text => text.length * size * 0.66 + 6 <= room).slice(0, Math.floor((depth - 4) / (size * 1.25)));
    if (!fitting.length || (size > 10 && fitting.length < words.length)) continue;
    const cx = at.x + at.width / 2, cy = at.y + at.height / 2;
    const group = svgEl("g", {
      class: "words",
      "font-size": size,
      "pointer-events": "none",
      ...(upright ? {transform: `rotate(-90 ${cx} ${cy})`} : {})
    });
    fitting.forEach(
      (text, i) => group.append(svgEl("text",
        {x: cx, y: cy + (i - (fitting.length - 1) / 2) * size * 1.25 + size * 0.35, text, "font-weight": i ? 400 : 700})));
    canvas.svg.append(group);
    const long = Math.max(...fitting.map(text => text.length)) * size * 0.6, deep = fitting.length * size * 1.25;
    const [width, height] = upright ? [deep, long] : [long, deep];
    return {x: cx - width / 2, y: cy - height / 2, width, height};
  }
  return null;
}

function addRuler(canvas, w, h) {
  canvas.svg.append(
    svgEl("text", {class: "ruler", text: `${mm(w)} mm`, x: canvas.width / 2, y: canvas.height - (canvas.below > 22 ? 10 : 6)}));
  if (!canvas.isBar)
    canvas.svg.append(
      svgEl("text",
        {class: "ruler", text: `${mm(h)} mm`, transform: `translate(15 ${canvas.top + h * canvas.high / 2}) rotate(-90)`}));
}

// The numbers of the cuts on their strips; above and below a bar. Under a halt the strips of cuts that aren't made are
// dotted. A number that finds no room is left to the list.
function addCutMarks(canvas, root, worded, {made, halt, onCut}) {
  const taken = [], marks = [];
  for (const cut of cutsOf(root)) {
    const at = place(canvas, cut.strip), {spot, room} = markSpot(canvas, at, cut.axis, taken, worded);
    const state = halt && halt.lost === cut.cut ? "lost" : made.has(cut.cut) ? "made" : "open";
    if (halt && state === "open") canvas.svg.append(svgEl("rect", {...at, class: "box open"}));
    const mark = room >= 14 ? cutMark(spot, state, cut.cut + 1, room >= 21 ? 10 : 7) : svgEl("g");
    if (room >= 14) taken.push(spot);
    if (onCut) addCutTarget(canvas, at, mark, cut, onCut);
    marks.push(mark);
  }
  canvas.svg.append(...marks);
}

function cutMark({x, y}, state, number, r) {
  const text = state === "lost" ? "✗" : String(number);
  return svgEl("g", {class: `mark ${state}`}, svgEl("circle", {cx: x, cy: y, r}),
    svgEl("text", {x, y: y + r * 0.38, "font-size": r * (text.length > 2 ? 0.9 : 1.1), text}));
}

// The first place along a strip with room for a mark beside other marks and words, or the one with most.
function markSpot(canvas, at, axis, taken, worded) {
  const cx = at.x + at.width / 2, cy = at.y + at.height / 2;
  const spots = canvas.isBar ? [canvas.top - 14, canvas.top + BAR_HIGH + 14].map(y => ({x: cx, y}))
                             : [0.5, 0.2, 0.8, 0.35, 0.65, 0.05, 0.95, 0.12, 0.27, 0.42, 0.58, 0.73, 0.88].map(
                                 f => axis === "x" ? {x: cx, y: at.y + f * at.height} : {x: at.x + f * at.width, y: cy});
  const beside = (place, from, long) => Math.max(0, from - place, place - from - long);
  const roomOf = ({x, y}) => Math.min(99, ...taken.map(other => Math.hypot(other.x - x, other.y - y)),
    ...worded.map(words => 14 + Math.hypot(beside(x, words.x, words.width), beside(y, words.y, words.height))));
  const spot =
    spots.find(spot => roomOf(spot) >= 21) || spots.reduce((best, spot) => roomOf(spot) > roomOf(best) ? spot : best);
  return {spot, room: roomOf(spot)};
}

function addCutTarget(canvas, at, mark, cut, onCut) {
  const wide = svgEl("rect", {x: at.x - 6, y: at.y - 6, width: at.width + 12, height: at.height + 12, class: "target"});
  mark.style.cursor = "pointer";
  for (const target of [wide, mark]) {
    target.dataset.cut = cut.cut;
    target.addEventListener("click", () => onCut(cut.cut));
  }
  canvas.svg.append(wide);
}

// A plan's picture: its rectangles, what they are, and its cuts where `made` tells which are ticked. What is `planned`
// alone has no fate.
function drawPlan(holder, root, material, {wordsOf, restName, made, halt, planned, onCut, hasLegend = true, ...size} = {}) {
  const {kind} = material, sides = sizeText(kind, root.w, root.h), cuts = count(root.cuts, "cut");
  const boxes = planned ? layPlan(root, material).map(box => ({...box, fate: "planned"})) : layPlan(root, material, halt);
  const label = tr`${planned ? tr`What was planned` : tr`Plan`} of ${sides} with ${cuts}`;
  const canvas = canvasFor(holder, root.w, root.h, kind === "bar", label, size);
  const labels = boxes.map(box => {
    const size = sizeText(kind, box.w, box.h), words = boxWords(box, size, wordsOf, restName);
    return [addBox(canvas, box, box.fate, box.fate === "kerf" ? tr`kerf ${mm(material.kerf)} mm` : words.join(", ")), words];
  });
  const worded = labels.map(([at, words]) => addWords(canvas, at, words)).filter(Boolean);
  if (made) addCutMarks(canvas, root, worded, {made, halt, onCut});
  addRuler(canvas, root.w, root.h);
  canvas.shown = svgEl("rect", {class: "shown", visibility: "hidden"});
  canvas.svg.append(canvas.shown);
  holder.replaceChildren(canvas.svg, ...hasLegend ? [legendOf(boxes, material)] : []);
  return canvas;
}

function boxWords(box, size, wordsOf, restName) {
  if (!box.kind) return [];
  if (box.kind === "piece") return [...wordsOf(box), size];
  if (box.fate === "planned") return [tr`rest`, size];
  const words = box.fate === "kept" && restName ? tr`kept ${restName(box)}` : FATES[box.fate].words;
  return [`${box.uncut ? tr`uncut, ` : ""}${words}`, size];
}

function legendOf(boxes, material) {
  const found = Object.keys(FATES).filter(fate => boxes.some(box => box.fate === fate));
  return el("ul", {class: "legend"},
    ...found.map(
      fate => el("li", {}, swatch(fate), `${FATES[fate].words}${fate === "kerf" ? ` ${mm(material.kerf)} mm` : ""}`)));
}

function swatch(fate) {
  const small = {svg: svgEl("svg", {viewBox: "0 0 26 16", "aria-hidden": "true"}), scale: 1, high: 1, left: 0, top: 0};
  addBox(small, {x: 1, y: 1, w: 24, h: 14}, fate);
  return small.svg;
}

// A part in its unit, with the outlines of the parts that it was cut from, the unit last, as wide as a holder.
function drawTrace(holder, chain, kind) {
  const part = chain[0], unit = chain[chain.length - 1];
  const canvas = canvasFor(holder, unit.w, unit.h, kind === "bar", tr`Part ${part.part} in unit ${unit.part}`);
  addBox(canvas, {x: 0, y: 0, w: unit.w, h: unit.h}, "unit", tr`unit ${unit.part}`);
  const within = chain.slice(1, -1).reverse().map(other => [addBox(canvas, other, "within", other.part), other.part]);
  const fate = {piece: "piece", kerf: "kerf", scrap: "scrap"}[part.state] || "kept";
  const at = addBox(canvas, part, fate, part.part);
  if (fate !== "kerf") addWords(canvas, at, [part.part, sizeText(kind, part.w, part.h)]);
  for (const [place, name] of within) addWords(canvas, {...place, height: 18}, [name]);
  addRuler(canvas, unit.w, unit.h);
  return canvas.svg;
}

// A bar of shares, [[fate, number, words]].
function drawShares(shares, high, label) {
  const whole = shares.reduce((sum, [, number]) => sum + number, 0) || 1;
  const canvas = {
    svg: svgEl("svg", {
      viewBox: `0 0 1000 ${high}`,
      preserveAspectRatio: "none",
      class: "shares",
      role: "img",
      "aria-label": label,
      height: high
    }),
    scale: 1,
    high: 1,
    left: 0,
    top: 0
  };
  let x = 0;
  for (const [fate, number, words] of shares) {
    if (number) addBox(canvas, {x, y: 0, w: number * 1000 / whole, h: high}, fate, words);
    x += number * 1000 / whole;
  }
  canvas.svg.append(
    svgEl("rect", {x: 0, y: 0, width: 1000, height: high, class: "box", fill: "none", stroke: "currentColor"}));
  return canvas.svg;
}

function drawProgress(row) {
  return drawShares([["piece", row.made, tr`made`], ["scrap", row.reserved, tr`reserved`], ["unit", leftOf(row), tr`left`]], 14,
    progressWords(row));
}

function progressWords(row) {
  const [made, reserved, left, wanted] = [row.made, row.reserved, leftOf(row), row.wanted].map(grouped);
  return tr`${made} made · ${reserved} reserved · ${left} left of ${wanted}`;
}
