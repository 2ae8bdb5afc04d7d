// ---- What the page judges by itself, as the shop does: how the cuts of a plan lie, which rests are kept, what a halt leaves,
// and what is left of a demand.

// Plans: the one place that reads a tree's text and lays it.

// The root node. A cut has its rectangle, its kerf strip, the cuts above it, and its second part where the saw leaves
// something.
function readPlan(text, w, h, kerf) {
  const words = text.split(" ");
  let place = 0, cuts = 0;
  function read(x, y, w, h, above) {
    const word = words[place], box = {node: place++, x, y, w, h, above};
    const cut = /^([xy])([1-9]\d*)$/.exec(word), piece = /^p([1-9]\d*)(t?)$/.exec(word);
    if (cut) return divide(box, cut[1], Number(cut[2]));
    if (piece) return Object.assign(box, {kind: "piece", demand: Number(piece[1]), turned: piece[2] === "t"});
    if (word === "r") return Object.assign(box, {kind: "rest"});
    throw new Error(`word ${box.node} of the plan is none`);
  }
  function divide(box, axis, at) {
    const {x, y, w, h} = box, side = axis === "x" ? w : h;
    if (at >= side) throw new Error(`cut ${cuts} lies outside`);
    const saw = Math.min(kerf, side - at), left = side - at - saw;
    Object.assign(box, {kind: "cut", axis, at, side, cut: cuts++});
    const above = [...box.above, box.cut];
    box.strip = axis === "x" ? {x: x + at, y, w: saw, h} : {x, y: y + at, w, h: saw};
    box.first = axis === "x" ? read(x, y, at, h, above) : read(x, y, w, at, above);
    if (left > 0) box.second = axis === "x" ? read(x + at + saw, y, left, h, above) : read(x, y + at + saw, w, left, above);
    return box;
  }
  const root = read(0, 0, w, h, []);
  if (place !== words.length) throw new Error("the plan has words behind its tree");
  return Object.assign(root, {cuts});
}

// How many pieces of each demand a tree's text has.
function countPieces(text) {
  const counts = new Map();
  for (const [, demand] of text.matchAll(/p(\d+)/g)) counts.set(Number(demand), (counts.get(Number(demand)) || 0) + 1);
  return counts;
}

function nodesOf(root) {
  return root.kind === "cut" ? [root, ...nodesOf(root.first), ...(root.second ? nodesOf(root.second) : [])] : [root];
}

function cutsOf(root) { return nodesOf(root).filter(node => node.kind === "cut"); }

function isKept(w, h, limits) { return Math.max(w, h) >= limits.min_long && Math.min(w, h) >= limits.min_short; }

// The halt that a message tells: the cuts that were made, listed or how many of the first, the one that went wrong, and the rest that
// was measured of what it was to divide.
function haltOf({cuts, lost, rest = 0}) {
  const isList = Array.isArray(cuts), wrong = isList ? lost : lost ? cuts : false;
  return {made: new Set(isList ? cuts : Array.from({length: cuts}, (_, i) => i)), lost: wrong === false ? null : wrong, rest};
}

// The rectangles that come of the work: all cuts, or those of a halt { made: Set, lost: number or null, rest: length }. One that was
// read from a job's steps has beside it the cuts whose rectangle is scrap; which of them went wrong isn't known.
function layPlan(root, limits, halt) {
  const boxes = [];
  function lay(node) {
    const rest = isKept(node.w, node.h, limits) ? "kept" : "scrap";
    if (node.kind === "piece") boxes.push({...node, fate: "piece"});
    else if (node.kind === "rest") boxes.push({...node, fate: rest});
    else if (halt && halt.lost === node.cut) boxes.push(...lostBoxes(node, halt.rest || 0, limits));
    else if (halt?.scrapped?.has(node.cut)) boxes.push({...node, fate: "scrap"});
    else if (halt && !halt.made.has(node.cut)) boxes.push({...node, fate: rest, uncut: true});
    else layCut(node);
  }
  function layCut(node) {
    if (node.strip.w > 0 && node.strip.h > 0) boxes.push({...node.strip, node: node.node, fate: "kerf"});
    lay(node.first);
    if (node.second) lay(node.second);
  }
  lay(root);
  return boxes;
}

// What becomes of the rectangle of a cut that went wrong: the last columns or rows may be a usable rest, under the next node.
function lostBoxes(node, rest, limits) {
  const {x, y, w, h} = node, isAcross = node.axis === "x", lost = {...node, ...isAcross ? {w: w - rest} : {h: h - rest}, fate: "lost"};
  if (!rest) return [lost];
  const left = isAcross ? {x: x + w - rest, y, w: rest, h} : {x, y: y + h - rest, w, h: rest};
  return [lost, {...left, node: node.node + 1, kind: "rest", fate: isKept(left.w, left.h, limits) ? "kept" : "scrap"}];
}

function cellsByFate(boxes) {
  const cells = {piece: 0, kept: 0, kerf: 0, scrap: 0, lost: 0};
  for (const box of boxes) cells[box.fate] += box.w * box.h;
  return cells;
}

function leftOf(row) { return row.wanted - row.reserved - row.made; }

function fitsPart(row, part) {
  return (row.w <= part.w && row.h <= part.h) || (row.turn && row.h <= part.w && row.w <= part.h);
}
