// ---- The document.

// An element; text and data go through textContent and attributes, never through markup. What is `typed` is in a field's value;
// what hangs on that is `live`, a function that tells the text.
function el(name, given = {}, ...children) {
  const made = document.createElement(name);
  for (const [key, value] of Object.entries(given)) {
    if (key === "on")
      for (const [event, act] of Object.entries(value)) made.addEventListener(event, act);
    else if (key === "text") made.textContent = value;
    else if (key === "typed") made.value = value ?? made.value;
    else if (key === "live") Object.assign(made, {live: value}).dataset.live = "";
    else if (typeof value === "boolean") setTruth(made, key, value);
    else if (key in made && typeof value !== "string") made[key] = value;
    else made.setAttribute(key, value);
  }
  made.append(...children.filter(child => child !== null && child !== undefined && child !== ""));
  return made;
}

// (the attribute tells it, too, so that it is in what is built)
function setTruth(made, key, value) {
  made[key] = value;
  made.toggleAttribute(key, value);
}

// What each holder shows, as it was built.
let drawn = new WeakMap();

const markup = new XMLSerializer();

function drawAllAnew() { drawn = new WeakMap(); }

// What the pointer or the space bar holds down, and what is filled once it is let go: a press on a button that is made anew
// meanwhile would be lost.
const held = {
  target: null,
  waiting: new Map()
};

function hold(event) {
  if (event.type !== "keydown" || event.key === " ") held.target = event.target;
}

function letGo() {
  held.target = null;
  setTimeout(() => {
    for (const [holder, build] of [...held.waiting]) fill(holder, build);
  });
}

// Has a holder show what is built, anew only where that is other than what was built for it last: what is typed into fields is in
// their values alone. Focus, caret and scrolling stay where they were; where what had the focus is gone, it goes to the panel's heading.
function fill(holder, build) {
  held.waiting.delete(holder);
  if (holder.contains(held.target)) {
    held.waiting.set(holder, build);
    return;
  }
  const built = [build()].flat().filter(Boolean), text = built.map(node => markup.serializeToString(node)).join("");
  if (drawn.get(holder) === text) return;
  drawn.set(holder, text);
  const keep = placeIn(holder);
  holder.replaceChildren(...built);
  for (const it of holder.querySelectorAll("[data-live]")) it.textContent = it.live();
  keep();
}

// What a person has at hand in a holder, to be had again once it is filled anew: the choice, the focus with its caret, the scrolling.
function placeIn(holder) {
  const focused = holder.contains(document.activeElement) ? document.activeElement : null, key = focused?.dataset.key;
  const chosen = holder.tagName === "SELECT" ? holder.value : null, {selectionStart: from = null, selectionEnd: to} = focused || {};
  const scrolls = () => [...holder.querySelectorAll(".scroll")], places = scrolls().map(it => [it.scrollLeft, it.scrollTop]);
  return () => {
    if (chosen && [...holder.options].some(option => option.value === chosen)) holder.value = chosen;
    scrolls().slice(0, places.length).forEach((it, i) => it.scrollTo(...places[i]));
    const same = key && holder.querySelector(`[data-key="${CSS.escape(key)}"]`);
    if (same) same.focus({preventScroll: true});
    if (same && from !== null) same.setSelectionRange(from, to);
    if (focused && document.activeElement === document.body) focusHeading(holder.closest(".panel"));
  };
}

// Nothing is shown in holders any more.
function empty(...ids) {
  for (const id of ids) fill($(id), () => []);
}

// Whether what had the focus can't keep it: it is gone, hidden, or can't be pressed any more.
function isLost(focused) { return focused === document.body || focused.disabled || !focused.getClientRects().length; }

function focusHeading(panel) {
  const heading = panel?.querySelector("h2");
  if (!heading) return;
  heading.tabIndex = -1;
  heading.focus({preventScroll: true});
}

// A table's heads, which may be there for those alone who hear them.
function headRow(texts, given = {}) { return el("thead", given, el("tr", {}, ...texts.map(text => el("th", {text, scope: "col"})))); }

const HEARD = {class: "unseen"};

function quiet(text) { return el("p", {class: "quiet", text}); }

// A button that opens another view.
function opener(view, text) {
  return el("button", {
    class: "small",
    text,
    on: {click: () => go(addressOfView(view))}
  });
}

// A link to an address.
function linkTo(address, text, words = "") {
  return el("a", {class: "button small", href: `#${address}`, text, ...words ? {"aria-label": words} : {}});
}

function figure(value, words) { return el("div", {}, el("b", {text: value}), el("span", {text: words})); }

// Says in the live region what was done, for those who don't see it; notices are live regions of their own.
function say(words) { $("said").textContent = words; }

let faultsShown = 0;

// Marks a field with what is wrong with it, told beneath it until it is changed; or with nothing.
function markField(field, words) {
  $(field.getAttribute("aria-describedby"))?.remove();
  field.classList.toggle("badfield", Boolean(words));
  for (const name of ["aria-invalid", "aria-describedby"]) field.removeAttribute(name);
  if (!words) return;
  const id = `fault${++faultsShown}`;
  field.setAttribute("aria-invalid", "true");
  field.setAttribute("aria-describedby", id);
  field.closest("label").after(el("div", {class: "fault", id, text: `${fieldWords(field.dataset.field)} ${words}`}));
  field.addEventListener("input", () => markField(field, ""), {once: true});
}

// Marks all fields of a holder by their names.
function markFields(holder, faults) {
  for (const field of holder.querySelectorAll("[data-field]")) markField(field, faults[field.dataset.field]);
}

// Goes to the first bad field of a holder, if there is one.
function goToFault(holder) {
  const bad = holder.querySelector(".badfield");
  bad?.focus();
  return Boolean(bad);
}

function showFault(id, words) {
  if ($(id).textContent !== words) $(id).textContent = words;
  $(id).hidden = !words;
}
