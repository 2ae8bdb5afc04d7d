// ---- The address behind #: a view, or one thing of it. What is shown is at its address, so that reload, Back and another tab
// show the same.

const CODE = /^[A-Z0-9-]{1,16}$/, JOB_NUMBER = /^[1-9]\d{0,9}$/;

// By an address's first word: the view, what may stand behind the word, and whether something has to.
const ADDRESSES = {
  cut: {view: "tocut", of: CODE},
  saw: {view: "saw", of: JOB_NUMBER},
  orders: {view: "orders"},
  order: {view: "orders", of: CODE, has: true},
  stock: {view: "stock", of: CODE},
  part: {view: "stock", of: PART_NAME, has: true},
  batch: {view: "stock", of: CODE, has: true},
  yield: {view: "yield"},
  happened: {view: "happened", of: /^([1-9]\d{0,8}|order\/[A-Z0-9-]{1,16}|job\/[1-9]\d{0,8}|part\/[1-9]\d{0,8}\/(0|[1-9]\d{0,8}))$/}
};

// An address read: its word and what stands behind it; an unknown one is that of the first view.
function readAddress(text = location.hash.slice(1)) {
  const slash = text.indexOf("/"), name = slash < 0 ? text : text.slice(0, slash), of = slash < 0 ? "" : text.slice(slash + 1);
  const word = name === "tocut" ? "cut" : name, known = Object.hasOwn(ADDRESSES, word) && ADDRESSES[word];
  const isGood = known && (of ? known.of?.test(of) : !known.has && slash < 0);
  return isGood ? {word, of, view: known.view} : {word: "cut", of: "", view: "tocut"};
}

function addressText({word, of}) { return of ? `${word}/${of}` : word; }

function viewName() { return readAddress().view; }

// Goes to an address, to which Back comes again; or has it in the place of the one that is shown.
function go(text) {
  if (location.hash !== `#${text}`) location.hash = text;
}

function settle(text) {
  if (location.hash !== `#${text}`) history.replaceState(null, "", `#${text}`);
}

// Where a view's button and key lead: to what it showed last.
function addressOfView(view) {
  switch (view) {
    case "tocut": return toCut.isOne && shop.material ? `cut/${shop.material}` : "cut";
    case "saw": return atSaw.job ? `saw/${atSaw.job}` : "saw";
    case "orders": return viewName() !== "orders" && inOrders.found ? `order/${inOrders.found}` : "orders";
    case "stock": return shop.material ? `stock/${shop.material}` : "stock";
    default: return view;
  }
}

// Shows what the address says.
function followAddress() {
  const {word, of} = readAddress(), text = addressText({word, of});
  settle(text);
  if (word === "cut") toCut.isOne = Boolean(of);
  if (word === "cut" || word === "stock") followMaterial(of);
  if (word === "stock") seek("");
  if (word === "saw") followJob(Number(of));
  if (word !== "happened") leaveHappened();
  if (word === "orders" && inOrders.found) forgetFound();
  if (word === "order" && of !== inOrders.found && of !== inOrders.sought) showOrder(of);
  if (word === "part" && of !== traced.name) seek(of);
  if (word === "batch" && of !== traced.batch) seek("", of);
}

// A material's address chooses it; one that the shop doesn't have is left.
function followMaterial(code) {
  if (!code || code === shop.material) return;
  if (shop.isKnown && !materialOf(code)) settle(readAddress().word);
  else chooseMaterial(code);
}

function followJob(job) {
  if (job && job !== atSaw.opening && job !== atSaw.told?.job) openJob(job);
}
