// ---- A file's bytes as a table: its text, its records, its heads and its rows.

// The text of a file: UTF-16 where its first bytes say so, UTF-8, or else Windows-1252. A mark of UTF-8 stays in it.
function textOf(bytes) {
  const [a, b] = bytes, decode = (name, options) => new TextDecoder(name, options).decode(bytes);
  if ((a === 0xff && b === 0xfe) || (a && b === 0)) return decode("utf-16le");
  if ((a === 0xfe && b === 0xff) || (a === 0 && b)) return decode("utf-16be");
  try {
    return decode("utf-8", {fatal: true, ignoreBOM: true});
  } catch { return decode("windows-1252"); }
}

// The records of a text, at most so many: each a row's number as a spreadsheet counts them, and a list of fields. Quoted fields
// are what they quote, blank rows are no records and are counted, but for those at the end. A quote that is never closed quotes nothing, and then no quote does.
function readRecords(text, mark, most = Infinity, hasQuotes = true) {
  const records = Object.assign([], {blank: 0});
  let fields = [], field = "", isQuoted = false, isBegun = false, at = 1, blank = 0;
  const endField = () => {
    fields.push(hasQuotes ? field : field.replace(/^"(.*)"$/, "$1"));
    field = "";
  };
  const endRow = () => {
    endField();
    blank = isBegun ? 0 : blank + 1;
    if (isBegun) records.push({at, fields});
    else records.blank++;
    fields = [];
    isBegun = false;
    at++;
  };
  for (let i = 0; i < text.length && records.length < most; i++) {
    const c = text[i];
    if (!isQuoted && (c === "\n" || c === "\r")) {
      if (c === "\r" && text[i + 1] === "\n") i++;
      endRow();
      continue;
    }
    isBegun = true;
    if (isQuoted) {
      if (c !== '"') field += c;
      else if (text[i + 1] === '"') {
        field += c;
        i++;
      } else isQuoted = false;
    } else if (hasQuotes && c === '"' && field === "") isQuoted = true;
    else if (c === mark) endField();
    else field += c;
  }
  if (isQuoted) return readRecords(text, mark, most, false);
  endRow();
  return Object.assign(records, {hasQuotes, blank: records.blank - blank});
}

function isFull({fields}) { return fields.some(field => field.trim()); }

function widthOf(fields) { return fields.findLastIndex(field => field.trim()) + 1; }

// Heads are looked for in so many rows; over so many columns are no order's.
const MAX_TITLES = 19, MAX_COLUMNS = 64;

const MARKS = [";", "\t", ","];

// Whether a row is one of heads: it names a length or a size, and one thing more.
function isHeads(fields) {
  if (widthOf(fields) > MAX_COLUMNS) return false;
  const named = new Set(fields.map(meaningOf)), isSized = ["length", "size"].some(name => named.has(name));
  named.delete(undefined);
  return named.size > 1 && (isSized || (named.has("width") && named.has("height")));
}

// What parts a text's fields: the mark by which its heads name the most, else the first of MARKS that its first rows have. It
// is looked for in the first 32 KB.
function markOf(all) {
  const text = all.slice(0, 1 << 15), first = [...text.matchAll(/[^\r\n]+/g)].slice(0, MAX_TITLES + 1).join("\n");
  let best = MARKS.find(mark => first.includes(mark)) || ",", most = 1;
  for (const mark of MARKS) {
    const heads = readRecords(text, mark, MAX_TITLES + 1).find(({fields}) => isHeads(fields));
    const named = heads ? new Set(heads.fields.map(meaningOf)).size : 0;
    if (named > most) [best, most] = [mark, named];
  }
  return best;
}

// A file's text as a table. Rows above its heads are titles. Without a row of heads its first row has them, unless that has a
// number or `isHeadless` says that it is a line. Heads of two rows are taken together: of merged cells, or with units below.
function readTable(text, isHeadless) {
  const bare = text.replace(/^\uFEFF/, ""), told = /^"?sep=(.)"?(?:\r\n|\r|\n)/i.exec(bare);
  const sheet = told ? bare.slice(told[0].length) : bare, mark = told ? told[1] : markOf(sheet);
  const records = readRecords(sheet, mark), full = records.filter(isFull), first = full[0]?.fields || [];
  const found = full.slice(0, MAX_TITLES + 1).findIndex(({fields}) => isHeads(fields));
  const isLine = first.some(field => /^\d+([.,]\d+)?(\s*[cm]?m)?$/.test(field.trim()));
  const headless = isHeadless ?? (found < 0 && isLine), at = Math.max(found, 0);
  const head = full[at]?.fields || [], wide = headless ? widthOf(first) : widthOf(head);
  const isDouble = !headless && wide <= MAX_COLUMNS && full[at + 1] && isSubHeads(full[at + 1].fields);
  const heads = headless || wide > MAX_COLUMNS ? [] : headsOf(head, isDouble ? full[at + 1].fields : [], wide);
  const rows = headless ? full : full.slice(at + (isDouble ? 2 : 1)), titles = headless ? [] : full.slice(0, at);
  const isPlain = !told && records.hasQuotes && mark === "," && full.length === records.length && !at && isSame(first, FIELDS);
  return {told, mark, headless, wide, heads, titles, rows, empty: records.length - full.length + records.blank, isPlain};
}

// Whether a row below heads belongs to them: all that it has are heads or units.
function isSubHeads(fields) {
  return fields.every(field => !field.trim() || meaningOf(field) || /^\W*(mm|cm|m|stk|st|pcs)\W*$/i.test(field.trim()));
}

// The heads of columns: the text that is shown, what names the column, and its unit. A merged cell's head counts on to its
// right.
function headsOf(upper, lower, wide) {
  let merged = "";
  return Array.from({length: wide}, (_, i) => {
    const above = (upper[i] || "").trim(), below = (lower[i] || "").trim();
    merged = above || merged;
    return {
      text: [above, below].filter(Boolean).join(" "),
      name: meaningOf(below) ? below : above,
      unit: unitOfHead(below) || unitOfHead(below ? merged : above)
    };
  });
}

function isSame(some, others) { return some.length === others.length && some.every((text, i) => text === others[i]); }
