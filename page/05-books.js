// The books, read as a whole, and what is worked out of them.

const books = {}, TEXTS = ['name', 'batch', 'serial', 'partner', 'day'];
let find = null, stock = null, choices = null, entries = 0, tag = null, reading = null, isOther = false, readAt = 0;
const READERS = rowsOf(COLUMNS).map(([row]) => row.split(' ')).map(([table, ...columns]) => {
  const isText = columns.map(it => TEXTS.includes(it));
  return [table, texts => {
    const row = {};
    for (let at = 0; at < columns.length; at++)
      row[columns[at]] = texts[at] === '' ? null : isText[at] ? texts[at] : Number(texts[at]);
    return row;
  }];
});
const entryIn = READERS.pop()[1];

// Reads the books, and says whether they had changed.
async function read() {
  const answer = await get('/books', tag && { 'If-None-Match': tag });
  readAt = performance.now();
  if (answer.status === 304) return false;
  const told = JSON.parse(answer.text), marks = find ? marksOf() : [];
  for (const [table, rowIn] of READERS) {
    const rows = books[table] = new Map();
    for (const texts of told[table]) {
      const row = rowIn(texts);
      rows.set(row.id, row);
    }
  }
  [tag, entries] = [answer.tag, Number(told.meta[0][3])];
  if (!areThese(marks)) {
    [isOther, lastPlace] = [true, null];
    keyNames.clear();
    lookedFor.clear();
  }
  workOut();
  return true;
}
const refresh = () => reading ||= read().finally(() => { reading = null; });

// The names of orders and builds are the keys of the requests that made them. The books don't have them: the table of
// kept answers does. It is read once, and then where an order or a build is shown that wasn't looked for.
const keyNames = new Map(), lookedFor = new Set();
const owners = () => [...books.orders.keys(), ...books.builds.keys()];
function ownersShown() {
  const [view, word] = place();
  return ['order', 'build'].includes(view) ? [Number(word)] :
    !lookedFor.size || ['orders', 'builds', 'find', 'do', 'shopping', 'files'].includes(view) ? owners() : [];
}
async function readNames(wanted) {
  if (wanted.every(id => lookedFor.has(id) || !owners().includes(id))) return false;
  const told = await get('/export/kept'), before = keyNames.size;
  for (const line of told.text.split('\n')) {
    const made = line.includes('""do"":""order""') || line.includes('""do"":""build""');
    const [, key, id] = made && line.match(/^("(?:[^"]|"")*"|[^,]*),".*"\{""entries"":\d+,""ids"":\[(\d+)/) || [];
    if (key) nameRow(Number(id), key.startsWith('"') ? key.slice(1, -1).replaceAll('""', '"') : key);
  }
  owners().forEach(id => lookedFor.add(id));
  return keyNames.size > before;
}
// What the page or a journal made up is no name.
const isMadeUp = key => /(^|\/)page-[0-9a-f]{24}$|^\d{4}-\d\d-\d\d\/\d+$/.test(key);
function nameRow(id, key) {
  lookedFor.add(id);
  if (isMadeUp(key)) return;
  keyNames.set(id, key);
  choices = new Map();
}

// Marks that tell these books from others: rows that are for good, the first and the last of each table, by what of
// them can't change. Books that have all of them are the same, or a copy.
const LASTING = { categories: 'name', locations: 'name', parts: 'name', orders: 'partner', builds: 'part',
  order_lines: 'part', items: 'part' };
const marksOf = () => Object.entries(LASTING).flatMap(([table, word]) => {
  const rows = [...books[table].values()];
  return [...new Set([...rows.slice(0, 3), ...rows.slice(-1)])].map(row => [table, row.id, row[word]]);
});
const areThese = marks => marks.every(([table, id, it]) => books[table].get(id)?.[LASTING[table]] === it);

function group(table, keyOf) {
  const lists = new Map(), by = typeof keyOf === 'string' ? row => row[keyOf] : keyOf;
  for (const row of books[table].values()) {
    const key = by(row), known = lists.get(key);
    if (known) known.push(row);
    else if (key) lists.set(key, [row]);
  }
  return key => lists.get(key) || [];
}
const lazily = make => { let made = null; return () => made ||= make(); };
const sum = (rows, field) => rows.reduce((total, row) => total + row[field], 0);
const leftOf = row => row.quantity - row.done;
function workOut() {
  const placed = place => group('items', it => it.place === place && it.ref);
  choices = new Map();
  stock = new Map();
  find = {
    itemsOf: group('items', it => it.place !== GONE && it.part), itemsAt: placed(AT), itemsIn: placed(IN),
    outputsOf: placed(OUTPUT), sentFor: placed(SENT), usedBy: placed(USED),
    allocationsOf: group('allocations', 'item'), allocationsOn: group('allocations', it => `${it.side} ${it.line}`),
    allocationsFor: group('allocations', it => `${it.side} ${it.owner}`), substitutesOf: group('substitutes', 'line'),
    billOf: group('lines', 'assembly'), usesOf: group('lines', 'component'), variantsOf: group('parts', 'template'),
    placesIn: group('locations', it => it.parent || 'top'), linesOf: group('order_lines', 'owner'),
    orderedOf: group('order_lines', 'part'), buildsOf: group('builds', 'part'), under: new Map(),
    spentOf: group('spent', it => `${it.build} ${it.line}`), paths: new Map(),
    sortedParts: lazily(() => byName(books.parts.values())),
    sortedItems: lazily(() => find.sortedParts().flatMap(it => find.itemsOf(it.id).filter(isAt))),
  };
  for (const part of books.parts.values()) {
    const coming = find.orderedOf(part.id).filter(it => !orderOf(it).side && orderOf(it).state < 2);
    stock.set(part.id, { part, present: 0, free: 0, held: 0, stuck: 0, inner: 0,
      coming: coming.reduce((total, it) => total + leftOf(it), 0) });
  }
  for (const item of books.items.values()) {
    let root = item;
    for (let deep = 0; root?.place === IN && deep < 20; deep++) root = books.items.get(root.ref);
    const sums = stock.get(item.part), held = heldOf(item);
    if (!sums || root?.place !== AT) continue;
    sums.present += item.quantity;
    sums.held += held;
    sums[item.place === IN ? 'inner' : ALLOCATABLE.includes(item.status) ? 'free' : 'stuck'] += item.quantity - held;
  }
  // How many items lie at a location or deeper; the assemblies whose bills can't change now.
  const count = place => {
    const total = find.placesIn(place).reduce((all, it) => all + count(it.id), find.itemsAt(place).length);
    find.under.set(place, total);
    return total;
  };
  count('top');
  find.fixed = new Set([...books.builds.values()].flatMap(it => it.state < 3 ? [it.part, ...above(it.part)] : []));
}
const orderOf = line => books.orders.get(line.owner), heldOf = item => sum(find.allocationsOf(item.id), 'quantity');
const isAt = item => item.place === AT, isUsable = item => ALLOCATABLE.includes(item.status);
const freeOf = item => isAt(item) && isUsable(item) ? item.quantity - heldOf(item) : 0;
const freeIn = part => stock.get(part)?.free ?? 0, comingOf = part => stock.get(part)?.coming ?? 0;
const bitOf = flag => Math.max(FLAGS.indexOf(flag), LINE_FLAGS.indexOf(flag));
const has = (row, flag) => (row?.flags >> bitOf(flag)) % 2 === 1;
const flagsOf = (row, words = FLAGS) => words.filter(it => has(row, it));
const partAt = id => books.parts.get(id);

// The templates above a part and the variants below it, the lines that hold for it, and those that take it.
function above(part) {
  const next = books.parts.get(part)?.template;
  return next ? [next, ...above(next)] : [];
}
const below = part => find.variantsOf(part).flatMap(it => [it.id, ...below(it.id)]);
const linesFor = part => [...find.billOf(part), ...above(part).flatMap(find.billOf).filter(it => has(it, 'inherited'))]
  .sort((a, b) => a.id - b.id);
const isOwn = (line, part) => part === line.component || has(line, 'variants') && above(part).includes(line.component);
const fits = (line, part) => isOwn(line, part) || find.substitutesOf(line.id).some(it => it.part === part);

// What may be given to a line: the component, its variants, its substitutes; the oldest item of each first.
const partsFor = line => [line.component, ...has(line, 'variants') ? below(line.component) : [],
  ...find.substitutesOf(line.id).map(it => it.part)];
const freeItems = parts => parts.flatMap(part => find.itemsOf(part)).filter(it => freeOf(it) > 0);
const byAge = rows => [...rows].sort((a, b) => a.id - b.id);
// Shares an amount out among items, of each of which so much is left.
function shares(items, wanted, left) {
  const given = [];
  for (const item of items) {
    const rest = left.get(item.id) ?? freeOf(item), quantity = Math.min(rest, wanted);
    if (quantity <= 0) continue;
    left.set(item.id, rest - quantity);
    wanted -= quantity;
    given.push({ item: item.id, quantity });
  }
  return given;
}

// What a line of an order still wants, and what an open build wants of each line of its bill, as its report has it.
const wantedOf = line => leftOf(line) - sum(find.allocationsOn(`0 ${line.id}`), 'quantity');
const isOpenBuild = build => build.state < 3;
const allocatedFor = (build, line, output = null) => sum(find.allocationsOn(`1 ${line.id}`).filter(it =>
  it.owner === build.id && (!output || it.output === output)), 'quantity');
function needsOf(build) {
  return !isOpenBuild(build) ? [] : linesFor(build.part).filter(it => !has(it, 'consumable')).map(line => {
    const isTracked = has(partAt(line.component), 'trackable'), spent = sum(find.spentOf(`${build.id} ${line.id}`),
      'quantity');
    const required = isTracked ? line.quantity * leftOf(build) : Math.max(0, line.quantity * build.quantity - spent);
    const allocated = allocatedFor(build, line), missing = Math.max(0, required - allocated);
    return { id: line.id, line, build, isTracked, spent, required, allocated, missing,
      isOptional: has(line, 'optional'), component: line.component };
  });
}
// What is allocated to a build and can be used up: for lines that aren't tracked.
const unusedOf = build => find.allocationsFor(`1 ${build.id}`).filter(it => !it.output);
const begunOf = build => sum(find.outputsOf(build.id), 'quantity');
const lacksOf = (build, output) => needsOf(build).filter(it => it.isTracked && !it.isOptional)
  .map(it => ({ ...it, missing: it.line.quantity * output.quantity - allocatedFor(build, it.line, output.id) }))
  .filter(it => it.missing > 0);

async function entriesFrom(begin, end) {
  const rows = [];
  for (let told = ['']; told.length && begin + rows.length <= end; rows.push(...told))
    told = JSON.parse((await get(`/history/${begin + rows.length}`)).text).history;
  return rows.slice(0, end + 1 - begin).map(entryIn);
}
