// What rows are called.

function path(table, id) {
  const known = find?.paths.get(table + id);
  if (known !== undefined) return known;
  const words = [];
  for (let row = books[table].get(id); row; row = books[table].get(row.parent)) words.unshift(row.name);
  find?.paths.set(table + id, words.join(' / '));
  return words.join(' / ');
}
const partName = id => books.parts.get(id)?.name ?? `part ${id}`;
const partLink = id => link('part/' + id, name(partName(id)));
const categoryOf = part => path('categories', part.category);
const itemName = item => [partName(item.part), item.serial, item.batch && `(${item.batch})`].filter(Boolean).join(' ');
const itemLink = item => link('item/' + item.id, name(item.serial || item.batch || `item ${item.id}`));
const callOf = row => keyNames.get(row.id) ?? row.id;
const PLACE_KINDS = ['location', 'item', 'build', 'order', 'build'];
const PLACE_WORDS = ['', 'in ', 'output of ', 'sent for ', 'used by '];
function placeName(place, id) {
  if (place >= OFF) return place === OFF ? `written off: ${REASONS[id]}` : 'gone';
  if (place === AT) return path('locations', id);
  return PLACE_WORDS[place] + (place === IN ? itemName(books.items.get(id)) : wordsOf(PLACE_KINDS[place], id));
}
const placeLink = (place, id) =>
  place < OFF ? link(`${PLACE_KINDS[place]}/${id}`, name(placeName(place, id))) : placeName(place, id);

// Of each kind of row: what it is called, where it is shown, and more facts.
const amountOf = (row, part = row.part) => `${digits(row.quantity)} \u00d7 ${partName(part)}`;
const ownerOf = it => `${it.side ? 'build' : 'order'}/${it.owner}`;
const ROWS = {
  category: [it => path('categories', it.id), () => 'stock'],
  location: [it => path('locations', it.id)],
  part: [it => it.name, null, it => [...flagsOf(it), it.retired ? 'retired' : ''].join(' ')],
  line: [it => `${partName(it.assembly)}: ${amountOf(it, it.component)}`, it => `part/${it.assembly}`,
    it => flagsOf(it, LINE_FLAGS).join(' ')],
  substitute: [it => `${partName(it.part)} in ${wordsOf('line', it.line)}`, it => `part/${it.part}`],
  item: [it => `${itemName(it)}, ${digits(it.quantity)}, ${placeName(it.place, it.ref)}`, null,
    it => `${STATUSES[it.status]}, ${digits(heldOf(it))} allocated`],
  order: [it => `${SIDES[it.side]} ${callOf(it)}: ${it.partner} (${ORDER_STATES[it.state]})`],
  order_line: [it => `${wordsOf('order', it.owner)}: ${amountOf(it)}`, it => `order/${it.owner}`,
    it => `${digits(it.done)} done`],
  build: [it => `build ${callOf(it)}: ${amountOf(it)} (${BUILD_STATES[it.state]})`, null,
    it => `${digits(it.done)} done, ${digits(begunOf(it))} begun`],
  allocation: [it => `${digits(it.quantity)} of ${wordsOf('item', it.item)}, for ${plain(ownerOf(it))}`, ownerOf],
};
const rowsOfKind = kind => books[kind === 'category' ? 'categories' : kind + 's'];
const rowOf = (kind, id) => rowsOfKind(kind).get(id);
const wordsOf = (kind, id) => rowOf(kind, id) ? ROWS[kind][0](rowOf(kind, id)) : `${kind} ${id}`;
const rowLink = (kind, id) => link(ROWS[kind][1]?.(rowOf(kind, id)) ?? `${kind}/${id}`, name(wordsOf(kind, id)));
const factOf = (kind, id) => rowOf(kind, id) ?
  [wordsOf(kind, id), ROWS[kind][2]?.(rowOf(kind, id))].filter(Boolean).join('; ') : 'gone';

// Texts to look for: without case and accents; and with nothing but letters and digits.
const fold = text => (/^[\0-\x7f]*$/.test(text) ? text : text.normalize('NFKD').replace(/[\u0300-\u036f]/g, ''))
  .toLowerCase();
const squeeze = text => fold(text).replace(/[^\p{L}\p{N}]+/gu, '');
const wordsIn = text => fold(text).split(/\s+/).filter(Boolean);
function choicesOf(kind) {
  if (!choices.has(kind)) {
    const rows = [...rowsOfKind(kind).values()].filter(it => it.place !== GONE);
    choices.set(kind, rows.map(row => ({ row, low: fold(wordsOf(kind, row.id)) })));
  }
  return choices.get(kind);
}
// Whether all words stand in a choice, however they are written; and how well: the less the better.
const looselyIn = word => squeeze(word) && RegExp([...squeeze(word)].join('[^\\p{L}\\p{N}]*'), 'u');
const fitsWords = ({ low }, words, loose) => words.every((word, at) => low.includes(word) ||
  loose[at] && loose[at].test(low));
// What has the words but for a slip in one that has no digits: a letter more, less or other, or two in the wrong order.
function isSlip(a, b) {
  let at = 0;
  while (at < a.length && a[at] === b[at]) at++;
  const [x, y] = [a.slice(at), b.slice(at)];
  return x.slice(1) === y.slice(1) || x.slice(1) === y || x === y.slice(1) ||
    x[0] === y[1] && x[1] === y[0] && x.slice(2) === y.slice(2);
}
function bySlips(kind, words) {
  const halves = new Map(words.filter(it => /^\p{L}{4,}$/u.test(it)).map(it => {
    const middle = it.length >> 1;
    return [it, [it.slice(0, middle - 1), it.slice(middle + 1)]];
  }));
  // Of a word with one slip one half is whole, but for what touches the other half.
  const isNear = ({ low }, word) => low.includes(word) || halves.get(word)?.some(half => low.includes(half)) &&
    low.split(/[^\p{L}\p{N}]+/u).some(other => isSlip(word, other));
  return !halves.size ? [] : choicesOf(kind).filter(it => words.every(word => isNear(it, word))).map(it => it.row);
}
const startOf = (kind, row) => fold(row.name ?? (kind === 'item' ? row.serial || row.batch || '' :
  String(keyNames.get(row.id) ?? row.partner ?? '')));
function rankOf(kind, row, text) {
  const start = startOf(kind, row), tight = squeeze(text), own = squeeze(start);
  return [start === text, tight && own === tight, start.startsWith(text), tight && own.startsWith(tight),
    start.includes(' ' + text), start.includes(text), true].findIndex(Boolean);
}

const inOrder = new Intl.Collator(undefined, { numeric: true }).compare;
const byName = rows => [...rows].sort((a, b) => inOrder(a.name, b.name));
