// What a request changed, in words, by the books before and after.

// The rows that a request changes.
function namedIn(command, fields) {
  const named = FORMS.get(command).fields.filter(it => ROWS[it.kind] && rowOf(it.kind, fields[it.name]))
    .map(it => [it.kind, fields[it.name]]);
  return named.flatMap(([kind, id]) => {
    const row = rowOf(kind, id), one = [kind, id];
    if (kind === 'order_line') return [one, ['order', row.owner]];
    if (kind === 'item' && row.place === OUTPUT) return [one, ['build', row.ref]];
    return kind === 'allocation' ? [[row.side ? 'build' : 'order', row.owner]] : [one];
  });
}
function snapshot(rows) {
  const sums = new Map([...stock].map(([id, it]) => [id, { ...it }]));
  const facts = new Map(rows.map(([kind, id]) => [`${kind} ${id}`, [kind, id, factOf(kind, id)]]));
  return { sums, rows: [...facts.values()], ids: new Set(owners()) };
}
const SUM_WORDS = { present: 'present', free: 'free', held: 'allocated', coming: 'on order' };
function effects({ sums, rows }) {
  const told = [];
  for (const [kind, id, was] of rows) {
    const now = factOf(kind, id);
    if (was !== now && ['order', 'build', 'item', 'order_line'].includes(kind))
      told.push([name(was), now === 'gone' ? ' is gone' : [' is now ', name(now)]]);
  }
  for (const [id, after] of stock) {
    const before = sums.get(id) ?? { present: 0, free: 0, held: 0, coming: 0 };
    const words = Object.entries(SUM_WORDS).filter(([it]) => before[it] !== after[it])
      .map(([it, word]) => `${word} ${digits(before[it])} \u2192 ${digits(after[it])}`);
    if (words.length) told.push([partLink(id), ': ', words.join(', ')]);
  }
  return told.slice(0, 12);
}
// What was done, in a sentence. Rows are told as they were before.
const PAST = Object.fromEntries(`found Found,add Added,remove Took out,count Counted,transfer Moved,
install Put in,uninstall Took out,disassemble Took apart,reinstate Brought back,order New:,order_line Added,
issue_order Issued,receive Received,
allocate_sale Allocated,ship Shipped,return_item Took back,close_order Closed,cancel_order Cancelled,build New build:,
issue_build Issued,hold_build Put on hold:,cancel_build Cancelled,outputs Began,complete_output Completed,
cancel_output Cancelled,scrap_output Scrapped,allocate_build Allocated,complete_build Completed,consume Used up,
release Gave back`.split(/,\s?/).map(it => [it.split(' ')[0], it.replace(/^\w+ /, '')]));
function sentenceOf(command, fields, verb = PAST[command] ?? FORMS.get(command).title + ':') {
  const { part, item, output, line, location, quantity, partner, side, name, ...others } = fields;
  const one = part ?? (command === 'receive' && rowOf('order_line', line)?.part), piece = item ?? output;
  const [[kind, id] = []] = namedIn(command, others);
  const what = one ? partName(one) : piece ? wordsOf('item', piece) : partner ? `${side}, ${partner}` :
    name ?? (kind && wordsOf(kind, id));
  return [verb, quantity != null && `${digits(quantity)} \u00d7`, what,
    location && `\u2013 ${path('locations', location)}`].filter(Boolean).join(' ') + '.';
}

let flash = null;
const doneWords = (sentence, told, ...more) => says('good', node('b', 'Done. '), name(sentence), ' ',
  told.length ? list(told) : soft('Nothing in stock changed by it.'), more);
