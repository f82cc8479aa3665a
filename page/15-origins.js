// Where items came from, and where they went: as the program traces it, by the books and by the kept answers, whose
// requests name what they made. A request without a key isn't kept, and what it made isn't known.

// The records of comma-separated values; empty lines are none. A quote that nothing closes is a fault.
function recordsIn(text, comma = ',') {
  const rows = [[]], end = `(${comma}|\r\n|\n|\r|$)`;
  const cell = RegExp(`(?:"([^"]*(?:""[^"]*)*)"|([^"${comma}\r\n][^${comma}\r\n]*|))${end}`, 'y');
  while (cell.lastIndex < text.length) {
    const it = cell.exec(text);
    if (!it) throw new Error(`Record ${rows.length} has a quote that isn't closed, or text behind one.`);
    rows.at(-1).push(it[1]?.replaceAll('""', '"') ?? it[2]);
    if (it[3] !== comma) rows.push([]);
  }
  return rows.filter(it => it.length > 1 || it[0]);
}
const origins = make => opening('origins', 'Where it came from, and where it went', () => node('div', make(),
  node('p.soft', "What a request without a key made isn't known here.")));
const traced = (title, list, word) => [node('h3', title), asked(readList(list, word), text =>
  listTable(title, list, text))];
const itemOrigins = item => origins(() => [traced('Came from', 'trace-back', itemWord(item.id)),
  traced('Went to', 'trace-forward', itemWord(item.id))]);
// Of the books of a tag: what was begun for each build, and what was cut off each item. The lists of the program don't
// tell it of a build.
let makers = null;
const CUTS = ['transfer', 'split', 'serialise', 'install'];
async function readMakers() {
  if (makers?.tag === tag) return makers;
  const read = { tag, of: new Map() }, [, ...rows] = recordsIn((await get('/export/kept')).text);
  for (const [, command, answer] of rows) {
    const { ids = [] } = JSON.parse(answer), { do: made, build, item } = JSON.parse(command);
    const key = made === 'outputs' ? 'build ' + build : CUTS.includes(made) && 'item ' + item;
    if (key) read.of.set(key, [...read.of.get(key) ?? [], ...ids]);
  }
  return makers = read;
}
const madeOf = (read, key) => (read.of.get(key) ?? []).flatMap(it => [it, ...madeOf(read, 'item ' + it)]);
function buildOrigins(build) {
  return origins(() => asked(readMakers(), read => {
    const made = madeOf(read, 'build ' + build.id).map(it => rowOf('item', it)).filter(it => it && it.place !== GONE);
    const known = sum(made, 'quantity'), inner = made.flatMap(it => find.itemsIn(it.id));
    return [node('h3', 'Went into it'), table('Went into it', itemColumns(partColumn, where),
      [...find.usedBy(build.id), ...inner]), node('h3', 'Came of it'), table('Came of it', itemColumns(where), made),
    known < build.done && node('p.soft', `Of ${digits(build.done)} that are done ${digits(known)} can be told here.`)];
  }));
}
// A batch: its items, where each is, and what it went into.
function batchView(_, query, word) {
  const part = Number(word), batch = query.get('text'), isOne = it => it.part === part && it.batch === batch;
  const items = [...books.items.values()].filter(isOne), sums = new Map();
  for (const it of items) sums.set(it.place, (sums.get(it.place) ?? 0) + it.quantity);
  const places = ['here', 'in other items', 'outputs', 'with customers', 'used up', 'written off'];
  const went = it => it.place === USED ? partLink(rowOf('build', it.ref).part) : it.place === IN &&
    partLink(rowOf('item', it.ref).part);
  return [`Batch ${batch} of ${partName(part)}`, facts({ Part: partLink(part), Batch: name(batch),
    ...Object.fromEntries(places.map((it, at) => [capital(it), sums.get(at) && digits(sums.get(at))])) }),
  listed('Items', [...itemColumns(where), column('Went into', null, went)], items),
  origins(() => [each(items.slice(0, 20), it => traced(`Came from: ${wordsOf('item', it.id)}`, 'trace-back',
    itemWord(it.id))), traced('Went to', 'trace-forward', batch)])];
}
