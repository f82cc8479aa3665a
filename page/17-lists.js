// The lists of the program, each as it tells it, and what is asked of it as a whole: a dump of the books, and its stop.

// What goes with each list, and what it tells.
const LISTS = new Map(rowsOf(`stock low | What is there of each part, and where it lies.
at location | What lies at a location and below it.
part part | All there is of a part.
item item | All there is of an item, and what became of it.
orders open | Orders with their lines, keys and days.
builds open | Builds with what they need, keys and days.
find text | What has a word in its name, key, batch or serial.
shortages | What all open builds together lack.
trace-forward item batch | Where an item or a batch went.
trace-back item | Where an item came from.
count-sheet location | A sheet for a stocktake, to be filled in and sent as a file of counts.
receipt-sheet order | A sheet for what purchases have outstanding, to be filled in and sent as a file of deliveries.`)
  .map(([said, does]) => [said.split(' ')[0], { words: said.split(' ').slice(1), does }]));
// Columns of amounts, and those of numbers of rows, with their kinds.
const SUMS = RegExp(`^(present|free|allocated|items|quantity|wanted|done|outstanding|required|missing|buy|expected)$`);
const KIND_OF = { part: 'part', item: 'item', order: 'order', build: 'build', component: 'part' };
const NAME_OF = { stock: 'part', 'used in': 'part' };
// An item by its number: with zeros before it where that is a batch, since a batch would be taken for it.
function itemWord(id) {
  const batches = new Set([...books.items.values()].map(it => it.batch));
  let word = String(id);
  while (batches.has(word)) word = '0' + word;
  return word;
}
async function readList(list, word, said = []) {
  const path = `/show/${list}${word ? '/' + encodeURIComponent(word) : ''}?${[...said, 'csv'].join('&')}`;
  const { status, text } = await ask(path, {}), told = status === 409 && JSON.parse(text);
  if (told) throw new Error(MEANINGS.get(told.refused) ?? 'Nothing is called so, or several rows are.');
  if (status !== 200) throw new Error(statusWords(status));
  return text;
}
// A list as a table, saved as the program told it.
function listTable(title, list, text) {
  const [heads, ...records] = recordsIn(text), at = Object.fromEntries(heads.map((it, n) => [it, n]));
  const head = ['name', 'partner', 'part', 'component name'].find(it => it in at), of = it => row => row[at[it]];
  const kindIn = (word, row) => word === 'number' ? NAME_OF[row[at.kind] ?? list] ?? row[at.kind] :
    word === 'part' && !('name' in at) ? '' : KIND_OF[word];
  const shown = (word, row) => {
    const text = row[at[word]], kind = kindIn(word, row), id = Number(text);
    if (text && ROWS[kind] && rowOf(kind, id)) return link(`${kind}/${id}`, text);
    if (word === 'key' && isMadeUp(text)) return '';
    const made = text && name(text);
    if (made && word === head && at.depth >= 0) made.style.marginLeft = `${row[at.depth]}em`;
    return made;
  };
  const isNumber = it => /^(number|line|depth|day|last)$/.test(it) || it in KIND_OF && it !== head;
  const columns = heads.map(it => SUMS.test(it) ? column(capital(it), row => Number(of(it)(row)), row =>
    of(it)(row) && digits(of(it)(row)), 'n') : column(capital(it), row => isNumber(it) && /^\d+$/.test(of(it)(row)) ?
    Number(of(it)(row)) : of(it)(row), row => shown(it, row), it === head ? 'head' : it === 'depth' ? 'n late' :
    isNumber(it) ? 'n' : /^(kind|side|state|status|how)$/.test(it) ? 'short' : ''));
  return table(title, columns, records, () => saveFile(`${list}-${today()}.csv`, text));
}
// The lists that tell of a view, or of its row.
const LISTS_OF = { stock: 'stock', low: 'stock', shopping: 'shortages', location: 'at count-sheet', part: 'part',
  item: 'item trace-forward trace-back', order: 'receipt-sheet', orders: 'orders receipt-sheet', builds: 'builds',
  find: 'find', batch: 'trace-forward' };
function listLinks(view, row, query, word) {
  const said = { stock: [], low: ['low', lowBelow], find: ['text', word], batch: ['batch', query.get('text')],
    orders: !query.has('all') && ['open', 1], builds: !query.has('all') && ['open', 1] }[view] || row && [view, row.id];
  const lists = LISTS_OF[view]?.split(' ') ?? [], ofView = list => LISTS.get(list).words.includes(said?.[0]);
  return !lists.length ? '' : node('p.row acts soft lists', 'Lists:', lists.map(it => link(`list/${it}${
    said && ofView(it) ? `?${new URLSearchParams([said])}` : ''}`, it)));
}
function listView(_, query, list) {
  const { words, does } = LISTS.get(list) ?? { words: [] };
  if (!does) return [`No list ${list}`, 'There is no such list.'];
  const boxes = words.map(word => {
    const value = query.get(word), label = capital(word), id = `list-${word}`;
    if (ROWS[word]) {
      const of = rowField({ kind: word, isOptional: true }, label, () => true, () => ({}));
      if (value) of.set(value);
      return [word, of.get, node('div.field', of.made)];
    }
    const box = word === 'open' ? node('input', { id, type: 'checkbox', checked: value }) : word === 'low' ?
      numberBox(label, { id, value, pattern: NUMBER, title: 'digits' }) :
      node('input', { id, value, autocomplete: 'off' });
    return [word, () => word === 'open' ? box.checked && 1 : word === 'low' ? box.value && numberIn(box.value) :
      box.value, node('div.field', word === 'open' ? node('label', box, ' the open ones alone') : [
      node('label', { for: id }, word === 'low' ? 'Parts of which less is free than' : label), box])];
  });
  const submit = event => {
    event.preventDefault();
    const said = new URLSearchParams(boxes.map(([word, of]) => [word, of()]).filter(it => it[1]));
    if (here() === `list/${list}?${said}`) show(true);
    location.hash = `#/list/${list}${said.size ? '?' + said : ''}`;
  };
  const word = words.map(it => ['low', 'open'].includes(it) ? null : it === 'item' ? query.get(it) &&
    itemWord(query.get(it)) : query.get(it)).find(Boolean);
  const said = [query.has('open') && 'open', query.has('low') && `low=${query.get('low')}`].filter(Boolean);
  const isWhole = word || list.endsWith('-sheet') || !words.some(it => !['low', 'open'].includes(it));
  return [`List: ${list}`, node('p.soft', does), boxes.length > 0 && node('form.card acts', { submit,
    'aria-label': 'What is listed', 'data-view': true }, boxes.map(it => it[2]), node('button.main', 'Show it')),
  isWhole && asked(readList(list, word, said), text => listTable(list, list, text)),
  acts(link('lists', '\u2190 all lists'))];
}
function listsView() {
  const said = node('div'), told = node('div');
  const save = button('Save a dump', async () => {
    if (save.disabled) return;
    save.disabled = true;
    said.replaceChildren(await dump().then(it => says('good', `Saved: ${it}.`), fault =>
      says('bad', 'Nothing was saved. ', fault.message)));
    save.disabled = false;
  });
  const stop = button('Stop it now', async () => {
    if (isEarly(stop) || busy) return;
    stop.disabled = true;
    told.replaceChildren(...[await stopProgram()].filter(Boolean));
    stop.disabled = false;
  }, 'main');
  const open = () => store.keys(OPEN).length;
  return ['Lists', [...LISTS].map(([it, { does }]) => node('p', link('list/' + it, capital(it)), ' ', soft(does))),
    section('A backup', node('p', 'All of the books as they are now, as SQL: sqlite3 makes a file of them again. ',
      'Nobody stops working for it.'), acts(save), said),
    section('The program', panel('Stop the program', () => ['It ends for everybody who uses it. What was answered is ',
      'kept, and the file alone has all of the books then. It has to be started again on its own machine.',
      open() > 0 && node('p.warn', `Not answered yet: ${digits(open())}. Settle that first, above.`), acts(stop),
      told]))];
}
// Saves all of the books. A dump that was cut short has no end.
async function dump() {
  const { text } = await get('/dump'), called = `invdesk-${today()}.sql`;
  if (!/(^|\n)COMMIT;\s*$/.test(text)) throw new Error('The dump was cut short.');
  saveFile(called, text, 'application/sql');
  return called;
}
let isStopped = false;
async function stopProgram() {
  busy++;
  try {
    const { status } = await ask('/stop', { method: 'POST' });
    if (status !== 200) return says('bad', statusWords(status));
    isStopped = true;
    show(true);
  } catch (fault) {
    return says('warn', "It isn't known whether it stopped. ", fault.message);
  } finally { busy--; }
}
