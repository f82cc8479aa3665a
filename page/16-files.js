// Rows from a file or a spreadsheet, chosen or pasted: what they would do is shown before anything is sent. Deliveries
// and counts are imported as one file; each row of another command is a line under a key of its own, as docs/IMPORTS.md
// has it. So a file may be sent again, and each row is done once.

const FILES = { receipts: 'receive', counts: 'count' }, filed = { text: '', document: '', ...store.get('filed') };
// The column in which a sheet has what the books said as it was saved.
const WAS = { receipts: 'outstanding', counts: 'expected' };
const HEADS = { receipts: 'number,line,location,quantity,batch,serials', counts: 'number,item,quantity' };
// What else a column may be called that has a field.
const ALIASES = { quantity: ['counted', 'qty'], line: ['order line', 'part'], component: ['part'], name: ['part'] };
const MOST_BYTES = 1048576, sizeOf = text => new TextEncoder().encode(text).length,
  TOO_LONG = `The file has more than ${digits(MOST_BYTES)} bytes: cut it up.`, COMMAS = [',', ';', '\t'];
const fieldsOfKind = kind => FORMS.get(FILES[kind] ?? kind).fields;
const isRequired = it => !it.isOptional && !['yes', 'words'].includes(it.kind);
// A file, by that separator by which its header names the most of what it has to, with the number of each record.
function fileIn(text, kind) {
  const named = heads => fieldsOfKind(kind).filter(it => columnOf(it.name, heads) >= 0).length;
  let best = null;
  for (const comma of COMMAS) {
    const head = text.split(/\r|\n/).find(Boolean) ?? '', heads = head.split(comma).map(it => it.replace(/^"|"$/g, ''));
    if (!best || named(heads) > best.named || named(heads) === best.named && heads.length > best.heads.length)
      best = { comma, heads, named: named(heads) };
  }
  const [heads = [], ...rows] = recordsIn(text.replace(/^\ufeff/, ''), best.comma);
  const long = rows.findIndex(it => it.length > heads.length);
  if (long >= 0) throw new Error(`Record ${long + 2} has more fields than the header.`);
  return { heads, rows: rows.map((cells, at) => ({ cells, record: at + 2 })) };
}
function columnOf(field, heads) {
  const known = heads.map(it => fold(it.trim()));
  return [field, ...ALIASES[field] ?? []].map(it => known.indexOf(it)).find(at => at >= 0) ?? -1;
}
// The rows of a kind that a text says: by a number, or by what they are called. Locations and categories may have those
// above them before them, with a stroke between.
const withoutGaps = text => text.replace(/\s*\/\s*/g, '/');
function namesOf(kind, { id, part, name: own, place, serial, batch, owner }, order) {
  const isOpen = () => isOpenLine(0)(rowOf(kind, id)) && (!order || owner === order);
  if (kind === 'order_line') return isOpen() ? [partName(part)] : [];
  if (kind === 'order' || kind === 'build') return [keyNames.get(id)];
  if (kind === 'item') return place === GONE ? [] : [...new Set([serial, batch])];
  return kind === 'location' || kind === 'category' ? [own, withoutGaps(ROWS[kind][0]({ id }))] : [own];
}
function rowsCalled(kind, text, { order, known }) {
  if (/^\d{1,15}$/.test(text)) return [rowOf(kind, Number(text))].filter(Boolean);
  if (!known.has(kind)) {
    const rows = new Map();
    for (const row of rowsOfKind(kind).values()) for (const word of new Set(namesOf(kind, row, order)))
      if (word) rows.set(word, [...rows.get(word) ?? [], row]);
    known.set(kind, rows);
  }
  return known.get(kind).get(text) ?? known.get(kind).get(withoutGaps(text)) ?? [];
}
// A field of a row, or what is wrong with it.
function valueIn({ name: field, kind }, text, given) {
  if (ROWS[kind]) {
    const found = rowsCalled(kind, text, given);
    if (found.length === 1) return found[0].id;
    throw new Error(`${field}: ${found.length ? 'several rows are' : 'nothing is'} called ${text}`);
  }
  if (kind === 'items') return text.split(/[\s,;]+/).map(it => valueIn({ name: field, kind: 'item' }, it, given));
  if (kind === 'words') return text.split(/[\s,;]+/);
  if (kind === 'number' && Number.isNaN(numberIn(text))) throw new Error(`${field}: ${text} is no whole number`);
  if (kind === 'yes' && !/^(yes|no|true|false)$/i.test(text)) throw new Error(`${field}: ${text} isn't yes or no`);
  return kind === 'number' ? numberIn(text) : kind === 'yes' ? /^(yes|true)$/i.test(text) : text;
}
// What a record says: the fields of its command, or its fault; nothing where it says nothing.
function fieldsIn(row, kind, sources, given) {
  const of = it => (sources[it].fixed || row.cells[sources[it].column] || '').trim();
  const own = fieldsOfKind(kind), number = of('number'), isSaid = Object.keys(sources).some(it => it !== 'number' &&
    row.cells[sources[it].column]?.trim());
  if (!isSaid || FILES[kind] && !of('quantity')) return null;
  const fields = {}, faults = [];
  for (const it of own) try {
    const text = of(it.name);
    if (text) fields[it.name] = valueIn(it, text, given);
    else if (it.kind === 'words') fields[it.name] = [];
    else if (isRequired(it)) faults.push(`${it.name} is empty`);
  } catch (fault) { faults.push(fault.message); }
  const day = !FILES[kind] && of('day'), key = !FILES[kind] && of('key');
  if (day && !/^\d{4}-\d\d-\d\d$/.test(day)) faults.push(`day: ${day} is no day`);
  if (FILES[kind] && number && !/^\d{1,15}$/.test(number)) faults.push(`number: ${number} is none`);
  return { number: FILES[kind] ? Number(number || row.record) : number || '@' + row.record, fields: day ?
    { ...fields, day } : fields, key, expected: WAS[kind] ? numberIn(of(WAS[kind])) : NaN,
  fault: faults.join('; ') };
}
// A file's text: of UTF-8 if it can be that, and else as a spreadsheet of Windows has it.
function textIn(bytes) {
  try {
    return new TextDecoder('utf-8', { fatal: true }).decode(bytes);
  } catch { return new TextDecoder('windows-1252').decode(bytes); }
}
// Which column has each field, or what text it has in each row: chosen by the names of the columns, and by hand.
function columnChoices(kind, heads, sources, changed) {
  const extra = WAS[kind] ? ['number', WAS[kind]] : ['number', 'key', 'day'];
  Object.keys(sources).forEach(it => delete sources[it]);
  const choice = (field, isNeeded) => {
    const source = sources[field] = { column: columnOf(field, heads), fixed: '' };
    const from = node('select', { 'aria-label': `Column of ${field}`, change: () => {
      source.column = Number(from.value);
      changed();
    } }, node('option', { value: -1 }, 'no column'), heads.map((it, at) =>
      node('option', { value: at, selected: at === source.column }, it)));
    const same = node('input', { 'aria-label': `${field}, the same in each row`, autocomplete: 'off',
      placeholder: 'the same in each row', input: () => {
        source.fixed = same.value.trim();
        changed();
      } });
    return [node('dt', field + (isNeeded ? '' : ' (may be empty)')), node('dd.row', from,
      !extra.includes(field) && same)];
  };
  return node('dl', fieldsOfKind(kind).map(it => choice(it.name, isRequired(it))), extra.map(it => choice(it)));
}
const KINDS_OF_FILES = () => [...Object.keys(FILES), ...[...FORMS.keys()].filter(it =>
  !Object.values(FILES).includes(it))];
const TITLES_OF_FILES = { receipts: 'Deliveries', counts: 'Counts' };
function filesView(_, query) {
  const wanted = query.get('kind') ?? filed.kind ?? 'receipts', sources = {};
  const below = node('div'), columns = node('div');
  const kind = node('select', { id: 'kind', change: () => changed() }, KINDS_OF_FILES().map(value =>
    node('option', { value, selected: value === wanted }, TITLES_OF_FILES[value] ?? FORMS.get(value).title)));
  const box = node('textarea', { id: 'rows', rows: 8, spellcheck: 'false', input: () => changed() });
  let isNamed = false;
  const called = node('input', { id: 'document', autocomplete: 'off', value: filed.document, input: () => {
    isNamed = true;
    changed();
  } });
  const file = node('input', { id: 'file', type: 'file', accept: '.csv,.txt,.tsv,text/csv', change: async () => {
    const [one] = file.files;
    if (!one) return;
    box.value = textIn(await one.arrayBuffer());
    if (!isNamed) called.value = one.name.replace(/\.\w+$/, '').replace(/[^A-Za-z0-9._-]+/g, '-').slice(0, 32);
    changed();
  } });
  box.value = filed.text;
  const order = rowField({ kind: 'order', isOptional: true }, 'Of order', it => it.state === PROGRESS && !it.side,
    () => ({}), () => below.replaceChildren());
  if (query.get('order')) order.set(query.get('order'));
  const ofOrder = node('div.field', order.made);
  let drawn = '';
  const changed = () => {
    Object.assign(filed, { text: box.value, document: called.value, kind: kind.value });
    if (filed.text.length < 200000) store.set('filed', filed);   // lines without an answer need the room more
    ofOrder.hidden = kind.value !== 'receipts';
    below.replaceChildren();
    let heads = [];
    try {
      heads = fileIn(box.value.split(/\r|\n/).find(Boolean) ?? '', kind.value).heads;
    } catch { /* it is told when one looks at the rows */ }
    const now = JSON.stringify([kind.value, heads]);
    if (now !== drawn) columns.replaceChildren(box.value.trim() ? columnChoices(kind.value, heads, sources, () =>
      below.replaceChildren()) : '');
    drawn = now;   // of the same columns what was chosen stays
  };
  changed();
  const look = isWhole => async () => {
    const say = (...it) => below.replaceChildren(says('bad', 'Nothing was sent. ', it));
    if (!/^[A-Za-z0-9._-]{1,32}$/.test(called.value))
      return say('The document needs a name of letters, digits, dots, _ and - alone, 32 at most.');
    try {
      await refresh();
      if (isOther) return show(true);
      const text = box.value.replace(/^\ufeff/, '');
      if (isWhole) return below.replaceChildren(...wholeFile(kind.value, called.value, text));
      const { rows } = fileIn(box.value, kind.value), given = { order: order.get(), known: new Map() };
      const all = rows.map(it => ({ ...it, ...fieldsIn(it, kind.value, sources, given) })).filter(it => it.fields);
      below.replaceChildren(...fileSummary(kind.value, called.value, all, rows.length));
    } catch (fault) { say(fault.message); }
  };
  const labelled = (box, words, more) => node('div.field', node('label', { for: box.id }, words), box, more);
  return ['Rows from a file', node('div.card', labelled(kind, 'What the rows are'), labelled(file, 'A file'),
    labelled(box, 'Or rows that are pasted, a line of heads above them'), ofOrder,
    labelled(called, 'Name of the document', soft('A row is done once under this name and its number: that in the ',
      'column number, or else its place in the file.')), columns, acts(button('Look at the rows', look(false), 'main'),
    button('Let the program read it', look(true)))),
  below];
}
// What the rows would do, and beside each what it was told when it was sent.
function fileSummary(kind, document, all, count) {
  const command = FILES[kind] ?? kind, good = all.filter(it => !it.fault), said = node('div');
  for (const row of all) row.told = node('span', { role: 'status' }, row.fault && node('span.bad', row.fault));
  const numbers = new Set(), twice = good.find(it => numbers.size === numbers.add(it.number).size);
  const item = row => rowOf('item', row.fields.item), more = row => row.fields.quantity - item(row).quantity;
  const rowsToCount = row => !row.fault && item(row), chosen = () => good.filter(it => !it.tick || it.tick.checked);
  const now = row => kind === 'counts' ? item(row).quantity : leftOf(rowOf('order_line', row.fields.line));
  const isChanged = row => !row.fault && row.expected >= 0 && now(row) !== row.expected &&
    (kind === 'receipts' || now(row) !== row.fields.quantity);
  for (const row of WAS[kind] ? good : []) {
    row.now = now(row);
    if (isChanged(row)) row.tick = node('input', { type: 'checkbox', change: () => drawn() });
  }
  const settled = row => row.tick && node('label.warn', row.tick, `The books changed from ${digits(row.expected)} to ${
    digits(now(row))} since the sheet was saved: send it all the same`);
  const go = button('', async () => {
    if (isEarly(go) || busy) return;
    go.disabled = true;
    const rows = chosen(), before = snapshot([]);
    busy++;
    let answer = null;
    await reread();
    if (isOther) {
      busy--;
      return show(true);
    }
    try {
      answer = WAS[kind] && rows.some(it => it.now !== now(it)) ? { isHeld: true,
        why: 'The books changed since the rows were looked at. Look at them again.' } :
        await (FILES[kind] ? sendFile : sendRows)(kind, document, rows);
    } finally { busy--; }
    await reread();
    go.disabled = false;
    if (kind === 'counts') rows.filter(it => it.isDone && item(it)?.quantity !== it.fields.quantity).forEach(it =>
      it.told.replaceChildren(node('span.warn', `done before: the books say ${digits(item(it)?.quantity ?? 0)} now`)));
    const done = rows.filter(it => it.isDone).length;
    said.replaceChildren(answer ? notDone(answer) : says(done < rows.length ? 'bad' : 'good', node('b',
      `Done: ${digits(done)}. Refused: ${digits(rows.length - done)}. `), list(effects(before))));
    said.firstChild.focus();
    offerOpen();
  }, 'main');
  const faulty = all.length - good.length, head = node('p', { role: 'status' });
  const drawn = () => {
    const { length } = chosen();
    head.textContent = [[length, 'rows are to be sent'], [good.length - length, 'are left out'], [faulty,
      'are faulty and left out'], [count - all.length, 'say nothing']].map(([n, words]) => `${digits(n)} ${words}`)
      .join(', ') + '. Nothing is sent yet.';
    [go.disabled, go.textContent] = [!length, `Send these ${digits(length)} rows`];
  };
  drawn();
  hush();
  return [node('h2', 'What the rows will do'), twice ? says('bad', `Two rows have the number ${twice.number}. `,
    'Nothing can be sent.') : head, !twice && good.length > 0 && acts(go), said,
  table('What the rows will do', [cell('Row', it => digits(it.record), 'n'), cell('What', it => name(it.fault ?
    it.cells.join(', ') : sentenceOf(command, it.fields, FORMS.get(command).title + ':')), 'head'),
  ...kind === 'counts' ? [
    cell('Expected', it => rowsToCount(it) && digits(item(it).quantity), 'n'),
    cell('Difference', it => rowsToCount(it) && [signed(more(it)), Math.abs(more(it)) >= Math.max(3,
      item(it).quantity / 5) && chip('big', 'bad')], 'n')] : [], ...WAS[kind] ? [cell('To settle', settled)] : [],
  cell('Answer', it => it.told)],
  [...all].sort((a, b) => !!(b.fault || b.tick) - !!(a.fault || a.tick)))].filter(Boolean);
}
// A file that the program reads itself, with what it tells of each record beside that.
function wholeFile(kind, document, text) {
  if (sizeOf(text) > MOST_BYTES) throw new Error(TOO_LONG);
  const { heads, rows } = fileIn(text, kind), at = columnOf('number', heads), said = node('div');
  for (const row of rows) row.told = node('span', { role: 'status' });
  const full = rows.filter(row => row.cells.some((it, n) => n !== at && it.trim()));
  const go = button(`Send these ${digits(rows.length)} records as they are`, async () => {
    if (isEarly(go) || busy) return;
    go.disabled = true;
    busy++;
    keepDay();
    const before = snapshot([]), path = `/import/${kind}/${document}/${day.value}${FILES[kind] ? '?loose' : ''}`;
    let answer = null;
    try { answer = await sendText(text, path); } finally { busy--; }
    const told = answer.isDone ? [...toldIn(answer.report)] : [];
    const of = ([number, it]) => [FILES[kind] ? rows.find(row => row.cells[at]?.trim() === number) :
      full[number - 1], it];
    for (const [row, it] of [...told.map(of), ...(answer.faults ?? []).map(it => JSON.parse(it)).map(it =>
      [rows.find(row => row.record === it.line), it])]) if (row) tellRow(row, it);
    await reread();
    go.disabled = false;
    const done = told.filter(it => it[1].ids).length;
    said.replaceChildren(answer.isDone ? says(done < told.length ? 'bad' : 'good', node('b', `Done: ${digits(done)
    }. Refused: ${digits(told.length - done)}. `), list(effects(before))) : notDone(answer));
    said.firstChild.focus();
    offerOpen();
  }, 'main');
  hush();
  return [node('h2', 'As the program reads it'), node('p', { role: 'status' }, 'The program takes columns and rows by ',
    `name itself, as 'import${FILES[kind] ? ' --loose' : ''}' does. Nothing is sent yet.`), acts(go), said,
  table('As the program reads it', [cell('Row', it => digits(it.record), 'n'),
    cell('What', it => name(it.cells.join(', ')), 'head'), cell('Answer', it => it.told)], rows)];
}
// What was told of a row. It was done before where what it made is in the books that were read before it was sent.
function tellRow(row, answer) {
  row.isDone = !!answer.ids;
  const word = answer.refused ?? answer.fault, isOld = answer.ids?.length > 0 &&
    answer.ids.every(id => Object.keys(ROWS).some(kind => rowOf(kind, id)));
  row.told.replaceChildren(isOld ? node('span.warn', 'done before: nothing new was made') : row.isDone ?
    node('span.good', 'done') : node('span.bad', answer.why ?? [MEANINGS.get(word) ?? '', soft(` (${word})`)]));
}
// Deliveries and counts go as one file with the strict header.
async function sendFile(kind, document, rows) {
  const names = HEADS[kind].split(',').slice(1);
  const quoted = it => /[",\r\n]/.test(it) ? `"${it.replaceAll('"', '""')}"` : it;
  const lineIn = row => [row.number, ...names.map(it => quoted(String(row.fields[it] ?? '')))].join(',') + '\n';
  const body = HEADS[kind] + '\n' + rows.map(lineIn).join('');
  if (sizeOf(body) > MOST_BYTES)
    return { why: TOO_LONG };
  keepDay();
  const answer = await sendText(body, `/import/${kind}/${document}/${day.value}`);
  const faulty = rows[answer.said?.line - 2];
  if (!answer.isDone) return faulty ? { ...answer, why: [`Row ${digits(faulty.record)}: `, answer.why] } : answer;
  const told = toldIn(answer.report);
  for (const row of rows) if (told.has(String(row.number))) tellRow(row, told.get(String(row.number)));
  return null;
}
// What a report tells of each row, by its number, or of each line, by its place.
const toldIn = report => new Map(report.split('\n').filter(Boolean).map((line, at) => {
  const [, number = String(at + 1), it] = line.match(/^(?:(\d+)\t)?(.*)$/);
  return [number, JSON.parse(it)];
}));
// Rows of another command go as lines, as many at once as a body may have.
async function sendRows(kind, document, rows) {
  const keyOf = row => row.key || `${kind}/${document}/${row.number}`, parts = [];
  if (rows.some(row => openLike(kind, row.fields, keyOf(row)))) {
    offerOpen(true);
    return SETTLE;
  }
  let size = 0;
  for (const row of rows) {
    const line = lineOf(kind, row.fields, keyOf(row)) + '\n';
    size += sizeOf(line);
    if (!parts.length || size > MOST_BYTES) {
      parts.push({ body: '', rows: [] });
      size = sizeOf(line);
    }
    parts.at(-1).body += line;
    parts.at(-1).rows.push(row);
  }
  for (const { body, rows } of parts) {
    const answer = await sendText(body, LINES, `${LINES}/${kind}/${document}/${rows[0].number}`);
    if (!answer.isDone) return answer;
    [...toldIn(answer.report).values()].forEach((it, at) => rows[at] && tellRow(rows[at], it));
  }
  return null;
}
