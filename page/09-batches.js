// Several requests at once.

function quick(text, command, fields, look = '') {
  const said = node('div'), asked = request(command, fields);
  const go = button(text, async () => {
    if (isEarly(go)) return;
    go.disabled = true;
    const before = snapshot(namedIn(command, fields)), sentence = sentenceOf(command, fields), answer = await asked();
    await reread();
    go.disabled = false;
    if (answer.isDone) comeBack(go, here(), doneWords(sentence, effects(before)));
    else said.replaceChildren(notDone(answer));
  }, look);
  return node('span', go, said);
}

// A table of which each row that is ticked is a request of its own, by fieldsOf, or else says what is wrong. Steps in
// `first` and `last` frame them and need them all. When all is done one is told; else each row says how it went.
function batch({ verb, past, about, columns, rows, command, fieldsOf, first = [], last = [], end = '', to = here }) {
  const said = node('div'), steps = [...first, ...last];
  let before = null;
  for (const row of rows) {
    row.told = node('span', { role: 'status' });
    row.tick = node('input', { type: 'checkbox', checked: !row.isOff, 'aria-label': `${verb}: ${row.called}` });
  }
  const isDone = async (it, what) => {
    if (it.isDone) return true;
    it.ask = it.isOpen ? it.ask : request(...what());
    return Object.assign(it, { isDone: false, isOpen: false }, await it.ask()).isDone;
  };
  const run = async () => {
    if (rows.some(it => !it.cells)) return grid.next() ?? says('warn', 'There were more rows: look at them first.');
    const chosen = rows.filter(it => it.tick.checked && !it.isDone);
    for (const row of chosen) {
      row.fault = fieldsOf(row).fault;
      row.told.replaceChildren(row.fault ? node('span.bad', row.fault) : '');
    }
    if (chosen.some(it => it.fault)) return says('bad', 'Nothing was sent: see the rows.');
    if (!chosen.length && !steps.length) return says('warn', 'Nothing is ticked.');
    const words = rows.filter(it => it.tick.checked)
      .map(it => `${it.amount?.value ?? digits(it.quantity)} \u00d7 ${it.called}`);
    before ||= snapshot([about]);
    let stop = null;
    for (const it of first) if (!stop && !await isDone(it, it)) stop = it;
    for (const row of stop ? [] : chosen) {
      await isDone(row, () => [command, fieldsOf(row)]);
      row.told.replaceChildren(row.isDone ? node('span.good', 'done') : node('span.bad', row.why));
      for (const box of [row.tick, ...row.boxes ?? []]) box.disabled = row.isDone || row.isOpen;
      if (row.isOpen) { stop = row; break; }
    }
    const refused = chosen.filter(it => !it.isDone);
    if (!refused.length) for (const it of last) if (!stop && !await isDone(it, it)) stop = it;
    await reread();
    rewatch();
    if (!stop && !refused.length)
      return comeBack(go, to(), doneWords(`${past} ${words.join(', ') || 'nothing'}${end}.`, effects(before)));
    return stop?.isOpen ? notDone(stop) : says('bad', `Done: ${digits(rows.filter(it => it.isDone).length)}. Refused: ${
      digits(refused.length)}. `, stop?.why, last.length > 0 && ' What was to come after it was not sent.',
    list(effects(before)));
  };
  const go = button(last.length ? verb : `${verb} what is ticked`, async () => {
    if (isEarly(go)) return;
    go.disabled = true;
    busy++;
    try { said.replaceChildren(...[await run()].filter(Boolean)); } finally { busy--; go.disabled = false; }
  }, 'main');
  const ticks = cell('Do it', it => it.tick), answers = cell('Answer', it => it.told);
  ticks.isAct = answers.isAct = true;
  const once = it => ({ ...it, show: row => {
    row.cells ||= new Map();
    return row.cells.get(it) ?? row.cells.set(it, it.show(row)).get(it);
  } });
  const grid = table(verb, [ticks, ...columns.map(once), answers], rows);
  return node('div', rows.length > 0 && grid, acts(go), said);
}
// Boxes of a row of a batch. A location is put into the other rows that have none.
const boxed = (row, box) => { (row.boxes ||= []).push(box); return box; };
const amountBox = (row, quantity) =>
  row.amount = boxed(row, numberBox(`Quantity of ${row.called}`, { value: String(quantity) }));
function amountIn(row) {
  const quantity = numberIn(row.amount.value);
  row.amount.ariaInvalid = !quantity;
  return quantity ? { quantity } : { fault: 'The quantity has to be a whole number, in digits.' };
}
function placeBox(row, part, rows, other) {
  const changed = () => {
    for (const { place } of rows) if (of.get() && place && !place.get() && !place.isTouched) place.set(of.get());
  };
  const of = rowField({ kind: 'location' }, `Location of ${row.called}`, () => true, () => ({}), changed, true);
  of.set(usualPlace(part) ?? other);
  row.place = of;
  boxed(row, of.box);
  return node('div.field', of.made);
}
function placeIn(row) {
  lastPlace = row.place.get() ?? lastPlace;
  return row.place.get() ? { location: row.place.get() } : { fault: 'Say the location.' };
}
