// The sheet on which one writes how many of each item are there. What is typed is kept in the window until it is sent,
// with the marks of its books.
const SHEET = 'sheet:';
const isUnanswered = line => line != null && openAt(JSON.parse(line).key) !== null;
function sheetView(here, query) {
  const isDeep = query.has('deep'), word = `${SHEET}${here.id}:${isDeep}`, was = store.get(word);
  const isForeign = was !== null && !areThese(was.books ?? []), kept = isForeign ? {} : was?.rows ?? {};
  const typed = () => Object.values(kept).filter(it => it.text).length;
  const below = node('div'), count = node('span.soft', { role: 'status' });
  const ids = new Set([...itemsUnder(here.id, isDeep).map(it => it.id), ...Object.keys(kept).map(Number)]);
  const itemOf = row => rowOf('item', row.id);
  const rows = [...ids].filter(id => rowOf('item', id)).map(id => ({ id,
    opened: kept[id]?.opened ?? rowOf('item', id).quantity }));
  const keep = () => {
    if (Object.keys(kept).length) store.set(word, { books: marks, rows: kept });
    else if (!isForeign) store.drop(word);
    count.textContent = `${digits(typed())} of ${digits(rows.length)} counted`;
  };
  const marked = row => {
    const { quantity, place } = itemOf(row), sent = kept[row.id]?.line;
    row.note ||= node('span.warn', { role: 'status' });
    row.note.textContent = sent ? `A count of ${digits(JSON.parse(sent).quantity)} was sent and not answered.` :
      place !== AT ? 'It lies here no more.' : quantity === row.opened ? '' :
      `The books changed from ${digits(row.opened)} to ${digits(quantity)} since the sheet was opened.`;
    row.note.closest('tr')?.classList.toggle('changed', row.note.textContent !== '');
    return row.note;
  };
  const markAll = () => rows.forEach(it => it.note && marked(it));
  const look = button('Look at what will change', () => countSummary(of), 'main look'), marks = marksOf();
  const move = (box, step) => {
    const boxes = () => [...sheet.querySelectorAll('tbody input')], at = boxes().indexOf(box) + step;
    if (at >= boxes().length) grid.next();
    const next = boxes()[at] ?? (step > 0 ? look : null);
    next?.focus();
    next?.select?.();
  };
  const boxOf = row => {
    const box = numberBox('Counted of ' + wordsOf('item', row.id), { value: kept[row.id]?.text, input: () => {
      box.ariaInvalid = box.value.trim() !== '' && Number.isNaN(numberIn(box.value));
      const { line, typed } = kept[row.id] ?? {};   // what wasn't answered stays
      delete kept[row.id];
      const text = box.value.trim() && box.value;
      if (text || line) kept[row.id] = { text, opened: row.opened, line, typed };
      keep();
    }, keydown: event => {
      const step = { Enter: 1, ArrowDown: 1, ArrowUp: -1 }[event.key];
      if (!step || event.ctrlKey || event.altKey) return;
      event.preventDefault();
      move(box, step);
    } });
    return box;
  };
  const partOf = it => partName(itemOf(it).part), grid = table('Items', [
    column('Part', partOf, it => [name(partOf(it)), ' ', soft(name(lot(itemOf(it))))], 'head'),
    column('Item', 'id', it => link('item/' + it.id, it.id), 'late'), isDeep && column('Where',
      it => placeName(itemOf(it).place, itemOf(it).ref), it => placeLink(itemOf(it).place, itemOf(it).ref)),
    numbers('Expected', it => itemOf(it).quantity), cell('Counted', boxOf), cell('Note', marked)].filter(Boolean),
  rows);
  const sheet = node('div', { role: 'group', 'aria-label': 'Counts' }, grid, acts(count, look,
    button('Empty this sheet', () => { store.drop(word); show(false); })));
  const of = { kept, keep, rows, sheet, below, look, markAll };
  markAll();
  keep();
  whenRead.push(markAll);
  return ['Count sheet: ' + path('locations', here.id), acts(deepTick('sheet', here, query),
    link(`location/${here.id}`, '\u2190 the location'), link('files?kind=counts', 'Rows from a file')), isForeign &&
    says('warn', "What was typed on such a sheet of another workshop isn't put here."), node('p.soft acts', 'Enter ',
    'and the arrows go from row to row. Nothing is sent before you have seen what will change. An empty box isn\'t ',
    'counted.'), sheet, below];
}
// Where a count was answered at last, its row is empty, or has what was typed since then, over that count.
function settleCount(line, isDone) {
  const { item, quantity, do: command } = JSON.parse(line);
  for (const word of command === 'count' ? store.keys(SHEET) : []) {
    const sheet = store.get(word), it = areThese(sheet.books ?? []) && sheet.rows?.[item];
    if (!it) continue;
    if (isDone) it.opened = quantity;
    if (it.line === line) {
      if (!it.text || isDone && it.text === it.typed) delete sheet.rows[item];
      delete it.line;
    }
    store.set(word, sheet);
  }
}
// Sends what wasn't answered once more, and tells what came of it.
async function settle(key) {
  const { line, path, books } = openAt(key) ?? {};
  if (!line) return { isDone: true };
  await reread();
  if (!areThese(books)) return { isHeld: true, why: 'These are the books of another workshop now.' };
  busy++;
  const answer = await send(line, path, key);
  busy--;
  await reread();
  if (!answer.isOpen && path === RUN) settleCount(line, answer.isDone);
  return answer;
}
// Counts that weren't answered, of this sheet or of another that has the same items: they are settled first.
function settleFirst(of) {
  const keys = Object.entries(of.kept).flatMap(([id, { line }]) => {
    const own = isUnanswered(line) && JSON.parse(line).key;
    return own || openLike('count', { item: Number(id) }) || [];
  });
  const go = button('Send them again', async () => {
    go.disabled = true;
    let answer = null;
    for (const key of new Set(keys)) if (!answer?.isOpen) answer = await settle(key);
    flash = { at: here().split('?')[0], made: answer.isDone ? says('good', 'It is done now, once.') : notDone(answer) };
    show(false);
    offerOpen();
    if (!answer.isOpen) main.querySelector('button.look').click();
  }, 'main');
  return keys.length > 0 && [node('b', `Sent and not answered: ${digits(new Set(keys).size)}. `), UNKNOWN,
    'Until then nothing else is sent. ', go];
}
// What the counts of a sheet would change, by the books as they are now. Where they changed since the sheet was opened,
// it is asked whether it was counted before that or after; without an answer it is left out.
async function countSummary(of, message) {
  const { kept, rows, sheet, below, look } = of;
  const say = (look, ...told) => below.replaceChildren(says(look, ...told));
  try { await refresh(); } catch (fault) { return say('bad', 'Nothing was sent. ', fault.message); }
  if (isOther) return show(true);
  of.markAll();
  const first = settleFirst(of);
  if (first) return say('warn', first);
  const counted = Object.entries(kept).filter(it => it[1].text && rowOf('item', Number(it[0])));
  const all = counted.map(([id, { text, opened, line }]) => {
    const item = rowOf('item', Number(id)), counted = numberIn(text), change = item.quantity - opened;
    const fault = item.place !== AT ? 'It lies here no more: it is left out.' : Number.isNaN(counted) ?
      'That is no whole number.' : item.serial && counted > 1 ? 'A piece with a serial is counted as 0 or 1.' : '';
    const late = line ? -1 : counted + change, option = (value, told) => node('option', { value }, told);
    const ask = change !== 0 && !fault && node('select', { 'data-view': true, change: () => drawn(),
      'aria-label': `Counted before or after: ${wordsOf('item', item.id)}` },
    option('', 'Leave it out, and count it again'), option(counted, `Counted after that: ${digits(counted)} are there`),
    late >= 0 && option(late, `Counted before that: now ${digits(late)} have to be there`));
    return { id: item.id, item, line, text, counted, opened, now: item.quantity, fault, more: node('span'), ask };
  });
  if (!all.length) return say('warn', 'Nothing is counted yet: all boxes are empty.');
  const weight = it => it.fault || it.ask ? Infinity : Math.abs(it.counted - it.now);
  all.sort((a, b) => weight(a) === weight(b) ? 0 : weight(b) - weight(a));
  const quantityOf = it => it.fault || it.ask && !it.ask.value ? null : Number(it.ask ? it.ask.value : it.counted);
  const go = button('Send', () => sendCounts(of, all.map(it => ({ ...it, quantity: quantityOf(it) }))
    .filter(it => it.quantity !== null)), 'main'), head = node('p', { role: 'status' });
  const drawn = () => {
    const there = all.filter(it => quantityOf(it) !== null), changed = there.filter(it => quantityOf(it) !== it.now);
    for (const it of all) {
      const more = quantityOf(it) - it.now, isBig = Math.abs(more) >= Math.max(3, it.now / 5);
      it.more.replaceChildren(...there.includes(it) ? [signed(more), isBig ? chip('big', 'bad') : ''] : ['left out']);
    }
    head.textContent = [[changed.length, 'items change'], [there.length - changed.length, 'are as expected'],
      [all.length - there.length, 'are left out'], [rows.length - all.length, 'stay uncounted']]
      .map(([n, words]) => `${digits(n)} ${words}`).join(', ') + '. Nothing is sent yet.';
    [go.disabled, go.textContent] = [!there.length, `Send these ${digits(there.length)} counts`];
  };
  const settle = it => it.fault ? node('span.bad', it.fault) : it.ask && node('div.warn',
    it.line && 'A count that was sent and not answered may be in this. ',
    `The books changed from ${digits(it.opened)} to ${digits(it.now)} since the sheet was opened. `, it.ask);
  const titled = node('h2', { tabindex: -1 }, 'What will change');
  drawn();
  sheet.hidden = true;
  below.replaceChildren(titled, message ? says('warn', message) : '', head, table('What will change', [
    cell('Part', it => rowLink('item', it.id), 'head'), cell('Expected', it => digits(it.now), 'n'),
    cell('Counted', it => name(it.text), 'n'), cell('Difference', it => it.more, 'n'), cell('To settle', settle)], all),
  acts(go, button('Back to the sheet', () => {
    sheet.hidden = false;
    below.replaceChildren();
    look.focus();
  })));
  titled.focus();
  hush();
}
// Sends what was confirmed, if the books are still those of the summary.
async function sendCounts(of, chosen) {
  const { kept, keep, below } = of;
  if (isEarly() || busy) return;
  busy++;
  try {
    await refresh();
    if (isOther) return show(true);
    if (chosen.some(it => it.item.place !== rowOf('item', it.id).place || it.now !== rowOf('item', it.id).quantity))
      return await countSummary(of, 'Nothing was sent: the books changed once more. Look at it again.');
    below.querySelectorAll('button, select').forEach(it => { it.disabled = true; });
    const from = entries + 1;
    for (const it of chosen) {
      const one = kept[it.id], fields = { item: it.id, quantity: it.quantity };
      Object.assign(one, { typed: one.text, line: lineOf('count', fields) });
      keep();
      it.answer = await send(one.line);
      if (it.answer.isOpen) break;
      if (it.answer.isDone) delete kept[it.id];
      else delete one.line;
      keep();
    }
    await reread();
    countReport(of, chosen, await entriesFrom(from, entries).catch(() => []));
  } catch (fault) {
    below.append(says('bad', fault.message));
  } finally {
    busy--;
    offerOpen();
  }
}
function countReport(of, chosen, written) {
  const sign = it => KINDS[it.kind] === 'found' ? 1 : -1;
  const wordOf = it => `${kindWord(KINDS[it.kind])} ${digits(it.quantity)}` +
    (it.place === OFF ? ` (${REASONS[it.ref]})` : '');
  const truth = ({ id, answer, quantity, now }) => {
    if (!answer?.isDone) return node('span.bad', answer ? answer.why : 'not sent');
    const own = written.filter(it => it.item === id), total = own.reduce((all, it) => all + sign(it) * it.quantity, 0);
    const isOther = own.length > 1 || total !== quantity - now || !own.length && answer.entries > 0;
    return node(isOther ? 'span.warn' : 'span.good', isOther && 'Another changed it meanwhile. ',
      own.length ? `Written: ${own.map(wordOf).join(', ')}.` : 'As expected: nothing was written.',
      ` The books say ${digits(rowOf('item', id).quantity)} now.`);
  };
  const done = chosen.filter(it => it.answer?.isDone).length, open = chosen.find(it => it.answer?.isOpen);
  const refused = chosen.filter(it => it.answer && !it.answer.isDone).length;
  of.below.replaceChildren(open ? notDone(open.answer) : says(refused ? 'bad' : 'good',
    `Counted: ${digits(done)}. Refused: ${digits(refused)}.`), table('What came of it', [
    cell('Part', it => rowLink('item', it.id), 'head'), cell('Before', it => digits(it.now), 'n'),
    cell('Counted', it => digits(it.quantity), 'n'), cell('What was written', truth)], chosen),
  acts(open && button('Look at it again', () => countSummary(of), 'main'), button('To the sheet', () => show(false))));
  of.below.firstChild.focus();
}
