// Fields and forms, all made from the table of commands.

// Which rows suit a field, beside the values of the others: they are offered first. The states that a command is for,
// where they aren't 1 alone:
const STATES = { order_line: [0, 1], issue_order: [0], cancel_order: [0, 1], issue_build: [0, 2], hold_build: [0, 1],
  cancel_build: [0, 1, 2], auto_allocate: [0, 1], allocate_build: [0, 1] };
const AWAY = { uninstall: IN, reinstate: OFF, return_item: SENT };
const isFree = item => freeOf(item) > 0, isPlain = item => isAt(item) && !item.serial;
const live = flag => part => has(part, flag) && !part.retired, maySet = line => !find.fixed.has(line.assembly);
const isOpenLine = side => line => leftOf(line) > 0 && orderOf(line).side === side && orderOf(line).state === PROGRESS;
const SUITS = {
  'add_part template': live('template'), 'found part': it => !it.retired && !has(it, 'virtual'),
  'build part': live('assembly'),
  'add_line assembly': it => live('assembly')(it) && !find.fixed.has(it.id), 'add_line component': live('component'),
  'add_substitute part': live('component'), 'add_substitute line': maySet, 'drop_line line': maySet,
  'drop_substitute substitute': it => maySet(rowOf('line', it.line)),
  'order_line part': (it, now) =>
    !it.retired && (!now.order || has(it, rowOf('order', now.order).side ? 'salable' : 'purchaseable')),
  'receive line': isOpenLine(0), 'allocate_sale line': isOpenLine(1),
  'allocate_sale item': (it, now) => isFree(it) && (!now.line || it.part === rowOf('order_line', now.line).part),
  'ship order': it => it.state === PROGRESS && find.allocationsFor(`0 ${it.id}`).length,
  'close_order order': it => it.state === PROGRESS && find.linesOf(it.id).every(line => !leftOf(line)),
  'add item': isPlain, 'merge into': isPlain, 'remove item': isFree, 'install item': isFree,
  'split item': it => isPlain(it) && isFree(it) && it.quantity > 1, 'disassemble item': it => isAt(it) && it.serial,
  'serialise item': it => isPlain(it) && isFree(it) && has(rowOf('part', it.part), 'trackable'),
  'merge items': (it, now) => isPlain(it) && it.id !== now.into &&
    (!now.into || ['part', 'batch', 'status'].every(word => it[word] === rowOf('item', now.into)[word])),
  'install parent': (it, now) => it.serial && it.place <= IN && it.id !== now.item &&
    (!now.item || linesFor(it.part).some(line => !has(line, 'consumable') && fits(line, rowOf('item', now.item).part))),
  'complete_build build': it => it.state === PROGRESS && !leftOf(it),
  'allocate_build line': (it, now) => now.build && !has(it, 'consumable') &&
    linesFor(rowOf('build', now.build).part).includes(it),
  'allocate_build item': (it, now) => isFree(it) && (!now.line || fits(rowOf('line', now.line), it.part)),
  'consume allocation': it => it.side && !it.output && rowOf('build', it.owner).state === PROGRESS,
};
function suits({ command }, { name, kind }) {
  if (SUITS[`${command} ${name}`]) return SUITS[`${command} ${name}`];
  if (name === 'output') return (it, now) =>
    it.place === OUTPUT && rowOf('build', it.ref).state === PROGRESS && (!now.build || it.ref === now.build);
  if (kind === 'item') return it => it.place === (AWAY[command] ?? AT);
  if (kind === 'order' || kind === 'build') return it => (STATES[command] || [1]).includes(it.state);
  return it => !it.retired;
}

// What is put into fields that weren't touched, by what is chosen in the others.
let lastPlace = null;   // the location that was named last in this window
function usualPlace(part) {
  return find.itemsOf(part).findLast(isAt)?.ref ?? (books.locations.has(lastPlace) ? lastPlace : undefined);
}
const ofRow = (kind, make) => it => it && rowOf(kind, it) ? make(rowOf(kind, it)) : {};
const toPlace = ofRow('item', it => ({ location: usualPlace(it.part) }));
const PREFILL = {
  found: it => it.part ? { location: usualPlace(it.part) } : {}, complete_output: it => toPlace(it.output),
  return_item: it => toPlace(it.item), uninstall: it => toPlace(it.item), reinstate: it => toPlace(it.item),
  disassemble: it => toPlace(it.item), install: () => ({ quantity: 1 }),
  transfer: it => ofRow('item', ({ quantity }) => ({ quantity }))(it.item),
  receive: it => ofRow('order_line', line => ({ quantity: leftOf(line), location: usualPlace(line.part) }))(it.line),
  outputs: it => ofRow('build', build => ({ quantity: leftOf(build) - begunOf(build) || 1 }))(it.build),
  allocate_sale: it => ofRow('order_line', line => oneOf(it.item, [line.part], wantedOf(line)))(it.line),
  allocate_build: it => ofRow('line', line => oneOf(it.item, partsFor(line), rowOf('build', it.build) &&
    needsOf(rowOf('build', it.build)).find(other => other.id === line.id)?.missing))(it.line),
};
// The item that is chosen, or else the oldest that is free, and as much of it as is wanted.
function oneOf(id, parts, wanted) {
  const item = rowOf('item', id) ?? freeItems(parts)[0];
  return item ? { item: item.id, quantity: Math.max(1, Math.min(freeOf(item), wanted || 1)) } : {};
}

// What a form says to what stands in it.
const NAMED = { add_part: 'part', add_category: 'category', add_location: 'location' };
function nearWords(text, known, told) {
  const tight = squeeze(text), one = text && known.find(it => it[1] === text);
  if (one) return node('p.bad', { role: 'alert' }, told(one[0]), ' is called just so.');
  const near = tight ? known.filter(it => squeeze(it[1]) === tight) : [];
  return near.length > 0 && node('p.warn', { role: 'alert' }, 'Nearly the same name is there already: ',
    near.slice(0, 5).map((it, n) => [n > 0 && ', ', told(it[0])]), '. Is it the same? A name is for good.');
}
function adviceOn(command, now, given) {
  const kind = NAMED[command], build = rowOf('build', now.build);
  if (kind) {
    const rows = [...rowsOfKind(kind).values()].filter(it => kind === 'part' || it.parent === (now.parent ?? null));
    return nearWords(now.name ?? '', rows.map(row => [row, row.name]), row => rowLink(kind, row.id));
  }
  if (command === 'cancel_build' && build) return cancelWarning(build);
  if (command === 'complete_build' && build) return missingWords(build);
  const partners = [...new Set([...books.orders.values()].map(it => it.partner))], known = now.partner ?? '';
  return command === 'order' || command === 'build' ? [nearWords(given, [...keyNames].map(it => [it[0], it[1]]), id =>
    rowLink(books.orders.has(id) ? 'order' : 'build', id)), !partners.includes(known) && nearWords(known,
    partners.map(it => [it, it]), name)] : [];
}

let lastId = 0;
// A field that says a row: one types words of its name, or its number, and chooses.
function rowField({ kind, isOptional }, label, isSuited, now, changed = () => {}, isBare = false) {
  const id = `f${++lastId}`, hint = node('div.soft', { hidden: isBare });
  const list = node('ul', { role: 'listbox', id: id + 'l', 'aria-label': label, hidden: true });
  const box = node('input', { id, role: 'combobox', autocomplete: 'off', 'aria-autocomplete': 'list',
    'aria-expanded': 'false', 'aria-controls': id + 'l', placeholder: isOptional ? 'none' : 'Words, or a number',
    'aria-label': isBare && label });
  let value = null, offered = [], at = -1;
  const open = isOpen => {
    list.hidden = !isOpen;
    box.ariaExpanded = isOpen;
    if (!isOpen) box.removeAttribute('aria-activedescendant');
  };
  const put = (row, isFine) => {
    value = row?.id ?? null;
    hint.textContent = row ? `number ${value}` : '';
    box.setCustomValidity(row || isFine ? '' : 'Choose one from the list.');
  };
  const take = (row, isByHand) => {
    box.value = row ? wordsOf(kind, row.id) : '';
    put(row, isOptional);
    open(false);
    if (isByHand) of.isTouched = true;
    if (row) watchRow(kind, row.id);
    changed();
  };
  const mark = to => {
    at = to;
    [...list.children].forEach((it, n) => { it.ariaSelected = n === at; });
    if (offered[at]) box.setAttribute('aria-activedescendant', `${id}o${at}`);
    list.children[at]?.scrollIntoView({ block: 'nearest' });
  };
  const offer = () => {
    const words = wordsIn(box.value), loose = words.map(looselyIn), values = now(), good = [], rest = [];
    const one = words.length === 1 && rowOf(kind, Number(words[0]));
    for (const it of choicesOf(kind)) {
      if (good.length === 200) break;
      if (it.row !== one && fitsWords(it, words, loose)) (isSuited(it.row, values) ? good : rest).push(it.row);
    }
    if (!good.length && !rest.length && !one) rest.push(...bySlips(kind, words).slice(0, 50));
    const text = fold(box.value.trim()), ranked = rows => !text ? rows :
      rows.slice(0, 400).map(row => [rankOf(kind, row, text), row]).sort((a, b) => a[0] - b[0]).map(it => it[1]);
    offered = [...one ? [one] : [], ...ranked(good), ...ranked(rest)].slice(0, 50);
    const press = row => event => { event.preventDefault(); take(row, true); };
    list.replaceChildren(...offered.map((row, n) => node('li',
      { role: 'option', id: `${id}o${n}`, pointerdown: press(row) }, name(wordsOf(kind, row.id)),
      soft(` ${row.id}`, !isSuited(row, values) && ", doesn't suit"))));
    if (!offered.length) list.append('Nothing fits.');
    open(true);
    mark(words.length || good.length ? 0 : -1);   // what doesn't suit isn't taken unasked
  };
  box.addEventListener('input', () => { of.isTouched = true; put(null, isOptional && !box.value); offer(); });
  box.addEventListener('click', () => list.hidden && offer());
  box.addEventListener('blur', () => open(false));
  box.addEventListener('keydown', event => {
    const step = { ArrowDown: 1, ArrowUp: offered.length - 1 }[event.key];
    if (step !== undefined && list.hidden) offer();
    else if (step !== undefined) mark((at + step) % (offered.length || 1));
    else if (list.hidden || !['Enter', 'Escape'].includes(event.key)) return;
    else if (event.key === 'Enter' && offered[at]) take(offered[at], true);
    else open(false);
    event.preventDefault();
  });
  put(null, isOptional);
  const of = { made: [!isBare && node('label', { for: id }, label), box, list, hint], get: () => value, box,
    set: id => take(rowOf(kind, Number(id))), isTouched: false };
  return of;
}
function itemsField(label, isSuited, now) {
  const chosen = new Map(), chips = node('div.row');
  const isNew = (row, values) => isSuited(row, values) && !chosen.has(row.id);
  const one = rowField({ kind: 'item', isOptional: true }, label, isNew, now, () => {
    const id = one.get();
    if (!id || chosen.has(id)) return;
    const drop = button(['Leave out ', name(wordsOf('item', id))], () => { drop.remove(); chosen.delete(id); });
    chosen.set(id, drop);
    chips.append(drop);
    one.set(0);
  });
  return { made: [one.made, chips], get: () => [...chosen.keys()] };
}
function flagsField(label) {
  const boxes = FLAGS.map(value => node('input', { type: 'checkbox', value }));
  return { made: node('fieldset', node('legend', label), soft('They are final once the part is made.'),
    boxes.map(it => node('label.flag', it, node('span', node('b', it.value), ': ', FLAG_WORDS[it.value])))),
  get: () => boxes.filter(it => it.checked).map(it => it.value) };
}
const LABELS = { list: 'As M1,M2,M7 or as a range 1-20',
  key: 'What you call it, without spaces. Lists show it and Find finds it. It is final.' };
function fieldOf(form, field, now, changed) {
  const id = `f${++lastId}`, { kind } = field;
  const label = capital(field.name) + (field.isOptional ? ' (may be empty)' : '');
  if (ROWS[kind]) return rowField(field, label, suits(form, field), now, changed);
  if (kind === 'items') return itemsField(label, suits(form, field), now);
  if (kind === 'words') return flagsField(label);
  const words = { side: SIDES, status: STATUSES }[field.name], isYes = kind === 'yes', isNumber = kind === 'number';
  const box = words ? node('select', { id }, words.map(it => node('option', it))) :
    node('input', { id, autocomplete: 'off', type: isYes ? 'checkbox' : 'text', required: !field.isOptional && !isYes,
      list: field.name === 'partner' && id + 'p',
      ...isNumber && { inputmode: 'numeric', pattern: NUMBER, title: 'digits' },
      ...kind === 'key' && { pattern: '[!-~]{1,80}', title: 'no spaces and no accents' } });
  box.addEventListener('input', () => { of.isTouched = true; changed(); });
  const partners = () => [...new Set([...books.orders.values()].map(it => it.partner))].sort(inOrder);
  const of = { made: [node('label', { for: id }, label), box, LABELS[kind] && soft(LABELS[kind]),
    field.name === 'partner' && node('datalist', { id: id + 'p' }, partners().map(value => node('option', { value })))],
  set: to => { box.value = to; }, isOwn: !words && !isYes, box,
  get: () => isYes ? box.checked || null : isNumber ? numberIn(box.value) : box.value || null };
  return of;
}
// A request that is sent when it is called; once more as it was, if its answer was lost. What was read is at most two
// seconds old then: so it isn't sent to other books than it was made for.
function request(command, fields, key) {
  let line = null;
  const sent = async () => {
    if (performance.now() - readAt > 2000) await reread();
    if (isOther) {
      setTimeout(show, 0, true);
      return { isHeld: true, why: 'These are the books of another workshop now.' };
    }
    if (!line && openLike(command, fields, key)) {
      offerOpen(true);
      return SETTLE;
    }
    const answer = await send(line ||= lineOf(command, fields, key));
    if (!answer.isDone && !answer.isOpen) line = null;
    if (answer.isDone && !key && ['order', 'build'].includes(command)) answer.ids.forEach(id => lookedFor.add(id));
    return answer;
  };
  return () => {
    busy++;
    return sent().finally(() => { busy--; });
  };
}
const reread = () => refresh().catch(() => {});
const notDone = ({ isOpen, isHeld, why }, ...more) =>
  says(isOpen ? 'warn' : 'bad', node('b', isOpen ? UNKNOWN : isHeld ? 'Not sent: ' : 'Refused: '), why, more);

// The form of a command, without the fields in `hides`, which have what is given. Then one comes back to the page of
// the row, or to the form.
function commandForm(command, given, { hides = [], title, go: verb, back } = {}) {
  const form = FORMS.get(command), words = title ?? form.title, isOwner = command === 'order' || command === 'build';
  const advice = node('div'), said = node('div'), go = node('button.main', verb ?? words);
  let asked = null, isFilling = true;   // what was sent and isn't answered yet
  const changed = () => {
    if (isFilling) return;
    isFilling = true;
    const values = PREFILL[command]?.(now()) ?? {};
    for (const { name, of } of fields) if (values[name] != null && !of.isTouched) of.set(values[name]);
    isFilling = false;
    advice.replaceChildren(...[adviceOn(command, now(), isOwner && key.get() || '')].flat(9).filter(Boolean));
  };
  const fixed = Object.fromEntries(hides.map(it => [it, given[it] ?? null]));
  const key = isOwner && fieldOf(form, { name: 'name', kind: 'key', isOptional: true }, null, () => changed());
  const now = () => ({ ...fixed, ...Object.fromEntries(fields.map(it => [it.name, it.of.get()])) });
  const fields = form.fields.filter(it => !hides.includes(it.name))
    .map(it => ({ ...it, of: fieldOf(form, it, () => now(), () => changed()) }));
  const all = node('fieldset', [...fields.map(it => it.of), key].map(it => it && node('div.field', it.made)));
  for (const { name, of } of fields) if (given[name] != null) {
    of.set(given[name]);
    of.isTouched = true;
  }
  isFilling = false;
  changed();
  const done = async ({ ids, tries }, before, values, sentence) => {
    lastPlace = values.location || lastPlace;
    const isNew = key && !before.ids.has(ids[0]);
    if (isNew) nameRow(ids[0], key.get() ?? newKey());
    await reread();
    const kinds = ids.slice(0, 20).map(id => [Object.keys(ROWS).find(it => rowOf(it, id)), id]).filter(it => it[0]);
    const chosen = fields.filter(it => ROWS[it.kind] && values[it.name]).map(it => [it.name, values[it.name]]);
    const to = key ? `${command}/${ids[0]}` : back ?? `do/${command}?${new URLSearchParams(chosen)}`;
    comeBack(go, to, doneWords(
      sentence, effects(before), tries > 1 && `It was sent ${tries} times. `, key && !isNew && node('b.warn',
        'It was there already: nothing new was made. '), kinds.length > 0 && ['New: ', each(kinds, it =>
        rowLink(...it))]), words);
  };
  // A name that is taken isn't sent: under it the program would answer as it did then.
  const isTaken = async called => {
    await reread();
    await readNames(owners()).catch(() => {});
    return [...keyNames.values()].includes(called);
  };
  const submit = async event => {
    event.preventDefault();
    if (isEarly(go)) return;
    const values = now(), called = isOwner && key.get(), rows = namedIn(command, values);
    all.disabled = go.disabled = true;
    let answer = { why: ['The name ', name(called || ''), ' is taken.'] };
    if (!called || asked || !await isTaken(called)) {
      const fields = Object.fromEntries(Object.entries(values).filter(it => it[1] !== null));
      asked ||= request(command, fields, called || newKey());
      const before = snapshot(rows), sentence = sentenceOf(command, values);
      answer = await asked();
      if (answer.isDone) return done(answer, before, values, sentence);
      await reread();
    }
    changed();
    said.replaceChildren(notDone(answer, !answer.isOpen && list(namedIn(command, values).map(([kind, id]) =>
      [`${plain(kind)}: `, rowLink(kind, id), ' ', ROWS[kind][2]?.(rowOf(kind, id))]))));
    [all.disabled, go.disabled, go.textContent] = [answer.isOpen, false, answer.isOpen ? 'Send again' : verb ?? words];
    if (!answer.isOpen) asked = null;
  };
  return node('div', node('form.card', { submit, 'aria-label': words }, title && node('h2', title),
    node('p.soft', `What it does: ${form.does}`), all, advice, go), said);
}
const inline = (command, given, more) =>
  commandForm(command, given, { hides: Object.keys(given), back: here(), ...more });
function doView(_, query, command) {
  const form = FORMS.get(command), given = Object.fromEntries(query);
  if (!form) {
    const groups = [];
    for (const it of FORMS.values()) {
      if (GROUPS[it.command]) groups.push(section(GROUPS[it.command]));
      groups.at(-1).append(node('p', link('do/' + it.command, it.title), ' ', soft(it.does)));
    }
    return ['What can be done', groups];
  }
  const output = rowOf('item', Number(given.output));
  if (output && form.fields[0].name === 'build') given.build = output.ref;
  return [command === 'order' && given.side ? `New ${given.side}` : form.title,
    given.back && [link(given.back, '\u2190 back'), ' '], !Object.values(FILES).includes(command) &&
    link('files?kind=' + command, 'Rows from a file'), commandForm(command, given, { back: given.back }),
    node('details', node('summary', 'May be refused for'), list([...form.refusals].map(it =>
      [...MEANINGS.values()][it.charCodeAt(0) - 97])))];
}
