// Views. Each gives its title and what stands under it.

const isLow = part => !part.retired && !has(part, 'template') && !has(part, 'virtual') && freeIn(part.id) < lowBelow;
const LOOKS = [['free', 'free'], ['held', 'allocated'], ['inner', 'in other items'], ['stuck', "can't be given out"]];
const stockBar = sums => bar(LOOKS.map(([look, word]) => [look, sums[look], word]));
const marks = part => [part.retired && chip('retired', 'warn'), isLow(part) && chip('low', 'warn')];
const stockKey = () => node('p.key soft', LOOKS.map(([look, word]) => [node('i.' + look), word]));

// What may be done with a row, to come back then.
const backTo = () => 'back=' + encodeURIComponent(here());
const actOn = (command, given, text = FORMS.get(command).title) =>
  act(`${command}?${new URLSearchParams(given)}&${backTo()}`, text);
const act = (to, text) => node('a.button', { href: '#/do/' + to }, text);
const actsOn = (kind, row, leftOut = []) => acts([...FORMS.values()].map(form => {
  const field = form.fields.find(it => it.kind === kind && suits(form, it)(row, {}));
  return field && !leftOut.includes(form.command) && actOn(form.command, { [field.name]: row.id }, form.title);
}));

function stockTable(rows) {
  const most = Math.log(2 + Math.max(0, ...rows.map(it => it.present)));
  const drawn = sums => {
    const made = stockBar(sums);
    made.style.width = `${100 * Math.log(1 + sums.present) / most}%`;
    return sums.present > 0 && made;
  };
  return table('Parts', [
    column('Part', it => it.part.name.toLowerCase(), it => [partLink(it.part.id), ' ', marks(it.part)], 'head'),
    column('Category', it => categoryOf(it.part)), numbers('Present', 'present'), numbers('Free', 'free'),
    numbers('Allocated', 'held', 'n late'), numbers('On order', 'coming', 'n late'),
    column('How it stands', 'present', drawn, 'wide late')], rows);
}
const stockRows = () => find.sortedParts().map(it => stock.get(it.id));
function stockView(_, query) {
  const textOf = part => fold([part.name, categoryOf(part), ...flagsOf(part)].join(' '));
  const rows = stockRows(), grid = stockTable(rows);
  const texts = lazily(() => new Map(rows.map(it => [it, textOf(it.part)])));
  const told = node('span.soft', { role: 'status' });
  const show = text => {
    const words = wordsIn(text);
    const shown = words.length ? rows.filter(it => words.every(word => texts().get(it).includes(word))) : rows;
    told.textContent = `${digits(shown.length)} parts`;
    if (shown.length < rows.length || grid.isCut) grid.renew(shown);
    grid.isCut = shown.length < rows.length;
  };
  const box = node('input', { type: 'search', id: 'filter', value: query.get('q'), 'data-view': true,
    placeholder: 'Part, category or flag', 'aria-label': 'Part, category or flag', input: () => {
      show(box.value);
      history.replaceState(null, '', '#/stock' + (box.value && '?q=' + encodeURIComponent(box.value)));
    } });
  show(box.value);
  return ['Stock', acts(box, told, act('add_part', 'New part'), act('found', 'Found stock')), stockKey(), grid];
}

let lowBelow = Number(localStorage.getItem('low') ?? 1);
function lowView() {
  const rows = () => stockRows().filter(it => isLow(it.part)), grid = stockTable(rows());
  const box = numberBox('Low below', { value: lowBelow, id: 'low', 'data-view': true, change: () => {
    lowBelow = numberIn(box.value) || 0;
    localStorage.setItem('low', box.value = lowBelow);
    grid.renew(rows());
  } });
  return ['What is low', acts(node('label', 'Parts of which less is free than', box)), stockKey(), grid];
}

// What all open builds together still want.
function shoppingRows(withOptional) {
  const rows = new Map();
  for (const build of books.builds.values()) for (const need of needsOf(build)) {
    if (need.isOptional && !withOptional) continue;
    const id = need.component, empty = { id, part: id, required: 0, allocated: 0, missing: 0, builds: [] };
    const row = rows.get(id) ?? empty;
    rows.set(id, row);
    for (const it of ['required', 'allocated', 'missing']) row[it] += need[it];
    if (need.missing) row.builds.push(build);
  }
  return [...rows.values()].map(it => ({ ...it, free: freeIn(it.id), coming: comingOf(it.id),
    buy: Math.max(0, it.missing - freeIn(it.id) - comingOf(it.id)) })).sort((a, b) => b.buy - a.buy || a.id - b.id);
}
function shoppingView(_, query) {
  const isAll = query.has('optional'), rows = shoppingRows(isAll), [, ...low] = lowView();
  const how = it => ['purchaseable', 'assembly'].map(flag => has(partAt(it.part), flag)).indexOf(true);
  return ['Shopping list', node('p.soft', `What open builds need, ${isAll ? 'optional lines too' :
    'but for optional lines'}. To buy or make is what is missing, less what is free and on order.`),
  acts(node('span', { 'data-view': true }, tick('optional lines too', isAll, isOn => {
    location.hash = `#/shopping${isOn ? '?optional=1' : ''}`;
  })), act('order?side=purchase', 'New purchase')),
  table('Shopping list', [parts('Part', 'part'), numbers('Required', 'required'),
    numbers('Allocated', 'allocated', 'n late'), numbers('Missing', 'missing', 'n late'), numbers('Free', 'free'),
    numbers('On order', 'coming'), numbers('To buy or make', 'buy'),
    column('How', how, it => ['buy', 'make'][how(it)]),
    cell('For builds', it => each(it.builds.slice(0, 6), build => link('build/' + build.id,
      name(String(callOf(build))))), 'late')], rows),
  section('Low stock', low)];
}

const lot = it => it.serial || it.batch || '';
const itemColumns = (...more) => [rowNumbers('item'), ...more, numbers('Quantity', 'quantity'),
  numbers('Allocated', heldOf, 'n late'), column('Serial or batch', lot, it => lot(it) && itemLink(it)),
  column('Status', 'status', it => chip(STATUSES[it.status], isUsable(it) ? '' : 'bad'))].filter(Boolean);
const where = column('Where', it => placeName(it.place, it.ref), it => placeLink(it.place, it.ref));
const partColumn = parts('Part', 'part');

const branch = (words, grow, open) => node('li', grow ? opening('', words, grow, open) : words);

// What lies at a location, or deeper too, by the names of parts.
function itemsUnder(place, isDeep) {
  const inner = at => [at, ...isDeep ? find.placesIn(at).flatMap(it => inner(it.id)) : []];
  const places = new Set(inner(place));
  return find.sortedItems().filter(it => places.has(it.ref));
}
const deepTick = (view, here, query) => node('span', { 'data-view': true }, tick('and deeper', query.has('deep'),
  isDeep => { location.hash = `#/${view}/${here.id}${isDeep ? '?deep=1' : ''}`; }));
function locationsView(here, query) {
  const over = new Set(), items = here && itemsUnder(here.id, query.has('deep'));
  for (let at = here; at; at = books.locations.get(at.parent)) over.add(at.id);
  const words = it => [node('a', { href: '#/location/' + it.id, 'aria-current': it === here && 'true' }, name(it.name)),
    soft(' ', digits(find.under.get(it.id)))];
  const tree = parent => node('ul.tree', byName(find.placesIn(parent)).map(it => branch(words(it),
    find.placesIn(it.id).length > 0 && (() => tree(it.id)), parent === 'top' || over.has(it.id))));
  return [here ? path('locations', here.id) : 'Locations', node('div.two',
    node('nav', { 'aria-label': 'Locations' }, tree('top')), node('div', here && [
      acts(deepTick('location', here, query), actOn('found', { location: here.id }),
        actOn('receive', { location: here.id }), node('a.button', { href: `#/sheet/${here.id}` }, 'Count sheet')),
      table('Items', itemColumns(partColumn, query.has('deep') && where), items)],
    acts(actOn('add_location', here ? { parent: here.id } : {}, 'New location'))))];
}

// A section that is filled when the program has answered.
function asked(promise, drawn) {
  const made = node('div', { 'aria-busy': 'true' }, 'Asking ...');
  promise.then(told => node('div', drawn(told)), fault => fault.message)
    .then(it => { made.replaceChildren(it); made.ariaBusy = 'false'; });
  return made;
}

// Wanted entries of the history, the latest first: it looks back until fifty are found.
const kindWord = kind => ({ written: 'written off', consumed: 'used up' })[kind] || plain(kind);
const entryWords = it => [node('b', kindWord(KINDS[it.kind])), ` ${digits(it.quantity)} \u00d7 `, partLink(it.part),
  it.place === AT ? ' at ' : ' ', it.place === OFF ? `(${REASONS[it.ref]})` : placeLink(it.place, it.ref),
  ', ', link('item/' + it.item, 'item ' + it.item)];
function entriesTable(isWanted, most = 20) {
  let from = entries + 1, rows = [], more = null;
  const grid = table('Entries', [numbers('Entry', 'n', 'n late'), column('Day', 'day'),
    column('What happened', it => KINDS[it.kind], entryWords)], rows);
  const back = async turns => {
    const wanted = rows.length + 50;
    for (let n = 0; n < turns && from > 1 && rows.length < wanted; n++) {
      const begin = Math.max(1, from - 1000), told = await entriesFrom(begin, from - 1);
      rows = [...rows, ...told.reverse().filter(isWanted)];
      from = begin;
    }
    grid.renew(rows);
    more.textContent = `Look further back than entry ${digits(from)}`;
    more.hidden = from === 1;
  };
  more = button('', () => back(most).catch(fault => { more.textContent = fault.message; }), 'more');
  return asked(back(most), () => [grid, more]);
}
function recentView(_, query) {
  const frame = node('div'), boxOf = (id, type, label) => node('input', { id, type, 'aria-label': label,
    placeholder: label, value: query.get(id), 'data-view': true, input: () => {
      clearTimeout(wait);
      wait = setTimeout(changed, 200);
    } });
  const boxes = [boxOf('part', 'search', 'Part'), boxOf('from', 'date', 'From'), boxOf('to', 'date', 'To')];
  let wait = 0;
  const show = () => {
    const [text, from, to] = boxes.map(it => it.value), words = wordsIn(text), loose = words.map(looselyIn);
    const fitting = new Set(choicesOf('part').filter(it => fitsWords(it, words, loose)).map(it => it.row.id));
    frame.replaceChildren(entriesTable(it => fitting.has(it.part) && it.day >= from && (!to || it.day <= to)));
  };
  const changed = () => {
    const asked = new URLSearchParams(boxes.filter(it => it.value).map(it => [it.id, it.value]));
    history.replaceState(null, '', '#/recent' + (asked.size ? '?' + asked : ''));
    show();
  };
  show();
  return ['Recent activity', acts(boxes[0], boxes.slice(1).map(it => node('label', it.ariaLabel, it))), frame];
}

// The law of the books as two stacks of one length.
function ledgerPicture(lines) {
  const amounts = Object.fromEntries(lines.slice(1)), looks = ['free', 'inner', 'held', 'stuck'];
  const sides = ['received found built returned', 'present consumed shipped written'].map(it => it.split(' '));
  const told = kind => `${kindWord(kind)} ${digits(amounts[kind])}`;
  const [all, other] = sides.map(side => side.reduce((total, kind) => total + BigInt(amounts[kind]), 0n));
  const equation = sides.map(side => side.map(told).join(' + ')).join(' = ');
  const stack = side => node('div.stack', side.map((kind, at) => {
    const share = Number(amounts[kind]) / Number(all);   // words stand only where there is room for them
    return share > 0 && piece(looks[at], share, told(kind), share > .07 && told(kind));
  }));
  return node('figure.card', { id: 'ledger' }, all > 0 && node('div', { role: 'img', 'aria-label': equation },
    'Came in:', stack(sides[0]), 'Is here or accounted for:', stack(sides[1])),
    node('figcaption.soft', equation,
      all === other ? node('b.good', ' \u2713 balanced') : node('b.bad', ' \u2717 not balanced'),
      `. With customers now: ${digits(amounts.sent)}; in finished builds: ${digits(amounts.used)}.`));
}

function billTree(part, times, depth = 0) {
  return node('ul.tree', linesFor(part).map(line => {
    const free = freeIn(line.component), wanted = line.quantity * times;
    return branch([node('b', digits(line.quantity)), ' \u00d7 ', partLink(line.component), ' ',
      flagsOf(line, LINE_FLAGS).map(it => chip(it)), depth > 0 && `${digits(wanted)} in all, `,
      !has(line, 'consumable') && node(free < wanted ? 'span.bad' : 'span.good', `${digits(free)} free `),
      link('line/' + line.id, 'change'),
      find.substitutesOf(line.id).map(({ part }) =>
        node('div', 'or ', partLink(part), ` (${digits(freeIn(part))} free)`))],
    linesFor(line.component).length > 0 && (() => billTree(line.component, wanted, depth + 1)), depth < 1);
  }));
}
const lineView = line => [wordsOf('line', line.id), actsOn('line', line),
  find.substitutesOf(line.id).map(it => section(wordsOf('substitute', it.id), actsOn('substitute', it)))];
const linksTo = rows => rows.map(it => [partLink(it), ' ']);
function partView(part) {
  const sums = stock.get(part.id), variants = find.variantsOf(part.id).map(it => it.id);
  return [part.name, node('p', flagsOf(part).map(it => chip(it)), marks(part)),
  facts({ Part: part.id, Category: name(categoryOf(part)), Template: part.template && partLink(part.template),
    Variants: variants.length && linksTo(variants),
    Stock: `${digits(sums.free)} free of ${digits(sums.present)}; ${digits(sums.coming)} on order` }),
  actsOn('part', part),
  section('Ledger', asked(report('ledger', part.id), ledgerPicture)),
  section('Stock', stockBar(sums), stockKey(), table('Items', itemColumns(where), find.itemsOf(part.id))),
  has(part, 'assembly') && section('What one is made of', billTree(part.id, 1)),
  section('Where it is used', find.usesOf(part.id).map(it => node('div', rowLink('line', it.id))), 'By any way: ',
    asked(report('where_used', part.id), rows => linksTo(rows.map(it => Number(it[0]))))),
  section('Builds', buildTable(find.buildsOf(part.id))),
  section('Orders', find.orderedOf(part.id).map(it => node('div', rowLink('order_line', it.id)))),
  section('Latest entries', entriesTable(it => it.part === part.id, 1))];
}
const contentTree = item => node('ul.tree', find.itemsIn(item.id).map(it =>
  branch([partLink(it.part), ' ', itemLink(it), ` \u00d7 ${digits(it.quantity)}`],
    find.itemsIn(it.id).length > 0 && (() => contentTree(it)), true)));
function timeline(lines) {
  const list = node('ol.time', { id: 'timeline' }), drawn = slices(list, ([, day, kind, quantity, said]) => {
    const [place, id] = said.split(' '), at = PLACES.indexOf(place), isOut = /consumed|shipped|written/.test(kind);
    const sign = isOut ? '\u2212' : /received|found|built|returned/.test(kind) ? '+' : '\u2022';
    return node('li', chip(sign), soft(day), ' ', node('b', kindWord(kind)),
      ` ${digits(quantity)} `, placeLink(at, at === OFF ? REASONS.indexOf(id) : Number(id)));
  });
  drawn.renew(lines);
  return [list, drawn.more];
}
const allocationTable = rows => listed('Allocated', [
  column('Item', 'item', it => rowLink('item', it.item), 'head'), numbers('Quantity', 'quantity'),
  column('For', 'owner', it => [rowLink(it.side ? 'build' : 'order', it.owner),
    it.output && [', output ', link('item/' + it.output, it.output)]]),
  { ...column('Do', null, it => [quick('Give back', 'release', { allocation: it.id }), ' ',
    it.side === 1 && !it.output && rowOf('build', it.owner).state === PROGRESS &&
    quick('Use up', 'consume', { allocation: it.id })]), isAct: true }], rows);
const batchLink = it => it.batch && link(`batch/${it.part}?text=${encodeURIComponent(it.batch)}`, name(it.batch));
const itemView = item => [itemName(item), facts({ Item: item.id, Part: partLink(item.part), Batch: batchLink(item),
  Quantity: digits(item.quantity), Free: isAt(item) && digits(freeOf(item)), Where: placeLink(item.place, item.ref),
  Status: chip(STATUSES[item.status], isUsable(item) ? 'good' : 'bad') }),
actsOn('item', item), mends(() => wrongWithItem(item)), allocationTable(find.allocationsOf(item.id)),
find.itemsIn(item.id).length > 0 && section('What lies in it', contentTree(item)),
section('History', asked(report('history', item.id), timeline)), itemOrigins(item)];
function progress(rows, begun) {
  const done = sum(rows, 'done'), whole = sum(rows, 'quantity');
  return node('div', bar([['free', done, 'done'], ['held', sum(begun, 'quantity'), 'begun or allocated']], whole),
    soft(`${digits(done)} of ${digits(whole)}`));
}
const progressOf = begunOf => column('Progress', it => it.done / it.quantity, it => progress([it], begunOf(it)));

const nameColumn = column('Name', it => keyNames.get(it.id) ?? '', it => keyNames.has(it.id) &&
  name(keyNames.get(it.id)));
function lackOf(build) {
  if (!isOpenBuild(build)) return null;
  const lines = needsOf(build).filter(it => it.missing > 0 && !it.isOptional);
  return node(lines.length ? 'span.bad' : 'span.good', lines.length ? name(lines.map(it =>
    `${digits(it.missing)} \u00d7 ${partName(it.component)}`).join(', ')) : 'nothing');
}
const buildTable = rows => table('Builds', [rowNumbers('build'), nameColumn, parts('Of', 'part'), states(BUILD_STATES),
  progressOf(it => find.outputsOf(it.id)), column('Missing', null, lackOf)], rows);
const openTick = (view, query) => node('span', { 'data-view': true }, tick('only what is open', !query.has('all'),
  isOpen => { location.hash = `#/${view}${isOpen ? '' : '?all=1'}`; }));
const buildsView = (_, query) => ['Builds', acts(openTick('builds', query), act('build?back=builds', 'New build')),
  buildTable([...books.builds.values()].filter(it => query.has('all') || isOpenBuild(it)).reverse())];
function ordersView(_, query) {
  const lines = it => find.linesOf(it.id);
  const rows = [...books.orders.values()].filter(it => query.has('all') || it.state < 2).reverse();
  const columns = [rowNumbers('order'), nameColumn, column('Partner', 'partner', it => name(it.partner), 'head'),
    states(ORDER_STATES), numbers('Lines', it => lines(it).length),
    column('Progress', null, it => progress(lines(it), find.allocationsFor(`0 ${it.id}`)))];
  return ['Orders', acts(openTick('orders', query), act('order?side=purchase&back=orders', 'New purchase'),
    act('order?side=sale&back=orders', 'New sale')), ['Purchases', 'Sales'].map((title, side) =>
    listed(title, columns, rows.filter(it => it.side === side)))];
}

// What has the words that are looked for, in whatever way they are written: what begins with them stands first.
const FOUND = ['location', 'part', 'order', 'build', 'item'];
function findView(_, query, text = '') {
  const low = fold(text.trim()), words = wordsIn(text), loose = words.map(looselyIn);
  const [, asked = '', number] = low.match(/^([a-z]*) *(\d+)$/) ?? [];
  const found = FOUND.map(kind => {
    const one = number && (!asked || asked === kind) && rowOf(kind, Number(number));
    const rows = !words.length ? [] : choicesOf(kind).filter(it => it.row !== one && fitsWords(it, words, loose))
      .map(({ row }) => [rankOf(kind, row, low), row]).sort((a, b) => a[0] - b[0] ||
        inOrder(startOf(kind, a[1]), startOf(kind, b[1])) || a[1].id - b[1].id).map(it => it[1]);
    if (one && one.place !== GONE) rows.unshift(one);
    return [kind, rows];
  });
  const isSlipped = found.every(it => !it[1].length);
  if (isSlipped) for (const it of found) it[1] = bySlips(it[0], words);
  const sections = found.map(([kind, rows]) => section(`${capital(kind)}s: ${digits(rows.length)}`, rows.length > 0 &&
    table(kind + 's found', [column('What', it => wordsOf(kind, it.id), it => rowLink(kind, it.id), 'head')], rows)));
  return [`Found: ${text}`, isSlipped && found.some(it => it[1].length) && node('p.warn',
    'Nothing has these words. With a slip of one letter in them these have:'),
  [...sections].sort((a, b) => !!b.children[1] - !!a.children[1])];
}
