// Elements. What stands in the books goes into them as text, and never as HTML.

// An element, its class behind a point. Of what follows, an object has its attributes and listeners, and all else
// stands in it, but for what is nothing, false or 0.
function node(tag, ...inner) {
  const [name, look] = tag.split('.'), made = document.createElement(name);
  if (look) made.className = look;
  for (const it of inner.flat(9)) {
    if (it?.constructor === Object) for (const [key, value] of Object.entries(it)) {
      if (typeof value === 'function') made.addEventListener(key, value);
      else if (value != null && value !== false) made.setAttribute(key, value === true ? '' : value);
    } else if (it) made.append(it);
  }
  return made;
}
const byId = id => document.getElementById(id), main = byId('main');
const name = text => node('bdi', text), soft = (...inner) => node('span.soft', inner);
const link = (to, ...inner) => node('a', { href: '#/' + to }, inner);
const digits = n => String(n).replace(/\B(?=(\d{3})+$)/g, '\u202f');
const signed = n => (n > 0 ? '+' : n < 0 ? '\u2212' : '') + digits(Math.abs(n));
const chip = (text, look = '') => node('span.chip ' + look, text);
const button = (text, click, look = '') => node('button.' + look, { type: 'button', click }, text);
const acts = (...inner) => node('div.row acts', inner);
const tick = (text, checked, change) =>
  node('label', node('input', { type: 'checkbox', checked, change: event => change(event.target.checked) }), text);
const section = (title, ...inner) => node('section', node('h2', title), inner);
// What is made when it is opened.
function opening(look, words, make, open) {
  const made = node('details.' + look, { open, toggle: () => made.children[1] || made.append(make()) },
    node(look ? 'summary.button' : 'summary', words), open && make());
  return made;
}
const panel = (title, make, isOpen) => opening('panel acts', title, () => node('div', make()), isOpen);
const facts = pairs => node('dl', Object.entries(pairs).map(([word, it]) => it && [node('dt', word), node('dd', it)]));
const list = rows => node('ul', rows.map(it => node('li', it))), each = (rows, made) => rows.map(it => [made(it), ' ']);
const says = (look, ...inner) =>
  node('div.said ' + look, { role: look === 'good' ? 'status' : 'alert', tabindex: -1 }, inner);

// A box for a whole number: plain text, so that neither wheel nor arrow changes it.
const numberBox = (label, more = {}) => node('input', { type: 'text', inputmode: 'numeric', autocomplete: 'off',
  'aria-label': label, ...more });
const NUMBER = ' *([0-9]{1,15}|[0-9]{1,3}([ ,\u00a0\u202f][0-9]{3}){1,4}) *';
const numberIn = text => RegExp(`^${NUMBER}$`).test(text) ? Number(text.replace(/\D/g, '')) : NaN;

function piece(look, share, title, ...inner) {
  const made = node('i.' + look, { title }, inner);
  made.style.flex = `${share} 0 0`;
  return made;
}
function bar(pieces, whole = 0) {
  const there = pieces.filter(it => it[1] > 0), rest = whole - sum(there, 1);
  const told = there.map(([, amount, word]) => `${word} ${digits(amount)}`);
  return node('span.bar', { role: 'img', 'aria-label': told.join(', ') || 'none' },
    there.map(([look, amount], at) => piece(look, amount, told[at])), rest > 0 && piece('', rest, 'left'));
}

let printing = [];   // what draws more of itself before it is printed
addEventListener('beforeprint', () => printing.forEach(it => it()));

// Draws rows: 25 at first, more as one scrolls or by the button, and 3,000 where they are printed.
function slices(parent, drawn) {
  let rows = [], at = 0;
  const more = button('', () => draw(1000), 'more');
  const watch = new IntersectionObserver(seen => seen.some(it => it.isIntersecting) && draw(100));
  const draw = count => {
    parent.append(...rows.slice(at, at + count).map(drawn));
    at = Math.min(rows.length, at + count);
    more.hidden = at >= rows.length;
    more.textContent = `Show more (${digits(at)} of ${digits(rows.length)} are shown)`;
    watch.unobserve(more);
    if (!more.hidden) watch.observe(more);
  };
  printing.push(() => draw(Math.max(0, 3000 - at)));
  return { more, next: () => draw(100),
    renew: fresh => { [rows, at] = [fresh, 0]; parent.replaceChildren(); draw(25); } };
}

// A column of a table: its title, what sorts it, what it shows of a row, and how; a phone leaves out what is late.
function column(title, of, show, look = '') {
  const by = typeof of === 'string' ? row => row[of] : of;
  return { title, by, show: show || by, look };
}
const cell = (title, show, look) => column(title, null, show, look);
function numbers(title, of, look = 'n') {
  const { by } = column(title, of);
  return { ...column(title, by, row => digits(by(row)), look), told: by };
}
function parts(title, of) {
  const { by } = column(title, of);
  return column(title, row => partName(by(row)).toLowerCase(), row => partLink(by(row)), 'head');
}
const rowNumbers = view => column(capital(view), 'id', row => link(`${view}/${row.id}`, row.id), 'n');
const states = words => column('State', 'state', row => chip(words[row.state]));

// A table of rows, to be sorted by its heads, or by a list where a phone shows none, saved as a file and printed alone.
// While the page is open it keeps how it is sorted.
const sortings = new Map();
function table(caption, columns, rows, save) {
  const word = `${here().split('?')[0]} ${caption}`;
  let [by, isDown] = sortings.get(word) ?? [], shown = rows;
  by = columns.find(it => it.by && it.title === by);
  const sort = (column, down) => {
    [by, isDown] = [column, down];
    sortings.set(word, [by?.title, isDown]);
    renew(rows);
  };
  const body = node('tbody'), none = soft('None.'), drawn = slices(body, row => node('tr', columns.map(it =>
    it.look === 'head' ? node('th', { scope: 'row' }, it.show(row)) :
      node('td.' + it.look, { 'data-title': it.title }, it.show(row)))));
  const heads = columns.map(it => node('th.' + it.look, { scope: 'col' },
    it.by ? button(it.title, () => sort(it, by === it && !isDown)) : it.title));
  const sorter = columns.some(it => it.by) && node('select.sorter', { 'aria-label': 'Sort by', 'data-view': true,
    change: () => sort(columns[sorter.value.slice(1)], sorter.value[0] === 'd') }, node('option', { value: '' },
    'Sort by'), columns.map((it, at) => it.by && ['up', 'down'].map(way =>
    node('option', { value: way[0] + at }, `${it.title}, ${way}`))));
  const grid = node('table', node('caption.unseen', caption), node('thead', node('tr', heads)), body);
  const tools = node('div.row tools', sorter, button('CSV', save ?? (() => saveTable(caption, columns, shown))),
    button('Print this', () => printOnly(whole)));
  const whole = node('div.table', tools, node('div.wrap', grid, none, drawn.more));
  const renew = fresh => {
    rows = fresh;
    heads.forEach((it, at) => it.ariaSort = columns[at] !== by ? 'none' : isDown ? 'descending' : 'ascending');
    const order = ([a], [b]) => (a < b ? -1 : a > b ? 1 : 0) * (isDown ? -1 : 1);
    if (sorter) sorter.value = by ? (isDown ? 'd' : 'u') + columns.indexOf(by) : '';
    shown = by ? rows.map(row => [by.by(row), row]).sort(order).map(it => it[1]) : rows;
    drawn.renew(shown);
    grid.hidden = tools.hidden = !rows.length;
    none.hidden = !grid.hidden;
  };
  renew(rows);
  return Object.assign(whole, { renew, next: drawn.next });
}
const listed = (title, columns, rows) => section(title, table(title, columns, rows));

// What a spreadsheet would take for a formula has a ' before it.
function csvOf(rows) {
  const cellOf = it => {
    const text = String(it ?? '').replace(/^[=+\-@\t\r]/, "'$&");
    return /[",\r\n;]/.test(text) ? `"${text.replaceAll('"', '""')}"` : text;
  };
  return '\ufeff' + rows.map(row => row.map(cellOf).join(',') + '\r\n').join('');
}
function textOf(it) {
  if (Array.isArray(it)) return it.map(textOf).join('');
  if (!(it instanceof Node)) return it ? String(it) : '';
  const box = it.matches?.('input') ? it : it.querySelector?.('input:not([type=checkbox])');
  return [it.textContent, box?.value, it.ariaLabel].filter(Boolean).join(' ').replace(/\u202f/g, '');
}
function saveTable(caption, columns, rows) {
  const good = columns.filter(it => !it.isAct);
  const told = rows.map(row => good.map(it => it.told ? it.told(row) : textOf(it.show(row)).trim()));
  const text = csvOf([good.map(it => it.title), ...told]);
  const word = `${document.title.replace(/ - invdesk$/, '')} ${caption}`.replace(/[^\w.-]+/g, '-').slice(0, 60);
  saveFile(`${word}-${today()}.csv`, text);
}
function saveFile(download, text, type = 'text/csv;charset=utf-8') {
  const href = URL.createObjectURL(new Blob([text], { type }));
  node('a', { href, download }).click();
  setTimeout(() => URL.revokeObjectURL(href), 10000);
}
// Prints one thing of the page alone, with the titles above it.
function printOnly(made) {
  const hidden = [];
  for (let it = made; it !== main; it = it.parentElement)
    hidden.push(...[...it.parentElement.children].filter(other => other !== it && !/H1|H2/.test(other.tagName)));
  hidden.forEach(it => it.classList.add('unprinted'));
  addEventListener('afterprint', () => hidden.forEach(it => it.classList.remove('unprinted')), { once: true });
  print();
}
