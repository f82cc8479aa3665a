// Which view is shown.

const VIEWS = { stock: stockView, low: lowView, shopping: shoppingView, locations: locationsView, builds: buildsView,
  orders: ordersView, recent: recentView, do: doView, files: filesView, lists: listsView, list: listView,
  location: locationsView, sheet: sheetView,
  part: partView, line: lineView, item: itemView, build: buildView, order: orderView, batch: batchView,
  find: findView };
const here = () => location.hash.replace(/^#\/?/, '');
function place() {
  const [at, query] = here().split('?'), [view, word = ''] = at.split('/');
  const decoded = new URLSearchParams('word=' + word.replaceAll('+', '%2B')).get('word');
  return [Object.hasOwn(VIEWS, view) ? view : 'stock', decoded, new URLSearchParams(query)];
}

// What a view speaks of, as it was when it was shown; and what it does when the books change.
let watched = new Map(), whenRead = [], isDirty = false, busy = 0;
function watchRow(kind, id) {
  const key = `${kind} ${id}`;
  if (!watched.has(key)) watched.set(key, [kind, id, factOf(kind, id)]);
}
main.addEventListener('input', event => { if (!event.target.closest('[data-view]')) isDirty = true; });
const isWriting = () => busy > 0 || isDirty || ['do', 'sheet', 'files'].includes(place()[0]) ||
  main.contains(document.activeElement) &&
  document.activeElement.matches('input:not([data-view]), select:not([data-view]), textarea');
// Books that were changed by oneself are what one knows of.
const rewatch = () => watched.forEach(it => { it[2] = factOf(it[0], it[1]); });

function show(isMoved) {
  if (isStopped) return main.replaceChildren(node('h1', 'The program was stopped'), node('p', { role: 'status' },
    'Its file alone has all of the books. Nothing is read or sent until it is started again on its machine.'),
  button('Try again', start));
  const [view, word, query] = place(), height = scrollY, kind = view === 'sheet' ? 'location' : view;
  const row = ROWS[kind] && rowOf(kind, Number(word)), focused = !isMoved && document.activeElement?.id;
  const caret = focused && document.activeElement.selectionStart;
  const opened = isMoved ? [] : [...main.querySelectorAll('details[open] > summary')].map(it => it.textContent);
  if (flash && flash.at !== here().split('?')[0]) flash = null;
  [printing, watched, whenRead, isDirty] = [[], new Map(), [], false];
  byId('notices').querySelector('.news')?.remove();
  if (isMoved) { hush(); offerOpen(); }
  if (isOther) byId('notices').append(node('div.said warn news', { role: 'alert' },
    'These are the books of another workshop than before. What was typed for that is gone.'));
  isOther = false;
  if (row && view !== 'sheet') watchRow(kind, row.id);
  const [title, ...inner] =
    ROWS[kind] && !row ? [`No ${kind} ${word}`, 'There is no such row.'] : VIEWS[view](row, query, word);
  const head = node('h1', { tabindex: -1 }, name(title));
  main.replaceChildren(listLinks(view, row, query, word), head, ...flash ? [flash.made] : [], node('div', inner));
  document.title = `${title} - invdesk`;
  byId('views').replaceChildren(...Object.keys(VIEWS).slice(0, 10).map(it =>
    node('a', { href: '#/' + it, 'aria-current': (it === view || it === kind + 's') && 'page' }, capital(it))));
  if (opened.length) for (const it of main.querySelectorAll('details > summary'))
    if (opened.includes(it.textContent)) it.parentElement.open = true;
  if (isMoved) head.focus({ preventScroll: true });
  else if (focused && byId(focused) && main.contains(byId(focused))) {
    byId(focused).focus({ preventScroll: true });
    if (caret != null && byId(focused).type === 'search') byId(focused).setSelectionRange(caret, caret);
  }
  scrollTo(0, isMoved ? 0 : height);
  if (isMoved && query.has('end')) main.querySelector('details[open]')?.scrollIntoView();
}
// After an act one is where one was, or in the form again, and is told what was done. Who went elsewhere stays there.
function comeBack(from, to, made, form) {
  if (!from.isConnected) { made.classList.add('news'); return byId('notices').append(made); }
  flash = { at: to.split('?')[0], made };
  history.replaceState(null, '', '#/' + to.replace(/\?end=1$/, ''));
  hush();
  show(false);
  scrollTo(0, 0);
  const again = form && main.querySelector(`form[aria-label="${form}"] input`);
  (again?.checkVisibility() ? again : made).focus({ preventScroll: true });
}
const tell = text => { byId('status').textContent = text; };
function askForToken(why) {
  const box = node('input', { id: 'token', type: 'password', required: true });
  const submit = event => {
    event.preventDefault();
    setToken(box.value.trim());
    start();
  };
  main.replaceChildren(node('h1', 'The token'), ...why ? [node('p.bad', { role: 'alert' }, `${why}.`)] : [],
    node('form.card', { submit, 'aria-label': 'Token' }, node('label', 'The token of the program', box),
      node('button.main', 'Go on')));
}
function failed(fault) {
  tag = null;   // what is read next is shown
  if (byId('token')) return;
  if (fault.isUnproven) askForToken(fault.message);
  else main.replaceChildren(node('h1', "The program doesn't answer"),
    node('p.bad', { role: 'alert' }, fault.message), button('Try again', start));
}
async function start() {
  const begun = performance.now();
  isStopped = false;
  try {
    await refresh();
    show(true);
    tell(`Read in ${Math.round(performance.now() - begun)} ms.`);
    warmUp();
    await named();
  } catch (fault) {
    if (fault.isUnproven) askForToken(fault.message);
    else if (!find) failed(fault);
  }
}
async function named() {
  if (!await readNames(ownersShown())) return;
  warmUp();
  if (!isWriting()) show(false);
}
// What this window sent and was never answered is offered again, under its key; but not to other books.
function offerOpen(isAsked) {
  byId('notices').querySelectorAll('.open').forEach(it => it.remove());
  for (const key of busy && !isAsked ? [] : store.keys(OPEN).map(it => it.slice(OPEN.length))) {
    const { line, path, books, was } = openAt(key), told = name(path === RUN ? line : key);
    const forget = button('Forget it', () => { store.drop(OPEN + key); made.remove(); });
    const again = button('Send it again', async () => {
      if (busy) return;
      again.disabled = true;
      const answer = await settle(key);
      const refused = answer.report ? [...toldIn(answer.report)].filter(it => !it[1].ids) : [];
      made.replaceChildren(!answer.isDone ? notDone(answer) : says(refused.length ? 'warn' : 'good',
        'It is done now, once. ', refused.length > 0 && ['Refused: ', list(refused.map(([number, it]) =>
          `row ${number}: ${it.refused}`))]));
      if (place()[0] === 'sheet') show(false);
      else renew();
    });
    const since = areThese(books) ? was.map(([kind, id, fact]) => [fact, factOf(kind, id)]).filter(it =>
      it[0] !== it[1]) : [];
    const made = node('div.said warn open', areThese(books) ? [node('b', 'Not answered: '), told, ' ', UNKNOWN,
      since.length > 0 && ['Since it was sent: ', since.map(([was, now]) => [name(was), ' \u2192 ', name(now), '. '])],
      again] : [node('b', 'Not answered, and of another workshop: '), told, " It isn't offered to this one."],
    ' ', forget);
    byId('notices').append(made);
  }
}
function warmUp() {
  const jobs = [find.sortedItems, ...FOUND.map(kind => () => choicesOf(kind))], of = find;
  const next = () => {
    if (of !== find || !jobs.length) return;
    jobs.shift()();
    (self.requestIdleCallback ?? setTimeout)(next);
  };
  (self.requestIdleCallback ?? setTimeout)(next);
}
// Reads anew. What is being written stays, and what changed of it is told.
async function renew(isAsked) {
  keepDay();
  if (isStopped) return;
  try {
    const isNew = await refresh();
    away();
    if (isNew) warmUp();
    if (isOther || isNew && !isWriting()) show(isOther);
    else if (isNew) news();
    if (isAsked) tell(isNew ? 'The books have changed.' : 'Nothing has changed.');
    await named();
  } catch (fault) {
    if (isWriting()) away(fault);
    else failed(fault);
  }
}
// Says that the program doesn't answer, while something is written that has to stay; and no more when it does.
function away(fault) {
  const told = byId('notices').querySelector('.away');
  if (!fault) told?.remove();
  else if (!told) byId('notices').append(node('div.said bad away', { role: 'alert' }, node('b',
    "The program doesn't answer. "), fault.message, '. What you typed stays here, and is sent when you send it.'));
}
function news() {
  if (busy) return;
  whenRead.forEach(it => it());
  const changed = [...watched.values()].map(([kind, id, was]) => [was, factOf(kind, id)]).filter(it => it[0] !== it[1]);
  byId('notices').querySelector('.news')?.remove();
  if (changed.length) byId('notices').append(node('div.said warn news', { role: 'alert' }, node('b',
    'This has changed meanwhile: '), list(changed.slice(0, 8).map(([was, now]) => [name(was), ' \u2192 ', name(now)])),
  'What you typed is still there. ', place()[0] !== 'do' && button('Show it anew, without that', () => show(false))));
}
// Takes the token out of the address, where it stands in it.
function takeToken() {
  const told = location.hash.match(/^#token=(.+)$/);
  if (!told) return false;
  setToken(told[1]);
  history.replaceState(null, '', '#/stock');
  return true;
}
addEventListener('hashchange', () => {
  if (takeToken()) start();
  if (!find) return;
  show(true);
  renew();
});
addEventListener('focus', () => {
  hush();
  if (find) renew();
});
addEventListener('visibilitychange', () => { if (find && document.visibilityState === 'visible') renew(); });
setInterval(() => {
  keepDay();
  if (find && document.visibilityState === 'visible') renew();
}, 20000);
setInterval(keepDay, 1000);
byId('again').addEventListener('click', () => renew(true));
byId('print').addEventListener('click', () => print());
byId('find').addEventListener('submit', event => {
  event.preventDefault();
  location.hash = '#/find/' + encodeURIComponent(byId('find').text.value);
});
addEventListener('keydown', event => {
  if (event.key !== '/' || event.ctrlKey || event.metaKey || event.target.matches('input, select')) return;
  event.preventDefault();
  byId('find').text.value = '';
  byId('find').text.focus();
});
keepDay();
takeToken();
start();
