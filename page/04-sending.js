// What is asked of the program.

let token = '', turn = Promise.resolve(), provenAt = null;
const setToken = text => { [token, provenAt] = [text, null]; };
const hexOf = bytes => [...new Uint8Array(bytes)].map(it => it.toString(16).padStart(2, '0')).join('');
const bytesOf = text => new TextEncoder().encode(text);
const fetchNow = (path, options) => fetch(path, { ...options, cache: 'no-store', signal: AbortSignal.timeout(120000) });

// What listens at the port may be another program than the one that the page came from. So it proves that it knows the
// token before that is sent: when the page is opened, where an answer failed to come, and where a proof is old.
const PROOF_HOLDS = 5000;
const isProven = () => provenAt !== null && Math.abs(Date.now() - provenAt) < PROOF_HOLDS;
const unproven = why => Object.assign(new Error(`${why} Nothing was sent`), { isUnproven: true });
async function prove() {
  await dismissWorkers();
  const nonce = hexOf(crypto.getRandomValues(new Uint8Array(16)));
  const reply = await fetchNow(`/prove/${nonce}`), told = await reply.text();
  const key = await crypto.subtle.importKey('raw', bytesOf(token), { name: 'HMAC', hash: 'SHA-256' }, false, ['sign']);
  const right = await crypto.subtle.sign('HMAC', key, bytesOf(`${location.port || 80}:${nonce}`));
  if (reply.status !== 200 || told !== hexOf(right))
    throw unproven("What listens at this port doesn't know the token: it is another program, or the token is wrong.");
  provenAt = Date.now();
}
// A worker that another program left in the browser, when it listened at this port, would be handed what is sent.
async function dismissWorkers() {
  const workers = await navigator.serviceWorker?.getRegistrations() ?? [];
  await Promise.all(workers.map(it => it.unregister()));
  if (navigator.serviceWorker?.controller)
    throw unproven('Another program at this port had left a worker in the browser. Load the page again.');
}

// Asks for one thing after another, and gives no request up: the program serves one connection at a time.
function ask(path, options) {
  const answer = turn.then(() => askNow(path, options));
  turn = answer.catch(() => {});
  return answer;
}
async function askNow(path, { headers, ...options } = {}) {
  if (token && !isProven()) await prove();
  const all = { ...headers, ...token && { Authorization: `Bearer ${token}` } };
  try {
    const reply = await fetchNow(path, { ...options, headers: all }), text = await reply.text();
    if (reply.status === 401) askForToken();
    return { status: reply.status, tag: reply.headers.get('ETag'), text };
  } catch (fault) {
    provenAt = null;
    throw fault;
  }
}
const statusWords = status => `The program answered ${status}${status === 500 ? ': its file failed' : ''}.`;
async function get(path, headers) {
  const answer = await ask(path, { headers });
  if (answer.status !== 200 && answer.status !== 304) throw new Error(statusWords(answer.status));
  return answer;
}
const report = async (which, id) =>
  (await get(`/report/${which}/${id}`)).text.split('\n').filter(Boolean).map(line => line.split('\t'));

// A key of the page's own, which begins with the day, as one of a journal does.
function newKey() {
  keepDay();
  return `${day.value}/page-${hexOf(crypto.getRandomValues(new Uint8Array(12)))}`;
}
function lineOf(command, fields, key = newKey()) {
  keepDay();
  return JSON.stringify({ day: day.value, do: command, key, ...fields });
}
const store = {
  get: key => JSON.parse(sessionStorage.getItem(key) ?? 'null'),
  set(key, value) { try { sessionStorage.setItem(key, JSON.stringify(value)); } catch { /* there is no room */ } },
  drop: key => sessionStorage.removeItem(key),
  keys: begin => Object.keys(sessionStorage).filter(it => it.startsWith(begin)),
};
// Sends a line, or a file, and again where no answer came: by its key, or by the keys of its rows, it is done once.
// Tells whether it is done, or why not; where that isn't known it is open, and kept with the marks of its books.
const OPEN = 'open:', RUN = '/run', LINES = '/lines';
const UNKNOWN = "It isn't known whether this was done. Send it again: it is done once. ";
async function send(line, path = RUN, key = path === RUN ? JSON.parse(line).key : path) {
  store.set(OPEN + key, openAt(key) ?? { line, path, books: marksOf(), was: factsIn(line, path) });
  for (let tries = 1; ; tries++) {
    try {
      const { status, text } = await ask(path, { method: 'POST', body: line });
      const faults = text.split('\n').filter(Boolean), said = path !== RUN && status === 200 ? { report: text } :
        JSON.parse(faults[0]);
      const word = said.refused || said.fault;
      if (status >= 500) return { isOpen: true, why: statusWords(status) };
      store.drop(OPEN + key);
      if (status === 200) return { isDone: true, tries, ...said };
      return word ? { word, said, faults, why: [MEANINGS.get(word) ?? word, soft(` (${word}. Nothing has changed.)`)]
      } : { why: statusWords(status) };
    } catch (fault) {
      if (tries === 3) return { isOpen: true, why: fault.message };
      await new Promise(go => setTimeout(go, 400 * tries));
    }
  }
}
// What is told where the same wasn't answered, which has to be settled before.
const SETTLE = { isHeld: true, why: 'The same was sent before and not answered. Settle that first, above.' };
// Sends a file, or lines, unless another text of that name wasn't answered.
function sendText(text, path, key = path) {
  const open = openAt(key);
  if (!open || open.line === text || !areThese(open.books)) return send(text, path, key);
  offerOpen(true);
  return SETTLE;
}
const openAt = key => {
  const kept = store.get(OPEN + key);
  return typeof kept === 'string' ? { line: kept, path: RUN, books: [], was: [] } : kept;
};
const factsIn = (line, path) => path !== RUN ? [] : (({ do: command, ...fields }) =>
  namedIn(command, fields).map(([kind, id]) => [kind, id, factOf(kind, id)]))(JSON.parse(line));
// The key of a line that wasn't answered and did the same to the same rows, in whatever amount. It has to be settled
// before another is sent: to send it later would undo what came after it.
const AMOUNTS = ['do', 'day', 'key', 'location', 'quantity', 'batch', 'serials', 'status'];
const openLike = (command, fields, key) => store.keys(OPEN).map(it => it.slice(OPEN.length)).find(other => {
  const { line, path, books } = openAt(other);
  if (path !== RUN || other === key || !areThese(books)) return false;
  const was = JSON.parse(line), names = Object.keys({ ...was, ...fields }).filter(it => !AMOUNTS.includes(it));
  return was.do === command && names.every(it => String(was[it] ?? '') === String(fields[it] ?? ''));
});
// For half a second nothing is sent: a click may be meant for what stood there before.
let calm = 0;
const hush = () => { calm = performance.now() + 500; };
const isEarly = go => go?.disabled || performance.now() < calm || !day.reportValidity();
