// The day: today's, also over midnight, unless it was set by hand.

const day = byId('day');
let isByHand = false;
function today() {
  const now = new Date();
  return new Date(now - 60000 * now.getTimezoneOffset()).toISOString().slice(0, 10);
}
function keepDay() {
  isByHand &&= day.value !== today();
  if (!isByHand && day.value !== today()) day.value = today();
  byId('byhand').hidden = !isByHand;
}
byId('byhand').append('Set by hand. ', button('Today', () => { isByHand = false; keepDay(); }));
day.addEventListener('input', () => { isByHand = true; });
day.addEventListener('change', keepDay);
