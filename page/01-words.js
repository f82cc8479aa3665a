// Words.

// What a command is called where its name doesn't tell it well, and the first command of each group.
const TITLES = { found: 'Found stock', order: 'New order', order_line: 'New line of an order', build: 'New build',
  add: 'Add to an item', remove: 'Take out', count: 'Count', outputs: 'Begin outputs', consume: 'Use up' };
const GROUPS = { add_category: 'Parts, places and bills', found: 'Stock', order: 'Orders', build: 'Builds' };
// What a flag of a part allows.
const FLAG_WORDS = {
  template: 'Other parts can be variants of it.', assembly: 'It has a bill of other parts and can be built.',
  component: 'It can stand in the bill of another part.', trackable: 'Its pieces can have serials.',
  purchaseable: 'It can be bought, on a purchase.', salable: 'It can be sold, on a sale.',
  virtual: 'It is never in stock, as an hour of work; no other flag but component goes with it.',
};
const [AT, IN, OUTPUT, SENT, USED, OFF, GONE] = [0, 1, 2, 3, 4, 5, 6], ALLOCATABLE = [0, 1, 2, 7];
const [PENDING, PROGRESS] = [0, 1], ON_HOLD = 2;
const capital = text => text.charAt(0).toUpperCase() + text.slice(1), plain = word => word.replace(/[_/]/g, ' ');
const rowsOf = text => text.trim().split('\n').map(row => row.split(' | '));
const FORMS = new Map(rowsOf(COMMANDS).map(([said, refusals, effect]) => {
  const [command, ...fields] = said.split(' ');
  return [command, { command, title: TITLES[command] || capital(plain(command)), refusals,
    does: /^(an?|new) /.test(effect) ? `It makes ${effect}.` : `${capital(effect)}.`, fields: fields.map(field => {
      const [name, kind = name] = field.replace('?', '').split(':');
      return { name, kind, isOptional: field.endsWith('?') };
    }) }];
}));
const MEANINGS = new Map(rowsOf(WORDS));
