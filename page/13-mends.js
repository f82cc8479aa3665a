// What mends a mistake: rows of whether it applies, what went wrong in a clerk's words, and the acts.
const mends = make => panel('When something went wrong', () => node('dl', make().filter(it => it[0])
  .map(([, wrong, ...how]) => [node('dt', wrong), node('dd', how)])));
const takeOut = it => actOn('remove', { item: it.id }, ['Take out of ', name(wordsOf('item', it.id))]);
const giveBack = it => quick(['Give back ', name(wordsOf('allocation', it.id))], 'release', { allocation: it.id });
function wrongWithItem(item) {
  const isHere = isAt(item), one = { item: item.id }, isPiece = !!item.serial, held = find.allocationsOf(item.id);
  const inner = find.itemsIn(item.id);
  const anew = text => actOn('found', { part: item.part, ...isHere && { location: item.ref }, quantity: 1,
    ...item.batch && { batch: item.batch } }, text);
  return [
    [isHere && !isPiece, 'Took too much out, or more is here than the books say', actOn('add', one, 'Put some back'),
      ' or ', actOn('count', one, 'Count it again')],
    [isHere, 'Received or found too much: fewer are here', actOn('remove', one, 'Take the surplus out'),
      soft(' An order counts them as received. If they still come, add a line to it.')],
    [isHere && isPiece, 'It has the wrong serial', actOn('remove', { ...one, quantity: 1 },
      'First take it off the books'), ' then ', anew('Find it with the right one'),
    soft(' The wrong serial stays taken.')],
    [isHere, 'It lies somewhere else, or its status is wrong', actOn('transfer', one, 'Move it'), ' or ',
      actOn('set_status', one, 'Set its status')],
    [held.length, 'It is allocated to the wrong order or build', each(held, giveBack)],
    [item.place === OFF, 'It was taken off the books by mistake', actOn('reinstate', one, 'Bring it back')],
    [item.place === GONE, 'All of it was taken out by mistake', anew('Find it anew')],
    [item.place === IN, 'It was put into the wrong item', actOn('uninstall', one, 'Take it out')],
    [item.place === SENT, 'It was shipped by mistake, or came back', actOn('return_item', one, 'Take it back')],
    [item.place === USED, 'It wasn\'t used up in truth', 'Nothing takes that back: ', anew('Find it anew')],
    [item.place === OUTPUT, 'It was begun by mistake, or is spoilt', outputMends(item)],
    [isHere && inner.length, 'The wrong piece was put into it', each(inner, it => actOn('uninstall', { item: it.id },
      ['Take out ', name(itemName(it))])), 'or ', actOn('disassemble', one, 'Take it all apart')],
  ];
}
const outputMends = it => [quick(['Cancel output ', name(lot(it) || it.id)], 'cancel_output', { output: it.id }), ' ',
  quick(['Scrap output ', name(lot(it) || it.id)], 'scrap_output', { output: it.id })];
function wrongWithOrder(order, lines, held) {
  const isOpen = order.state < 2, isSale = order.side === 1, done = lines.filter(it => it.done > 0);
  const newest = part => find.itemsOf(part).filter(isAt).slice(-3).reverse();
  const came = done.flatMap(it => newest(it.part)), pieces = came.filter(it => it.serial);
  const sent = find.sentFor(order.id);
  return [
    [isOpen, 'The partner or a line is wrong', done.length > 0 && 'What is done of it stays with it. ',
      anewForm(order, lines)],
    [!isSale && came.length, 'Received too much', each(came, takeOut),
      soft(' The order counts it as received. If more comes, add a line.')],
    [!isSale && pieces.length, 'Received with a wrong serial', 'Open the piece: ', each(pieces, itemLink)],
    [isSale && held.length, 'The wrong item is allocated', each(held, giveBack)],
    [sent.length, 'Shipped by mistake, or it came back', each(sent, it => actOn('return_item', { item: it.id },
      ['Take back ', name(itemName(it))]))],
  ];
}
// The same order once more, with another partner or other lines; this one is cancelled.
function anewForm(order, lines) {
  const partner = node('input', { 'aria-label': 'Right partner', value: order.partner, autocomplete: 'off' });
  const rows = lines.map(line => ({ line, called: partName(line.part), isOff: !leftOf(line) }));
  const first = [() => ['order', { side: SIDES[order.side], partner: partner.value }]], made = () => first[0].ids[0];
  return node('div', node('label', 'Partner', partner), batch({ verb: 'Make it anew, and cancel this one',
    past: 'Made anew:', about: ['order', order.id], rows, command: 'order_line', to: () => `order/${made()}`, first,
    fieldsOf: row => ({ order: first[0].ids && made(), part: row.line.part, ...amountIn(row) }),
    last: [...order.state === PROGRESS ? [() => ['issue_order', { order: made() }]] : [],
      () => ['cancel_order', { order: order.id }]],
    columns: [cell('Part', it => name(it.called), 'head'),
      cell('Quantity', it => amountBox(it, leftOf(it.line) || 1))] }));
}
function wrongWithBuild(build, outputs) {
  const isOpen = isOpenBuild(build), made = build.done ? find.itemsOf(build.part).filter(isAt).slice(-3) : [];
  const used = linesFor(build.part).flatMap(line => partsFor(line).flatMap(find.itemsOf).filter(isFree).slice(0, 2));
  return [
    [isOpen && outputs.length, 'An output was begun by mistake, or is spoilt', each(outputs, outputMends)],
    [made.length, 'Completed too many, or too early', each(made, it => it.serial ? actOn('disassemble', { item: it.id },
      ['Take apart ', name(itemName(it))]) : takeOut(it)), soft(' The build counts it as made all the same.')],
    [isOpen, 'Its part or its quantity is wrong', 'Cancel it, above, and make ', actOn('build', { part: build.part,
      quantity: build.quantity }, 'a new build')],
    [build.state === 3 && used.length, 'It was cancelled, though parts were used up', each(used, takeOut)],
  ];
}
