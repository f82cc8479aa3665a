// Work on orders, and how what is free is shared out.

const ofLine = (line, missing = line.quantity) => `${digits(missing)} \u00d7 ${partName(line.component ?? line.part)}`;
function orderView(order) {
  const lines = find.linesOf(order.id), isSale = order.side === 1, isLive = order.state === PROGRESS;
  const open = lines.filter(it => leftOf(it) > 0), held = find.allocationsFor(`0 ${order.id}`);
  lines.forEach(it => watchRow('order_line', it.id));
  const one = { order: order.id }, more = () => inline('order_line', one, { title: 'Add a line', go: 'Add this line' });
  return [capital(wordsOf('order', order.id)), facts({ Order: order.id, Partner: name(order.partner),
    Done: lines.length > 0 && progress(lines, held) }),
  lines.length > 0 && acts(order.state === PENDING && quick('Issue this order', 'issue_order', one, 'main'),
    isLive && !open.length && quick('Close this order', 'close_order', one, 'main')),
  isLive && !isSale && open.length > 0 && receiveWork(order, open),
  isLive && isSale && [allocateWork('allocate_sale', ['order', order.id], open.map(line => ({ fields: { line: line.id },
    line, wanted: wantedOf(line), items: byAge(freeItems([line.part])), what: name(amountOf(line)) }))),
  held.length > 0 && section('Ship', 'These leave the house: ', list(held.map(it => [digits(it.quantity), ' of ',
    rowLink('item', it.item)])), acts(quick('Ship what is allocated', 'ship', one, 'main')))],
  listed('Lines', [partColumn, numbers('Quantity', 'quantity'), progressOf(it => find.allocationsOn(`0 ${it.id}`)),
    numbers('Free', it => freeIn(it.part))], lines),
  isLive && panel('Add a line', more), order.state === PENDING && more(),
  isSale && [allocationTable(held), listed('With the customer', itemColumns(partColumn), find.sentFor(order.id))],
  order.state < 3 && mends(() => wrongWithOrder(order, lines, held)),
  actsOn('order', order, ['issue_order', 'close_order', 'order_line', 'ship'])];
}
function receiveWork(order, open) {
  const rows = open.map(line => ({ line, called: partName(line.part) }));
  const textBox = (row, word) => row[word] = boxed(row, node('input', { autocomplete: 'off',
    'aria-label': `${capital(word)} of ${row.called}` }));
  const fieldsOf = row => ({ line: row.line.id, ...row.batch.value && { batch: row.batch.value },
    ...row.serials?.value && { serials: row.serials.value }, ...placeIn(row), ...amountIn(row) });
  return section('Receive', node('p.soft', 'Serials are written as M1,M2 or as a range 1-20. ',
    link(`files?kind=receipts&order=${order.id}`, 'Rows from a file')), batch({ verb: 'Receive',
    past: 'Received', rows, command: 'receive', fieldsOf, about: ['order', order.id], columns: [
      cell('Part', it => partLink(it.line.part), 'head'),
      cell('Outstanding', it => digits(leftOf(it.line)), 'n'), cell('Quantity', it => amountBox(it, leftOf(it.line))),
      cell('Location', it => placeBox(it, it.line.part, rows)), cell('Batch', it => textBox(it, 'batch')),
      cell('Serials', it => has(partAt(it.line.part), 'trackable') && textBox(it, 'serials'))] }));
}
// What is free is shared out among what is wanted, the oldest item first.
function allocateWork(command, about, wants) {
  const left = new Map(), rows = [], short = [];
  for (const it of wants) {
    const given = shares(it.items, it.wanted, left).map(one => ({ ...it, ...one, called: wordsOf('item', one.item),
      isOff: it.isOff || it.line.component && !isOwn(it.line, rowOf('item', one.item).part) }));
    const missing = it.wanted - sum(given.filter(one => !one.isOff), 'quantity');
    rows.push(...given);
    if (missing > 0 && !it.isOff) short.push(ofLine(it.line, missing));
  }
  const fieldsOf = row => ({ ...row.fields, item: row.item, ...amountIn(row) });
  return rows.length + short.length > 0 && section('Allocate what is free, the oldest first', short.length > 0 &&
    node('p.bad', 'Not enough is free: ', name(short.join(', ')), '.'), rows.length > 0 && batch({ verb: 'Allocate',
    past: 'Allocated', about, rows, command, fieldsOf, columns: [cell('Item', it => rowLink('item', it.item), 'head'),
      cell('For', it => it.what.cloneNode(true)), cell('Quantity', it => amountBox(it, it.quantity))] }));
}
