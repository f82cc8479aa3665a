// Work on builds.

function buildView(build, query) {
  const outputs = find.outputsOf(build.id), needs = needsOf(build), isLive = build.state === PROGRESS, { id } = build;
  const toBegin = leftOf(build) - begunOf(build), isTrackable = has(partAt(build.part), 'trackable');
  outputs.forEach(it => watchRow('item', it.id));
  const wantOf = (need, wanted, output) => ({ wanted, isOff: need.isOptional, line: need.line,
    fields: { build: id, line: need.id, ...output && { output: output.id } }, items: freeItems(partsFor(need.line)),
    what: node('span', name(partName(need.component)), need.isOptional && ' (optional)',
      output && [', output ', name(itemName(output))]) });
  const wants = needs.flatMap(need => !need.isTracked ? wantOf(need, need.missing) : outputs.map(it =>
    wantOf(need, Math.max(0, need.line.quantity * it.quantity - allocatedFor(build, need.line, it.id)), it)));
  const kindOf = it => [it.isOptional && chip('optional'), it.isTracked && chip('for each piece'),
    it.spent > 0 && `${digits(it.spent)} used up`];
  return [capital(wordsOf('build', id)), facts({ Build: id, Part: partLink(build.part),
    Done: progress([build], outputs), Missing: lackOf(build) }),
  acts(isOpenBuild(build) && !isLive && quick(build.state === ON_HOLD ? 'Go on with this build' : 'Issue this build',
    'issue_build', { build: id }, 'main')),
  isLive && toBegin > 0 && panel(`Begin outputs (${digits(toBegin)} left)`, () => inline('outputs', { build: id },
    { hides: ['build', ...isTrackable ? [] : ['serials']], title: 'Begin outputs', go: 'Begin these' })),
  build.state < ON_HOLD && allocateWork('allocate_build', ['build', id], wants),
  isLive && outputs.length > 0 && completeWork(build, outputs),
  isLive && !outputs.length && section('Complete the build', missingWords(build) ||
    node('p', 'All is made. What is allocated is used up then.'),
  acts(quick('Complete this build', 'complete_build', { build: id }, leftOf(build) ? '' : 'main'))),
  needs.length > 0 && listed('What it needs', [parts('Component', 'component'), numbers('Required', 'required'),
    numbers('Allocated', 'allocated'), numbers('Missing', 'missing'), numbers('Free', it => freeIn(it.component)),
    cell('Kind', kindOf, 'late')], needs),
  listed('Outputs', itemColumns(), outputs), allocationTable(find.allocationsFor(`1 ${id}`)),
  listed('Used up', itemColumns(partColumn), find.usedBy(id)), buildOrigins(build),
  isOpenBuild(build) && panel('Cancel this build', () => endWork(build), query.has('end')),
  build.state > PENDING && mends(() => wrongWithBuild(build, outputs)),
  actsOn('build', build, ['issue_build', 'outputs', 'complete_build', 'cancel_build', 'auto_allocate'])];
}
const toEnd = build => link(`build/${build.id}?end=1`, 'Use up what was used, and end the build');
function missingWords(build) {
  const lines = needsOf(build).filter(it => it.missing > 0 && !it.isOptional && !it.isTracked), left = leftOf(build);
  return left + lines.length > 0 && node('div.bad', { role: 'status' }, 'To be completed it lacks: ', list([
    ...left ? [`${digits(left)} of ${digits(build.quantity)} aren't made yet`] : [],
    ...lines.map(it => [name(ofLine(it.line, it.missing)), ` (${digits(freeIn(it.component))} free)`])]),
  toEnd(build));
}
function completeWork(build, outputs) {
  const lacks = item => lacksOf(build, item).map(it => ofLine(it.line, it.missing)).join(', ');
  const rows = outputs.map(item => ({ item, quantity: item.quantity, called: itemName(item),
    isOff: lacks(item) !== '' }));
  const near = find.allocationsFor(`1 ${build.id}`).map(it => rowOf('item', it.item).ref)[0];
  return section('Complete outputs', batch({ verb: 'Complete', past: 'Completed', rows, command: 'complete_output',
    fieldsOf: row => ({ output: row.item.id, ...placeIn(row) }), about: ['build', build.id],
    columns: [cell('Output', it => itemLink(it.item), 'head'), cell('Quantity', it => digits(it.quantity), 'n'),
      cell('Lacks', it => node(it.isOff ? 'span.bad' : 'span.good', name(lacks(it.item) || 'nothing'))),
      cell('Location', it => placeBox(it, build.part, rows, near))] }));
}
// What a build that is cancelled gives back, though it may be used up in truth.
function cancelWarning(build) {
  const unused = unusedOf(build);
  return unused.length > 0 && node('div.warn', { role: 'alert' }, build.done > 0 && node('b',
    `${digits(build.done)} of ${digits(build.quantity)} are made already. `), 'This is allocated and isn\'t used up. ',
  'It goes back into stock, though it may be used up in truth:', list(unused.map(it => [digits(it.quantity), ' of ',
    rowLink('item', it.item)])), !here().startsWith('build/') && toEnd(build));
}
function endWork(build) {
  const begun = begunOf(build), one = ['cancel_build', { build: build.id }];
  const rows = unusedOf(build).map(it => ({ ...it, called: wordsOf('item', it.item) }));
  const takes = it => books.lines.get(it.line).quantity * build.done - sum(find.spentOf(`${build.id} ${it.line}`),
    'quantity');
  return [cancelWarning(build), begun > 0 && node('p.bad', `${digits(begun)} are begun and not completed: they go.`),
    build.state !== PENDING && rows.length > 0 && section('Use up and end', node('p', 'What is ticked is used up: it ',
      'leaves the stock. The rest goes back. Then the build ends: the program calls it ', node('b', 'cancelled'),
      `, with ${digits(build.done)} of ${digits(build.quantity)} made.`), batch({ verb: 'Use up and end',
      past: 'Used up', about: ['build', build.id], rows, command: 'consume', fieldsOf: row => ({ allocation: row.id }),
      first: build.state === ON_HOLD ? [() => ['issue_build', one[1]]] : [], last: [() => one],
      end: ', and ended the build', columns: [cell('Item', it => rowLink('item', it.item), 'head'),
        cell('Quantity', it => digits(it.quantity), 'n'),
        cell('What is made takes', it => digits(takes(it)), 'n')] })),
    section('Cancel only', node('p', 'What is allocated goes back into stock, and outputs that are begun are gone.'),
      acts(quick('Cancel, and use nothing up', ...one)))];
}
