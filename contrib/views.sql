-- What the tables of a copy say, in words. sqlite3 and psql take it alike: sqlite3 -init views.sql copy.db
--
-- The views are of one session, and the copy stays as it was. docs/TABLES.md tells the tables and asks the views.

-- the codes of the tables as words
CREATE TEMP VIEW codes (what, code, word) AS
VALUES
  ('status', 0, 'OK'), ('status', 1, 'Attention'), ('status', 2, 'Damaged'), ('status', 3, 'Destroyed'),
  ('status', 4, 'Rejected'), ('status', 5, 'Lost'), ('status', 6, 'Quarantined'), ('status', 7, 'Returned'),
  ('kind', 0, 'received'), ('kind', 1, 'found'), ('kind', 2, 'built'), ('kind', 3, 'consumed'), ('kind', 4, 'shipped'),
  ('kind', 5, 'returned'), ('kind', 6, 'written'), ('kind', 7, 'moved'), ('kind', 8, 'cut'), ('kind', 9, 'poured'),
  ('kind', 10, 'installed'), ('kind', 11, 'taken_out'), ('kind', 12, 'marked'),
  ('reason', 0, 'removed'), ('reason', 1, 'counted'), ('reason', 2, 'disassembled'), ('reason', 3, 'scrapped'),
  ('side', 0, 'purchase'), ('side', 1, 'sale'),
  ('order', 0, 'pending'), ('order', 1, 'in progress'), ('order', 2, 'complete'), ('order', 3, 'cancelled'),
  ('build', 0, 'pending'), ('build', 1, 'in production'), ('build', 2, 'on hold'), ('build', 3, 'cancelled'),
  ('build', 4, 'complete');

-- the way to each location, from the top down
CREATE TEMP VIEW ways AS
WITH RECURSIVE down (location, way) AS (
  SELECT id, name FROM locations WHERE parent IS NULL
  UNION ALL
  SELECT l.id, down.way || ' / ' || l.name FROM down JOIN locations l ON l.parent = down.location)
SELECT location, way FROM down;

-- each item with its root, which lies in no other item; how deep in it the item lies, the root having 1; and where the
-- root is
CREATE TEMP VIEW roots AS
WITH RECURSIVE up (item, root, depth) AS (
  SELECT id, id, 1 FROM items
  UNION ALL
  SELECT up.item, i.ref, up.depth + 1 FROM up JOIN items i ON i.id = up.root WHERE i.place = 1)
SELECT up.item, up.root, up.depth, r.place, r.ref FROM up JOIN items r ON r.id = up.root WHERE r.place <> 1;

-- each place in words
CREATE TEMP VIEW places AS
SELECT 0 AS place, location AS ref, way AS words FROM ways
UNION ALL SELECT 1, i.id, 'in item ' || i.id || ' (' || p.name || ' ' || i.serial || ')'
  FROM items i JOIN parts p ON p.id = i.part WHERE i.serial IS NOT NULL
UNION ALL SELECT 2, b.id, 'begun by build ' || b.id || ' of ' || p.name FROM builds b JOIN parts p ON p.id = b.part
UNION ALL SELECT 3, id, 'sent for order ' || id || ' to ' || partner FROM orders
UNION ALL SELECT 4, b.id, 'used by build ' || b.id || ' of ' || p.name FROM builds b JOIN parts p ON p.id = b.part
UNION ALL SELECT 5, code, 'off the books: ' || word FROM codes WHERE what = 'reason'
UNION ALL SELECT 6, 0, 'gone';

-- what lies at which location, by itself (depth 1) or in another item; 'free' is what may still be allocated
CREATE TEMP VIEW stock_by_location AS
SELECT w.location, w.way, r.depth, r.item, i.part, p.name, i.quantity, COALESCE(a.quantity, 0) AS allocated,
  CASE WHEN i.place = 0 AND i.status IN (0, 1, 2, 7) THEN i.quantity - COALESCE(a.quantity, 0) ELSE 0 END AS free,
  i.batch, i.serial, s.word AS status
FROM roots r JOIN ways w ON r.place = 0 AND w.location = r.ref
JOIN items i ON i.id = r.item
JOIN parts p ON p.id = i.part
JOIN codes s ON s.what = 'status' AND s.code = i.status
LEFT JOIN (SELECT item, SUM(quantity) AS quantity FROM allocations GROUP BY item) a ON a.item = i.id;

-- what happened, in order
CREATE TEMP VIEW history_in_words AS
SELECT h.n, h.day, k.word AS kind, h.item, h.part, p.name, h.quantity, i.batch, i.serial, w.words AS place
FROM history h JOIN items i ON i.id = h.item
JOIN parts p ON p.id = h.part
JOIN codes k ON k.what = 'kind' AND k.code = h.kind
JOIN places w ON w.place = h.place AND w.ref = h.ref;

-- each line of each order, with what of it is outstanding; an order without lines has a row without a line
CREATE TEMP VIEW orders_in_words AS
SELECT o.id AS number, d.word AS side, s.word AS state, o.partner, l.id AS line, l.part, p.name, l.quantity AS wanted,
  l.done, CASE WHEN l.id IS NOT NULL THEN COALESCE(a.quantity, 0) END AS allocated,
  CASE WHEN o.state IN (0, 1) THEN l.quantity - l.done WHEN l.id IS NOT NULL THEN 0 END AS outstanding
FROM orders o JOIN codes d ON d.what = 'side' AND d.code = o.side
JOIN codes s ON s.what = 'order' AND s.code = o.state
LEFT JOIN order_lines l ON l.owner = o.id
LEFT JOIN parts p ON p.id = l.part
LEFT JOIN (SELECT line, SUM(quantity) AS quantity FROM allocations WHERE side = 0 GROUP BY line) a ON a.line = l.id;

-- what became of each part: received + found + built + returned = present + consumed + shipped + written, of which
-- 'sent' is what was shipped and not returned
CREATE TEMP VIEW what_became AS
SELECT p.id AS part, p.name, COALESCE(h.received, 0) AS received, COALESCE(h.found, 0) AS found,
  COALESCE(h.built, 0) AS built, COALESCE(h.returned, 0) AS returned, COALESCE(i.present, 0) AS present,
  COALESCE(h.consumed, 0) AS consumed, COALESCE(h.shipped, 0) AS shipped, COALESCE(h.written, 0) AS written,
  COALESCE(i.sent, 0) AS sent
FROM parts p
LEFT JOIN (
  SELECT part, SUM(CASE kind WHEN 0 THEN quantity END) AS received, SUM(CASE kind WHEN 1 THEN quantity END) AS found,
    SUM(CASE kind WHEN 2 THEN quantity END) AS built, SUM(CASE kind WHEN 3 THEN quantity END) AS consumed,
    SUM(CASE kind WHEN 4 THEN quantity END) AS shipped, SUM(CASE kind WHEN 5 THEN quantity END) AS returned,
    SUM(CASE kind WHEN 6 THEN quantity END) AS written
  FROM history GROUP BY part) h ON h.part = p.id
LEFT JOIN (
  SELECT i.part, SUM(CASE r.place WHEN 0 THEN i.quantity END) AS present,
    SUM(CASE r.place WHEN 3 THEN i.quantity END) AS sent
  FROM roots r JOIN items i ON i.id = r.item GROUP BY i.part) i ON i.part = p.id;
