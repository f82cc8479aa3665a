-- Loads into PostgreSQL what `invdesk export` printed of each table, from a file of its name: meta.csv and so on. It is
-- done in one step, and in the place of what was there: psql -1 -v ON_ERROR_STOP=1 -d workshop -f tables.sql
SET client_encoding = 'UTF8';
SET client_min_messages = warning;

CREATE TABLE IF NOT EXISTS meta (one bigint PRIMARY KEY, version bigint NOT NULL, next bigint NOT NULL,
  entries bigint NOT NULL, max_numbers bigint NOT NULL, max_entries bigint NOT NULL);
CREATE TABLE IF NOT EXISTS categories (id bigint PRIMARY KEY, name text NOT NULL, parent bigint);
CREATE TABLE IF NOT EXISTS locations (id bigint PRIMARY KEY, name text NOT NULL, parent bigint);
CREATE TABLE IF NOT EXISTS parts (id bigint PRIMARY KEY, name text NOT NULL, category bigint, template bigint,
  flags bigint NOT NULL, retired bigint NOT NULL);
CREATE TABLE IF NOT EXISTS lines (id bigint PRIMARY KEY, assembly bigint NOT NULL, component bigint NOT NULL,
  quantity bigint NOT NULL, flags bigint NOT NULL);
CREATE TABLE IF NOT EXISTS substitutes (id bigint PRIMARY KEY, line bigint NOT NULL, part bigint NOT NULL);
CREATE TABLE IF NOT EXISTS items (id bigint PRIMARY KEY, part bigint NOT NULL, batch text, serial text,
  status bigint NOT NULL, quantity bigint NOT NULL, place bigint NOT NULL, ref bigint NOT NULL);
CREATE TABLE IF NOT EXISTS history (n bigint PRIMARY KEY, day text NOT NULL, kind bigint NOT NULL,
  item bigint NOT NULL, part bigint NOT NULL, quantity bigint NOT NULL, place bigint NOT NULL, ref bigint NOT NULL);
CREATE TABLE IF NOT EXISTS orders (id bigint PRIMARY KEY, side bigint NOT NULL, partner text NOT NULL,
  state bigint NOT NULL);
CREATE TABLE IF NOT EXISTS order_lines (id bigint PRIMARY KEY, owner bigint NOT NULL, part bigint NOT NULL,
  quantity bigint NOT NULL, done bigint NOT NULL);
CREATE TABLE IF NOT EXISTS builds (id bigint PRIMARY KEY, part bigint NOT NULL, quantity bigint NOT NULL,
  state bigint NOT NULL, done bigint NOT NULL);
CREATE TABLE IF NOT EXISTS allocations (id bigint PRIMARY KEY, item bigint NOT NULL, quantity bigint NOT NULL,
  side bigint NOT NULL, owner bigint NOT NULL, line bigint NOT NULL, output bigint NOT NULL);
CREATE TABLE IF NOT EXISTS kept (word text PRIMARY KEY, command text NOT NULL, answer text NOT NULL);
CREATE TABLE IF NOT EXISTS spent (id bigint PRIMARY KEY, build bigint NOT NULL, line bigint NOT NULL,
  quantity bigint NOT NULL);

TRUNCATE meta, categories, locations, parts, lines, substitutes, items, history, orders, order_lines, builds,
  allocations, kept, spent;
\copy meta FROM 'meta.csv' CSV HEADER
\copy categories FROM 'categories.csv' CSV HEADER
\copy locations FROM 'locations.csv' CSV HEADER
\copy parts FROM 'parts.csv' CSV HEADER
\copy lines FROM 'lines.csv' CSV HEADER
\copy substitutes FROM 'substitutes.csv' CSV HEADER
\copy items FROM 'items.csv' CSV HEADER
\copy history FROM 'history.csv' CSV HEADER
\copy orders FROM 'orders.csv' CSV HEADER
\copy order_lines FROM 'order_lines.csv' CSV HEADER
\copy builds FROM 'builds.csv' CSV HEADER
\copy allocations FROM 'allocations.csv' CSV HEADER
\copy kept FROM 'kept.csv' CSV HEADER
\copy spent FROM 'spent.csv' CSV HEADER
