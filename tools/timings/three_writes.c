/* The writes of so many requests through the system's sqlite: three_writes FILE COUNT [GROUP]. Each request puts an
 * item's row and an entry of the history, by prepared statements. As many requests as GROUP says, or one, are one
 * transaction, which ends with the row of the counter. It prints the seconds that they took, without opening and
 * closing. */
#include <sqlite3.h>
#include <stdio.h>
#include <stdlib.h>
#include <time.h>

static sqlite3 *db;

static void must(int status)
{
    if (status != SQLITE_OK && status != SQLITE_DONE && status != SQLITE_ROW) {
        fprintf(stderr, "three_writes: %s\n", sqlite3_errmsg(db));
        exit(1);
    }
}

static void text(const char *sql)
{
    must(sqlite3_exec(db, sql, NULL, NULL, NULL));
}

static sqlite3_stmt *prepared(const char *sql)
{
    sqlite3_stmt *statement;
    must(sqlite3_prepare_v3(db, sql, -1, SQLITE_PREPARE_PERSISTENT, &statement, NULL));
    return statement;
}

static void once(sqlite3_stmt *statement)
{
    must(sqlite3_step(statement));
    must(sqlite3_reset(statement));
}

static void put_item(sqlite3_stmt *statement, sqlite3_int64 item, sqlite3_int64 quantity)
{
    sqlite3_int64 values[] = {item, 2, 0, 0, 0, quantity, 0, 1};
    for (int i = 0; i < 8; i++)
        must(i == 2 || i == 3 ? sqlite3_bind_null(statement, i + 1) : sqlite3_bind_int64(statement, i + 1, values[i]));
    once(statement);
}

static void put_entry(sqlite3_stmt *statement, sqlite3_int64 entry, sqlite3_int64 item, sqlite3_int64 quantity)
{
    sqlite3_int64 values[] = {entry, 0, 1, item, 2, quantity, 0, 1};
    for (int i = 0; i < 8; i++)
        must(i == 1 ? sqlite3_bind_text(statement, 2, "2030-01-02", -1, SQLITE_STATIC)
                    : sqlite3_bind_int64(statement, i + 1, values[i]));
    once(statement);
}

static void put_counter(sqlite3_stmt *statement, sqlite3_int64 next, sqlite3_int64 entries)
{
    sqlite3_int64 values[] = {1, 1, next, entries, 1000000000000, 1000000000000};
    for (int i = 0; i < 6; i++)
        must(sqlite3_bind_int64(statement, i + 1, values[i]));
    once(statement);
}

int main(int count, char **words)
{
    if (count != 3 && count != 4)
        return 2;
    sqlite3_int64 requests = atoll(words[2]), group = count == 4 ? atoll(words[3]) : 1;
    must(sqlite3_open(words[1], &db));
    text("PRAGMA journal_mode = WAL");
    text("PRAGMA synchronous = FULL");
    text("CREATE TABLE meta (one INTEGER PRIMARY KEY, version INTEGER NOT NULL, next INTEGER NOT NULL,"
         " entries INTEGER NOT NULL, max_numbers INTEGER NOT NULL, max_entries INTEGER NOT NULL) STRICT");
    text("CREATE TABLE items (id INTEGER PRIMARY KEY, part INTEGER NOT NULL, batch TEXT, serial TEXT,"
         " status INTEGER NOT NULL, quantity INTEGER NOT NULL, place INTEGER NOT NULL, ref INTEGER NOT NULL) STRICT");
    text("CREATE TABLE history (n INTEGER PRIMARY KEY, day TEXT NOT NULL, kind INTEGER NOT NULL, item INTEGER NOT NULL,"
         " part INTEGER NOT NULL, quantity INTEGER NOT NULL, place INTEGER NOT NULL, ref INTEGER NOT NULL) STRICT");
    sqlite3_stmt *begin = prepared("BEGIN");
    sqlite3_stmt *item = prepared("INSERT OR REPLACE INTO items VALUES (?1, ?2, ?3, ?4, ?5, ?6, ?7, ?8)");
    sqlite3_stmt *entry = prepared("INSERT OR REPLACE INTO history VALUES (?1, ?2, ?3, ?4, ?5, ?6, ?7, ?8)");
    sqlite3_stmt *counter = prepared("INSERT OR REPLACE INTO meta VALUES (?1, ?2, ?3, ?4, ?5, ?6)");
    sqlite3_stmt *commit = prepared("COMMIT");
    struct timespec from, to;
    clock_gettime(CLOCK_MONOTONIC, &from);
    for (sqlite3_int64 n = 1; n <= requests; n++) {
        sqlite3_int64 of = (n + 1) / 2 + 2, quantity = n % 2 ? 100 : 70;
        if (n % group == 1 || group == 1)
            once(begin);
        put_item(item, of, quantity);
        put_entry(entry, n, of, quantity);
        if (n % group == 0 || n == requests) {
            put_counter(counter, of + 1, n);
            once(commit);
        }
    }
    clock_gettime(CLOCK_MONOTONIC, &to);
    printf("%.6f\n", (double)(to.tv_sec - from.tv_sec) + (double)(to.tv_nsec - from.tv_nsec) / 1e9);
    return 0;
}
