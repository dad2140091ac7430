/* The text of bench/drive over SQLite: drive_baseline FILE reads inserts, deletes and lookups over two attributes from the
   standard input, and prints the replies of `hbpi FILE drive`, without the order. Each command is a transaction of its own, in
   a write-ahead log that is synced at each commit. Without FILE each line is parsed and answered, and no file is touched. */
#include <sqlite3.h>
#include <stdio.h>
#include <stdlib.h>
#include <string.h>

static sqlite3 *db;

static void must(int holds, const char *what)
{
    if (holds)
        return;
    fprintf(stderr, "drive_baseline: %s: %s\n", what, db ? sqlite3_errmsg(db) : "");
    exit(1);
}

static void run(const char *sql)
{
    must(sqlite3_exec(db, sql, 0, 0, 0) == SQLITE_OK, sql);
}

static sqlite3_stmt *prepared(const char *sql)
{
    sqlite3_stmt *made;
    must(sqlite3_prepare_v3(db, sql, -1, SQLITE_PREPARE_PERSISTENT, &made, 0) == SQLITE_OK, sql);
    return made;
}

static void open_file(const char *name)
{
    must(sqlite3_open(name, &db) == SQLITE_OK, name);
    run("PRAGMA journal_mode=WAL");
    run("PRAGMA synchronous=FULL");
    run("PRAGMA cache_size=-262144");
    run("CREATE TABLE IF NOT EXISTS records (x INTEGER, y INTEGER, body TEXT, PRIMARY KEY (x, y)) WITHOUT ROWID");
}

/* Steps a statement once at the point, and says what came. */
static int step(sqlite3_stmt *statement, long long x, long long y)
{
    sqlite3_bind_int64(statement, 1, x);
    sqlite3_bind_int64(statement, 2, y);
    return sqlite3_step(statement);
}

int main(int count, char **words)
{
    char line[300], verb[8], body[64];
    long long x, y;
    sqlite3_stmt *insert = 0, *take = 0, *look = 0;
    if (count > 1) {
        open_file(words[1]);
        insert = prepared("INSERT OR IGNORE INTO records VALUES (?1, ?2, ?3)");
        take = prepared("DELETE FROM records WHERE x = ?1 AND y = ?2");
        look = prepared("SELECT body FROM records WHERE x = ?1 AND y = ?2");
    }
    for (int number = 1; fgets(line, sizeof line, stdin); number++) {
        body[0] = 0;
        must(sscanf(line, "%*d %7s %lld %lld =%63s", verb, &x, &y, body) >= 3, line);
        if (!db) {
            printf(verb[0] == 'l' ? "%d none\n" : "%d ok\n", number);
        } else if (verb[0] == 'i') {
            sqlite3_bind_text(insert, 3, body, -1, SQLITE_STATIC);
            must(step(insert, x, y) == SQLITE_DONE, "insert");
            printf("%d %s\n", number, sqlite3_changes(db) ? "ok" : "duplicate");
            sqlite3_reset(insert);
        } else if (verb[0] == 'd') {
            must(step(take, x, y) == SQLITE_DONE, "delete");
            printf("%d %s\n", number, sqlite3_changes(db) ? "ok" : "absent");
            sqlite3_reset(take);
        } else if (step(look, x, y) == SQLITE_ROW) {
            printf("%d found =%s\n", number, (const char *)sqlite3_column_text(look, 0));
            sqlite3_reset(look);
        } else {
            printf("%d none\n", number);
            sqlite3_reset(look);
        }
    }
    return 0;
}
