/* The text of bench/clients over another store: clients_baseline sqlite|lmdb|postgres PLACE CLIENTS [ATTRIBUTES]

   Reads commands over so many attributes (2) from the standard input, in the form of `hbpi FILE drive`; step lines are passed over. Each
   session's commands go, in their order, through a client of its own: a thread with a connection, which it has before the clock
   begins. Each command is a transaction, and each change is on the disk before the client's next command. Standard output gets the
   seconds from the first command to the last answer, by the clock and of the process, and then the replies by line, a search's
   without its records.

   SQLite keeps a write-ahead log that is synced at each commit; PLACE is a new file. Only one client may write to it at a time, and
   waits for that at a mutex: SQLite's own waiting sleeps. LMDB syncs at each commit; PLACE is a new folder. PostgreSQL has
   synchronous_commit on; PLACE is the folder of a running server's socket. */
#include <ctype.h>
#include <libpq-fe.h>
#include <lmdb.h>
#include <pthread.h>
#include <sqlite3.h>
#include <stdint.h>
#include <stdio.h>
#include <stdlib.h>
#include <string.h>
#include <time.h>

enum { CLIENTS = 16, ATTRIBUTES = 4, SQL = 500 };
enum verb { INSERT, DELETE, LOOKUP, SEARCH, VERBS };
static const char *names[VERBS] = {"insert", "delete", "lookup", "search"};

/* A line. Of a search the values are the least and the greatest of each attribute in turn. */
struct command {
    int number, session;
    enum verb verb;
    long long values[2 * ATTRIBUTES];
    char body[40];
    char reply[64];
};

/* What does a client's commands. The replies go into the commands. */
struct store {
    void (*prepare)(void);
    void *(*connect)(void);
    void (*act)(void *client, struct command *command);
};

static const char *place;
static struct command *commands;
static long count;
static int clients, attributes = 2;
static pthread_barrier_t barrier;

static void must(int holds, const char *what, const char *why) {
    if (holds) return;
    fprintf(stderr, "clients_baseline: %s: %s\n", what, why ? why : "");
    exit(1);
}

static void reply(struct command *command, int done) {
    static const char *otherwise[VERBS] = {"duplicate", "absent", "none", ""};
    strcpy(command->reply, done ? "ok" : otherwise[command->verb]);
}

/* Adds a form for each attribute, with words between: # is its number, < and > are those of the ends of a box in it. */
static void add_each(char *sql, const char *form, const char *between) {
    for (int at = 1; at <= attributes; at++) {
        if (at > 1) strcat(sql, between);
        for (const char *sign = form; *sign; sign++) {
            int number = *sign == '#' ? at : *sign == '<' ? 2 * at - 1 : *sign == '>' ? 2 * at : 0;
            sprintf(sql + strlen(sql), number ? "%d" : "%c", number ? number : *sign);
        }
    }
}

static char *create_sql(char *sql, const char *type, const char *end) {
    char form[40];
    snprintf(form, sizeof form, "v# %s", type);
    strcpy(sql, "CREATE TABLE record (");
    add_each(sql, form, ", ");
    strcat(sql, ", body TEXT, PRIMARY KEY (");
    add_each(sql, "v#", ", ");
    return strcat(strcat(sql, "))"), end);
}

/* The statement of a verb, whose parameters have this sign in front. */
static char *verb_sql(char *sql, enum verb verb, char sign) {
    static const char *begins[VERBS] = {"INSERT INTO record VALUES (", "DELETE FROM record WHERE ", "SELECT body FROM record WHERE ", "SELECT * FROM record WHERE "};
    char form[40];
    snprintf(form, sizeof form, verb == INSERT ? "%c#" : verb == SEARCH ? "v# BETWEEN %c< AND %c>" : "v# = %c#", sign, sign);
    strcpy(sql, begins[verb]);
    add_each(sql, form, verb == INSERT ? ", " : " AND ");
    if (verb == INSERT) sprintf(sql + strlen(sql), ", %c%d) ON CONFLICT DO NOTHING", sign, attributes + 1);
    return sql;
}

/* SQLite. */

struct sqlite { sqlite3 *file; sqlite3_stmt *of[VERBS]; };
static pthread_mutex_t writing = PTHREAD_MUTEX_INITIALIZER;

static void sqlite_run(sqlite3 *file, const char *sql) {
    must(sqlite3_exec(file, sql, 0, 0, 0) == SQLITE_OK, sql, sqlite3_errmsg(file));
}

static sqlite3 *sqlite_open(void) {
    sqlite3 *file;
    must(sqlite3_open_v2(place, &file, SQLITE_OPEN_READWRITE | SQLITE_OPEN_CREATE | SQLITE_OPEN_NOMUTEX, 0) == SQLITE_OK, place, "");
    sqlite3_busy_timeout(file, 60000);
    sqlite_run(file, "PRAGMA journal_mode=WAL");
    sqlite_run(file, "PRAGMA synchronous=FULL");
    return file;
}

static void sqlite_prepare(void) {
    sqlite3 *file = sqlite_open();
    char sql[SQL];
    sqlite_run(file, create_sql(sql, "INTEGER", " WITHOUT ROWID"));
    sqlite3_close(file);
}

static void *sqlite_connect(void) {
    char sql[SQL];
    struct sqlite *made = calloc(1, sizeof *made);
    made->file = sqlite_open();
    for (int verb = 0; verb < VERBS; verb++)
        must(sqlite3_prepare_v3(made->file, verb_sql(sql, verb, '?'), -1, SQLITE_PREPARE_PERSISTENT, &made->of[verb], 0) == SQLITE_OK, sql, "");
    return made;
}

static void sqlite_act(void *client, struct command *command) {
    struct sqlite *it = client;
    sqlite3_stmt *statement = it->of[command->verb];
    int values = command->verb == SEARCH ? 2 * attributes : attributes, changes = command->verb <= DELETE, step, found = 0;
    for (int at = 0; at < values; at++) sqlite3_bind_int64(statement, at + 1, command->values[at]);
    if (command->verb == INSERT) sqlite3_bind_text(statement, attributes + 1, command->body, -1, SQLITE_STATIC);
    if (changes) pthread_mutex_lock(&writing);
    while ((step = sqlite3_step(statement)) == SQLITE_ROW) {
        found++;
        if (command->verb == LOOKUP) snprintf(command->reply, sizeof command->reply, "found =%s", (const char *)sqlite3_column_text(statement, 0));
    }
    must(step == SQLITE_DONE, names[command->verb], sqlite3_errmsg(it->file));
    if (changes) reply(command, sqlite3_changes(it->file) > 0);
    sqlite3_reset(statement);
    if (changes) pthread_mutex_unlock(&writing);
    if (command->verb == SEARCH) snprintf(command->reply, sizeof command->reply, "box %d", found);
    if (command->verb == LOOKUP && !found) reply(command, 0);
}

/* LMDB: a key is the values, highest byte first. */

static MDB_env *env;
static MDB_dbi dbi;

static void lmdb_must(int code, const char *what) { must(code == 0, what, mdb_strerror(code)); }

static void lmdb_prepare(void) {
    MDB_txn *txn;
    lmdb_must(mdb_env_create(&env), "create");
    lmdb_must(mdb_env_set_mapsize(env, 1L << 30), "size");
    lmdb_must(mdb_env_open(env, place, 0, 0600), place);
    lmdb_must(mdb_txn_begin(env, NULL, 0, &txn), "begin");
    lmdb_must(mdb_dbi_open(txn, NULL, MDB_CREATE, &dbi), "open");
    lmdb_must(mdb_txn_commit(txn), "commit");
}

static void *lmdb_connect(void) { return env; }

/* The key of every value, or of every second one. */
static MDB_val lmdb_key(uint64_t room[ATTRIBUTES], const long long *values, int each) {
    for (int at = 0; at < attributes; at++) room[at] = __builtin_bswap64((uint64_t)values[each * at]);
    return (MDB_val){8 * attributes, room};
}

static void lmdb_change(struct command *command, MDB_val key) {
    MDB_txn *txn;
    MDB_val body = {strlen(command->body), command->body};
    lmdb_must(mdb_txn_begin(env, NULL, 0, &txn), "begin");
    int code = command->verb == INSERT ? mdb_put(txn, dbi, &key, &body, MDB_NOOVERWRITE) : mdb_del(txn, dbi, &key, NULL);
    if (code == 0) lmdb_must(mdb_txn_commit(txn), "commit");
    else mdb_txn_abort(txn);
    must(code == 0 || code == MDB_KEYEXIST || code == MDB_NOTFOUND, "change", mdb_strerror(code));
    reply(command, code == 0);
}

/* Goes over the keys from the box's least first value to its greatest, and counts those in the box. */
static int lmdb_count(MDB_txn *txn, const long long *box) {
    uint64_t room[ATTRIBUTES];
    MDB_cursor *cursor;
    MDB_val key = lmdb_key(room, box, 2), body;
    int found = 0;
    lmdb_must(mdb_cursor_open(txn, dbi, &cursor), "cursor");
    for (int code = mdb_cursor_get(cursor, &key, &body, MDB_SET_RANGE); code == 0; code = mdb_cursor_get(cursor, &key, &body, MDB_NEXT)) {
        uint64_t bytes[ATTRIBUTES];
        int inside = 1;
        memcpy(bytes, key.mv_data, 8 * attributes);
        if ((long long)__builtin_bswap64(bytes[0]) > box[1]) break;
        for (int at = 1; at < attributes; at++) {
            long long value = (long long)__builtin_bswap64(bytes[at]);
            inside &= value >= box[2 * at] && value <= box[2 * at + 1];
        }
        found += inside;
    }
    mdb_cursor_close(cursor);
    return found;
}

static void lmdb_act(void *client, struct command *command) {
    (void)client;
    uint64_t room[ATTRIBUTES];
    MDB_val key = lmdb_key(room, command->values, 1), body;
    if (command->verb <= DELETE) {
        lmdb_change(command, key);
        return;
    }
    MDB_txn *txn;
    lmdb_must(mdb_txn_begin(env, NULL, MDB_RDONLY, &txn), "begin");
    if (command->verb == SEARCH) snprintf(command->reply, sizeof command->reply, "box %d", lmdb_count(txn, command->values));
    else if (mdb_get(txn, dbi, &key, &body) == 0) snprintf(command->reply, sizeof command->reply, "found =%.*s", (int)body.mv_size, (char *)body.mv_data);
    else reply(command, 0);
    mdb_txn_abort(txn);
}

/* PostgreSQL. */

static PGconn *postgres_open(void) {
    char words[300];
    snprintf(words, sizeof words, "host=%s user=postgres dbname=postgres", place);
    PGconn *made = PQconnectdb(words);
    must(PQstatus(made) == CONNECTION_OK, words, PQerrorMessage(made));
    return made;
}

static void postgres_run(PGconn *to, const char *sql) {
    PGresult *result = PQexec(to, sql);
    must(PQresultStatus(result) == PGRES_COMMAND_OK, sql, PQerrorMessage(to));
    PQclear(result);
}

static void postgres_prepare(void) {
    PGconn *to = postgres_open();
    postgres_run(to, "SET client_min_messages = warning");
    postgres_run(to, "DROP TABLE IF EXISTS record");
    char sql[SQL];
    postgres_run(to, create_sql(sql, "bigint", ""));
    postgres_run(to, "CHECKPOINT");
    PQfinish(to);
}

static void *postgres_connect(void) {
    char sql[SQL];
    PGconn *made = postgres_open();
    for (int verb = 0; verb < VERBS; verb++) {
        PGresult *result = PQprepare(made, names[verb], verb_sql(sql, verb, '$'), 0, NULL);
        must(PQresultStatus(result) == PGRES_COMMAND_OK, sql, PQerrorMessage(made));
        PQclear(result);
    }
    return made;
}

static void postgres_act(void *client, struct command *command) {
    char rooms[2 * ATTRIBUTES][24];
    const char *values[2 * ATTRIBUTES];
    int numbers = command->verb == SEARCH ? 2 * attributes : attributes;
    for (int at = 0; at < numbers; at++) {
        snprintf(rooms[at], sizeof rooms[at], "%lld", command->values[at]);
        values[at] = rooms[at];
    }
    if (command->verb == INSERT) values[attributes] = command->body;
    PGresult *result = PQexecPrepared(client, names[command->verb], numbers + (command->verb == INSERT), values, NULL, NULL, 0);
    must(PQresultStatus(result) == (command->verb <= DELETE ? PGRES_COMMAND_OK : PGRES_TUPLES_OK), names[command->verb], PQerrorMessage(client));
    if (command->verb <= DELETE) reply(command, atoi(PQcmdTuples(result)) > 0);
    else if (command->verb == SEARCH) snprintf(command->reply, sizeof command->reply, "box %d", PQntuples(result));
    else if (PQntuples(result)) snprintf(command->reply, sizeof command->reply, "found =%s", PQgetvalue(result, 0, 0));
    else reply(command, 0);
    PQclear(result);
}

/* The clients. */

static const struct store sqlite_store = {sqlite_prepare, sqlite_connect, sqlite_act};
static const struct store lmdb_store = {lmdb_prepare, lmdb_connect, lmdb_act};
static const struct store postgres_store = {postgres_prepare, postgres_connect, postgres_act};
static const struct store *store;

static void read_text(void) {
    char line[300], verb[16], *at;
    long room = 0;
    int words;
    for (int number = 1; fgets(line, sizeof line, stdin); number++) {
        if (!isdigit(line[0])) continue;
        if (count == room) commands = realloc(commands, (room = 2 * room + 1024) * sizeof *commands);
        struct command *it = &commands[count++];
        memset(it, 0, sizeof *it);
        it->number = number;
        must(sscanf(line, "%d %15s%n", &it->session, verb, &words) == 2, "line", line);
        while (strcmp(verb, names[it->verb])) must(++it->verb < VERBS, "verb", line);
        at = line + words;
        for (int value = 0; value < attributes * (it->verb == SEARCH ? 2 : 1); value++) it->values[value] = strtoll(at, &at, 10);
        if (it->verb == INSERT) must(sscanf(at, " =%39s", it->body) == 1, "body", line);
        else must(*at == '\n', "values", line);
    }
}

static void *work(void *session) {
    void *client = store->connect();
    pthread_barrier_wait(&barrier);
    pthread_barrier_wait(&barrier);
    for (long at = 0; at < count; at++)
        if (commands[at].session == (int)(intptr_t)session) store->act(client, &commands[at]);
    return NULL;
}

static double now(clockid_t clock) {
    struct timespec time;
    clock_gettime(clock, &time);
    return time.tv_sec + time.tv_nsec / 1e9;
}

int main(int argc, char **argv) {
    pthread_t threads[CLIENTS];
    must(argc == 4 || argc == 5, "words", "sqlite|lmdb|postgres PLACE CLIENTS [ATTRIBUTES]");
    store = argv[1][0] == 's' ? &sqlite_store : argv[1][0] == 'l' ? &lmdb_store : &postgres_store;
    place = argv[2];
    clients = atoi(argv[3]);
    if (argc == 5) attributes = atoi(argv[4]);
    must(clients >= 1 && clients <= CLIENTS, "clients", argv[3]);
    must(attributes >= 1 && attributes <= ATTRIBUTES, "attributes", argv[4]);
    read_text();
    store->prepare();
    pthread_barrier_init(&barrier, NULL, clients + 1);
    for (intptr_t at = 0; at < clients; at++) must(pthread_create(&threads[at], NULL, work, (void *)(at + 1)) == 0, "thread", "");
    pthread_barrier_wait(&barrier);
    double begun = now(CLOCK_MONOTONIC), used = now(CLOCK_PROCESS_CPUTIME_ID);
    pthread_barrier_wait(&barrier);
    for (int at = 0; at < clients; at++) pthread_join(threads[at], NULL);
    printf("%.6f %.6f\n", now(CLOCK_MONOTONIC) - begun, now(CLOCK_PROCESS_CPUTIME_ID) - used);
    for (long at = 0; at < count; at++) printf("%d %s\n", commands[at].number, commands[at].reply);
    return 0;
}
