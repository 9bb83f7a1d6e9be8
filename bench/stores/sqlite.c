// A queue over the C library of SQLite, with the tables, the statements and the pragmas of the proved one: appends,
// offers and releases so many rows so many times.
//
//     sqlite FILE ROWS TURNS
//
// prints the nanoseconds of the appends, the offers and the releases, and the sum of the ids offered. Its statements
// are prepared once.
#include <sqlite3.h>
#include <stdint.h>
#include <stdio.h>
#include <stdlib.h>
#include <time.h>

static sqlite3 *db;

static void fail(const char *what) {
    fprintf(stderr, "%s: %s\n", what, sqlite3_errmsg(db));
    exit(1);
}

static void run(const char *sql) {
    if (sqlite3_exec(db, sql, NULL, NULL, NULL) != SQLITE_OK) fail(sql);
}

static sqlite3_stmt *prepared(const char *sql) {
    sqlite3_stmt *statement;
    if (sqlite3_prepare_v3(db, sql, -1, SQLITE_PREPARE_PERSISTENT, &statement, NULL) != SQLITE_OK) fail(sql);
    return statement;
}

static void step(sqlite3_stmt *statement) {
    if (sqlite3_step(statement) != SQLITE_DONE) fail("step");
    sqlite3_reset(statement);
}

static int64_t now(void) {
    struct timespec time;
    clock_gettime(CLOCK_MONOTONIC, &time);
    return time.tv_sec * 1000000000ll + time.tv_nsec;
}

static const char *const tables =
    "CREATE TABLE form (number INTEGER NOT NULL CHECK (number BETWEEN 1 AND 1000));"
    "CREATE TABLE queue (id INTEGER PRIMARY KEY AUTOINCREMENT CHECK (id BETWEEN 1 AND 4611686018427387904),"
    " lane INTEGER NOT NULL CHECK (lane BETWEEN 0 AND 8), point INTEGER NOT NULL CHECK (point BETWEEN 0 AND 65535),"
    " flags INTEGER NOT NULL CHECK (flags BETWEEN 0 AND 255), value INTEGER NOT NULL,"
    " time INTEGER CHECK (time BETWEEN 0 AND 281474976710655));"
    "CREATE TABLE lanes (lane INTEGER PRIMARY KEY CHECK (lane BETWEEN 0 AND 8),"
    " cap INTEGER NOT NULL CHECK (cap BETWEEN 1 AND 4096),"
    " lost INTEGER NOT NULL CHECK (lost BETWEEN 0 AND 4611686018427387904),"
    " raised INTEGER NOT NULL CHECK (raised BETWEEN 0 AND 1));"
    "INSERT INTO form VALUES (1);"
    "INSERT INTO lanes VALUES (0, 4096, 0, 0), (1, 4096, 0, 0), (2, 4096, 0, 0), (3, 4096, 0, 0), (4, 4096, 0, 0),"
    " (5, 4096, 0, 0), (6, 4096, 0, 0), (7, 4096, 0, 0), (8, 4096, 0, 0);";

int main(int count, char **words) {
    if (count != 4 || sqlite3_open(words[1], &db) != SQLITE_OK) fail("sqlite FILE ROWS TURNS");
    int rows = atoi(words[2]), turns = atoi(words[3]);
    run("PRAGMA locking_mode = EXCLUSIVE; PRAGMA journal_mode = WAL; PRAGMA synchronous = FULL");
    run("BEGIN");
    run(tables);
    run("COMMIT");
    sqlite3_stmt *begin = prepared("BEGIN IMMEDIATE"), *commit = prepared("COMMIT");
    sqlite3_stmt *insert =
        prepared("INSERT INTO queue (lane, point, flags, value, time) VALUES (?1, ?2, ?3, ?4, ?5)");
    sqlite3_stmt *offer = prepared(
        "SELECT id, point, flags, value, time FROM queue WHERE lane = ?1 AND id > ?2 ORDER BY id LIMIT ?3");
    sqlite3_stmt *release = prepared("DELETE FROM queue WHERE lane = ?1 AND id <= ?2");
    int64_t appends = 0, offers = 0, releases = 0, ids = 0, last = 0;
    for (int turn = 0; turn < turns; turn++) {
        int64_t begun = now();
        step(begin);
        for (int row = 0; row < rows; row++) {
            sqlite3_bind_int64(insert, 1, 2);
            sqlite3_bind_int64(insert, 2, row);
            sqlite3_bind_int64(insert, 3, 1);
            sqlite3_bind_int64(insert, 4, row);
            sqlite3_bind_int64(insert, 5, 1000);
            step(insert);
        }
        step(commit);
        int64_t appended = now();
        sqlite3_bind_int64(offer, 1, 2);
        sqlite3_bind_int64(offer, 2, 0);
        sqlite3_bind_int64(offer, 3, rows);
        while (sqlite3_step(offer) == SQLITE_ROW) {
            last = sqlite3_column_int64(offer, 0);
            ids += last;
        }
        sqlite3_reset(offer);
        int64_t shown = now();
        step(begin);
        for (int lane = 0; lane < 9; lane++) {
            sqlite3_bind_int64(release, 1, lane);
            sqlite3_bind_int64(release, 2, last);
            step(release);
        }
        step(commit);
        int64_t released = now();
        appends += appended - begun, offers += shown - appended, releases += released - shown;
    }
    printf("%lld %lld %lld %lld\n", (long long)appends, (long long)offers, (long long)releases, (long long)ids);
    return 0;
}
