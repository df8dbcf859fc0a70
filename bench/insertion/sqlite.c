// Puts rows of a rowid and 36 bytes into a table in memory by one prepared statement, within one transaction.
#include <sqlite3.h>
#include <stdio.h>
#include <stdlib.h>
#include <string.h>

int main(int argc, char **argv) {
    long rows = argc > 2 ? atol(argv[1]) : 0;
    long factor = argc > 2 ? atol(argv[2]) : 1;
    char bytes[36];
    sqlite3 *db;
    sqlite3_stmt *insert;
    memset(bytes, 7, sizeof bytes);
    sqlite3_open(":memory:", &db);
    sqlite3_exec(db, "PRAGMA page_size = 4096; CREATE TABLE t(id INTEGER PRIMARY KEY, b BLOB); BEGIN", 0, 0, 0);
    sqlite3_prepare_v2(db, "INSERT INTO t VALUES(?, ?)", -1, &insert, 0);
    for (long i = 0; i < rows; i++) {
        sqlite3_bind_int64(insert, 1, i * factor % 1000003);
        sqlite3_bind_blob(insert, 2, bytes, sizeof bytes, SQLITE_STATIC);
        if (sqlite3_step(insert) != SQLITE_DONE) {
            fprintf(stderr, "%s\n", sqlite3_errmsg(db));
            return 1;
        }
        sqlite3_reset(insert);
    }
    sqlite3_finalize(insert);
    return sqlite3_exec(db, "COMMIT", 0, 0, 0);
}
