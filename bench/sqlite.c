/* A ring of frames in SQLite, in WAL mode with synchronous=FULL: a table of blobs by number. A group is one transaction.

       sqlite make PATH SIZE FRAMES
       sqlite append PATH SIZE GROUP GROUPS RECYCLED

   `make` fills a new file with so many frames and puts them out of the log. `append` adds so many groups, and where RECYCLED is 1 each
   transaction takes as many of the oldest frames away as it adds. Everything else is as SQLite has it from the start: pages of 4,096 bytes, and the log is put
   into the file by the commit that makes it 1,000 pages long, and by the last connection that closes. */
#include <sqlite3.h>
#include <stdio.h>
#include <stdlib.h>
#include <string.h>

static sqlite3 *db;

static void fail(const char *what) {
    fprintf(stderr, "%s: %s\n", what, sqlite3_errmsg(db));
    exit(1);
}

static void run(const char *text) {
    if (sqlite3_exec(db, text, 0, 0, 0) != SQLITE_OK)
        fail(text);
}

static sqlite3_stmt *prepared(const char *text) {
    sqlite3_stmt *statement;
    if (sqlite3_prepare_v2(db, text, -1, &statement, 0) != SQLITE_OK)
        fail(text);
    return statement;
}

static void step(sqlite3_stmt *statement) {
    if (sqlite3_step(statement) != SQLITE_DONE || sqlite3_reset(statement) != SQLITE_OK)
        fail("step");
}

static sqlite3_int64 one_number(const char *text) {
    sqlite3_stmt *statement = prepared(text);
    if (sqlite3_step(statement) != SQLITE_ROW)
        fail(text);
    sqlite3_int64 number = sqlite3_column_int64(statement, 0);
    sqlite3_finalize(statement);
    return number;
}

int main(int argc, char **argv) {
    int makes = argc == 5 && !strcmp(argv[1], "make");
    if (!makes && (argc != 7 || strcmp(argv[1], "append")))
        return 2;
    int size = atoi(argv[3]), count = atoi(argv[4]), groups = makes ? 1 : atoi(argv[5]), recycled = !makes && atoi(argv[6]);
    void *bytes = malloc(size);
    if (!bytes || sqlite3_open(argv[2], &db) != SQLITE_OK)
        return 1;
    memset(bytes, 1, size);
    run("pragma journal_mode=wal");
    run("pragma synchronous=full");
    if (makes)
        run("create table frames (number integer primary key, bytes blob not null)");
    sqlite3_int64 next = one_number("select ifnull(max(number) + 1, 0) from frames"), first = one_number("select ifnull(min(number), 0) from frames");
    sqlite3_stmt *begin = prepared("begin immediate"), *commit = prepared("commit"), *insert = prepared("insert into frames values (?, ?)"),
                 *delete = prepared("delete from frames where number = ?");
    for (int n = 0; n < groups; n++) {
        step(begin);
        for (int i = 0; i < count; i++) {
            if (recycled) {
                sqlite3_bind_int64(delete, 1, first++);
                step(delete);
            }
            sqlite3_bind_int64(insert, 1, next++);
            sqlite3_bind_blob(insert, 2, bytes, size, SQLITE_STATIC);
            step(insert);
        }
        step(commit);
    }
    sqlite3_finalize(begin);
    sqlite3_finalize(commit);
    sqlite3_finalize(insert);
    sqlite3_finalize(delete);
    if (sqlite3_close(db) != SQLITE_OK)
        return 1;
    printf("appended, next %lld\n", (long long)next);
    return 0;
}
