// Answers look-ups from a database of sqlite3, as `castor ask` does: each line of the input is a
// number, and gets the rows of the table orders that have it in a column, in one write. The file is
// mapped and the statement prepared once.
//
//     sqlite_lookups DATABASE COLUMN < questions

#include <sqlite3.h>
#include <stdio.h>
#include <stdlib.h>
#include <unistd.h>

static char reply[1 << 20];

static void fail(const char *what)
{
    fprintf(stderr, "sqlite_lookups: %s\n", what);
    exit(1);
}

// The rows of the statement as lines from this place of the reply on, and their number.
static int put_rows(sqlite3_stmt *statement, char *into, size_t *used)
{
    int rows = 0;
    *used = 0;
    while (sqlite3_step(statement) == SQLITE_ROW) {
        *used += sprintf(into + *used, "%lld,%lld,%lld\n", sqlite3_column_int64(statement, 0),
                         sqlite3_column_int64(statement, 1), sqlite3_column_int64(statement, 2));
        rows++;
    }
    sqlite3_reset(statement);
    return rows;
}

int main(int count, char **args)
{
    static char rows_text[1 << 19];
    char sql[200], line[64];
    sqlite3 *database;
    sqlite3_stmt *statement;
    if (count != 3)
        fail("DATABASE COLUMN < questions");
    if (sqlite3_open_v2(args[1], &database, SQLITE_OPEN_READONLY, NULL) != SQLITE_OK)
        fail("no such database");
    sqlite3_exec(database, "pragma mmap_size = 1000000000", NULL, NULL, NULL);
    snprintf(sql, sizeof sql, "select id, customer, total from orders where %s = ? order by rowid", args[2]);
    if (sqlite3_prepare_v2(database, sql, -1, &statement, NULL) != SQLITE_OK)
        fail("no such column");
    while (fgets(line, sizeof line, stdin)) {
        size_t used;
        sqlite3_bind_int64(statement, 1, atoll(line));
        int rows = put_rows(statement, rows_text, &used);
        int size = sprintf(reply, "rows %d\nid,customer,total\n%.*s", rows, (int)used, rows_text);
        if (write(1, reply, size) != size)
            fail("the output failed");
    }
    return 0;
}
