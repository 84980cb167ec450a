// Answers look-ups from a constant database, as `castor ask` does: each line of the input is a key,
// and gets the rows that have it in a column, in one write.
//
//     cdb_lookups make DATABASE COLUMN < orders.csv      (columns are counted from 1)
//     cdb_lookups ask DATABASE < questions

#include <cdb.h>
#include <fcntl.h>
#include <stdio.h>
#include <stdlib.h>
#include <string.h>
#include <unistd.h>

static void fail(const char *what)
{
    fprintf(stderr, "cdb_lookups: %s\n", what);
    exit(1);
}

// Makes a database in which the rows of a file are found by this column.
static void make(const char *path, int column)
{
    struct cdb_make database;
    char line[256];
    int file = open(path, O_RDWR | O_CREAT | O_TRUNC, 0644);
    if (file < 0 || cdb_make_start(&database, file) < 0 || !fgets(line, sizeof line, stdin))
        fail("no database can be made");
    while (fgets(line, sizeof line, stdin)) {
        const char *key = line;
        for (int i = 1; i < column; i++)
            key = strchr(key, ',') + 1;
        if (cdb_make_add(&database, key, strcspn(key, ",\n"), line, strlen(line)) < 0)
            fail("no row can be added");
    }
    if (cdb_make_finish(&database) < 0)
        fail("no database can be made");
    close(file);
}

// Answers the lines of the input.
static void ask(const char *path)
{
    static char reply[1 << 20], rows_text[1 << 19];
    struct cdb database;
    char line[64];
    int file = open(path, O_RDONLY);
    if (file < 0 || cdb_init(&database, file) < 0)
        fail("no such database");
    while (fgets(line, sizeof line, stdin)) {
        struct cdb_find found;
        size_t used = 0;
        int rows = 0;
        cdb_findinit(&found, &database, line, strcspn(line, "\n"));
        while (cdb_findnext(&found) > 0) {
            cdb_read(&database, rows_text + used, cdb_datalen(&database), cdb_datapos(&database));
            used += cdb_datalen(&database);
            rows++;
        }
        int size = sprintf(reply, "rows %d\nid,customer,total\n%.*s", rows, (int)used, rows_text);
        if (write(1, reply, size) != size)
            fail("the output failed");
    }
}

int main(int count, char **args)
{
    if (count == 4 && strcmp(args[1], "make") == 0)
        make(args[2], atoi(args[3]));
    else if (count == 3 && strcmp(args[1], "ask") == 0)
        ask(args[2]);
    else
        fail("make DATABASE COLUMN < orders.csv, or ask DATABASE < questions");
    return 0;
}
