/* What the words of pciids have a registry do, done by C SQLite: the same statements, in the same order, over a file with a
 * write-ahead log that is synced at each commit.
 *
 *   registry FILE make < LINES     a new registry; each line is a path, a tab and a name; one transaction
 *   registry FILE rows COUNT       a new registry with COUNT rows in each table
 *   registry FILE filled ITEMS SUBMISSIONS PENDING    a new registry with so many of each
 *   registry FILE tree VENDORS DEVICES SUBSYSTEMS     a new registry with so many items of each kind
 *   registry FILE accounts COUNT   a new registry with so many accounts more than two
 *   registry FILE remarks COUNT    a new registry with so many remarks on one submission
 *   registry FILE old N            a registry of schema 1 with N items
 *   registry FILE changes SINCE TIMES    the first page of what changed above that number
 *   registry FILE JOB TIMES        JOB: nothing, export, open, unknown, keyed, migrate
 */
#include <sqlite3.h>
#include <stdio.h>
#include <stdlib.h>
#include <string.h>

static sqlite3 *db;

static void stop(const char *what)
{
    fprintf(stderr, "%s: %s\n", what, sqlite3_errmsg(db));
    exit(2);
}

static void run(const char *sql)
{
    if (sqlite3_exec(db, sql, NULL, NULL, NULL) != SQLITE_OK)
        stop(sql);
}

static sqlite3_stmt *prepared(const char *sql)
{
    sqlite3_stmt *statement;
    if (sqlite3_prepare_v2(db, sql, -1, &statement, NULL) != SQLITE_OK)
        stop(sql);
    return statement;
}

static void text(sqlite3_stmt *statement, int at, const char *value)
{
    sqlite3_bind_text(statement, at, value, -1, SQLITE_TRANSIENT);
}

/* Runs a statement to its end, and answers how many rows it gave. */
static int rows(sqlite3_stmt *statement)
{
    int count = 0, step;
    while ((step = sqlite3_step(statement)) == SQLITE_ROW) {
        for (int at = 0; at < sqlite3_column_count(statement); at++)
            sqlite3_column_bytes(statement, at);
        count++;
    }
    if (step != SQLITE_DONE)
        stop("step");
    sqlite3_reset(statement);
    return count;
}

static void create_old(void)
{
    run("CREATE TABLE meta (label TEXT NOT NULL PRIMARY KEY, value INTEGER NOT NULL) STRICT;"
        "CREATE TABLE account (name TEXT NOT NULL PRIMARY KEY, rank INTEGER NOT NULL CHECK (rank BETWEEN 0 AND 3)) STRICT;"
        "CREATE TABLE item (path TEXT NOT NULL PRIMARY KEY, name TEXT NOT NULL) STRICT;"
        "CREATE TABLE submission (num INTEGER NOT NULL PRIMARY KEY, author TEXT NOT NULL REFERENCES account(name), "
        "path TEXT NOT NULL, form INTEGER NOT NULL CHECK (form BETWEEN 0 AND 1), name TEXT NOT NULL, note TEXT NOT NULL, "
        "state INTEGER NOT NULL CHECK (state BETWEEN 0 AND 3), decider TEXT NOT NULL, reason TEXT NOT NULL) STRICT;"
        "CREATE TABLE remark (num INTEGER NOT NULL REFERENCES submission(num), seq INTEGER NOT NULL, "
        "author TEXT NOT NULL REFERENCES account(name), body TEXT NOT NULL, PRIMARY KEY (num, seq)) STRICT;"
        "CREATE TABLE receipt (account TEXT NOT NULL REFERENCES account(name), token TEXT NOT NULL, kind INTEGER NOT NULL, "
        "a INTEGER NOT NULL, b INTEGER NOT NULL, c INTEGER NOT NULL, PRIMARY KEY (account, token)) STRICT;"
        "INSERT INTO meta VALUES ('schema', 1), ('items', 0), ('submissions', 0);"
        "INSERT INTO account VALUES ('root', 3), ('bob', 1)");
}

/* What schema 2 has more. */
static void add_since(void)
{
    run("CREATE TABLE item_since (path TEXT NOT NULL PRIMARY KEY REFERENCES item(path) ON DELETE CASCADE, since INTEGER NOT NULL) STRICT;"
        "INSERT INTO item_since SELECT path, 0 FROM item;"
        "INSERT INTO meta VALUES ('revision', 0);"
        "UPDATE meta SET value = 2 WHERE label = 'schema'");
}

static void create(void)
{
    create_old();
    add_since();
}

/* Each line is looked for and, where it is new, added; the count of items follows. */
static void make(void)
{
    char line[512];
    int added = 0;
    run("BEGIN");
    create();
    run("COMMIT");
    run("BEGIN IMMEDIATE");
    sqlite3_stmt *find = prepared("SELECT name FROM item WHERE path = ?1");
    sqlite3_stmt *add = prepared("INSERT INTO item (path, name) VALUES (?1, ?2)");
    sqlite3_stmt *since = prepared("INSERT INTO item_since (path, since) VALUES (?1, 1)");
    sqlite3_stmt *count = prepared("UPDATE meta SET value = ?1 WHERE label = 'items'");
    while (fgets(line, sizeof line, stdin)) {
        char *name = strchr(line, '\t');
        *name++ = 0;
        name[strcspn(name, "\n")] = 0;
        text(find, 1, line);
        if (rows(find) == 0) {
            text(add, 1, line);
            text(add, 2, name);
            rows(add);
            text(since, 1, line);
            rows(since);
            added++;
        }
    }
    sqlite3_bind_int(count, 1, added);
    rows(count);
    run("UPDATE meta SET value = 1 WHERE label = 'revision'");
    run("COMMIT");
}

/* Accounts a0, a1, ..; a vendor or a device each, with its number; decided submissions; a remark on each; a receipt for each. */
static void fill(int count)
{
    char word[64];
    run("BEGIN");
    create();
    sqlite3_stmt *account = prepared("INSERT INTO account VALUES (?1, 0)");
    sqlite3_stmt *item = prepared("INSERT INTO item VALUES (?1, 'a')");
    sqlite3_stmt *since = prepared("INSERT INTO item_since VALUES (?1, 0)");
    sqlite3_stmt *submission = prepared("INSERT INTO submission VALUES (?1, 'bob', 'PC/0001', 0, 'a', '', 1, 'root', '')");
    sqlite3_stmt *remark = prepared("INSERT INTO remark VALUES (?1, 1, 'root', 'seen')");
    sqlite3_stmt *receipt = prepared("INSERT INTO receipt VALUES ('bob', ?1, 1, ?2, 0, 0)");
    for (int at = 0; at < count; at++) {
        snprintf(word, sizeof word, "a%d", at);
        if (at >= 2) {
            text(account, 1, word);
            rows(account);
        }
        text(receipt, 1, word);
        sqlite3_bind_int(submission, 1, at + 1);
        sqlite3_bind_int(remark, 1, at + 1);
        sqlite3_bind_int(receipt, 2, at + 1);
        snprintf(word, sizeof word, at < 65536 ? "PC/%04x" : "PC/ffff/%04x", at & 0xffff);
        text(item, 1, word);
        rows(item);
        text(since, 1, word);
        rows(since);
        rows(submission);
        rows(remark);
        rows(receipt);
    }
    sqlite3_stmt *counts = prepared("UPDATE meta SET value = ?1 WHERE label IN ('items', 'submissions')");
    sqlite3_bind_int(counts, 1, count);
    rows(counts);
    run("COMMIT");
}

static void set_label(sqlite3_stmt *count, const char *name, int number)
{
    text(count, 1, name);
    sqlite3_bind_int(count, 2, number);
    rows(count);
}

static sqlite3_stmt *setting(void)
{
    return prepared("UPDATE meta SET value = ?2 WHERE label = ?1");
}

/* Items, 99 devices below each vendor, each the last change of one command; and submissions of a
 * hundred authors, so many of them pending and the others approved. */
static void fill_both(int items, int submissions, int pending)
{
    char path[32], word[64];
    run("BEGIN");
    create();
    sqlite3_stmt *account = prepared("INSERT INTO account VALUES (?1, 0)");
    sqlite3_stmt *item = prepared("INSERT INTO item VALUES (?1, ?2)");
    sqlite3_stmt *since = prepared("INSERT INTO item_since VALUES (?1, ?2)");
    sqlite3_stmt *submission = prepared("INSERT INTO submission VALUES (?1, ?2, ?3, 0, ?4, ?5, ?6, ?7, '')");
    for (int at = 0; at < 100; at++) {
        snprintf(word, sizeof word, "author-%d", at);
        text(account, 1, word);
        rows(account);
    }
    for (int at = 0; at < items; at++) {
        int length = snprintf(path, sizeof path, "PC/%04x", at / 100);
        if (at % 100 > 0)
            snprintf(path + length, sizeof path - length, "/%04x", at % 100);
        snprintf(word, sizeof word, "Item number %d of a registry", at);
        text(item, 1, path);
        text(item, 2, word);
        rows(item);
        text(since, 1, path);
        sqlite3_bind_int(since, 2, at + 1);
        rows(since);
    }
    for (int at = 0; at < submissions; at++) {
        int is_pending = at % (submissions / pending) == 0;
        snprintf(word, sizeof word, "author-%d", at % 100);
        snprintf(path, sizeof path, "PC/%04x/%04x", at / 100 & 0xffff, at % 100);
        sqlite3_bind_int(submission, 1, at + 1);
        text(submission, 2, word);
        text(submission, 3, path);
        text(submission, 4, "A name as it was proposed");
        text(submission, 5, "as on its label");
        sqlite3_bind_int(submission, 6, !is_pending);
        text(submission, 7, is_pending ? "" : "root");
        rows(submission);
    }
    sqlite3_stmt *counts = setting();
    set_label(counts, "submissions", submissions);
    set_label(counts, "items", items);
    set_label(counts, "revision", items);
    run("COMMIT");
}

/* Vendors; devices, of each vendor as many as of the others; and so subsystems of the devices. */
static void fill_tree(int vendors, int devices, int subsystems)
{
    char path[32], word[64];
    run("BEGIN");
    create();
    sqlite3_stmt *item = prepared("INSERT INTO item VALUES (?1, ?2)");
    sqlite3_stmt *since = prepared("INSERT INTO item_since VALUES (?1, 0)");
    int count = vendors + devices + subsystems;
    for (int at = 0; at < count; at++) {
        int device = at - vendors, subsystem = device - devices;
        if (subsystem >= 0)
            device = subsystem % devices;
        int length = snprintf(path, sizeof path, "PC/%04x", device < 0 ? at : device % vendors);
        if (device >= 0)
            length += snprintf(path + length, sizeof path - length, "/%04x", device / vendors);
        if (subsystem >= 0)
            snprintf(path + length, sizeof path - length, "/8086%04x", subsystem / devices);
        snprintf(word, sizeof word, "Item number %d of a registry", at);
        text(item, 1, path);
        text(item, 2, word);
        rows(item);
        text(since, 1, path);
        rows(since);
    }
    set_label(setting(), "items", count);
    run("COMMIT");
}

static void fill_accounts(int count)
{
    char word[64];
    run("BEGIN");
    create();
    sqlite3_stmt *account = prepared("INSERT INTO account VALUES (?1, 0)");
    for (int at = 0; at < count; at++) {
        snprintf(word, sizeof word, "author-%d", at);
        text(account, 1, word);
        rows(account);
    }
    run("COMMIT");
}

/* Each remark is as long as it may be. */
static void fill_remarks(int count)
{
    char body[4001] = "";
    memset(body, 'a', 4000);
    run("BEGIN");
    create();
    run("INSERT INTO submission VALUES (1, 'bob', 'PC/0001', 0, 'a', '', 0, '', '')");
    sqlite3_stmt *remark = prepared("INSERT INTO remark VALUES (1, ?1, 'root', ?2)");
    for (int at = 0; at < count; at++) {
        sqlite3_bind_int(remark, 1, at + 1);
        text(remark, 2, body);
        rows(remark);
    }
    set_label(setting(), "submissions", 1);
    run("COMMIT");
}

/* The items alone. */
static void fill_old(int count)
{
    char word[64];
    run("BEGIN");
    create_old();
    sqlite3_stmt *item = prepared("INSERT INTO item VALUES (?1, 'a')");
    for (int at = 0; at < count; at++) {
        snprintf(word, sizeof word, at < 65536 ? "PC/%04x" : "PC/ffff/%04x", at & 0xffff);
        text(item, 1, word);
        rows(item);
    }
    sqlite3_stmt *counts = prepared("UPDATE meta SET value = ?1 WHERE label = 'items'");
    sqlite3_bind_int(counts, 1, count);
    rows(counts);
    run("COMMIT");
}

/* The canonical text, as the program prints it. */
static void print_items(void)
{
    char open[5] = "";
    sqlite3_stmt *all = prepared("SELECT path, name FROM item ORDER BY path");
    puts("# PCI ID registry");
    while (sqlite3_step(all) == SQLITE_ROW) {
        const char *path = (const char *)sqlite3_column_text(all, 0), *name = (const char *)sqlite3_column_text(all, 1);
        size_t length = strlen(path);
        if (path[1] == 'S') {
            if (strncmp(open, path + 3, 4) != 0)
                printf("S %.4s\n", path + 3);
            memcpy(open, path + 3, 4);
            printf("\t%s  %s\n", path + 8, name);
        } else if (path[1] == 'D')
            printf(length == 5 ? "C %s  %s\n" : length == 8 ? "\t%s  %s\n" : "\t\t%s  %s\n", path + length - 2, name);
        else if (length == 21)
            printf("\t\t%.4s %s  %s\n", path + 13, path + 17, name);
        else
            printf(length == 7 ? "%s  %s\n" : "\t%s  %s\n", path + length - 4, name);
    }
    sqlite3_finalize(all);
}

/* The number of a label. */
static int number_of(sqlite3_stmt *label, const char *name)
{
    text(label, 1, name);
    if (sqlite3_step(label) != SQLITE_ROW)
        stop("label");
    int number = sqlite3_column_int(label, 0);
    sqlite3_reset(label);
    return number;
}

/* A receipt under the key is looked for, and the reply kept there. */
static void keep(sqlite3_stmt *receipt, const char *account, const char *key, int kind, int number)
{
    text(receipt, 1, account);
    text(receipt, 2, key);
    sqlite3_bind_int(receipt, 3, kind);
    sqlite3_bind_int(receipt, 4, number);
    rows(receipt);
}

/* A submission of a name and its approval, each under a key: two transactions, with the selects by which each is judged. */
static void commands(int times)
{
    char path[16], key[16];
    sqlite3_stmt *kept = prepared("SELECT kind, a, b, c FROM receipt WHERE account = ?1 AND token = ?2");
    sqlite3_stmt *receipt = prepared("INSERT INTO receipt (account, token, kind, a, b, c) VALUES (?1, ?2, ?3, ?4, 0, 0)");
    sqlite3_stmt *rank = prepared("SELECT rank FROM account WHERE name = ?1");
    sqlite3_stmt *label = prepared("SELECT value FROM meta WHERE label = ?1");
    sqlite3_stmt *named = prepared("SELECT author, path, form, name, note, state, decider, reason FROM submission WHERE num = ?1");
    sqlite3_stmt *places = prepared("SELECT seq FROM remark WHERE num = ?1 ORDER BY seq DESC LIMIT 1");
    sqlite3_stmt *item = prepared("SELECT name FROM item WHERE path = ?1");
    sqlite3_stmt *below = prepared("SELECT path FROM item WHERE path > ?1 AND path < ?2 LIMIT 1");
    sqlite3_stmt *submit = prepared("INSERT INTO submission (num, author, path, form, name, note, state, decider, reason) VALUES (?1, ?2, ?3, ?4, ?5, ?6, 0, '', '')");
    sqlite3_stmt *count = setting();
    sqlite3_stmt *decide = prepared("UPDATE submission SET state = ?2, decider = ?3, reason = ?4 WHERE num = ?1");
    sqlite3_stmt *add = prepared("INSERT INTO item (path, name) VALUES (?1, ?2)");
    sqlite3_stmt *rename = prepared("UPDATE item SET name = ?2 WHERE path = ?1");
    sqlite3_stmt *add_since = prepared("INSERT INTO item_since (path, since) VALUES (?1, ?2)");
    sqlite3_stmt *set_since = prepared("UPDATE item_since SET since = ?2 WHERE path = ?1");
    int number = number_of(label, "submissions");
    for (int at = 0; at < times; at++) {
        char low[32], high[32];
        number++;
        snprintf(path, sizeof path, "PC/%04x", at & 0xffff);
        snprintf(key, sizeof key, "k%d", at);
        text(rank, 1, "bob");
        rows(rank);
        text(kept, 1, "bob");
        text(kept, 2, key);
        rows(kept);
        int revision = number_of(label, "revision");
        number_of(label, "submissions");
        run("BEGIN IMMEDIATE");
        sqlite3_bind_int(submit, 1, number);
        text(submit, 2, "bob");
        text(submit, 3, path);
        sqlite3_bind_int(submit, 4, 0);
        text(submit, 5, "renamed");
        text(submit, 6, "");
        rows(submit);
        set_label(count, "submissions", number);
        set_label(count, "revision", revision + 1);
        keep(receipt, "bob", key, 1, number);
        run("COMMIT");

        text(rank, 1, "root");
        rows(rank);
        text(kept, 1, "root");
        text(kept, 2, key);
        rows(kept);
        revision = number_of(label, "revision");
        sqlite3_bind_int(named, 1, number);
        rows(named);
        sqlite3_bind_int(places, 1, number);
        rows(places);
        int items = number_of(label, "items");
        text(item, 1, path);
        int is_there = rows(item);
        for (int front = 0; front < 2; front++) {
            snprintf(low, sizeof low, "P%c%s/", front ? 'S' : 'C', path + 2);
            snprintf(high, sizeof high, "P%c%s0", front ? 'S' : 'C', path + 2);
            text(below, 1, low);
            text(below, 2, high);
            rows(below);
        }
        run("BEGIN IMMEDIATE");
        sqlite3_bind_int(decide, 1, number);
        sqlite3_bind_int(decide, 2, 1);
        text(decide, 3, "root");
        text(decide, 4, "");
        rows(decide);
        sqlite3_stmt *write = is_there ? rename : add, *since = is_there ? set_since : add_since;
        text(write, 1, path);
        text(write, 2, "renamed");
        rows(write);
        text(since, 1, path);
        sqlite3_bind_int(since, 2, revision + 1);
        rows(since);
        set_label(count, "items", items + !is_there);
        set_label(count, "revision", revision + 1);
        keep(receipt, "root", key, 0, 0);
        run("COMMIT");
    }
}

/* The revision, and the first 100 items above the number, each with its name. */
static void changes(int number, int times)
{
    sqlite3_stmt *label = prepared("SELECT value FROM meta WHERE label = ?1");
    sqlite3_stmt *page = prepared("SELECT path, since FROM item_since WHERE path > '' AND since > ?1 ORDER BY path LIMIT 100");
    sqlite3_stmt *name = prepared("SELECT name FROM item WHERE path = ?1");
    for (int at = 0; at < times; at++) {
        run("BEGIN");
        number_of(label, "revision");
        sqlite3_bind_int(page, 1, number);
        while (sqlite3_step(page) == SQLITE_ROW) {
            text(name, 1, (const char *)sqlite3_column_text(page, 0));
            rows(name);
        }
        sqlite3_reset(page);
        run("COMMIT");
    }
}

static int job(const char *name, int times)
{
    char path[32];
    if (strcmp(name, "nothing") == 0)
        return 0;
    if (strcmp(name, "keyed") == 0) {
        commands(times);
        return 0;
    }
    if (strcmp(name, "migrate") == 0) {
        run("BEGIN IMMEDIATE");
        add_since();
        run("COMMIT");
        return 0;
    }
    if (strcmp(name, "export") == 0) {
        for (int at = 0; at < times; at++)
            print_items();
        return 0;
    }
    int is_pair = strcmp(name, "unknown") == 0;
    const char *sql = is_pair ? "SELECT name FROM item WHERE path = ?1"
        : strcmp(name, "open") == 0 ? "PRAGMA integrity_check" : NULL;
    if (sql == NULL)
        return 1;
    sqlite3_stmt *statement = prepared(sql);
    for (int at = 0; at < times; at++) {
        snprintf(path, sizeof path, "PC/%04x", at & 0xffff);
        if (is_pair)
            text(statement, 1, path);
        rows(statement);
        if (is_pair) {
            strcat(path, "/0000");
            text(statement, 1, path);
            rows(statement);
        }
    }
    sqlite3_finalize(statement);
    return 0;
}

int main(int count, char **words)
{
    if (count < 3 || sqlite3_open(words[1], &db) != SQLITE_OK)
        return 2;
    run("PRAGMA journal_mode = WAL; PRAGMA synchronous = FULL; PRAGMA foreign_keys = ON");
    if (strcmp(words[2], "make") == 0)
        make();
    else if (count == 4 && strcmp(words[2], "rows") == 0)
        fill(atoi(words[3]));
    else if (count == 6 && strcmp(words[2], "filled") == 0)
        fill_both(atoi(words[3]), atoi(words[4]), atoi(words[5]));
    else if (count == 6 && strcmp(words[2], "tree") == 0)
        fill_tree(atoi(words[3]), atoi(words[4]), atoi(words[5]));
    else if (count == 4 && strcmp(words[2], "accounts") == 0)
        fill_accounts(atoi(words[3]));
    else if (count == 4 && strcmp(words[2], "remarks") == 0)
        fill_remarks(atoi(words[3]));
    else if (count == 4 && strcmp(words[2], "old") == 0)
        fill_old(atoi(words[3]));
    else if (count == 5 && strcmp(words[2], "changes") == 0)
        changes(atoi(words[3]), atoi(words[4]));
    else if (count != 4 || job(words[2], atoi(words[3])) != 0)
        return 2;
    return 0;
}
