/* Writes rows to a database as a shelf does, by SQLite's own library: `rows FILE < ROWS`. A line of ROWS is a row, its table, key and
   text with tabs between them, and an empty line ends a transaction. Built by `cc -O2 -o rows rows.c -lsqlite3`. */
#include <sqlite3.h>
#include <stdio.h>
#include <stdlib.h>
#include <string.h>

static sqlite3 *database;

static void must(int result) {
  if (result != SQLITE_OK && result != SQLITE_DONE) {
    fprintf(stderr, "rows: %s\n", sqlite3_errmsg(database));
    exit(1);
  }
}

static void run(const char *statement) { must(sqlite3_exec(database, statement, NULL, NULL, NULL)); }

int main(int count, char **words) {
  sqlite3_stmt *put;
  char *line = NULL;
  size_t room = 0;
  ssize_t length;
  if (count != 2) return 64;
  must(sqlite3_open(words[1], &database));
  run("PRAGMA locking_mode = EXCLUSIVE; PRAGMA journal_mode = WAL; PRAGMA synchronous = EXTRA");
  run("CREATE TABLE IF NOT EXISTS shelf (part INTEGER NOT NULL, place BLOB NOT NULL, content BLOB NOT NULL, PRIMARY KEY (part, place)) STRICT");
  must(sqlite3_prepare_v2(database, "INSERT OR REPLACE INTO shelf VALUES (?1, ?2, ?3)", -1, &put, NULL));
  run("BEGIN");
  while ((length = getline(&line, &room, stdin)) > 0) {
    char *key = memchr(line, '\t', length), *text = key ? strchr(key + 1, '\t') : NULL;
    if (!text) {
      run("COMMIT; BEGIN");
      continue;
    }
    must(sqlite3_bind_int(put, 1, atoi(line)));
    must(sqlite3_bind_blob(put, 2, key + 1, text - key - 1, SQLITE_STATIC));
    must(sqlite3_bind_blob(put, 3, text + 1, line + length - 1 - text - 1, SQLITE_STATIC));
    must(sqlite3_step(put));
    must(sqlite3_reset(put));
  }
  run("COMMIT");
  must(sqlite3_finalize(put));
  must(sqlite3_close(database));
  return 0;
}
