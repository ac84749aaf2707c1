/* SQLite in process and in memory: BEGIN IMMEDIATE, two SELECTs, two upserts, COMMIT. The feed is a table that triggers
   fill, read by place. */
#include "common.h"
#include <sqlite3.h>

enum { LAGS = 20000 };

static const char *tables =
    "create table t(k blob primary key, v blob) without rowid;"
    "create table feed(place integer primary key, k blob, v blob);"
    "create trigger a after insert on t begin insert into feed(k, v) values(new.k, new.v); end;"
    "create trigger b after update on t begin insert into feed(k, v) values(new.k, new.v); end;";

static sqlite3 *db;
static sqlite3_stmt *begin, *commit, *get, *put, *next;

static sqlite3_stmt *prepare(const char *sql) {
  sqlite3_stmt *statement;
  if (sqlite3_prepare_v2(db, sql, -1, &statement, 0)) die(sqlite3_errmsg(db));
  return statement;
}

static void step(sqlite3_stmt *statement) {
  int status = sqlite3_step(statement);
  if (status != SQLITE_ROW && status != SQLITE_DONE) die(sqlite3_errmsg(db));
  sqlite3_reset(statement);
}

static void transact(void) {
  char key[16], value[16];
  step(begin);
  for (int i = 0; i < 2; i++) {
    sqlite3_bind_blob(get, 1, any_key(key), 8, SQLITE_TRANSIENT);
    step(get);
  }
  for (int i = 0; i < 2; i++) {
    sqlite3_bind_blob(put, 1, any_key(key), 8, SQLITE_TRANSIENT);
    sqlite3_bind_blob(put, 2, any_value(value), 8, SQLITE_TRANSIENT);
    step(put);
  }
  step(commit);
}

static long place, rows;

static int read_some(int most) {
  int count = 0;
  sqlite3_bind_int64(next, 1, place);
  sqlite3_bind_int(next, 2, most);
  while (sqlite3_step(next) == SQLITE_ROW) {
    place = sqlite3_column_int64(next, 0);
    sqlite3_column_blob(next, 1), sqlite3_column_blob(next, 2);
    count++;
  }
  sqlite3_reset(next);
  rows += count;
  return count;
}

int main(int argc, char **argv) {
  int count = argc > 1 ? atoi(argv[1]) : 1000;
  sqlite3_open(":memory:", &db);
  sqlite3_exec(db, tables, 0, 0, 0);
  begin = prepare("begin immediate"), commit = prepare("commit");
  get = prepare("select v from t where k = ?");
  put = prepare("insert into t values(?, ?) on conflict(k) do update set v = excluded.v");
  next = prepare("select place, k, v from feed where place > ? order by place limit ?");
  double since = now();
  for (int i = 0; i < count; i++) transact();
  say_rate("alone", count, since);
  since = now();
  while (read_some(1000)) continue;
  say_rate("rows", rows, since);
  static double lags[LAGS];
  for (int i = 0; i < LAGS; i++) {
    since = now();
    transact();
    if (read_some(10) < 1) die("feed");
    lags[i] = now() - since;
  }
  say_lag(lags, LAGS);
  return 0;
}
