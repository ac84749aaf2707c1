/* This library in process, by typed calls. A feed of all keys, closed after each hundredth transaction. */
#include "common.h"
#include <ripsawbean.h>

enum { LAGS = 20000 };

static ripsawbean db = RIPSAWBEAN_INITIALIZER;
static ripsawbean_answer answer;
static uint8_t bytes[1 << 20];
static size_t length;

static void want(uint8_t kind, uint8_t status) {
  if (status || answer.kind != kind) die("call");
}

static const uint8_t *any(const char *text) {
  return (const uint8_t *)text;
}

static void transact(uint64_t ts) {
  char key[16], value[16];
  want(RIPSAWBEAN_ANSWER_STARTED, ripsawbean_begin(&db, 0, ts, &answer));
  for (int i = 0; i < 2; i++)
    if (ripsawbean_get(&db, 0, ts, any(any_key(key)), 8, bytes, sizeof bytes, &length, &answer)) die("get");
  for (int i = 0; i < 2; i++) {
    any_key(key), any_value(value);
    want(RIPSAWBEAN_ANSWER_WRITTEN, ripsawbean_put(&db, 0, ts, any(key), 8, any(value), 8, &answer));
  }
  want(RIPSAWBEAN_ANSWER_COMMITTED, ripsawbean_commit(&db, 0, ts, &answer));
}

static void close_through(uint64_t ts) {
  want(RIPSAWBEAN_ANSWER_CLOSED, ripsawbean_close_to(&db, 0, ts, &answer));
}

static long poll(uint64_t most) {
  long rows = 0;
  ripsawbean_message message;
  want(RIPSAWBEAN_ANSWER_MESSAGES, ripsawbean_poll(&db, 0, 1, most, bytes, sizeof bytes, &length, &answer));
  for (size_t at = 0, step; (step = ripsawbean_read_message(bytes + at, length - at, &message)) > 0; at += step)
    rows += message.kind != RIPSAWBEAN_MESSAGE_RESOLVED;
  return rows;
}

int main(int argc, char **argv) {
  uint64_t count = argc > 1 ? strtoul(argv[1], 0, 10) : 1000, ts = 0;
  if (ripsawbean_open(&db, 1024)) die("open");
  if (ripsawbean_call(&db, any("0 open - - 0\n"), 13, bytes, sizeof bytes, &length)) die("feed");
  double since = now();
  while (ts < count) {
    transact(++ts);
    if (ts % 100 == 0) close_through(ts);
  }
  say_rate("alone", (double)count, since);
  long rows = 0, more;
  since = now();
  while ((more = poll(1000))) rows += more;
  say_rate("rows", (double)rows, since);
  static double lags[LAGS];
  for (int i = 0; i < LAGS; i++) {
    since = now();
    transact(++ts);
    close_through(ts);
    if (poll(10) < 1) die("feed");
    lags[i] = now() - since;
  }
  say_lag(lags, LAGS);
  return 0;
}
