/* Redis over loopback: MULTI, GET, GET, SET, SET, XADD, EXEC. The feed is a stream that the client writes, and another
   connection waits for it. */
#include "common.h"
#include <hiredis/hiredis.h>
#include <pthread.h>

enum { CALLS = 7, AHEAD = 100, LAGS = 2000 };

static int port;

static redisContext *connected(void) {
  redisContext *context = redisConnect("127.0.0.1", port);
  if (!context || context->err) die("connect");
  return context;
}

static void send_transaction(redisContext *context) {
  char key[16], other[16], value[16], last[16];
  redisAppendCommand(context, "MULTI");
  redisAppendCommand(context, "GET %s", any_key(key));
  redisAppendCommand(context, "GET %s", any_key(key));
  any_key(key), any_value(value), any_key(other), any_value(last);
  redisAppendCommand(context, "SET %s %s", key, value);
  redisAppendCommand(context, "SET %s %s", other, last);
  redisAppendCommand(context, "XADD feed * %s %s %s %s", key, value, other, last);
  redisAppendCommand(context, "EXEC");
}

static void take_replies(redisContext *context) {
  for (int i = 0; i < CALLS; i++) {
    redisReply *reply;
    if (redisGetReply(context, (void **)&reply) != REDIS_OK || reply->type == REDIS_REPLY_ERROR) die("redis");
    freeReplyObject(reply);
  }
}

static volatile int told;
static volatile double told_at;

static void *watch(void *unused) {
  redisContext *context = connected();
  char last[64] = "$";
  for (int i = 0; i < LAGS; i++) {
    redisReply *reply = redisCommand(context, "XREAD COUNT 1 BLOCK 0 STREAMS feed %s", last);
    strcpy(last, reply->element[0]->element[1]->element[0]->element[0]->str);
    told_at = now();
    told = i + 1;
    freeReplyObject(reply);
  }
  return unused;
}

static long read_feed(redisContext *context) {
  char last[64] = "0";
  long rows = 0;
  for (;;) {
    redisReply *reply = redisCommand(context, "XREAD COUNT 1000 STREAMS feed %s", last);
    if (reply->type == REDIS_REPLY_NIL) return rows;
    redisReply *list = reply->element[0]->element[1];
    for (size_t i = 0; i < list->elements; i++) rows += list->element[i]->element[1]->elements / 2;
    strcpy(last, list->element[list->elements - 1]->element[0]->str);
    freeReplyObject(reply);
  }
}

static void measure_lag(redisContext *context) {
  static double lags[LAGS];
  pthread_t watcher;
  pthread_create(&watcher, 0, watch, 0);
  usleep(200000);
  for (int i = 0; i < LAGS; i++) {
    double since = now();
    send_transaction(context), take_replies(context);
    while (told <= i) continue;
    lags[i] = told_at - since;
  }
  say_lag(lags, LAGS);
}

int main(int argc, char **argv) {
  if (argc < 3) die("redis PORT COUNT");
  port = atoi(argv[1]);
  int count = atoi(argv[2]);
  redisContext *context = connected();
  freeReplyObject(redisCommand(context, "FLUSHALL"));
  double since = now();
  for (int i = 0; i < count / 10; i++) send_transaction(context), take_replies(context);
  say_rate("alone", count / 10, since);
  since = now();
  for (int i = 0; i < count; i += AHEAD) {
    for (int j = 0; j < AHEAD; j++) send_transaction(context);
    for (int j = 0; j < AHEAD; j++) take_replies(context);
  }
  say_rate("pipelined", count, since);
  since = now();
  long rows = read_feed(context);
  say_rate("rows", rows, since);
  measure_lag(context);
  return 0;
}
