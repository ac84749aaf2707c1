// RocksDB in process, without a sync: TransactionDB with two reads for update and two writes. The feed is the log's
// iterator from a sequence number.
extern "C" {
#include "common.h"
}
#include <rocksdb/options.h>
#include <rocksdb/utilities/transaction_db.h>
#include <rocksdb/write_batch.h>
using namespace rocksdb;

enum { LAGS = 2000 };

struct Rows : WriteBatch::Handler {
  long rows = 0;
  Status PutCF(uint32_t, const Slice &, const Slice &) override {
    rows++;
    return Status::OK();
  }
  Status MarkBeginPrepare(bool) override { return Status::OK(); }
  Status MarkEndPrepare(const Slice &) override { return Status::OK(); }
  Status MarkCommit(const Slice &) override { return Status::OK(); }
  Status MarkNoop(bool) override { return Status::OK(); }
};

static TransactionDB *db;
static Transaction *transaction;

static void transact() {
  char key[16], value[16];
  transaction = db->BeginTransaction(WriteOptions(), TransactionOptions(), transaction);
  std::string found;
  for (int i = 0; i < 2; i++) transaction->GetForUpdate(ReadOptions(), any_key(key), &found);
  for (int i = 0; i < 2; i++) {
    any_key(key), any_value(value);
    if (!transaction->Put(key, value).ok()) die("put");
  }
  if (!transaction->Commit().ok()) die("commit");
}

int main(int argc, char **argv) {
  if (argc < 3) die("rocks FOLDER COUNT");
  int count = atoi(argv[2]);
  Options options;
  options.create_if_missing = true;
  options.WAL_ttl_seconds = 3600;
  options.WAL_size_limit_MB = 1000;
  if (!TransactionDB::Open(options, TransactionDBOptions(), argv[1], &db).ok()) die("open");
  double since = now();
  for (int i = 0; i < count; i++) transact();
  say_rate("alone", count, since);
  Rows rows;
  std::unique_ptr<TransactionLogIterator> log;
  since = now();
  if (!((DB *)db)->GetUpdatesSince(1, &log).ok()) die("feed");
  for (; log->Valid(); log->Next()) log->GetBatch().writeBatchPtr->Iterate(&rows);
  say_rate("rows", rows.rows, since);
  static double lags[LAGS];
  for (int i = 0; i < LAGS; i++) {
    since = now();
    transact();
    for (int tries = 0; log->Next(), !log->Valid(); tries++)
      if (tries == 1000000) die(log->status().ToString().c_str());
    log->GetBatch().writeBatchPtr->Iterate(&rows);
    lags[i] = now() - since;
  }
  say_lag(lags, LAGS);
  return 0;
}
