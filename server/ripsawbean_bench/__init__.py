"""How fast the server is, beside Redis, etcd and PostgreSQL on the same work, in one run: `server/bench`.

Each peer is a class with the same few measurements. All are asked over loopback or a local socket, by programs that are
faster than what they ask: `server/load` for this server, Redis and etcd, pgbench for PostgreSQL. None waits for a disk.
The work is a transaction that begins, puts a row, reads it and commits; in Redis MULTI, SET, GET, EXEC, in etcd a
transaction of a put and a range, in PostgreSQL an upsert and a select. Rates are of transactions, because that is what
all four have. Latency is from sending the row to a reader's having it. Pages of rows and feeds with the values before
are of this server alone.

`server/bench durable` has commits that wait for the disk, by `durable`.
"""
