"""PostgreSQL with logical decoding: pgbench and psql write, pg_recvlogical reads. It doesn't wait for the disk, unless it
is told to."""

import asyncio
import glob
import os
import pathlib
import re
import shutil
import subprocess
import tempfile
import time

from .figures import NOTHING, Found, latencies_of, quantile

SETTINGS = {
    "wal_level": "logical", "max_replication_slots": 110, "max_wal_senders": 110, "max_connections": 150,
    "fsync": "off", "listen_addresses": "''", "autovacuum": "off",
}
AS_POSTGRES = ["setpriv", "--reuid", "postgres", "--regid", "postgres", "--clear-groups"]
INSERT = "insert into t values (1000, '%s') on conflict (k) do update set v = excluded.v;\n"
FILL = "create table f as select 'first' || n as k, lpad(n::text, 12, '0') as v from generate_series(1, %d) n"
MOST_READERS = 100  # each is a process of PostgreSQL's, and one of pg_recvlogical
# Each client has keys of its own, as those of the others have.
ROW = """\\set k :client_id * 100 + random(0, 99)
begin;
insert into t values (:k, 'v') on conflict (k) do update set v = 'v';
select v from t where k = :k;
commit;
"""


class Postgres:
    name = "PostgreSQL"

    def __init__(self, **settings: str):
        self.programs = sorted(glob.glob("/usr/lib/postgresql/*/bin"))[-1]
        self.folder = tempfile.mkdtemp()
        self.as_user = AS_POSTGRES if os.getuid() == 0 else []
        if self.as_user:
            shutil.chown(self.folder, "postgres")
        self._run("initdb", "-D", self.folder + "/data", "-A", "trust", "--no-sync")
        with open(self.folder + "/data/postgresql.conf", "a") as lines:
            lines.writelines("%s = %s\n" % setting for setting in {**SETTINGS, **settings}.items())
            lines.write("unix_socket_directories = '%s'\n" % self.folder)
        self._run("pg_ctl", "-D", self.folder + "/data", "-w", "-l", self.folder + "/log", "start")
        self._sql("create table t (k int primary key, v text)")

    def end(self) -> None:
        self._run("pg_ctl", "-D", self.folder + "/data", "-m", "immediate", "stop")
        shutil.rmtree(self.folder)

    def _command(self, program: str, *words: str) -> list[str]:
        return [*self.as_user, "%s/%s" % (self.programs, program), *words]

    def _run(self, program: str, *words: str) -> str:
        done = subprocess.run(self._command(program, *words), capture_output=True, text=True, cwd=self.folder)
        if done.returncode != 0:
            raise SystemExit("bench: %s: %s" % (program, done.stderr))
        return done.stdout

    def _sql(self, line: str) -> str:
        return self._run("psql", "-h", self.folder, "-d", "postgres", "-q", "-c", line)

    def transactions(self, way: str, clients: int, count: int, rows: int, ahead: int) -> Found:
        """By pgbench: one at a time, or so many in one pipeline of each client."""
        if way in ("lines", "keyed"):
            return NOTHING
        script, each = pathlib.Path(self.folder) / "script", rows * ahead
        pipeline = "\\startpipeline\n%s\\endpipeline\n" % (ROW * each)
        script.write_text(ROW if each == 1 else pipeline)
        script.chmod(0o644)
        turns = max(min(count, 20_000) // clients // each, 1)
        words = ["-h", self.folder, "-n", "-M", "prepared" if each == 1 else "extended", "-t", str(turns), "-c", str(clients)]
        words += ["-j", "2" if clients > 1 else "1", "-l", "--log-prefix", self.folder + "/latency", "-f", str(script)]
        text = self._run("pgbench", *words, "postgres")
        rate = float(re.search(r"tps = ([0-9.]+)", text)[1]) * each  # type: ignore[index]
        waited = self._latencies()
        return Found(rate) if each > 1 else Found(rate, quantile(waited, 0.5), quantile(waited, 0.99))

    def _latencies(self) -> list[float]:
        """Milliseconds of each transaction that pgbench has logged."""
        found: list[float] = []
        for log in pathlib.Path(self.folder).glob("latency*"):
            found += [float(line.split(" ")[2]) / 1e3 for line in log.read_text().splitlines()]
            log.unlink()
        return found

    def first(self, count: int) -> Found:
        """A copy of a whole table, as a consumer takes it that has nothing."""
        self._sql(FILL % count)
        began = time.perf_counter()
        text = self._sql("copy f to stdout")
        return Found(text.count("\n") / (time.perf_counter() - began))

    def push(self, readers: int, count: int, pause: float) -> Found:
        sent, told = asyncio.run(self._tell(readers, count, pause))
        return latencies_of([now - sent[value] for value, now in told])

    def flood(self, readers: int, count: int) -> Found:
        sent, told = asyncio.run(self._tell(readers, min(count, 500), 0))
        return Found(len(sent) / (max(now for _, now in told) - min(sent.values())))

    async def _tell(self, readers: int, count: int, pause: float) -> tuple[dict[str, float], list[tuple[str, float]]]:
        """When each transaction was sent to psql, and when each pg_recvlogical has written its row."""
        sent: dict[str, float] = {}
        told: list[tuple[str, float]] = []
        ready: list[bool] = []
        readers = min(readers, MOST_READERS)
        followers = [asyncio.ensure_future(self._follow("s%d" % at, ready, told)) for at in range(readers)]
        while len(ready) < readers:
            await asyncio.sleep(0.05)
        await asyncio.sleep(1)
        command = self._command("psql", "-h", self.folder, "-d", "postgres", "-q")
        psql = await asyncio.create_subprocess_exec(*command, stdin=asyncio.subprocess.PIPE, cwd=self.folder)
        assert psql.stdin
        for at in range(count):
            value = "%d.%d" % (id(sent), at)
            sent[value] = time.perf_counter()
            psql.stdin.write((INSERT % value).encode())
            await asyncio.sleep(pause)
        end = time.monotonic() + 120
        while len(told) < count * readers and time.monotonic() < end:
            await asyncio.sleep(0.05)
        psql.stdin.close()
        await psql.wait()
        for follower in followers:
            follower.cancel()
        await asyncio.gather(*followers, return_exceptions=True)
        if len(told) < count * readers:
            raise SystemExit("bench: %d of %d rows came to PostgreSQL's readers" % (len(told), count * readers))
        return sent, told

    async def _follow(self, slot: str, ready: list[bool], told: list[tuple[str, float]]) -> None:
        common = ("-h", self.folder, "-d", "postgres", "--slot", slot)
        await asyncio.to_thread(self._run, "pg_recvlogical", *common, "--create-slot", "-P", "test_decoding")
        command = self._command("pg_recvlogical", *common, "--start", "--no-loop", "-f", "-")
        process = await asyncio.create_subprocess_exec(*command, stdout=asyncio.subprocess.PIPE, cwd=self.folder)
        assert process.stdout
        ready.append(True)
        try:
            async for line in process.stdout:
                if found := re.search(rb"v\[text\]:'(\d+\.\d+)'", line):
                    told.append((found[1].decode(), time.perf_counter()))
        finally:
            process.terminate()
            await process.wait()
            await asyncio.to_thread(self._run, "pg_recvlogical", *common, "--drop-slot")
