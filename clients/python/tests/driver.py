#!/usr/bin/env python3
"""What the conformance kit runs of this client: calls come as lines of JSON, and what they give or raise goes back so.

`driver.py` drives the client for threads, `driver.py aio` that for asyncio.
"""

import asyncio
import json
import os
import sys

sys.dont_write_bytecode = True
sys.path.insert(0, os.path.join(os.path.dirname(os.path.abspath(__file__)), ".."))
import ripsawbean_client as rb  # noqa: E402
from ripsawbean_client import aio  # noqa: E402
from ripsawbean_client.values import of_json, to_json  # noqa: E402


class Stop(Exception):
    pass


def told(value):
    """A result as the kit's JSON has it."""
    if isinstance(value, bytes):
        return to_json(value)
    if isinstance(value, (rb.Reset, rb.Resolved)):
        return {type(value).__name__.lower(): str(value.timestamp), "identity": value.identity}
    if isinstance(value, tuple):
        return {name: part if name == "written" else told(part) for name, part in value._asdict().items()}
    if isinstance(value, list):
        return [told(one) for one in value]
    return str(value) if type(value) is int else value


def given(call, *names):
    """Arguments that a call has, by the names that the client has for them."""
    kinds = {"at": int, "place": place_of, "if": condition_of}
    kinds.update(dict.fromkeys(("lo", "hi", "key", "value"), of_json))
    found = {name: kinds.get(name, lambda it: it)(call[name]) for name in names if call.get(name) is not None}
    return {"if_" if name == "if" else name: value for name, value in found.items()}


def place_of(place):
    return place and rb.Place(place["identity"], int(place["timestamp"]), int(place.get("generation", 0)))


def condition_of(one):
    if "span" in one:
        return rb.unchanged(*(bound and of_json(bound) for bound in one["span"]), int(one["unchanged"]))
    if "version" in one:
        return rb.version_is(of_json(one["key"]), int(one["version"]))
    if one.get("absent") is False:
        return rb.exists(of_json(one["key"]))
    return rb.value_is(of_json(one["key"]), None if "absent" in one else of_json(one["value"]))


def step_of(one):
    if "put" in one:
        return rb.put(of_json(one["put"]), of_json(one["value"]))
    if "scan" in one:
        return rb.scan(*(bound and of_json(bound) for bound in one["scan"]), one.get("limit"))
    return rb.delete(of_json(one["del"])) if "del" in one else rb.get(of_json(one["get"]))


def txn_of(call):
    parts = {"then": [step_of(one) for one in call["then"]]}
    if "if" in call:
        parts["if_"] = [condition_of(one) for one in call["if"]]
    if "else" in call:
        parts["else_"] = [step_of(one) for one in call["else"]]
    return parts


class Kept:
    """A consumer's target: it stops at the last of so many stores."""

    def __init__(self, call):
        self.place, self.outrun = place_of(call.get("place")), call.get("outrun")
        self.left, self.batches = call["stores"], []

    def load(self):
        return self.place

    def store(self, batch):
        if self.outrun:
            self.place, self.outrun = place_of(self.outrun), None
            raise rb.Outrun()
        assert batch.was == self.place
        self.place = batch.place
        self.batches.append(batch)
        if len(self.batches) == self.left:
            raise Stop


NAMES = {
    "get": ("key", "at"), "row": ("key", "at"), "put": ("key", "value", "if"), "delete": ("key", "if"),
    "page": ("lo", "hi", "at", "limit"), "scan": ("lo", "hi", "at", "page"),
    "feed": ("lo", "hi", "place", "before", "anew"), "consume": ("lo", "hi", "before", "anew"),
}


def answer(db, call):
    name = call["call"]
    if name == "txn":
        return db.txn(**txn_of(call))
    if name == "count":
        return db.transact(lambda tx: raised(tx, call["key"], tx.get(call["key"])))
    if name == "transact":
        return db.transact(lambda tx: [one for one in (work(tx, step) for step in call["work"]) if one is not work])
    arguments = given(call, *NAMES[name])
    if name == "scan":
        return list(db.scan(**arguments))
    if name == "feed":
        messages = db.feed(**arguments)
        return [next(messages) for _ in range(call["take"])]
    if name == "consume":
        kept = Kept(call)
        try:
            db.consume(call["name"], kept.load, kept.store, **arguments)
        except Stop:
            return kept.batches
    return getattr(db, name)(**arguments)


def raised(tx, key, found):
    """Work that raises a count."""
    told = str(int(found or 0) + 1)
    tx.put(key, told)
    return told


def work(tx, step):
    if "put" in step or "del" in step:
        parts = [of_json(step[name]) for name in ("put", "del", "value") if name in step]
        (tx.put if "put" in step else tx.delete)(*parts)
        return work
    if "get" in step:
        return tx.get(of_json(step["get"]))
    return tx.scan(*(bound and of_json(bound) for bound in step["scan"]))


async def answer_async(db, call):
    name = call["call"]
    if name == "txn":
        return await db.txn(**txn_of(call))
    if name == "count":
        async def count(tx):
            return raised(tx, call["key"], await tx.get(call["key"]))
        return await db.transact(count)
    if name == "transact":
        async def all_of(tx):
            found = []
            for one in (work(tx, step) for step in call["work"]):
                if one is not work:
                    found.append(await one)
            return found
        return await db.transact(all_of)
    arguments = given(call, *NAMES[name])
    if name == "scan":
        return [row async for row in db.scan(**arguments)]
    if name == "feed":
        messages = db.feed(**arguments)
        found = [await messages.__anext__() for _ in range(call["take"])]
        await messages.aclose()
        return found
    if name == "consume":
        kept = Kept(call)

        async def store(batch):
            kept.store(batch)
        try:
            await db.consume(call["name"], kept.load, store, **arguments)
        except Stop:
            return kept.batches
    return await getattr(db, name)(**arguments)


def run(db, call):
    return answer(db, call) if isinstance(db, rb.Client) else LOOP.run_until_complete(answer_async(db, call))


def main(module):
    db = None
    for line in map(json.loads, sys.stdin):
        if "connect" in line:
            close(db)
            options = {name: line[name] for name in ("token", "identity", "timeout") if name in line}
            db = module.connect(line["connect"], **options)
            continue
        try:
            reply = {"gives": told(run(db, line))}
        except rb.Error as why:
            reply = {"raises": type(why).__name__, "error": why.error}
            if isinstance(why, rb.ConditionFailed):
                reply["found"] = told(why.found)
        print(json.dumps(reply), flush=True)
    close(db)


def close(db):
    if isinstance(db, aio.Client):
        LOOP.run_until_complete(db.close())
    elif db:
        db.close()


LOOP = asyncio.new_event_loop()
main(aio if sys.argv[1:] == ["aio"] else rb)
