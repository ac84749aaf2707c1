package ripsawbean;

import static java.nio.charset.StandardCharsets.UTF_8;

import java.io.BufferedReader;
import java.io.InputStreamReader;
import java.io.PrintStream;
import java.nio.file.Path;
import java.time.Duration;
import java.util.ArrayList;
import java.util.List;
import java.util.Map;

/** What the conformance kit runs of this client: calls come as lines of JSON, and what they give or raise goes back so. */
public final class Driver {
    /** The consumer has stored what it was to store. */
    private static final class Stop extends RuntimeException {
        private static final long serialVersionUID = 1;
    }

    private Driver() {}

    public static void main(String[] words) throws Exception {
        var in = new BufferedReader(new InputStreamReader(System.in, UTF_8));
        var out = new PrintStream(System.out, true, UTF_8);
        Client db = null;
        for (String line = in.readLine(); line != null; line = in.readLine()) {
            Map<String, Object> call = Json.object(Json.read(line));
            if (call.containsKey("connect")) {
                db = connected(call);
            } else {
                out.println(Json.written(reply(db, call)));
            }
        }
    }

    private static Client connected(Map<String, Object> call) throws Exception {
        Options options = new Options().token((String) call.get("token")).identity((String) call.get("identity"));
        if (call.get("timeout") instanceof Number seconds) {
            options.timeout(Duration.ofMillis((long) (1000 * seconds.doubleValue())));
        }
        String urls = Json.string(call.get("connect"));
        String trusted = System.getenv("SSL_CERT_FILE");
        if (trusted != null && urls.startsWith("https")) {
            options.trusted(Path.of(trusted));
        }
        return Client.connect(urls, options);
    }

    private static Map<String, Object> reply(Client db, Map<String, Object> call) {
        try {
            return Step.map("gives", gives(db, call));
        } catch (RipsawbeanException why) {
            boolean isOther = why.getClass() == RipsawbeanException.class;
            Map<String, Object> told = Step.map("raises", isOther ? "Error" : why.getClass().getSimpleName(), "error", why.error);
            if (why instanceof RipsawbeanException.ConditionFailed failed) {
                told.put("found", rows(failed.found()));
            }
            return told;
        }
    }

    private static Object gives(Client db, Map<String, Object> call) {
        Bytes key = Bytes.ofJson(call.get("key"));
        Bytes lo = Bytes.ofJson(call.get("lo"));
        Bytes hi = Bytes.ofJson(call.get("hi"));
        Long at = timestamp(call.get("at"));
        switch (Json.string(call.get("call"))) {
            case "get":
                return at == null ? db.get(key) : db.row(key, at).value();
            case "row":
                return row(at == null ? db.row(key) : db.row(key, at));
            case "put":
                return text(db.put(key, Bytes.ofJson(call.get("value")), conditions(call.get("if"))));
            case "delete":
                return text(db.delete(key, conditions(call.get("if"))));
            case "txn":
                return done(db.txn(steps(call.get("then")), List.of(conditions(call.get("if"))), steps(call.get("else"))));
            case "transact":
                return db.transact(tx -> worked(tx, Json.list(call.get("work"))));
            case "count":
                return db.transact(tx -> counted(tx, key));
            case "page":
                Page page = db.page(lo, hi, at, number(call.get("limit")));
                return Step.map("timestamp", text(page.timestamp()), "rows", rows(page.rows()), "next", page.next());
            case "scan":
                List<Row> found = new ArrayList<>();
                db.scan(lo, hi, at, number(call.get("page"))).forEach(found::add);
                return rows(found);
            case "feed":
                return feed(db, call, options(call, lo, hi));
            default:
                return consume(db, call, options(call, lo, hi));
        }
    }

    private static FeedOptions options(Map<String, Object> call, Bytes lo, Bytes hi) {
        FeedOptions options = new FeedOptions().span(lo, hi).place(place(call.get("place")));
        if (Boolean.TRUE.equals(call.get("before"))) {
            options.before();
        }
        return Boolean.TRUE.equals(call.get("anew")) ? options.anew() : options;
    }

    private static List<Object> feed(Client db, Map<String, Object> call, FeedOptions options) {
        List<Object> told = new ArrayList<>();
        try (Feed feed = db.feed(options)) {
            for (int left = number(call.get("take")); left > 0; left--) {
                told.add(message(feed.next()));
            }
        }
        return told;
    }

    private static List<Object> consume(Client db, Map<String, Object> call, FeedOptions options) {
        List<Object> batches = new ArrayList<>();
        int enough = number(call.get("stores"));
        Target target = new Target() {
            private Place kept = place(call.get("place"));
            private Place outrun = place(call.get("outrun"));

            @Override
            public Place load() {
                return kept;
            }

            @Override
            public void store(Batch batch) {
                if (outrun != null) {
                    kept = outrun;
                    outrun = null;
                    throw new RipsawbeanException.Outrun();
                }
                kept = batch.place();
                batches.add(Step.map("changes", batch.changes().stream().map(Driver::message).toList(), "place",
                        told(batch.place()), "was", told(batch.was()), "reset", batch.reset()));
                if (batches.size() == enough) {
                    throw new Stop();
                }
            }
        };
        try {
            db.consume(Json.string(call.get("name")), target, options);
        } catch (Stop why) {
            return batches;
        }
        throw new AssertionError("a consumer has no end");
    }

    private static List<Object> worked(Transaction tx, List<Object> work) {
        List<Object> found = new ArrayList<>();
        for (Map<String, Object> step : work.stream().map(Json::object).toList()) {
            if (step.containsKey("put")) {
                tx.put(Bytes.ofJson(step.get("put")), Bytes.ofJson(step.get("value")));
            } else if (step.containsKey("del")) {
                tx.delete(Bytes.ofJson(step.get("del")));
            } else if (step.containsKey("get")) {
                found.add(tx.get(Bytes.ofJson(step.get("get"))));
            } else {
                List<Object> span = Json.list(step.get("scan"));
                found.add(rows(tx.scan(Bytes.ofJson(span.get(0)), Bytes.ofJson(span.get(1)))));
            }
        }
        return found;
    }

    private static String counted(Transaction tx, Bytes key) {
        Bytes found = tx.get(key);
        String told = Integer.toString((found == null ? 0 : Integer.parseInt(found.toString())) + 1);
        tx.put(key, Bytes.of(told));
        return told;
    }

    private static Condition[] conditions(Object told) {
        List<Object> all = told == null ? List.of() : told instanceof List<?> ? Json.list(told) : List.of(told);
        return all.stream().map(Json::object).map(Driver::condition).toArray(Condition[]::new);
    }

    private static Condition condition(Map<String, Object> one) {
        if (one.containsKey("span")) {
            List<Object> span = Json.list(one.get("span"));
            return Condition.unchanged(Bytes.ofJson(span.get(0)), Bytes.ofJson(span.get(1)), timestamp(one.get("unchanged")));
        }
        Bytes key = Bytes.ofJson(one.get("key"));
        if (one.containsKey("version")) {
            return Condition.versionIs(key, timestamp(one.get("version")));
        }
        return Boolean.FALSE.equals(one.get("absent")) ? Condition.exists(key)
                : Condition.valueIs(key, Bytes.ofJson(one.get("value")));
    }

    private static List<Step> steps(Object told) {
        return told == null ? null : Json.list(told).stream().map(Json::object).map(Driver::step).toList();
    }

    private static Step step(Map<String, Object> one) {
        if (one.containsKey("put")) {
            return Step.put(Bytes.ofJson(one.get("put")), Bytes.ofJson(one.get("value")));
        } else if (one.containsKey("del")) {
            return Step.delete(Bytes.ofJson(one.get("del")));
        } else if (one.containsKey("get")) {
            return Step.get(Bytes.ofJson(one.get("get")));
        }
        List<Object> span = Json.list(one.get("scan"));
        Bytes lo = Bytes.ofJson(span.get(0));
        Bytes hi = Bytes.ofJson(span.get(1));
        return one.containsKey("limit") ? Step.scan(lo, hi, number(one.get("limit"))) : Step.scan(lo, hi);
    }

    private static int number(Object told) {
        return told instanceof Number number ? number.intValue() : Client.PAGE;
    }

    private static Long timestamp(Object told) {
        return told == null ? null : Long.valueOf(Json.string(told));
    }

    private static Place place(Object told) {
        if (told == null) {
            return null;
        }
        Map<String, Object> members = Json.object(told);
        Long generation = timestamp(members.get("generation"));
        return new Place(Json.string(members.get("identity")), timestamp(members.get("timestamp")), generation == null ? 0 : generation);
    }

    private static String text(long timestamp) {
        return Long.toString(timestamp);
    }

    private static Object told(Place place) {
        return place == null ? null : Step.map("identity", place.identity(), "timestamp", text(place.timestamp()),
                "generation", text(place.generation()));
    }

    private static Object row(Row row) {
        return Step.map("key", row.key(), "value", row.value(), "version", row.version() == 0 ? null : text(row.version()));
    }

    private static List<Object> rows(List<Row> rows) {
        return rows.stream().map(Driver::row).toList();
    }

    private static Object done(Done done) {
        List<Object> results = null;
        if (done.results() != null) {
            results = new ArrayList<>();
            for (Done.Result one : done.results()) {
                results.add(one == null ? null : one.row() != null ? row(one.row())
                        : Step.map("rows", rows(one.rows()), "more", one.more()));
            }
        }
        return Step.map("timestamp", text(done.timestamp()), "branch", done.branch(), "written", done.written(), "results", results);
    }

    private static Object message(Message message) {
        if (message instanceof Message.Change change) {
            return Step.map("key", change.key(), "value", change.value(), "timestamp", text(change.timestamp()),
                    "before", change.before());
        } else if (message instanceof Message.Reset reset) {
            return Step.map("reset", text(reset.place().timestamp()), "identity", reset.place().identity());
        }
        Place place = ((Message.Resolved) message).place();
        return Step.map("resolved", text(place.timestamp()), "identity", place.identity());
    }
}
