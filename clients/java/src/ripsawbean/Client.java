package ripsawbean;

import static java.nio.charset.StandardCharsets.UTF_8;

import java.security.SecureRandom;
import java.util.Arrays;
import java.util.HexFormat;
import java.util.Iterator;
import java.util.List;
import java.util.Map;
import java.util.NoSuchElementException;
import java.util.function.Function;

/**
 * A client of a Ripsawbean server, which threads may share.
 *
 * <pre>{@code
 * Client db = Client.connect("http://127.0.0.1:7077");
 * db.put(Bytes.of("apple"), Bytes.of("3"));
 * Bytes value = db.get(Bytes.of("apple")); // null where it is absent, and nothing else is ever null
 * db.transact(tx -> { ..                   // runs anew where another transaction was faster
 * }</pre>
 *
 * Whatever is refused is a {@link RipsawbeanException}. A request is for one database: the first answer pins the
 * identity, which every later request names. A write has a key, so the server makes it once however often it is sent.
 */
public final class Client {
    static final int PAGE = 1000; // rows, where nobody says how many
    private static final SecureRandom RANDOM = new SecureRandom();
    final Calls calls;

    private Client(Calls calls) {
        this.calls = calls;
    }

    /** A client of the server at a URL, or of those at several, with commas between them. It asks nothing yet. */
    public static Client connect(String urls) {
        return connect(urls, new Options());
    }

    public static Client connect(String urls, Options options) {
        return new Client(new Calls(urls, options));
    }

    /** The identity of the database that this client is for, once it has answered. */
    public String identity() {
        return calls.identity();
    }

    public Bytes get(Bytes key) {
        return row(key).value();
    }

    public Row row(Bytes key) {
        return read(key, null).row;
    }

    /** The key as it was at a timestamp. */
    public Row row(Bytes key, long at) {
        return read(key, at).row;
    }

    /** Writes a value, where all conditions hold. The timestamp is the row's version. */
    public long put(Bytes key, Bytes value, Condition... conditions) {
        return txn(List.of(Step.put(key, value)), List.of(conditions), null).timestamp();
    }

    public long delete(Bytes key, Condition... conditions) {
        return txn(List.of(Step.delete(key)), List.of(conditions), null).timestamp();
    }

    /** One transaction: {@code then} where all conditions hold, else {@code otherwise}. Null there is ConditionFailed. */
    public Done txn(List<Step> then, List<Condition> conditions, List<Step> otherwise) {
        Map<String, Object> asked = Step.map("then", then.stream().map(Step::json).toList());
        if (!conditions.isEmpty()) {
            asked.put("if", conditions.stream().map(Condition::json).toList());
        }
        if (otherwise != null) {
            asked.put("else", otherwise.stream().map(Step::json).toList());
        }
        byte[] key = new byte[16];
        RANDOM.nextBytes(key);
        Map<String, String> headers = Map.of("Idempotency-Key", HexFormat.of().formatHex(key), "Content-Type", "application/json");
        return calls.call("POST", "/transact", Json.written(asked).getBytes(UTF_8), headers).json(Done::ofJson);
    }

    /** What the work returns. It runs anew until what it has read is unchanged at its commit: so it has no effects else. */
    public <T> T transact(Function<Transaction, T> work) {
        Pauses pauses = new Pauses(calls.timeout);
        while (true) {
            Transaction transaction = new Transaction(this);
            RipsawbeanException last;
            try {
                T told = work.apply(transaction);
                try {
                    transaction.commit();
                    return told;
                } catch (RipsawbeanException.ConditionFailed why) {
                    last = why;
                }
            } catch (RipsawbeanException.Gone why) { // its snapshot is collected
                last = why;
            }
            if (!pauses.pause(0)) {
                throw last;
            }
        }
    }

    /** Rows at or above {@code lo} and below {@code hi}, now or at a timestamp. Null is no bound. */
    public Page page(Bytes lo, Bytes hi, Long at, int limit) {
        String path = "/rows" + Query.of(lo, hi).with("at", at).with("limit", limit);
        return calls.call("GET", path, null, Map.of()).page();
    }

    /** All rows of a span, of one snapshot, page by page as they are gone over. */
    public Iterable<Row> scan(Bytes lo, Bytes hi) {
        return scan(lo, hi, null, PAGE);
    }

    public Iterable<Row> scan(Bytes lo, Bytes hi, Long at, int limit) {
        return () -> new Iterator<>() {
            private Page page = page(lo, hi, at, limit);
            private Iterator<Row> rows = page.rows().iterator();

            @Override
            public boolean hasNext() {
                while (!rows.hasNext() && page.next() != null) {
                    page = page(page.next(), hi, page.timestamp(), limit);
                    rows = page.rows().iterator();
                }
                return rows.hasNext();
            }

            @Override
            public Row next() {
                if (!hasNext()) {
                    throw new NoSuchElementException();
                }
                return rows.next();
            }
        };
    }

    /** Changes as they are committed, until it is closed. */
    public Feed feed(FeedOptions options) {
        return new Feed(calls, options, options.place, null);
    }

    /**
     * Keeps a target in step, until that throws, or with {@link RipsawbeanException.Outrun} where a later consumer has the
     * name. The server holds for the name what follows its place.
     */
    public void consume(String name, Target target, FeedOptions options) {
        new Consumer(calls, name, target, options).run();
    }

    /** A row, and the timestamp at which it was read. */
    record Read(long timestamp, Row row) {}

    Read read(Bytes key, Long at) {
        if (key.toString().matches("\\.\\.?")) { // no URL can have these two in its path
            return readDots(key, at);
        }
        Answer answer = calls.call("GET", "/key/" + key.percent() + new Query().with("at", at), null, Map.of());
        if (answer.status() == 404) {
            long timestamp = answer.json(told -> Long.parseLong(Json.string(Json.object(told).get("timestamp"))));
            return new Read(timestamp, Row.absent(key));
        }
        return new Read(answer.number("Ripsawbean-Timestamp"), new Row(key, Bytes.of(answer.body()), answer.number("ETag")));
    }

    private Read readDots(Bytes key, Long at) {
        if (at == null) {
            Done done = txn(Arrays.asList(Step.get(key)), List.of(), null);
            return new Read(done.timestamp(), done.results().get(0).row());
        }
        List<Row> rows = page(key, key.behind(), at, 1).rows();
        return new Read(at, rows.isEmpty() ? Row.absent(key) : rows.get(0));
    }
}
