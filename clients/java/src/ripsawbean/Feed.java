package ripsawbean;

import static java.nio.charset.StandardCharsets.UTF_8;

import java.net.http.HttpResponse;
import java.util.ArrayDeque;
import java.util.Iterator;
import java.util.Map;
import java.util.Queue;

/**
 * Tells each message once, in order, over any number of streams. A stream may be cut anywhere, and the next one goes on
 * from a place at which all was told. That moves at a resolved message, and also where the first row of a later timestamp
 * U shows that all up to U - 1 was told. Where the cut falls among the rows of the first snapshot, the others are read by
 * pages, as of the same timestamp.
 */
public final class Feed implements Iterator<Message>, AutoCloseable {
    private static final int HOLD = 30; // seconds for which a snapshot that was cut is held from page to page
    private final Calls calls;
    private final FeedOptions options;
    private final String name;
    private final Queue<Message> told = new ArrayDeque<>();
    private Place place;         // all up to here was told
    private Place snapshot;      // of these rows some were told, and not all
    private Bytes rest;          // where the page behind the last one begins, unless that was lost
    private Bytes lastKey;       // the row that was told last
    private long lastTimestamp;
    private long resolved;
    private String identity;
    private long generation;
    private long cursor;
    private int address;         // where the last stream was asked for
    private int limit = Client.PAGE;
    private Pauses pauses = new Pauses(null);
    private volatile Lines lines;
    private volatile boolean isClosed;

    Feed(Calls calls, FeedOptions options, Place place, String name) {
        this.calls = calls;
        this.options = options;
        this.name = name;
        begin(place);
    }

    private void begin(Place from) {
        place = from;
        snapshot = null;
        rest = null;
        lastKey = null;
        lastTimestamp = -1;
        resolved = from == null ? -1 : from.timestamp();
    }

    Place place() {
        return place;
    }

    long generation() {
        return generation;
    }

    /** A feed has no end but its close. */
    @Override
    public boolean hasNext() {
        return !isClosed;
    }

    /** Waits for the next message. */
    @Override
    public Message next() {
        while (told.isEmpty()) {
            try {
                step();
            } catch (Lost why) {
                if (isClosed) {
                    throw new IllegalStateException("the feed is closed", why);
                }
                stop();
                calls.addresses.leave(address);
                limit = Math.max(1, limit / 2);
                pauses.pause(0);
            }
        }
        pauses = new Pauses(null);
        return told.remove();
    }

    /** Ends it, also while another thread waits for a message. */
    @Override
    public void close() {
        isClosed = true;
        stop();
    }

    private void stop() {
        Lines open = lines;
        lines = null;
        rest = null;
        if (open != null) {
            open.close();
        }
    }

    /** Opens a stream, or takes the next line or page. */
    private void step() throws Lost {
        Lines open = lines;
        if (isClosed) {
            throw new Lost("it was closed");
        } else if (open == null && snapshot != null) {
            restOfSnapshot();
        } else if (open == null) {
            open();
        } else {
            String line = open.next(calls.addresses.silence());
            if (!line.isEmpty()) {
                take(line);
            } else if (name != null) {
                told.add(new Message.Idle());
            }
        }
    }

    /** A stream from the place, or from the rows that are there where there is none. */
    private void open() throws Lost {
        Query query = Query.of(options.lo, options.hi).with("before", options.before ? 1 : null).with("consumer", name);
        if (place != null) {
            query.with("from", place.timestamp()).with("identity", place.identity());
        }
        address = calls.addresses.now();
        var headers = calls.headers(options.anew ? null : calls.identity(), Map.of());
        var silence = calls.addresses.silence();
        HttpResponse<Lines> reply = calls.wire.stream(calls.addresses.url(address) + "/feed" + query, headers,
                calls.addresses.patience(silence));
        if (reply.statusCode() != 200) {
            byte[] body = reply.body().all(silence).getBytes(UTF_8);
            throw notOpened(RipsawbeanException.of(reply.statusCode(), body));
        }
        Answer head = new Answer(200, reply.headers(), new byte[0]);
        cursor = head.number("Ripsawbean-From");
        identity = reply.headers().firstValue("Ripsawbean-Identity").orElse("");
        generation = reply.headers().firstValueAsLong("Ripsawbean-Generation").orElse(0);
        if (!options.anew) {
            calls.pin(identity);
        }
        if (place == null) {
            begin(null);
            snapshot = new Place(identity, cursor, generation);
            limit = Client.PAGE;
            told.add(new Message.Reset(snapshot));
        }
        lines = reply.body();
    }

    private Lost notOpened(RipsawbeanException refusal) {
        if (Answer.AGAIN.contains(refusal.status)) {
            return new Lost(refusal, true);
        }
        boolean isNowhere = refusal instanceof RipsawbeanException.OtherDatabase || refusal instanceof RipsawbeanException.Gone;
        // A consumer's rows of the same database can be told again.
        boolean mayBeAnew = options.anew && isNowhere || name != null && refusal.error.equals("belowhorizon");
        if (place == null || !mayBeAnew) {
            throw refusal;
        }
        begin(null);
        return new Lost(refusal, true);
    }

    private void take(String line) throws Lost {
        Map<String, Object> members;
        try {
            members = Json.object(Json.read(line));
        } catch (IllegalArgumentException why) {
            throw RipsawbeanException.nonsense(200, "is no message");
        }
        if (members.get("resolved") instanceof String timestamp) {
            reach(new Place(identity, Long.parseLong(timestamp), generation));
        } else if (members.get("end") instanceof String end) {
            if (end.equals("fenced") || end.equals("deleted")) {
                throw new RipsawbeanException.Outrun(409, Map.of("error", end, "why", "a later consumer has the name"));
            }
            throw new Lost(end);
        } else if (members.get("key") instanceof String key) {
            change(new Message.Change(Bytes.ofBase64(key), Bytes.ofBase64((String) members.get("after")),
                    Long.parseLong(Json.string(members.get("updated"))), Bytes.ofBase64((String) members.get("before"))));
        }
    }

    private void change(Message.Change row) {
        long below = row.timestamp() - 1;
        if (below >= cursor && (place == null || below > place.timestamp())) {
            place = new Place(identity, below, generation);
            snapshot = null;
        }
        boolean isLater = row.timestamp() > lastTimestamp
                || row.timestamp() == lastTimestamp && row.key().compareTo(lastKey) > 0;
        if (isLater) {
            tell(row);
        }
    }

    private void tell(Message.Change row) {
        lastKey = row.key();
        lastTimestamp = row.timestamp();
        told.add(row);
    }

    private void reach(Place reached) {
        place = reached;
        snapshot = null;
        if (reached.timestamp() > resolved) {
            resolved = reached.timestamp();
            told.add(new Message.Resolved(reached));
        }
    }

    /** One page of what a cut has left out: half as long after a cut, else twice as long. */
    private void restOfSnapshot() throws Lost {
        Bytes lo = rest != null ? rest : lastKey != null ? lastKey.behind() : options.lo;
        String path = "/rows" + Query.of(lo, options.hi).with("at", snapshot.timestamp()).with("limit", limit).with("hold", HOLD);
        Answer answer;
        address = calls.addresses.now();
        try {
            answer = calls.once("GET", path, null, calls.timeout, Map.of("Ripsawbean-Identity", snapshot.identity()));
        } catch (RipsawbeanException.Gone | RipsawbeanException.OtherDatabase why) {
            if (why instanceof RipsawbeanException.OtherDatabase && !options.anew) {
                throw why;
            }
            begin(null);
            throw new Lost(why, true);
        }
        if (answer.status() != 200) {
            throw new Lost(RipsawbeanException.of(answer.status(), answer.body()), true);
        }
        Page page = answer.page();
        page.rows().forEach(row -> tell(new Message.Change(row.key(), row.value(), snapshot.timestamp(), null)));
        limit = Math.min(Client.PAGE, 2 * limit);
        rest = page.next();
        if (rest == null) {
            reach(snapshot);
        }
    }
}
