package ripsawbean;

import java.util.ArrayList;
import java.util.LinkedHashMap;
import java.util.List;
import java.util.Map;
import java.util.TreeMap;

/** Reads of one snapshot, and writes that are kept until the end. They commit where nothing that was read has changed. */
public final class Transaction {
    private final Client client;
    private final Map<Bytes, Row> seen = new LinkedHashMap<>();
    private final List<Condition> spans = new ArrayList<>();
    private final Map<Bytes, Bytes> writes = new LinkedHashMap<>();
    private Long at;

    Transaction(Client client) {
        this.client = client;
    }

    public void put(Bytes key, Bytes value) {
        writes.put(key, java.util.Objects.requireNonNull(value));
    }

    public void delete(Bytes key) {
        writes.put(key, null);
    }

    /** The key's value, or null where it is absent. */
    public Bytes get(Bytes key) {
        if (writes.containsKey(key)) {
            return writes.get(key);
        }
        if (!seen.containsKey(key)) {
            Client.Read read = client.read(key, at);
            at = at == null ? Long.valueOf(read.timestamp()) : at;
            seen.put(key, read.row());
        }
        return seen.get(key).value();
    }

    /** The rows of a span, with what this transaction has written. */
    public List<Row> scan(Bytes lo, Bytes hi) {
        Map<Bytes, Row> found = new TreeMap<>();
        Bytes next = lo;
        do {
            Page page = client.page(next, hi, at, Client.PAGE);
            at = page.timestamp();
            page.rows().forEach(row -> found.put(row.key(), row));
            next = page.next();
        } while (next != null);
        spans.add(Condition.unchanged(lo, hi, at));
        writes.forEach((key, value) -> {
            boolean isBelow = hi == null || hi.length() == 0 || key.compareTo(hi) < 0;
            if ((lo == null || key.compareTo(lo) >= 0) && isBelow) {
                found.put(key, new Row(key, value, 0));
            }
        });
        return found.values().stream().filter(row -> row.value() != null).toList();
    }

    void commit() {
        if (writes.isEmpty()) { // a snapshot's reads alone are right as they are
            return;
        }
        List<Condition> conditions = new ArrayList<>(spans);
        seen.values().forEach(row -> conditions.add(Condition.versionIs(row.key(), row.version())));
        List<Step> steps = new ArrayList<>();
        writes.forEach((key, value) -> steps.add(value == null ? Step.delete(key) : Step.put(key, value)));
        client.txn(steps, conditions, null);
    }
}
