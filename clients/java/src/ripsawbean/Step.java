package ripsawbean;

import java.util.LinkedHashMap;
import java.util.Map;

/** A part of a transaction. */
public record Step(Map<String, Object> json) {
    public static Step put(Bytes key, Bytes value) {
        return of("put", key, "value", value);
    }

    public static Step delete(Bytes key) {
        return of("del", key);
    }

    public static Step get(Bytes key) {
        return of("get", key);
    }

    /** The rows at or above {@code lo} and below {@code hi}, 1000 at most. Null is no bound. */
    public static Step scan(Bytes lo, Bytes hi) {
        return of("scan", Condition.span(lo, hi));
    }

    /** At most so many of them. */
    public static Step scan(Bytes lo, Bytes hi, int limit) {
        return of("scan", Condition.span(lo, hi), "limit", limit);
    }

    static Step of(Object... members) {
        return new Step(map(members));
    }

    static Map<String, Object> map(Object... members) {
        Map<String, Object> found = new LinkedHashMap<>();
        for (int at = 0; at < members.length; at += 2) {
            found.put((String) members[at], members[at + 1]);
        }
        return found;
    }
}
