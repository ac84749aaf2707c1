package ripsawbean;

import java.util.Arrays;
import java.util.List;
import java.util.Map;

/** What has to hold for a transaction to write. */
public record Condition(Map<String, Object> json) {
    /** The key has this value, or is absent where it is null. */
    public static Condition valueIs(Bytes key, Bytes value) {
        return value == null ? of("key", key, "absent", true) : of("key", key, "value", value);
    }

    public static Condition exists(Bytes key) {
        return of("key", key, "absent", false);
    }

    /** The key has the version that a row or a change had. 0 is absent. */
    public static Condition versionIs(Bytes key, long version) {
        return of("key", key, "version", Long.toString(version));
    }

    /** The rows of the span are those at this timestamp. */
    public static Condition unchanged(Bytes lo, Bytes hi, long since) {
        return of("span", span(lo, hi), "unchanged", Long.toString(since));
    }

    private static Condition of(Object... members) {
        return new Condition(Step.map(members));
    }

    static List<Bytes> span(Bytes lo, Bytes hi) {
        return Arrays.asList(bound(lo), bound(hi));
    }

    private static Bytes bound(Bytes key) {
        return key == null || key.length() == 0 ? null : key;
    }
}
