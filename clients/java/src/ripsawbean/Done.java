package ripsawbean;

import java.util.ArrayList;
import java.util.List;

/**
 * A transaction that committed. Its branch is "then" or "else". A result is null for a write. Results are null where it
 * wrote, and its answer had more than 4096 bytes and was lost: read anew.
 */
public record Done(long timestamp, String branch, int written, List<Result> results) {
    /** The row of a {@code get}, or the rows of a {@code scan}, and whether there are more behind its limit. */
    public record Result(Row row, List<Row> rows, boolean more) {}

    static Done ofJson(Object told) {
        var members = Json.object(told);
        List<Result> results = members.get("results") == null ? null : new ArrayList<>();
        if (results != null) {
            Json.list(members.get("results")).forEach(one -> results.add(result(one)));
        }
        return new Done(Long.parseLong(Json.string(members.get("timestamp"))), Json.string(members.get("branch")),
                ((Number) members.get("written")).intValue(), results);
    }

    private static Result result(Object told) {
        if (told == null) {
            return null;
        }
        var members = Json.object(told);
        boolean isScan = members.containsKey("rows");
        return isScan ? new Result(null, Row.allOfJson(members.get("rows")), (Boolean) members.get("more"))
                : new Result(Row.ofJson(told), null, false);
    }
}
