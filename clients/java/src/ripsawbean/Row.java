package ripsawbean;

import java.util.ArrayList;
import java.util.List;

/** A key as it is at a timestamp. Where it is absent its value is null, and its version 0. */
public record Row(Bytes key, Bytes value, long version) {
    static Row absent(Bytes key) {
        return new Row(key, null, 0);
    }

    static Row ofJson(Object told) {
        var members = Json.object(told);
        Object version = members.get("version");
        return new Row(Bytes.ofJson(members.get("key")), Bytes.ofJson(members.get("value")),
                version == null ? 0 : Long.parseLong(Json.string(version)));
    }

    static List<Row> allOfJson(Object told) {
        List<Row> rows = new ArrayList<>();
        for (Object one : Json.list(told)) {
            rows.add(ofJson(one));
        }
        return rows;
    }
}
