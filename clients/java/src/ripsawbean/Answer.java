package ripsawbean;

import static java.nio.charset.StandardCharsets.UTF_8;

import java.net.http.HttpHeaders;
import java.util.Set;
import java.util.function.Function;

/** What the server says to a request. */
record Answer(int status, HttpHeaders headers, byte[] body) {
    /** Nothing was changed, or a proxy lost the answer. */
    static final Set<Integer> AGAIN = Set.of(408, 502, 503, 504);

    long number(String name) {
        String told = headers.firstValue(name).orElse("").replace("\"", "");
        try {
            return Long.parseUnsignedLong(told);
        } catch (NumberFormatException why) {
            throw RipsawbeanException.nonsense(status, "has \"" + told + "\" as its " + name);
        }
    }

    /** What its JSON stands for. */
    <T> T json(Function<Object, T> meaning) {
        try {
            return meaning.apply(Json.read(new String(body, UTF_8)));
        } catch (IllegalArgumentException | NullPointerException | ClassCastException why) {
            throw RipsawbeanException.nonsense(status, "is no JSON of this kind");
        }
    }

    Page page() {
        return json(told -> {
            var members = Json.object(told);
            Object next = members.get("next");
            Bytes lo = next == null ? null : argumentIn(Json.string(next), "lo");
            return new Page(Long.parseLong(Json.string(members.get("timestamp"))), Row.allOfJson(members.get("rows")), lo);
        });
    }

    private static Bytes argumentIn(String path, String name) {
        for (String part : path.split("[?&]")) {
            if (part.startsWith(name + "=") && part.length() > name.length() + 1) {
                return Bytes.ofPercent(part.substring(name.length() + 1));
            }
        }
        throw new IllegalArgumentException("it has no place for the page behind it");
    }
}
