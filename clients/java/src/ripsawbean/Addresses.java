package ripsawbean;

import java.net.URI;
import java.time.Duration;
import java.util.ArrayList;
import java.util.List;

/**
 * The addresses of servers of one database, of which one answers at a time. The one that answered last is asked. Where it
 * takes no connection, is silent, loses an answer, or says that it doesn't have the database now, the next one is asked,
 * and behind the last one the first.
 */
final class Addresses {
    private static final Duration SILENT = Duration.ofSeconds(3);   // for the head of an answer, where another may have one
    private static final Duration QUIET = Duration.ofSeconds(20);   // without a line of a stream: one comes each 15
    private static final Duration SILENCE = Duration.ofSeconds(60); // the same where there is one address

    private final List<String> all = new ArrayList<>();
    private int at;

    Addresses(String urls) {
        for (String one : urls.split(",", -1)) {
            URI url = URI.create(one.strip());
            boolean isHttp = "http".equals(url.getScheme()) || "https".equals(url.getScheme());
            if (!isHttp || url.getHost() == null || url.getUserInfo() != null || url.getQuery() != null) {
                throw new IllegalArgumentException("\"" + one + "\" is no http://HOST:PORT or https://HOST:PORT");
            }
            all.add(one.strip().replaceAll("/+$", ""));
        }
    }

    boolean areSeveral() {
        return all.size() > 1;
    }

    /** The number of the one that is asked now. */
    synchronized int now() {
        return at;
    }

    String url(int number) {
        return all.get(number);
    }

    /** Goes on to the next one, unless another thread has done so. */
    synchronized void leave(int number) {
        if (at == number) {
            at = (at + 1) % all.size();
        }
    }

    /** In which time the head of an answer has to come. */
    Duration patience(Duration whole) {
        return areSeveral() && SILENT.compareTo(whole) < 0 ? SILENT : whole;
    }

    /** The same of a stream's line. */
    Duration silence() {
        return areSeveral() ? QUIET : SILENCE;
    }
}
