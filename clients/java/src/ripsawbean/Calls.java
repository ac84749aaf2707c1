package ripsawbean;

import java.time.Duration;
import java.util.HashMap;
import java.util.Map;
import java.util.Set;

/** What is sent, what an answer means, and what is done where none comes. */
final class Calls {
    private static final Set<String> ELSEWHERE = Set.of("lease", "standby"); // of who doesn't have the database now
    final Addresses addresses;
    final Wire wire;
    final Duration timeout;
    private final String token;
    private volatile String identity;

    Calls(String urls, Options options) {
        addresses = new Addresses(urls);
        wire = new Wire(options.context);
        timeout = options.timeout;
        token = options.token;
        identity = options.identity;
    }

    String identity() {
        return identity;
    }

    /** The first answer pins the database, which every later request names. */
    synchronized void pin(String found) {
        identity = identity == null ? found : identity;
    }

    Map<String, String> headers(String named, Map<String, String> further) {
        Map<String, String> all = new HashMap<>();
        if (token != null) {
            all.put("Authorization", "Bearer " + token);
        }
        if (named != null) {
            all.put("Ripsawbean-Identity", named);
        }
        all.putAll(further);
        return all;
    }

    /** An answer, asked for again while it is lost or the server is busy, until the time is over. */
    Answer call(String method, String path, byte[] body, Map<String, String> headers) {
        Pauses pauses = new Pauses(timeout);
        // So no other database takes a write that is sent to the next address.
        if (!method.equals("GET") && identity == null && addresses.areSeveral()) {
            callUntil(pauses, "GET", "/healthz", null, Map.of());
        }
        return callUntil(pauses, method, path, body, headers);
    }

    private Answer callUntil(Pauses pauses, String method, String path, byte[] body, Map<String, String> headers) {
        boolean wasSent = false;
        boolean isWrite = !method.equals("GET");
        while (true) {
            int at = addresses.now();
            Answer busy = null;
            Lost lost = null;
            boolean isDown = false;
            try {
                busy = once(method, path, body, pauses.left(), headers);
                if (!Answer.AGAIN.contains(busy.status())) {
                    pin(busy.headers().firstValue("Ripsawbean-Identity").orElse(null));
                    return busy;
                }
            } catch (RipsawbeanException.OtherDatabase why) {
                throw wasSent && isWrite ? leftBehind(why) : why;
            } catch (Lost why) {
                lost = why;
                // The server has ended. The next one may have another database, unless the write names its own.
                isDown = wasSent && !why.wasSent && isWrite && identity == null;
                wasSent = wasSent || why.wasSent;
            }
            long least = busy != null && addresses.now() == at ? secondsIn(busy) : 0;
            if (!isDown && pauses.pause(least)) {
                continue;
            }
            if (busy != null && !(wasSent && isWrite)) {
                throw RipsawbeanException.of(busy.status(), busy.body());
            }
            throw unanswered(addresses.url(at) + ": " + (lost == null ? "busy" : lost.getMessage()), wasSent && isWrite);
        }
    }

    private static RipsawbeanException unanswered(String why, boolean wasWritten) {
        Map<String, Object> members = Map.of("error", "unreachable", "why", why);
        return wasWritten ? new RipsawbeanException.OutcomeUnknown(0, members) : new RipsawbeanException.Unreachable(0, members);
    }

    /** The same write was sent before and lost, and the database that answers now doesn't know it. */
    private static RipsawbeanException leftBehind(RipsawbeanException why) {
        return new RipsawbeanException.OutcomeUnknown(why.status, Map.of("error", why.error, "why",
                "another database answers now, and the write may have committed in the one before"));
    }

    private static long secondsIn(Answer answer) {
        String told = answer.headers().firstValue("Retry-After").orElse("");
        return told.matches("\\d{1,6}") ? Long.parseLong(told) : 0;
    }

    /** One try. The answer may be busy, and what else is refused is thrown. */
    Answer once(String method, String path, byte[] body, Duration longest, Map<String, String> headers) throws Lost {
        int at = addresses.now();
        Answer answer;
        try {
            answer = wire.answer(addresses.url(at) + path, method, body, headers(identity, headers), longest,
                    addresses.patience(longest));
        } catch (Lost why) {
            addresses.leave(at);
            throw why;
        }
        if (answer.status() == 200) {
            return answer;
        }
        RipsawbeanException refusal = RipsawbeanException.of(answer.status(), answer.body());
        if (answer.status() == 503 && ELSEWHERE.contains(refusal.error)) {
            addresses.leave(at);
        }
        if (Answer.AGAIN.contains(answer.status()) || answer.status() == 404 && refusal.error.equals("none")) {
            return answer;
        }
        throw refusal;
    }
}
