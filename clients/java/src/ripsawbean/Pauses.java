package ripsawbean;

import java.time.Duration;
import java.util.concurrent.ThreadLocalRandom;

/** Drawn pauses between tries, which grow until the time is over. */
final class Pauses {
    private static final long SHORT = 2_000_000; // nanoseconds
    private static final long LONG = 500_000_000;
    private final long until;
    private long longest = SHORT;

    /** Without an end where the time is null. */
    Pauses(Duration time) {
        until = time == null ? Long.MAX_VALUE : System.nanoTime() + time.toNanos();
    }

    Duration left() {
        return Duration.ofNanos(Math.max(SHORT, until - System.nanoTime()));
    }

    /** Pauses, for so many seconds at least, unless the time is over before. */
    boolean pause(long leastSeconds) {
        long wait = Math.max(leastSeconds * 1_000_000_000, ThreadLocalRandom.current().nextLong(longest));
        longest = Math.min(2 * longest, LONG);
        if (until != Long.MAX_VALUE && until - System.nanoTime() < wait) {
            return false;
        }
        try {
            Thread.sleep(Duration.ofNanos(wait).toMillis(), (int) (wait % 1_000_000));
        } catch (InterruptedException why) {
            throw Wire.interrupted();
        }
        return true;
    }
}
