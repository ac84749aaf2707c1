package ripsawbean;

import java.util.ArrayList;
import java.util.List;
import java.util.Map;
import java.util.Objects;

/** A feed with a name, whose rows and place are stored together. */
final class Consumer {
    private static final int ENOUGH = 1000;           // rows that are stored at once, where more are waiting
    private static final long IDLE = 1_000_000_000;   // nanoseconds after which a place is stored although no row came

    /** It begins again at what is stored. */
    private static final class Again extends Exception {
        private static final long serialVersionUID = 1;
    }

    private final Calls calls;
    private final String name;
    private final Target target;
    private final FeedOptions options;
    private Feed feed;
    private List<Message.Change> told;  // rows of a timestamp that isn't known to be complete
    private List<Message.Change> whole; // those below, of which `reached` is the place
    private Place reached;
    private Place stored;
    private boolean isReset;
    private long storedAt;

    Consumer(Calls calls, String name, Target target, FeedOptions options) {
        this.calls = calls;
        this.name = name;
        this.target = target;
        this.options = options;
    }

    /** Until something is thrown. */
    void run() {
        Pauses pauses = new Pauses(null);
        while (true) {
            begin();
            try {
                follow();
            } catch (Again why) {
                pauses.pause(0);
            } finally {
                feed.close();
            }
        }
    }

    private void begin() {
        stored = target.load();
        reached = stored;
        told = new ArrayList<>();
        whole = new ArrayList<>();
        isReset = false;
        storedAt = System.nanoTime() - IDLE;
        feed = new Feed(calls, options, stored, name);
    }

    private void follow() throws Again {
        while (true) {
            Message message = feed.next();
            if (message instanceof Message.Reset) {
                told = new ArrayList<>();
                whole = new ArrayList<>();
                reached = null;
                isReset = true;
            } else if (message instanceof Message.Idle) {
                keepNew(true);
            } else {
                moveTo(message);
            }
        }
    }

    private void moveTo(Message message) throws Again {
        if (feed.place() != null && feed.place() != reached && isBelow(message)) {
            whole.addAll(told);
            told = new ArrayList<>();
            reached = feed.place();
        }
        if (message instanceof Message.Change change) {
            if (whole.size() >= ENOUGH) {
                keep();
            }
            told.add(change);
        } else {
            keepNew(System.nanoTime() - storedAt > IDLE);
        }
    }

    /** Whether the feed's place was reached by this message, and not by one that it took ahead. */
    private boolean isBelow(Message message) {
        return !(message instanceof Message.Change change) || change.timestamp() > feed.place().timestamp();
    }

    /** Stores rows at once, and a place without rows where that is due. */
    private void keepNew(boolean isDue) throws Again {
        if (reached == null) {
            return;
        }
        boolean isNew = stored == null || reached.timestamp() > stored.timestamp();
        if (!whole.isEmpty() || isReset || isNew && isDue) {
            keep();
        }
    }

    private void keep() throws Again {
        Place place = new Place(reached.identity(), reached.timestamp(), feed.generation());
        try {
            target.store(new Batch(List.copyOf(whole), place, stored, isReset));
        } catch (RipsawbeanException.Outrun why) {
            Place found = target.load();
            boolean isLater = found != null && found.identity().equals(place.identity()) && found.generation() > place.generation();
            if (isLater || Objects.equals(found, stored)) {
                throw why;
            }
            throw new Again(); // an older consumer stores just before its end, or the target was emptied or put back
        }
        stored = place;
        whole = new ArrayList<>();
        isReset = false;
        storedAt = System.nanoTime();
        acknowledge(place);
    }

    /** From now on the server keeps what follows the place. Where this is lost, the next one says more. */
    private void acknowledge(Place place) throws Again {
        Query query = new Query().with("identity", place.identity()).with("generation", place.generation())
                .with("stored", place.timestamp());
        Map<String, String> identity = Map.of("Ripsawbean-Identity", place.identity());
        try {
            calls.once("POST", "/consumer/" + Bytes.of(name).percent() + query, new byte[0], calls.timeout, identity);
        } catch (RipsawbeanException.Gone | RipsawbeanException.OtherDatabase why) {
            throw new Again(); // the next stream is refused for the same reason
        } catch (Lost why) {
            return;
        }
    }
}
