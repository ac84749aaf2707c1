package ripsawbean;

/** Of what a feed tells: of all keys, and with the rows that are there now, unless these say otherwise. */
public final class FeedOptions {
    Bytes lo;
    Bytes hi;
    Place place;
    boolean before;
    boolean anew;

    /** The keys at or above {@code lo} and below {@code hi}. Null is no bound. */
    public FeedOptions span(Bytes lo, Bytes hi) {
        this.lo = lo;
        this.hi = hi;
        return this;
    }

    /** What comes behind this place, and no rows that are there. A consumer has its own. */
    public FeedOptions place(Place place) {
        this.place = place;
        return this;
    }

    /** Each change with what was there before. */
    public FeedOptions before() {
        before = true;
        return this;
    }

    /** Where the place can't be read any longer, or the server has another database, all again, and no exception. */
    public FeedOptions anew() {
        anew = true;
        return this;
    }
}
