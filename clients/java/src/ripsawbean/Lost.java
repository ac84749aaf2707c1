package ripsawbean;

/** A connection failed, so the same is asked again. */
final class Lost extends Exception {
    private static final long serialVersionUID = 1;
    final boolean wasSent;

    Lost(Throwable why, boolean wasSent) {
        super(String.valueOf(why), why);
        this.wasSent = wasSent;
    }

    Lost(String why) {
        super(why);
        this.wasSent = true;
    }
}
