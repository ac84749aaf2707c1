package ripsawbean;

/** What a consumer keeps: rows, and beside them the place that they are of. */
public interface Target {
    /** The place that is stored, or null. */
    Place load();

    /** Throws {@link RipsawbeanException.Outrun} where the place stored isn't the batch's {@code was}. */
    void store(Batch batch);
}
