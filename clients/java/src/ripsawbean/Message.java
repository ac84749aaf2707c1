package ripsawbean;

/** What a feed tells. */
public sealed interface Message {
    /** Forget all rows: those of the database at this place come next. */
    record Reset(Place place) implements Message {}

    /** A committed row. The value is null where it was deleted, {@code before} where it was absent, or isn't asked for. */
    record Change(Bytes key, Bytes value, long timestamp, Bytes before) implements Message {}

    /** All changes up to this place were told: a feed may go on from it. */
    record Resolved(Place place) implements Message {}

    /** Nothing new comes now, which a consumer alone is told. */
    record Idle() implements Message {}
}
