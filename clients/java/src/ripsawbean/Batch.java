package ripsawbean;

import java.util.List;

/**
 * What a consumer stores in ONE transaction, on the condition that the stored place is {@code was}. Where {@code reset}
 * it empties its rows first. Changes are in the feed's order, and a key may be there more than once.
 */
public record Batch(List<Message.Change> changes, Place place, Place was, boolean reset) {}
