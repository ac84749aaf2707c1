package ripsawbean;

import java.util.List;

/** Rows of one snapshot. {@code next} is the {@code lo} of the page behind it, or null: ask for that at the timestamp. */
public record Page(long timestamp, List<Row> rows, Bytes next) {}
