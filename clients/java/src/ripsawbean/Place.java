package ripsawbean;

/** All up to the timestamp was told, of the database {@code identity}. A consumer's place has its generation. */
public record Place(String identity, long timestamp, long generation) {}
