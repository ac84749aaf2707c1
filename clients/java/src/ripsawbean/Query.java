package ripsawbean;

/** The arguments of a path. One that is null, or an empty bound, is left out. */
final class Query {
    private final StringBuilder text = new StringBuilder();

    static Query of(Bytes lo, Bytes hi) {
        return new Query().with("lo", lo).with("hi", hi);
    }

    Query with(String name, Object value) {
        Bytes bytes = value instanceof Bytes given ? given : value == null ? null : Bytes.of(value.toString());
        if (bytes != null && bytes.length() > 0) {
            text.append(text.length() == 0 ? '?' : '&').append(name).append('=').append(bytes.percent());
        }
        return this;
    }

    @Override
    public String toString() {
        return text.toString();
    }
}
