package ripsawbean;

import static java.nio.charset.StandardCharsets.UTF_8;

import java.nio.ByteBuffer;
import java.nio.charset.CharacterCodingException;
import java.util.Arrays;
import java.util.Base64;
import java.util.Map;

/** A key or a value, which never changes. In JSON it is a string where it is UTF-8, and else base64. */
public final class Bytes implements Comparable<Bytes> {
    private final byte[] data;

    private Bytes(byte[] data) {
        this.data = data;
    }

    public static Bytes of(byte[] data) {
        return new Bytes(data.clone());
    }

    /** The UTF-8 bytes of a text. */
    public static Bytes of(String text) {
        try {
            ByteBuffer coded = UTF_8.newEncoder().encode(java.nio.CharBuffer.wrap(text));
            return new Bytes(Arrays.copyOf(coded.array(), coded.limit()));
        } catch (CharacterCodingException why) {
            throw new IllegalArgumentException("half a character has no bytes", why);
        }
    }

    public byte[] array() {
        return data.clone();
    }

    public int length() {
        return data.length;
    }

    /** The text of these bytes. What is no UTF-8 is shown as U+FFFD. */
    @Override
    public String toString() {
        return new String(data, UTF_8);
    }

    @Override
    public int compareTo(Bytes other) {
        return Arrays.compareUnsigned(data, other.data);
    }

    @Override
    public boolean equals(Object other) {
        return other instanceof Bytes bytes && Arrays.equals(data, bytes.data);
    }

    @Override
    public int hashCode() {
        return Arrays.hashCode(data);
    }

    /** The key right behind this one. */
    Bytes behind() {
        return new Bytes(Arrays.copyOf(data, data.length + 1));
    }

    Object json() {
        try {
            return UTF_8.newDecoder().decode(ByteBuffer.wrap(data)).toString();
        } catch (CharacterCodingException why) {
            return Map.of("base64", Base64.getEncoder().encodeToString(data));
        }
    }

    static Bytes ofJson(Object told) {
        if (told == null) {
            return null;
        }
        return told instanceof String text ? of(text) : ofBase64(Json.string(Json.object(told).get("base64")));
    }

    static Bytes ofBase64(String text) {
        return text == null ? null : new Bytes(Base64.getDecoder().decode(text));
    }

    /** As it stands in a path or a query. A space is %20, because a plus is a plus. */
    String percent() {
        StringBuilder text = new StringBuilder();
        for (byte one : data) {
            if (one > 0 && (Character.isLetterOrDigit(one) || "-_.~".indexOf(one) >= 0)) {
                text.append((char) one);
            } else {
                text.append(String.format("%%%02X", one));
            }
        }
        return text.toString();
    }

    static Bytes ofPercent(String text) {
        java.io.ByteArrayOutputStream data = new java.io.ByteArrayOutputStream();
        for (int at = 0; at < text.length(); at++) {
            if (text.charAt(at) == '%') {
                data.write(Integer.parseInt(text.substring(at + 1, at + 3), 16));
                at += 2;
            } else {
                data.write(text.charAt(at));
            }
        }
        return new Bytes(data.toByteArray());
    }
}
