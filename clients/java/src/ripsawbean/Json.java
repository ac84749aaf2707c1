package ripsawbean;

import java.math.BigDecimal;
import java.util.ArrayList;
import java.util.LinkedHashMap;
import java.util.List;
import java.util.Map;

/** JSON as maps, lists, strings, numbers, booleans and null. Bytes are written as the server takes them. */
final class Json {
    private final String text;
    private int at;

    private Json(String text) {
        this.text = text;
    }

    /** What a text says, or an IllegalArgumentException. */
    static Object read(String text) {
        Json json = new Json(text);
        try {
            Object value = json.value();
            json.space();
            if (json.at < text.length()) {
                throw json.wrong();
            }
            return value;
        } catch (IndexOutOfBoundsException why) {
            throw json.wrong();
        }
    }

    @SuppressWarnings("unchecked")
    static Map<String, Object> object(Object value) {
        if (value instanceof Map<?, ?> map) {
            return (Map<String, Object>) map;
        }
        throw new IllegalArgumentException("no object");
    }

    @SuppressWarnings("unchecked")
    static List<Object> list(Object value) {
        if (value instanceof List<?> list) {
            return (List<Object>) list;
        }
        throw new IllegalArgumentException("no list");
    }

    static String string(Object value) {
        if (value instanceof String text) {
            return text;
        }
        throw new IllegalArgumentException("no string");
    }

    private IllegalArgumentException wrong() {
        return new IllegalArgumentException("no JSON at character " + at);
    }

    private void space() {
        while (at < text.length() && " \t\r\n".indexOf(text.charAt(at)) >= 0) {
            at++;
        }
    }

    private boolean takes(String word) {
        space();
        boolean isHere = text.startsWith(word, at);
        at += isHere ? word.length() : 0;
        return isHere;
    }

    private void needs(String word) {
        if (!takes(word)) {
            throw wrong();
        }
    }

    private Object value() {
        if (takes("{")) {
            return members();
        } else if (takes("[")) {
            return elements();
        } else if (takes("\"")) {
            return characters();
        } else if (takes("null")) {
            return null;
        } else if (takes("true")) {
            return true;
        }
        return takes("false") ? (Object) false : number();
    }

    private Map<String, Object> members() {
        Map<String, Object> found = new LinkedHashMap<>();
        if (takes("}")) {
            return found;
        }
        do {
            needs("\"");
            String name = characters();
            needs(":");
            found.put(name, value());
        } while (takes(","));
        needs("}");
        return found;
    }

    private List<Object> elements() {
        List<Object> found = new ArrayList<>();
        if (takes("]")) {
            return found;
        }
        do {
            found.add(value());
        } while (takes(","));
        needs("]");
        return found;
    }

    private String characters() {
        StringBuilder found = new StringBuilder();
        for (char one = text.charAt(at++); one != '"'; one = text.charAt(at++)) {
            found.append(one == '\\' ? escaped() : one);
        }
        return found.toString();
    }

    private char escaped() {
        char one = text.charAt(at++);
        if (one == 'u') {
            at += 4;
            return (char) Integer.parseInt(text.substring(at - 4, at), 16);
        }
        int plain = "\"\\/bfnrt".indexOf(one);
        if (plain < 0) {
            throw wrong();
        }
        return "\"\\/\b\f\n\r\t".charAt(plain);
    }

    private BigDecimal number() {
        int from = at;
        while (at < text.length() && "+-.eE0123456789".indexOf(text.charAt(at)) >= 0) {
            at++;
        }
        return new BigDecimal(text.substring(from, at));
    }

    static String written(Object value) {
        StringBuilder out = new StringBuilder();
        write(out, value);
        return out.toString();
    }

    private static void write(StringBuilder out, Object value) {
        if (value instanceof Bytes bytes) {
            write(out, bytes.json());
        } else if (value instanceof String text) {
            writeText(out, text);
        } else if (value instanceof Map<?, ?> map) {
            String before = "{";
            for (Map.Entry<?, ?> one : map.entrySet()) {
                writeText(out.append(before), (String) one.getKey());
                write(out.append(':'), one.getValue());
                before = ",";
            }
            out.append(map.isEmpty() ? "{}" : "}");
        } else if (value instanceof List<?> list) {
            String before = "[";
            for (Object one : list) {
                write(out.append(before), one);
                before = ",";
            }
            out.append(list.isEmpty() ? "[]" : "]");
        } else {
            out.append(value);
        }
    }

    private static void writeText(StringBuilder out, String text) {
        out.append('"');
        for (char one : text.toCharArray()) {
            if (one == '"' || one == '\\') {
                out.append('\\').append(one);
            } else if (one < ' ') {
                out.append(String.format("\\u%04x", (int) one));
            } else {
                out.append(one);
            }
        }
        out.append('"');
    }
}
