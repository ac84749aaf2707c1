package ripsawbean;

import static java.nio.charset.StandardCharsets.UTF_8;

import java.util.List;
import java.util.Map;

/**
 * What was refused, or went wrong. {@code status} is that of the answer, or 0 where none came; {@code error} is the
 * refusal's name, and {@code members} all that it said.
 */
public class RipsawbeanException extends RuntimeException {
    private static final long serialVersionUID = 1;
    public final int status;
    public final String error;
    public final transient Map<String, Object> members;

    RipsawbeanException(int status, Map<String, Object> members) {
        super(members.get("error") + ": " + members.get("why"));
        this.status = status;
        this.error = members.get("error") instanceof String name ? name : "";
        this.members = members;
    }

    /** A condition doesn't hold. Nothing was changed. */
    public static final class ConditionFailed extends RipsawbeanException {
        private static final long serialVersionUID = 1;

        ConditionFailed(int status, Map<String, Object> members) {
            super(status, members);
        }

        /** The rows that were there, of the conditions on keys that don't hold. */
        public List<Row> found() {
            Object told = members.get("found");
            List<Object> all = told == null ? List.of() : Json.list(told);
            return all.stream().filter(one -> Json.object(one).containsKey("key")).map(Row::ofJson).toList();
        }
    }

    /** The request is wrong: the member {@code member} says where, if it is in the body. */
    public static final class Invalid extends RipsawbeanException {
        private static final long serialVersionUID = 1;

        Invalid(int status, Map<String, Object> members) {
            super(status, members);
        }
    }

    /** The token is wanting or unknown, or has no right to this. */
    public static final class Unauthorized extends RipsawbeanException {
        private static final long serialVersionUID = 1;

        Unauthorized(int status, Map<String, Object> members) {
            super(status, members);
        }
    }

    /** It stayed blocked, full or without memory until the time was over. Nothing was changed. */
    public static final class Busy extends RipsawbeanException {
        private static final long serialVersionUID = 1;

        Busy(int status, Map<String, Object> members) {
            super(status, members);
        }
    }

    /** Nothing can be read at this timestamp any longer, or not yet. */
    public static final class Gone extends RipsawbeanException {
        private static final long serialVersionUID = 1;

        Gone(int status, Map<String, Object> members) {
            super(status, members);
        }
    }

    /** The server has another database than the one that this client began with. Nothing was done. */
    public static final class OtherDatabase extends RipsawbeanException {
        private static final long serialVersionUID = 1;

        OtherDatabase(int status, Map<String, Object> members) {
            super(status, members);
        }
    }

    /** A later consumer has the name, or it was deleted. A target throws it where the stored place isn't {@code was}. */
    public static final class Outrun extends RipsawbeanException {
        private static final long serialVersionUID = 1;

        public Outrun() {
            this(0, Map.of("error", "fenced", "why", "another consumer has stored"));
        }

        Outrun(int status, Map<String, Object> members) {
            super(status, members);
        }
    }

    /** No answer came until the time was over. Nothing was sent, or it was a read. */
    public static class Unreachable extends RipsawbeanException {
        private static final long serialVersionUID = 1;

        Unreachable(int status, Map<String, Object> members) {
            super(status, members);
        }
    }

    /** A write was sent and no answer came, so it may have committed or not. */
    public static final class OutcomeUnknown extends Unreachable {
        private static final long serialVersionUID = 1;

        OutcomeUnknown(int status, Map<String, Object> members) {
            super(status, members);
        }
    }

    /** The exception that an answer stands for. */
    static RipsawbeanException of(int status, byte[] body) {
        Map<String, Object> members;
        try {
            members = Json.object(Json.read(new String(body, UTF_8)));
        } catch (IllegalArgumentException why) {
            members = Map.of("error", "", "why", "the answer " + status + " has no reason");
        }
        String name = members.get("error") instanceof String error ? error : "";
        if (status == 409 || status == 412) {
            switch (name) {
                case "identity": return new OtherDatabase(status, members);
                case "condition": return new ConditionFailed(status, members);
                case "fenced": return new Outrun(status, members);
                case "notclosed", "belowhorizon": return new Gone(status, members);
                default: break;
            }
        }
        return switch (status) {
            case 400, 404, 405, 413, 415, 422 -> new Invalid(status, members);
            case 401, 403 -> new Unauthorized(status, members);
            case 408, 429, 503 -> new Busy(status, members);
            case 410 -> new Gone(status, members);
            case 412 -> new ConditionFailed(status, members);
            default -> new RipsawbeanException(status, members);
        };
    }

    static RipsawbeanException nonsense(int status, String why) {
        return new RipsawbeanException(status, Map.of("error", "answer", "why", "this is no answer of the server's: it " + why));
    }
}
