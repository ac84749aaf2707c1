// All that the client throws. What was refused is never told as a value.

/** `status` is that of the answer, or 0 where none came. `error` is the refusal's name, `members` all that it said. */
export class RipsawbeanError extends Error {
  constructor(status, members, options) {
    super(`${members.error ?? status}: ${members.why ?? ""}`, options);
    Object.assign(this, { name: new.target.name, status, error: members.error ?? "", members });
  }
}

/** A condition doesn't hold, and nothing was changed. `found` has the rows that were there, of those on keys. */
export class ConditionFailed extends RipsawbeanError {}
/** The request is wrong: `members.member` says where, if it is in the body. */
export class Invalid extends RipsawbeanError {}
/** The token is wanting or unknown, or has no right to this. */
export class Unauthorized extends RipsawbeanError {}
/** It stayed blocked, full or without memory until the time was over. Nothing was changed. */
export class Busy extends RipsawbeanError {}
/** Nothing can be read at this timestamp any longer, or not yet. */
export class Gone extends RipsawbeanError {}
/** The server has another database than the one that this client began with. Nothing was done. */
export class OtherDatabase extends RipsawbeanError {}
/** A later consumer has the name, or it was deleted. `store` throws it where the stored place isn't `was`. */
export class Outrun extends RipsawbeanError {
  constructor(status = 0, members = { error: "fenced", why: "another consumer has stored" }) {
    super(status, members);
  }
}
/** No answer came until the time was over. Nothing was sent, or it was a read. */
export class Unreachable extends RipsawbeanError {}
/** A write was sent and no answer came, so it may have committed or not. */
export class OutcomeUnknown extends Unreachable {}

/** A connection failed, and is tried again: nobody outside sees it. */
export class Lost extends Error {
  constructor(cause, wasSent = true) {
    super(String(cause?.cause?.message || cause?.message || cause), { cause });
    this.wasSent = wasSent;
  }
}

const KINDS = {
  400: Invalid, 404: Invalid, 405: Invalid, 413: Invalid, 415: Invalid, 422: Invalid, 401: Unauthorized, 403: Unauthorized,
  408: Busy, 429: Busy, 503: Busy, 410: Gone, 412: ConditionFailed,
};
const KINDS_OF_409 = {
  identity: OtherDatabase, condition: ConditionFailed, fenced: Outrun, notclosed: Gone, belowhorizon: Gone,
};

/** The error that an answer's status and text stand for. */
export function refused(status, text) {
  let members;
  try {
    members = JSON.parse(text);
  } catch {}
  if (members === null || typeof members !== "object") members = { why: `the answer ${status} has no reason: ${text.slice(0, 100)}` };
  const kind = ([409, 412].includes(status) && KINDS_OF_409[members.error]) || KINDS[status] || RipsawbeanError;
  return new kind(status, members);
}
