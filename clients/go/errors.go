package ripsawbean

import (
	"encoding/json"
	"errors"
	"fmt"
)

// The kinds of errors. `errors.Is(err, ConditionFailed)` asks for one.
var (
	ConditionFailed = errors.New("a condition doesn't hold, and nothing was changed")
	Invalid         = errors.New("the request is wrong")
	Unauthorized    = errors.New("the token is wanting or unknown, or has no right to this")
	Busy            = errors.New("it stayed blocked, full or without memory until the time was over, and nothing was changed")
	Gone            = errors.New("nothing can be read at this timestamp any longer, or not yet")
	OtherDatabase   = errors.New("the server has another database than the one that this client began with, and nothing was done")
	Outrun          = errors.New("a later consumer has the name, or it was deleted")
	Unreachable     = errors.New("no answer came until the time was over: nothing was sent, or it was a read")
	OutcomeUnknown  = errors.New("a write was sent and no answer came, so it may have committed or not")
	Refused         = errors.New("the server refuses")
)

// Error is what was refused, or went wrong. Status is 0 where no answer came; Name is the refusal's.
type Error struct {
	Kind   error
	Status int
	Name   string
	Why    string
	Member string // a JSON pointer into the body, where that is wrong
	Found  []Row  // of conditions on keys that don't hold: the rows that were there
}

func (e *Error) Error() string { return fmt.Sprintf("%s: %s", e.Name, e.Why) }
func (e *Error) Unwrap() error { return e.Kind }

// lost is a failed connection, which is tried again.
type lost struct {
	why     error
	wasSent bool
}

func (l *lost) Error() string { return l.why.Error() }

func isLost(err error) (*lost, bool) {
	var found *lost
	return found, errors.As(err, &found)
}

var kinds = map[int]error{
	400: Invalid, 404: Invalid, 405: Invalid, 413: Invalid, 415: Invalid, 422: Invalid, 401: Unauthorized, 403: Unauthorized,
	408: Busy, 429: Busy, 503: Busy, 410: Gone, 412: ConditionFailed,
}
var kindsOf409 = map[string]error{
	"identity": OtherDatabase, "condition": ConditionFailed, "fenced": Outrun, "notclosed": Gone, "belowhorizon": Gone,
}

// refused is the error that an answer stands for.
func refused(status int, body []byte) *Error {
	var told struct {
		Error, Why, Member string
		Found              []*Row
	}
	if json.Unmarshal(body, &told) != nil {
		told.Why = fmt.Sprintf("the answer %d has no reason: %.100q", status, body)
	}
	e := &Error{kinds[status], status, told.Error, told.Why, told.Member, nil}
	if kind := kindsOf409[told.Error]; kind != nil && (status == 409 || status == 412) {
		e.Kind = kind
	}
	if e.Kind == nil {
		e.Kind = Refused
	}
	for _, row := range told.Found {
		if row.Key != nil {
			e.Found = append(e.Found, *row)
		}
	}
	return e
}

func nonsense(status int, why string) *Error {
	return &Error{Refused, status, "answer", "this is no answer of the server's: it " + why, "", nil}
}
