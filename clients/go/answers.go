package ripsawbean

import (
	"bytes"
	"context"
	"encoding/json"
	"errors"
	"fmt"
	"io"
	"math"
	mathrand "math/rand"
	"net"
	"net/http"
	"strconv"
	"strings"
	"time"
)

// What is sent, what an answer means, and what is done where none comes.

const (
	short = 2 * time.Millisecond // the longest first pause between two tries
	long  = 500 * time.Millisecond
)

type answer struct {
	status int
	header http.Header
	body   []byte
}

func (a answer) json(into any) error {
	if json.Unmarshal(a.body, into) != nil {
		return nonsense(a.status, "is no JSON of this kind")
	}
	return nil
}

func (a answer) number(name string) (Timestamp, error) {
	number, err := strconv.ParseUint(strings.Trim(a.header.Get(name), "\""), 10, 64)
	if err != nil {
		return 0, nonsense(a.status, fmt.Sprintf("has %q as its %s", a.header.Get(name), name))
	}
	return Timestamp(number), nil
}

func (a answer) page() (Page, error) {
	var told struct {
		Timestamp Timestamp
		Rows      []Row
		Next      *string
	}
	if err := a.json(&told); err != nil {
		return Page{}, err
	}
	found := Page{told.Timestamp, told.Rows, nil}
	if told.Next == nil {
		return found, nil
	}
	if found.Next = argumentIn(*told.Next, "lo"); len(found.Next) == 0 {
		return Page{}, nonsense(a.status, "has no place for the page behind it")
	}
	return found, nil
}

func isAgain(status int) bool {
	return status == 408 || status == 502 || status == 503 || status == 504
}

// pauses are drawn, and grow until the time is over.
type pauses struct {
	until   time.Time
	longest time.Duration
}

func (p *pauses) pause(ctx context.Context, least time.Duration) bool {
	p.longest = time.Duration(math.Max(float64(p.longest), float64(short)))
	wait := time.Duration(mathrand.Int63n(int64(p.longest)))
	if wait < least {
		wait = least
	}
	p.longest = time.Duration(math.Min(float64(2*p.longest), float64(long)))
	if !p.until.IsZero() && time.Now().Add(wait).After(p.until) {
		return false
	}
	select {
	case <-ctx.Done():
		return false
	case <-time.After(wait):
		return true
	}
}

// call gives an answer, asked for again while it is lost or the server is busy, until the time is over.
func (c *Client) call(ctx context.Context, method, path string, body []byte, headers map[string]string) (answer, error) {
	tries := pauses{until: time.Now().Add(c.options.Timeout)}
	if method != "GET" && c.Identity() == "" && c.addresses.areSeveral() {
		if _, err := c.callUntil(ctx, &tries, "GET", "/healthz", nil, nil); err != nil {
			return answer{}, err
		}
	}
	return c.callUntil(ctx, &tries, method, path, body, headers)
}

func (c *Client) callUntil(ctx context.Context, tries *pauses, method, path string, body []byte, headers map[string]string) (answer, error) {
	wasSent := false
	var last *lost
	for {
		at := c.addresses.now()
		found, err := c.once(ctx, method, path, body, headers, time.Until(tries.until))
		if err == nil && !isAgain(found.status) {
			c.pin(found.header)
			return found, nil
		}
		failed, isLost := isLost(err)
		if err != nil && !isLost {
			return answer{}, afterwards(err, wasSent && method != "GET")
		}
		isDown, seconds := false, 0
		if isLost {
			// The server has ended. The next one may have another database, unless the write names its own.
			isDown = wasSent && !failed.wasSent && method != "GET" && c.Identity() == ""
			wasSent, last = wasSent || failed.wasSent, failed
		} else if c.addresses.now() == at {
			seconds, _ = strconv.Atoi(found.header.Get("Retry-After"))
		}
		if !isDown && tries.pause(ctx, time.Duration(seconds)*time.Second) {
			continue
		}
		wasWritten := wasSent && method != "GET"
		if !isLost && !wasWritten {
			return answer{}, refused(found.status, found.body)
		}
		kind := Unreachable
		if wasWritten {
			kind = OutcomeUnknown
		}
		return answer{}, &Error{kind, 0, "unreachable", last.Error(), "", nil}
	}
}

// afterwards is what a refusal means where the same write was sent before and lost: another database doesn't know it.
func afterwards(err error, wasWritten bool) error {
	if wasWritten && errors.Is(err, OtherDatabase) {
		why := "another database answers now, and the write may have committed in the one before"
		return &Error{OutcomeUnknown, 412, "identity", why, "", nil}
	}
	return err
}

// once is one try. The answer may be busy; what else is refused is an error.
func (c *Client) once(ctx context.Context, method, path string, body []byte, headers map[string]string, timeout time.Duration) (answer, error) {
	at := c.addresses.now()
	found, err := c.answered(ctx, at, method, path, body, headers, timeout)
	if _, isLost := isLost(err); isLost {
		c.addresses.leave(at)
	}
	if err != nil || found.status == 200 {
		return found, err
	}
	refusal := refused(found.status, found.body)
	if isElsewhere(refusal) {
		c.addresses.leave(at)
	}
	if isAgain(found.status) || found.status == 404 && refusal.Name == "none" {
		return found, nil
	}
	return answer{}, refusal
}

func (c *Client) answered(ctx context.Context, at *address, method, path string, body []byte, headers map[string]string, timeout time.Duration) (answer, error) {
	ctx, cancel := context.WithTimeout(ctx, timeout)
	defer cancel()
	patience := time.AfterFunc(c.addresses.patience(timeout), cancel)
	reply, err := c.send(ctx, at.url+path, method, body, c.Identity(), headers)
	patience.Stop()
	if err != nil {
		return answer{}, err
	}
	defer reply.Body.Close()
	data, err := io.ReadAll(reply.Body)
	if err == nil && (reply.StatusCode == 502 || reply.StatusCode == 504) {
		err = fmt.Errorf("the proxy answers %d", reply.StatusCode)
	}
	if err != nil {
		return answer{}, &lost{err, true}
	}
	return answer{reply.StatusCode, reply.Header, data}, nil
}

func (c *Client) send(ctx context.Context, url, method string, body []byte, identity string, headers map[string]string) (*http.Response, error) {
	request, err := http.NewRequestWithContext(ctx, method, url, bytes.NewReader(body))
	if err != nil {
		return nil, err
	}
	if method != "GET" {
		request.GetBody = nil // else http sends it again by itself, and doesn't say that it was lost before
	}
	if c.options.Token != "" {
		request.Header.Set("Authorization", "Bearer "+c.options.Token)
	}
	if identity != "" {
		request.Header.Set("Ripsawbean-Identity", identity)
	}
	for name, value := range headers {
		request.Header.Set(name, value)
	}
	reply, err := c.http.Do(request)
	if err != nil {
		var dialed *net.OpError
		return nil, &lost{err, !(errors.As(err, &dialed) && dialed.Op == "dial")}
	}
	return reply, nil
}
