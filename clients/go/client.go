// Package ripsawbean is a client of a Ripsawbean server, by Go's standard library alone.
//
//	db, err := ripsawbean.Connect("http://127.0.0.1:7077", ripsawbean.Options{})
//	_, err = db.Put(ctx, ripsawbean.Bytes("apple"), ripsawbean.Bytes("3"))
//	row, err := db.Row(ctx, ripsawbean.Bytes("apple"), nil) // row.Value is nil where it is absent
//	err = db.Transact(ctx, func(tx *ripsawbean.Transaction) error { // runs anew where another transaction was faster
//		left, err := tx.Get(ripsawbean.Bytes("apple"))
//		..
//	})
//
// Whatever is refused is an Error. A request is for one database: the first answer pins the identity, which every later
// request names. A write has a key, so the server makes it once however often it is sent. Where there are several
// addresses no write is sent before the identity is known: so no other database takes it.
package ripsawbean

import (
	"context"
	"crypto/rand"
	"encoding/hex"
	"encoding/json"
	"net"
	"net/http"
	"sync"
	"time"
)

const page = 1000 // rows, where nobody says how many

// Options of a client. HTTP says how it connects, and which certificates are trusted.
type Options struct {
	Token    string
	Identity string
	Timeout  time.Duration // that a call may take, with all that is tried again: 20 s where it is 0
	HTTP     *http.Client
}

// Client may be used by several goroutines at once.
type Client struct {
	addresses *addresses
	options   Options
	http      http.Client
	turn      sync.Mutex
	pinned    string
}

// Connect makes a client of the server at the address, or of those at several, with commas between them, of which one
// has the database at a time. It asks nothing of a server yet.
func Connect(address string, options Options) (*Client, error) {
	found, err := addressesIn(address)
	if err != nil {
		return nil, err
	}
	if options.Timeout == 0 {
		options.Timeout = 20 * time.Second
	}
	client := &Client{addresses: found, options: options, pinned: options.Identity}
	if options.HTTP != nil {
		client.http = *options.HTTP
	} else {
		client.http.Transport = &http.Transport{
			DisableCompression: true, MaxIdleConnsPerHost: 16, TLSHandshakeTimeout: connecting,
			DialContext: (&net.Dialer{Timeout: connecting}).DialContext,
		}
	}
	client.http.CheckRedirect = func(*http.Request, []*http.Request) error { return http.ErrUseLastResponse }
	return client, nil
}

// Identity of the database that this client is for, once it has answered.
func (c *Client) Identity() string {
	c.turn.Lock()
	defer c.turn.Unlock()
	return c.pinned
}

func (c *Client) pin(headers http.Header) {
	c.turn.Lock()
	defer c.turn.Unlock()
	if c.pinned == "" {
		c.pinned = headers.Get("Ripsawbean-Identity")
	}
}

// Row reads a key, now or at a timestamp.
func (c *Client) Row(ctx context.Context, key Bytes, at *Timestamp) (Row, error) {
	_, row, err := c.read(ctx, key, at)
	return row, err
}

// Put writes a value, where all conditions hold. The timestamp is the row's version.
func (c *Client) Put(ctx context.Context, key, value Bytes, conditions ...Condition) (Timestamp, error) {
	done, err := c.Txn(ctx, []Step{Put(key, value)}, conditions, nil)
	return done.Timestamp, err
}

// Delete deletes a key, where all conditions hold.
func (c *Client) Delete(ctx context.Context, key Bytes, conditions ...Condition) (Timestamp, error) {
	done, err := c.Txn(ctx, []Step{Delete(key)}, conditions, nil)
	return done.Timestamp, err
}

// Txn is one transaction: `then` where all conditions hold, else `otherwise`. Where that is nil it is ConditionFailed.
func (c *Client) Txn(ctx context.Context, then []Step, conditions []Condition, otherwise []Step) (Done, error) {
	asked := map[string]any{"then": then}
	if len(conditions) > 0 {
		asked["if"] = conditions
	}
	if otherwise != nil {
		asked["else"] = otherwise
	}
	body, err := json.Marshal(asked)
	if err != nil {
		return Done{}, err
	}
	key := make([]byte, 16)
	if _, err := rand.Read(key); err != nil {
		return Done{}, err
	}
	var done Done
	headers := map[string]string{"Idempotency-Key": hex.EncodeToString(key), "Content-Type": "application/json"}
	answer, err := c.call(ctx, "POST", "/transact", body, headers)
	if err == nil {
		err = answer.json(&done)
	}
	return done, err
}

// Page finds rows at or above lo and below hi, 1000 where limit is 0. Where more follow, the snapshot can be read for 30
// seconds.
func (c *Client) Page(ctx context.Context, lo, hi Bytes, at *Timestamp, limit int) (Page, error) {
	if limit == 0 {
		limit = page
	}
	answer, err := c.call(ctx, "GET", "/rows"+arguments(lo, hi, argument{"at", at}, argument{"limit", limit}), nil, nil)
	if err != nil {
		return Page{}, err
	}
	return answer.page()
}

// Scan hands each row of a span to `each`, all of one snapshot, until that returns an error.
func (c *Client) Scan(ctx context.Context, lo, hi Bytes, at *Timestamp, limit int, each func(Row) error) error {
	for {
		found, err := c.Page(ctx, lo, hi, at, limit)
		if err != nil {
			return err
		}
		for _, row := range found.Rows {
			if err := each(row); err != nil {
				return err
			}
		}
		if found.Next == nil {
			return nil
		}
		lo, at = found.Next, &found.Timestamp
	}
}

// read finds a row, and the timestamp at which it was read.
func (c *Client) read(ctx context.Context, key Bytes, at *Timestamp) (Timestamp, Row, error) {
	absent := Row{Key: key}
	if string(key) == "." || string(key) == ".." { // no URL can have these two in its path
		return c.readDots(ctx, key, at)
	}
	answer, err := c.call(ctx, "GET", "/key/"+percent(string(key))+arguments(nil, nil, argument{"at", at}), nil, nil)
	if err != nil {
		return 0, absent, err
	}
	if answer.status == 404 {
		var told struct{ Timestamp Timestamp }
		err := answer.json(&told)
		return told.Timestamp, absent, err
	}
	version, err := answer.number("ETag")
	if err != nil {
		return 0, absent, err
	}
	timestamp, err := answer.number("Ripsawbean-Timestamp")
	return timestamp, Row{key, answer.body, version}, err
}

func (c *Client) readDots(ctx context.Context, key Bytes, at *Timestamp) (Timestamp, Row, error) {
	if at == nil {
		done, err := c.Txn(ctx, []Step{Get(key)}, nil, nil)
		if err != nil {
			return 0, Row{Key: key}, err
		}
		return done.Timestamp, *done.Results[0].Row, nil
	}
	found, err := c.Page(ctx, key, behind(key), at, 1)
	if err != nil || len(found.Rows) == 0 {
		return *at, Row{Key: key}, err
	}
	return *at, found.Rows[0], nil
}
