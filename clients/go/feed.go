package ripsawbean

import (
	"bufio"
	"bytes"
	"context"
	"encoding/json"
	"errors"
	"io"
	"net/http"
	"strconv"
	"time"
)

const (
	hold   = 30          // seconds for which a snapshot that was cut is held from page to page
	enough = 1000        // rows that a consumer stores at once, where more are waiting
	idle   = time.Second // after which it stores a place although no row came, where messages go on coming
)

// Kind says what a message is.
type Kind int

const (
	Reset    Kind = iota // forget all rows: those of the database at Place come next
	Change               // a committed row
	Resolved             // all changes up to Place were told: a feed may go on from there
	nothing              // new comes now: told to a consumer alone
)

// Message of a feed. A change has a nil Value where it was deleted, and a nil Before where it was absent.
type Message struct {
	Kind               Kind
	Place              Place
	Key, Value, Before Bytes
	Timestamp          Timestamp
}

// FeedOptions say of what a feed tells: from a Place on, or with the rows that are there now.
type FeedOptions struct {
	Lo, Hi Bytes
	Place  *Place
	Before bool // tell what was there before
	Anew   bool // begin anew at another database, or where the place can't be read any longer; else that is an error
}

// Feed tells each message once over any number of streams. A stream may be cut anywhere, and the next one goes on from
// a place at which all was told. That moves at a resolved message, and also where the first row of a later timestamp U
// shows that all up to U - 1 was told. Where the cut falls among the rows of the first snapshot, the others are read by
// pages, as of the same timestamp.
type Feed struct {
	ctx        context.Context
	client     *Client
	options    FeedOptions
	name       string
	place      *Place   // all up to here was told
	snapshot   *Place   // of these rows some were told, and not all
	rest       Bytes    // where the page behind the last one begins, unless that was lost
	last       *Message // the row that was told last
	resolved   *Timestamp
	generation uint64
	address    *address // where the last stream was asked for
	identity   string
	cursor     Timestamp
	lines      *bufio.Reader
	stop       context.CancelFunc
	watch      *time.Timer
	tries      pauses
	limit      int
	told       []Message
}

// Feed begins a feed, which ends with its context.
func (c *Client) Feed(ctx context.Context, options FeedOptions) *Feed {
	feed := &Feed{ctx: ctx, client: c, options: options, limit: page}
	feed.begin(options.Place)
	return feed
}

func (f *Feed) begin(place *Place) {
	f.place, f.snapshot, f.last, f.resolved = place, nil, nil, nil
	if place != nil {
		f.resolved = &place.Timestamp
	}
}

// Close ends the stream. The feed may be asked on, and then opens another.
func (f *Feed) Close() {
	if f.stop != nil {
		f.watch.Stop()
		f.stop()
	}
	f.stop, f.lines, f.rest = nil, nil, nil
}

// Next waits for the next message.
func (f *Feed) Next() (Message, error) {
	for len(f.told) == 0 {
		err := f.step()
		if _, again := isLost(err); again && f.ctx.Err() == nil {
			f.Close()
			f.client.addresses.leave(f.address)
			f.limit = (f.limit + 1) / 2
			f.tries.pause(f.ctx, 0)
		} else if err != nil {
			f.Close()
			return Message{}, err
		}
	}
	first := f.told[0]
	f.told, f.tries = f.told[1:], pauses{}
	return first, nil
}

// step opens a stream, or takes the next line or page.
func (f *Feed) step() error {
	if f.lines == nil && f.snapshot != nil {
		return f.restOfSnapshot()
	}
	if f.lines == nil {
		return f.open()
	}
	f.watch.Reset(f.client.addresses.silence())
	line, err := f.lines.ReadBytes('\n')
	if err != nil { // the end, or half a line
		return &lost{err, true}
	}
	if len(line) > 1 {
		return f.take(line)
	}
	if f.name != "" {
		f.told = append(f.told, Message{Kind: nothing})
	}
	return nil
}

// open begins a stream at the place, or with the rows that are there where there is none.
func (f *Feed) open() error {
	further := []argument{{"before", nil}, {"consumer", f.name}}
	if f.options.Before {
		further[0].value = 1
	}
	if f.place != nil {
		further = append(further, argument{"from", f.place.Timestamp}, argument{"identity", f.place.Identity})
	}
	identity := f.client.Identity()
	if f.options.Anew {
		identity = ""
	}
	ctx, stop := context.WithCancel(f.ctx)
	addresses := f.client.addresses
	f.address = addresses.now()
	f.stop, f.watch = stop, time.AfterFunc(addresses.patience(addresses.silence()), stop)
	path := "/feed" + arguments(f.options.Lo, f.options.Hi, further...)
	reply, err := f.client.send(ctx, f.address.url+path, "GET", nil, identity, nil)
	if err != nil {
		return err
	}
	if reply.StatusCode != 200 {
		return f.notOpened(reply)
	}
	found := answer{reply.StatusCode, reply.Header, nil}
	if f.cursor, err = found.number("Ripsawbean-From"); err != nil {
		return err
	}
	f.identity = reply.Header.Get("Ripsawbean-Identity")
	f.generation, _ = strconv.ParseUint(reply.Header.Get("Ripsawbean-Generation"), 10, 64)
	if !f.options.Anew {
		f.client.pin(reply.Header)
	}
	if f.place == nil {
		f.begin(nil)
		f.snapshot, f.limit = &Place{f.identity, f.cursor, f.generation}, page
		f.told = append(f.told, Message{Kind: Reset, Place: *f.snapshot, Timestamp: f.cursor})
	}
	f.lines = bufio.NewReaderSize(reply.Body, 1<<16)
	return nil
}

func (f *Feed) notOpened(reply *http.Response) error {
	body, _ := io.ReadAll(reply.Body)
	refusal := refused(reply.StatusCode, body)
	if isAgain(reply.StatusCode) {
		return &lost{refusal, true}
	}
	mayBeAnew := f.options.Anew && (errors.Is(refusal, OtherDatabase) || errors.Is(refusal, Gone))
	if f.name != "" && refusal.Name == "belowhorizon" { // a consumer's rows of the same database can be told again
		mayBeAnew = true
	}
	if f.place != nil && mayBeAnew {
		f.begin(nil)
		return &lost{refusal, true}
	}
	return refusal
}

// take takes a line of the stream.
func (f *Feed) take(line []byte) error {
	var told struct {
		Resolved           *Timestamp
		End                string
		Key, After, Before []byte // base64; null stays nil, and "" doesn't
		Updated            Timestamp
	}
	if err := json.Unmarshal(line, &told); err != nil {
		return nonsense(200, "is no message")
	}
	switch {
	case told.Resolved != nil:
		f.reach(Place{f.identity, *told.Resolved, f.generation})
	case told.End == "fenced" || told.End == "deleted":
		return &Error{Outrun, 409, told.End, "a later consumer has the name, or it was deleted", "", nil}
	case told.End != "":
		return &lost{errors.New(told.End), true}
	case told.Key != nil:
		f.change(Message{Kind: Change, Key: told.Key, Value: told.After, Before: told.Before, Timestamp: told.Updated})
	}
	return nil
}

func (f *Feed) change(row Message) {
	below := row.Timestamp - 1
	if row.Timestamp > 0 && below >= f.cursor && (f.place == nil || below > f.place.Timestamp) {
		f.place, f.snapshot = &Place{f.identity, below, f.generation}, nil
	}
	if f.last == nil || row.Timestamp > f.last.Timestamp || row.Timestamp == f.last.Timestamp && bytes.Compare(row.Key, f.last.Key) > 0 {
		f.last = &row
		f.told = append(f.told, row)
	}
}

func (f *Feed) reach(place Place) {
	f.place, f.snapshot = &place, nil
	if f.resolved == nil || place.Timestamp > *f.resolved {
		f.resolved = &place.Timestamp
		f.told = append(f.told, Message{Kind: Resolved, Place: place, Timestamp: place.Timestamp})
	}
}

// restOfSnapshot reads one page of what a cut has left out: half as long after a cut, else twice as long.
func (f *Feed) restOfSnapshot() error {
	lo, snapshot := f.options.Lo, *f.snapshot
	if f.rest != nil {
		lo = f.rest
	} else if f.last != nil {
		lo = behind(f.last.Key)
	}
	path := "/rows" + arguments(lo, f.options.Hi, argument{"at", snapshot.Timestamp}, argument{"limit", f.limit}, argument{"hold", hold})
	identity := map[string]string{"Ripsawbean-Identity": snapshot.Identity}
	answer, err := f.client.once(f.ctx, "GET", path, nil, identity, f.client.options.Timeout)
	if errors.Is(err, Gone) || errors.Is(err, OtherDatabase) && f.options.Anew {
		f.begin(nil)
		return &lost{err, true}
	} else if err != nil {
		return err
	} else if answer.status != 200 {
		return &lost{refused(answer.status, answer.body), true}
	}
	found, err := answer.page()
	if err != nil {
		return err
	}
	for _, row := range found.Rows {
		message := Message{Kind: Change, Key: row.Key, Value: row.Value, Timestamp: snapshot.Timestamp}
		f.last = &message
		f.told = append(f.told, message)
	}
	if f.limit *= 2; f.limit > page {
		f.limit = page
	}
	if f.rest = found.Next; f.rest == nil {
		f.reach(snapshot)
	}
	return nil
}
