package ripsawbean

import (
	"bytes"
	"context"
	"errors"
	"sort"
	"time"
)

// Transaction has reads of one snapshot, and writes that are kept until the end. They commit where nothing that was
// read has changed.
type Transaction struct {
	ctx     context.Context
	client  *Client
	at      *Timestamp
	seen    []Row
	spans   []Condition
	writes  []Row
	written map[string]int
}

// Transact runs the work, anew until what it has read is unchanged at its commit. So it has no effects of its own.
func (c *Client) Transact(ctx context.Context, work func(*Transaction) error) error {
	tries := pauses{until: time.Now().Add(c.options.Timeout)}
	for {
		tx := &Transaction{ctx: ctx, client: c, written: map[string]int{}}
		err := work(tx)
		mayAgain := errors.Is(err, Gone) // its snapshot is collected
		if err == nil {
			err = tx.commit()
			mayAgain = errors.Is(err, Gone) || errors.Is(err, ConditionFailed)
		}
		if err == nil || !mayAgain || !tries.pause(ctx, 0) {
			return err
		}
	}
}

func (t *Transaction) Put(key, value Bytes) { t.write(Row{key, append(Bytes{}, value...), 0}) }
func (t *Transaction) Delete(key Bytes)     { t.write(Row{key, nil, 0}) }

func (t *Transaction) write(row Row) {
	if at, isThere := t.written[string(row.Key)]; isThere {
		t.writes[at] = row
		return
	}
	t.written[string(row.Key)] = len(t.writes)
	t.writes = append(t.writes, row)
}

// Get reads a key's value, or nil where it is absent.
func (t *Transaction) Get(key Bytes) (Bytes, error) {
	if at, isThere := t.written[string(key)]; isThere {
		return t.writes[at].Value, nil
	}
	for _, row := range t.seen {
		if bytes.Equal(row.Key, key) {
			return row.Value, nil
		}
	}
	at, row, err := t.client.read(t.ctx, key, t.at)
	if err != nil {
		return nil, err
	}
	if t.at == nil {
		t.at = &at
	}
	t.seen = append(t.seen, row)
	return row.Value, nil
}

// Scan finds the rows of a span, with what this transaction has written.
func (t *Transaction) Scan(lo, hi Bytes) ([]Row, error) {
	found := map[string]Row{}
	for next := lo; ; {
		part, err := t.client.Page(t.ctx, next, hi, t.at, page)
		if err != nil {
			return nil, err
		}
		t.at = &part.Timestamp
		for _, row := range part.Rows {
			found[string(row.Key)] = row
		}
		if next = part.Next; next == nil {
			break
		}
	}
	t.spans = append(t.spans, Unchanged(lo, hi, *t.at))
	for _, row := range t.writes {
		if bytes.Compare(row.Key, lo) >= 0 && (len(hi) == 0 || bytes.Compare(row.Key, hi) < 0) {
			found[string(row.Key)] = row
		}
	}
	rows := []Row{}
	for _, row := range found {
		if row.Value != nil {
			rows = append(rows, row)
		}
	}
	sort.Slice(rows, func(a, b int) bool { return bytes.Compare(rows[a].Key, rows[b].Key) < 0 })
	return rows, nil
}

func (t *Transaction) commit() error {
	if len(t.writes) == 0 { // a snapshot's reads alone are right as they are
		return nil
	}
	conditions, steps := t.spans, []Step{}
	for _, row := range t.seen {
		conditions = append(conditions, VersionIs(row.Key, row.Version))
	}
	for _, row := range t.writes {
		if row.Value == nil {
			steps = append(steps, Delete(row.Key))
		} else {
			steps = append(steps, Put(row.Key, row.Value))
		}
	}
	_, err := t.client.Txn(t.ctx, steps, conditions, nil)
	return err
}
