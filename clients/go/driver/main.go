// What the conformance kit runs of this client: calls come as lines of JSON, and what they give or fail with goes back so.
package main

import (
	"bufio"
	"context"
	"encoding/json"
	"errors"
	"fmt"
	"os"
	"strconv"
	"time"

	. "ripsawbean"
)

type place struct {
	Identity   string    `json:"identity"`
	Timestamp  Timestamp `json:"timestamp"`
	Generation string    `json:"generation"`
}

type step struct {
	Put, Value, Del, Get *Bytes
	Scan                 []Bytes
	Limit                int
}

type condition struct {
	Key, Value *Bytes
	Absent     *bool
	Version    *Timestamp
	Span       []Bytes
	Unchanged  Timestamp
}

type call struct {
	Connect, Token, Identity, Call, Name string
	Timeout                              float64
	Key, Value, Lo, Hi                   Bytes
	At                                   *Timestamp
	Limit, Page, Take, Stores            int
	If, Then, Else                       json.RawMessage
	Work                                 []step
	Place, Outrun                        *place
	Before, Anew                         bool
}

var errStop = errors.New("enough")

func main() {
	lines := bufio.NewScanner(os.Stdin)
	lines.Buffer(nil, 1<<24)
	out := json.NewEncoder(os.Stdout)
	out.SetEscapeHTML(false)
	var db *Client
	for lines.Scan() {
		var asked call
		must(json.Unmarshal(lines.Bytes(), &asked))
		if asked.Connect != "" {
			var err error
			timeout := time.Duration(asked.Timeout * float64(time.Second))
			db, err = Connect(asked.Connect, Options{Token: asked.Token, Identity: asked.Identity, Timeout: timeout})
			must(err)
			continue
		}
		gives, err := answer(db, asked)
		if err == nil {
			must(out.Encode(map[string]any{"gives": gives}))
			continue
		}
		must(out.Encode(failure(err)))
	}
}

func must(err error) {
	if err != nil {
		fmt.Fprintln(os.Stderr, err)
		os.Exit(1)
	}
}

func failure(err error) map[string]any {
	names := map[error]string{ConditionFailed: "ConditionFailed", Invalid: "Invalid", Unauthorized: "Unauthorized", Busy: "Busy",
		Gone: "Gone", OtherDatabase: "OtherDatabase", Outrun: "Outrun", Unreachable: "Unreachable", OutcomeUnknown: "OutcomeUnknown"}
	told := map[string]any{"raises": "Error"}
	for kind, name := range names {
		if errors.Is(err, kind) {
			told["raises"] = name
		}
	}
	var found *Error
	if errors.As(err, &found) {
		told["error"] = found.Name
		if errors.Is(err, ConditionFailed) {
			told["found"] = rowsOf(found.Found)
		}
	}
	return told
}

func answer(db *Client, asked call) (any, error) {
	ctx, cancel := context.WithCancel(context.Background())
	defer cancel()
	switch asked.Call {
	case "get", "row":
		row, err := db.Row(ctx, asked.Key, asked.At)
		if asked.Call == "get" {
			return bytesOf(row.Value), err
		}
		return rowOf(row), err
	case "put":
		return textOf(db.Put(ctx, asked.Key, asked.Value, conditions(asked.If)...))
	case "delete":
		return textOf(db.Delete(ctx, asked.Key, conditions(asked.If)...))
	case "txn":
		return txn(ctx, db, asked)
	case "transact":
		return transact(ctx, db, asked)
	case "count":
		return count(ctx, db, asked.Key)
	case "page":
		found, err := db.Page(ctx, asked.Lo, asked.Hi, asked.At, asked.Limit)
		return map[string]any{"timestamp": found.Timestamp, "rows": rowsOf(found.Rows), "next": bytesOf(found.Next)}, err
	case "scan":
		rows := []Row{}
		err := db.Scan(ctx, asked.Lo, asked.Hi, asked.At, asked.Page, func(row Row) error {
			rows = append(rows, row)
			return nil
		})
		return rowsOf(rows), err
	case "feed":
		return feed(ctx, db, asked)
	}
	kept := &target{asked: asked, place: asked.Place}
	options := FeedOptions{Lo: asked.Lo, Hi: asked.Hi, Before: asked.Before, Anew: asked.Anew}
	err := db.Consume(ctx, asked.Name, kept, options)
	if errors.Is(err, errStop) {
		return kept.batches, nil
	}
	return nil, err
}

func textOf(at Timestamp, err error) (any, error) { return at, err }

func bytesOf(data Bytes) any {
	if data == nil {
		return nil
	}
	return data
}

func rowOf(row Row) any {
	if row.Value == nil {
		return map[string]any{"key": row.Key, "value": nil, "version": nil}
	}
	told := map[string]any{"key": row.Key, "value": row.Value, "version": nil}
	if row.Version != 0 {
		told["version"] = row.Version
	}
	return told
}

func rowsOf(rows []Row) []any {
	told := []any{}
	for _, row := range rows {
		told = append(told, rowOf(row))
	}
	return told
}

func conditions(data json.RawMessage) []Condition {
	var asked []condition
	if data == nil {
		return nil
	}
	if data[0] == '{' {
		data = append(append([]byte("["), data...), ']')
	}
	must(json.Unmarshal(data, &asked))
	made := []Condition{}
	for _, one := range asked {
		switch {
		case one.Span != nil:
			made = append(made, Unchanged(one.Span[0], one.Span[1], one.Unchanged))
		case one.Version != nil:
			made = append(made, VersionIs(*one.Key, *one.Version))
		case one.Absent != nil && *one.Absent:
			made = append(made, Absent(*one.Key))
		case one.Absent != nil:
			made = append(made, Exists(*one.Key))
		default:
			made = append(made, ValueIs(*one.Key, *one.Value))
		}
	}
	return made
}

func steps(data json.RawMessage) []Step {
	if data == nil {
		return nil
	}
	var asked []step
	must(json.Unmarshal(data, &asked))
	made := []Step{}
	for _, one := range asked {
		switch {
		case one.Put != nil:
			made = append(made, Put(*one.Put, *one.Value))
		case one.Del != nil:
			made = append(made, Delete(*one.Del))
		case one.Get != nil:
			made = append(made, Get(*one.Get))
		default:
			made = append(made, Scan(one.Scan[0], one.Scan[1], one.Limit))
		}
	}
	return made
}

func txn(ctx context.Context, db *Client, asked call) (any, error) {
	done, err := db.Txn(ctx, steps(asked.Then), conditions(asked.If), steps(asked.Else))
	results := []any{}
	for _, one := range done.Results {
		switch {
		case one == nil:
			results = append(results, nil)
		case one.Row != nil:
			results = append(results, rowOf(*one.Row))
		default:
			results = append(results, map[string]any{"rows": rowsOf(one.Rows), "more": one.More})
		}
	}
	return map[string]any{"timestamp": done.Timestamp, "branch": done.Branch, "written": done.Written, "results": results}, err
}

func transact(ctx context.Context, db *Client, asked call) (any, error) {
	var found []any
	err := db.Transact(ctx, func(tx *Transaction) error {
		found = []any{}
		for _, one := range asked.Work {
			switch {
			case one.Put != nil:
				tx.Put(*one.Put, *one.Value)
			case one.Del != nil:
				tx.Delete(*one.Del)
			case one.Get != nil:
				value, err := tx.Get(*one.Get)
				if err != nil {
					return err
				}
				found = append(found, bytesOf(value))
			default:
				rows, err := tx.Scan(one.Scan[0], one.Scan[1])
				if err != nil {
					return err
				}
				found = append(found, rowsOf(rows))
			}
		}
		return nil
	})
	return found, err
}

func count(ctx context.Context, db *Client, key Bytes) (any, error) {
	raised := 0
	err := db.Transact(ctx, func(tx *Transaction) error {
		found, err := tx.Get(key)
		number, _ := strconv.Atoi(string(found))
		raised = number + 1
		tx.Put(key, Bytes(strconv.Itoa(raised)))
		return err
	})
	return strconv.Itoa(raised), err
}

func feed(ctx context.Context, db *Client, asked call) (any, error) {
	options := FeedOptions{Lo: asked.Lo, Hi: asked.Hi, Place: placeOf(asked.Place), Before: asked.Before, Anew: asked.Anew}
	told, messages := db.Feed(ctx, options), []any{}
	defer told.Close()
	for len(messages) < asked.Take {
		one, err := told.Next()
		if err != nil {
			return nil, err
		}
		switch one.Kind {
		case Reset:
			messages = append(messages, map[string]any{"reset": one.Timestamp, "identity": one.Place.Identity})
		case Change:
			messages = append(messages, change(one))
		default:
			messages = append(messages, map[string]any{"resolved": one.Timestamp, "identity": one.Place.Identity})
		}
	}
	return messages, nil
}

func change(one Message) any {
	return map[string]any{"key": one.Key, "value": bytesOf(one.Value), "timestamp": one.Timestamp, "before": bytesOf(one.Before)}
}

func placeOf(given *place) *Place {
	if given == nil {
		return nil
	}
	generation, _ := strconv.ParseUint(given.Generation, 10, 64)
	return &Place{Identity: given.Identity, Timestamp: given.Timestamp, Generation: generation}
}

// target keeps a place, and stops at the last of so many stores.
type target struct {
	asked   call
	place   *place
	batches []any
}

func (t *target) Load() (*Place, error) { return placeOf(t.place), nil }

func (t *target) Store(batch Batch) error {
	if t.asked.Outrun != nil {
		t.place, t.asked.Outrun = t.asked.Outrun, nil
		return Outrun
	}
	changes := []any{}
	for _, one := range batch.Changes {
		changes = append(changes, change(one))
	}
	was := t.place
	t.place = &place{batch.Place.Identity, batch.Place.Timestamp, fmt.Sprint(batch.Place.Generation)}
	t.batches = append(t.batches, map[string]any{"changes": changes, "place": t.place, "was": was, "reset": batch.Reset})
	if len(t.batches) == t.asked.Stores {
		return errStop
	}
	return nil
}
