package ripsawbean

import (
	"encoding/json"
	"fmt"
	"net/url"
	"strings"
	"unicode/utf8"
)

// Bytes are a key or a value. In JSON they are a string where they are UTF-8, and else base64. Nil is absent, and an
// empty value isn't nil.
type Bytes []byte

// Timestamp is digits in JSON.
type Timestamp uint64

// Row is a key as it is at a timestamp. Where it is absent Value is nil and Version 0.
type Row struct {
	Key     Bytes     `json:"key"`
	Value   Bytes     `json:"value"`
	Version Timestamp `json:"version"`
}

// Page has rows of one snapshot. Next is the `lo` of the page behind it, or nil; ask for that one at Timestamp.
type Page struct {
	Timestamp Timestamp
	Rows      []Row
	Next      Bytes
}

// Result of a step: nothing for a write, the row of a Get, or Rows of a Scan, and whether there is More.
type Result struct {
	*Row
	Rows []Row `json:"rows"`
	More bool  `json:"more"`
}

// Done is a transaction that committed. Branch is "then" or "else". Results is nil where it wrote, and its answer had
// more than 4096 bytes and was lost: read anew.
type Done struct {
	Timestamp Timestamp
	Branch    string
	Written   int
	Results   []*Result
}

// Place says that all up to Timestamp was told of the database Identity. A consumer's has its Generation.
type Place struct {
	Identity   string
	Timestamp  Timestamp
	Generation uint64
}

// Step and Condition are parts of a transaction, as the server's JSON has them.
type Step map[string]any
type Condition map[string]any

func Put(key, value Bytes) Step { return Step{"put": key, "value": value} }
func Delete(key Bytes) Step     { return Step{"del": key} }
func Get(key Bytes) Step        { return Step{"get": key} }

// Scan finds the rows at or above lo and below hi, at most limit of them, or 1000 where that is 0.
func Scan(lo, hi Bytes, limit int) Step {
	step := Step{"scan": span(lo, hi)}
	if limit != 0 {
		step["limit"] = limit
	}
	return step
}

func ValueIs(key, value Bytes) Condition { return Condition{"key": key, "value": value} }
func Absent(key Bytes) Condition         { return Condition{"key": key, "absent": true} }
func Exists(key Bytes) Condition         { return Condition{"key": key, "absent": false} }

// VersionIs holds where the key has the version that a row or a change had. 0 is absent.
func VersionIs(key Bytes, version Timestamp) Condition {
	return Condition{"key": key, "version": version}
}

// Unchanged holds where the rows of the span are those at this timestamp.
func Unchanged(lo, hi Bytes, since Timestamp) Condition {
	return Condition{"span": span(lo, hi), "unchanged": since}
}

func span(lo, hi Bytes) []any {
	bounds := []any{nil, nil}
	for at, bound := range []Bytes{lo, hi} {
		if len(bound) > 0 {
			bounds[at] = bound
		}
	}
	return bounds
}

func (b Bytes) MarshalJSON() ([]byte, error) {
	if utf8.Valid(b) {
		return json.Marshal(string(b))
	}
	return json.Marshal(map[string][]byte{"base64": b})
}

func (b *Bytes) UnmarshalJSON(data []byte) error {
	if data[0] == '"' {
		var text string
		err := json.Unmarshal(data, &text)
		*b = Bytes(text)
		return err
	}
	var other *struct{ Base64 []byte }
	if err := json.Unmarshal(data, &other); err != nil || other == nil {
		*b = nil
		return err
	}
	*b = other.Base64
	return nil
}

func (t Timestamp) MarshalJSON() ([]byte, error) { return []byte(fmt.Sprintf("\"%d\"", t)), nil }

func (t *Timestamp) UnmarshalJSON(data []byte) error {
	if string(data) == "null" {
		*t = 0
		return nil
	}
	_, err := fmt.Sscanf(string(data), "\"%d\"", (*uint64)(t))
	return err
}

// argument is one of a query. A nil value leaves it out.
type argument struct {
	name  string
	value any
}

func arguments(lo, hi Bytes, further ...argument) string {
	all := append([]argument{{"lo", lo}, {"hi", hi}}, further...)
	parts := []string{}
	for _, one := range all {
		var text string
		switch value := one.value.(type) {
		case nil:
			continue
		case Bytes:
			text = string(value)
		case *Timestamp:
			if value != nil {
				text = fmt.Sprint(*value)
			}
		default:
			text = fmt.Sprint(value)
		}
		if text != "" {
			parts = append(parts, one.name+"="+percent(text))
		}
	}
	if len(parts) == 0 {
		return ""
	}
	return "?" + strings.Join(parts, "&")
}

// percent is QueryEscape with %20, since a plus is a plus.
func percent(text string) string { return strings.ReplaceAll(url.QueryEscape(text), "+", "%20") }

// argumentIn has the bytes of an argument of a path that the server has told.
func argumentIn(path, name string) Bytes {
	for _, part := range strings.FieldsFunc(path, func(it rune) bool { return it == '?' || it == '&' }) {
		if strings.HasPrefix(part, name+"=") {
			text, _ := url.PathUnescape(part[len(name)+1:])
			return Bytes(text)
		}
	}
	return nil
}

// behind is the key right behind a key.
func behind(key Bytes) Bytes { return append(append(Bytes{}, key...), 0) }
