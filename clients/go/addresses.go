package ripsawbean

import (
	"fmt"
	"net/url"
	"strings"
	"sync"
	"time"
)

const (
	connecting = 2 * time.Second  // for a connection
	silent     = 3 * time.Second  // for the head of an answer, where another address may have one
	quiet      = 20 * time.Second // without a byte of a stream, whose server sends an empty line each 15
	silence    = time.Minute      // the same where there is one address
)

// addresses are those of servers of one database, of which one answers at a time. The one that answered last is asked.
// Where it takes no connection, is silent, loses an answer, or says that it doesn't have the database now, the next one
// is asked, and behind the last one the first.
type addresses struct {
	all  []*address
	turn sync.Mutex
	at   int
}

type address struct{ url string }

// addressesIn are those of a text, with commas between them.
func addressesIn(text string) (*addresses, error) {
	found := &addresses{}
	for _, one := range strings.Split(text, ",") {
		one = strings.TrimSpace(one)
		parts, err := url.Parse(one)
		if err != nil || (parts.Scheme != "http" && parts.Scheme != "https") || parts.Host == "" || parts.User != nil {
			return nil, fmt.Errorf("%q is no http://HOST:PORT or https://HOST:PORT", one)
		}
		found.all = append(found.all, &address{strings.TrimRight(one, "/")})
	}
	return found, nil
}

func (a *addresses) areSeveral() bool { return len(a.all) > 1 }

func (a *addresses) now() *address {
	a.turn.Lock()
	defer a.turn.Unlock()
	return a.all[a.at]
}

// leave goes on to the next one, unless another call has done so.
func (a *addresses) leave(left *address) {
	a.turn.Lock()
	defer a.turn.Unlock()
	if a.all[a.at] == left {
		a.at = (a.at + 1) % len(a.all)
	}
}

// patience is in which time the head of an answer has to come.
func (a *addresses) patience(whole time.Duration) time.Duration {
	if a.areSeveral() && silent < whole {
		return silent
	}
	return whole
}

// silence is the same of a stream's line.
func (a *addresses) silence() time.Duration {
	if a.areSeveral() {
		return quiet
	}
	return silence
}

// isElsewhere says whether a refusal is that of a server that doesn't have the database now.
func isElsewhere(refusal *Error) bool {
	return refusal.Status == 503 && (refusal.Name == "lease" || refusal.Name == "standby")
}
