package ripsawbean

import (
	"context"
	"errors"
	"time"
)

// Batch is what a consumer stores in ONE transaction, on the condition that the stored place is Was. Where Reset, it
// empties its rows first. Changes are in the feed's order, and a key may be there more than once.
type Batch struct {
	Changes []Message
	Place   Place
	Was     *Place
	Reset   bool
}

// Target keeps rows, and beside them the place that they are of. Store returns Outrun where the place stored isn't Was.
type Target interface {
	Load() (*Place, error)
	Store(Batch) error
}

var errAgain = errors.New("the consumer begins again at what is stored")

// Consume keeps a target in step until its context ends, or the target fails, or a later consumer has the name. The
// server holds for the name what follows its place. The Place of the options isn't looked at.
func (c *Client) Consume(ctx context.Context, name string, target Target, options FeedOptions) error {
	for {
		stored, err := target.Load()
		if err != nil {
			return err
		}
		options.Place = stored
		feed := c.Feed(ctx, options)
		feed.name = name
		err = (&consumer{feed: feed, target: target, was: stored, reached: stored}).run()
		feed.Close()
		tries := pauses{longest: long}
		if !errors.Is(err, errAgain) || !tries.pause(ctx, 0) {
			return err
		}
	}
}

type consumer struct {
	feed        *Feed
	target      Target
	told, whole []Message // rows of a timestamp that isn't known to be complete, and those below
	reached     *Place    // the place of the rows below
	was         *Place
	isReset     bool
	storedAt    time.Time
}

func (c *consumer) run() error {
	for {
		message, err := c.feed.Next()
		if err == nil {
			err = c.take(message)
		}
		if err != nil {
			return err
		}
	}
}

func (c *consumer) take(message Message) error {
	if message.Kind == Reset {
		c.told, c.whole, c.reached, c.isReset = nil, nil, nil, true
		return nil
	}
	if message.Kind != nothing && c.feed.place != nil && c.feed.place != c.reached && c.isBelow(message) {
		c.whole, c.told, c.reached = append(c.whole, c.told...), nil, c.feed.place
	}
	if message.Kind == Change {
		if len(c.whole) >= enough {
			if err := c.keep(); err != nil {
				return err
			}
		}
		c.told = append(c.told, message)
		return nil
	}
	if c.isDue(message.Kind == nothing || time.Since(c.storedAt) > idle) {
		return c.keep()
	}
	return nil
}

// isDue says whether to store: rows at once, and a place without rows after a while, or once nothing new comes.
func (c *consumer) isDue(forPlace bool) bool {
	if c.reached == nil {
		return false
	}
	isNew := c.was == nil || c.reached.Timestamp > c.was.Timestamp
	return len(c.whole) > 0 || c.isReset || isNew && forPlace
}

// isBelow says whether the feed's place was reached by this message, and not by one that it took ahead.
func (c *consumer) isBelow(message Message) bool {
	return message.Kind == Resolved || message.Timestamp > c.feed.place.Timestamp
}

func (c *consumer) keep() error {
	place := Place{c.reached.Identity, c.reached.Timestamp, c.feed.generation}
	err := c.target.Store(Batch{c.whole, place, c.was, c.isReset})
	if errors.Is(err, Outrun) {
		stored, failed := c.target.Load()
		if failed != nil {
			return failed
		}
		isLater := stored != nil && stored.Identity == place.Identity && stored.Generation > place.Generation
		isSame := stored == c.was || stored != nil && c.was != nil && *stored == *c.was
		if !isLater && !isSame { // an older consumer has stored just before its end, or the target was emptied or put back
			return errAgain
		}
	}
	if err != nil {
		return err
	}
	c.was, c.whole, c.isReset, c.storedAt = &place, nil, false, time.Now()
	return c.acknowledge(place)
}

// acknowledge has the server keep what follows the place from now on. Where this is lost, the next one says more.
func (c *consumer) acknowledge(place Place) error {
	client := c.feed.client
	path := "/consumer/" + percent(c.feed.name) + arguments(nil, nil, argument{"identity", place.Identity},
		argument{"generation", place.Generation}, argument{"stored", place.Timestamp})
	identity := map[string]string{"Ripsawbean-Identity": place.Identity}
	_, err := client.once(c.feed.ctx, "POST", path, nil, identity, client.options.Timeout)
	if errors.Is(err, Gone) || errors.Is(err, OtherDatabase) {
		return errAgain
	}
	if _, isNothing := isLost(err); isNothing {
		return nil
	}
	return err
}
