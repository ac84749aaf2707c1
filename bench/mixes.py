"""Scripts of all commands, for bench/workloads.py."""
from lines import after_load, key, load


class Mix:
    """All commands, by transactions that cross one another. The newest eight feeds live, and the newest two protections
    stand."""

    def __init__(self, keys, dice):
        self.keys, self.dice, self.opened, self.protections = keys, dice, 0, 0

    def lines(self, turns):
        yield from load(self.keys // 2)
        start = after_load(self.keys // 2)
        for turn in turns:
            newest = start + turn // 6 + 16
            if turn % 6 == 0:
                yield "%d begin %d" % (newest % 4, newest)
            drawn = self.dice.below(64)
            if drawn < 48:
                yield self.transaction(drawn, newest - self.dice.below(14), turn)
            elif drawn < 63:
                yield self.other(drawn, newest - 16)
            else:
                yield from self.feed(newest - 16)

    def transaction(self, drawn, ts, turn):
        seat, number = ts % 4, self.dice.below(self.keys)
        if drawn < 18:
            return "%d put %d k%07d %d" % (seat, ts, number, turn)
        if drawn < 21:
            return "%d del %d k%07d" % (seat, ts, number)
        if drawn < 37:
            return "%d get %d k%07d" % (seat, ts, number)
        if drawn < 38:
            return "%d scan %d k%07d k%07d" % (seat, ts, number, number + 20)
        return "%d %s %d" % (seat, "commit" if drawn < 47 else "abort", ts)

    def other(self, drawn, closed):
        dice = self.dice
        if drawn < 50:
            return "0 close %d" % closed
        if drawn < 51:
            return "1 closehard %d" % closed
        if drawn < 53:
            return "2 readat %d %s" % (max(closed - 10, 0), dice.key(self.keys))
        if drawn < 54:
            low = dice.below(self.keys)
            return "3 scanat %d %s %s" % (max(closed - 10, 0), key(low), key(low + 20))
        if drawn < 60:
            return "0 poll %d %d" % (max(self.opened + 1 - dice.below(12), 1), 1 + dice.below(50))
        return "3 collect %d" % max(closed - 20, 0) if drawn < 62 else "3 stats"

    def feed(self, closed):
        """A feed of each kind, of which initial ones want a closing before."""
        form = (
            "open - - {at}",
            "open {low} - {at}",
            "open {low} {high} {at}",
            "openinitial {low} {high} {at}",
            "openinitialevery {low} {high} {at} 10",
            "openevery - {low} {at} 10",
        )[self.dice.below(6)]
        low = self.dice.below(self.keys)
        if "initial" in form:
            yield "1 closehard %d" % closed
        yield "0 " + form.format(low=key(low), high=key(low + 50), at=closed)
        self.opened += 1
        yield "0 cancel %d" % max(self.opened - 8, 1)
        yield "1 protect %d" % closed
        self.protections += 1
        yield "1 release %d" % max(self.protections - 2, 1)


class Sessions:
    """All commands by 64 sessions, for a race: each has a transaction of its own at a time, over forty keys."""

    def __init__(self, dice):
        self.dice, self.own, self.newest = dice, [0] * 64, 0

    def lines(self, size):
        for _ in range(size):
            seat = self.dice.below(64)
            if self.own[seat] == 0:
                self.newest += 1
                self.own[seat] = self.newest
                yield "%d begin %d" % (seat, self.newest)
            else:
                yield "%d %s" % (seat, self.command(seat, self.own[seat]))

    def command(self, seat, ts):
        dice, number, drawn = self.dice, self.dice.below(40), self.dice.below(40)
        name, to = key(number), max(self.newest - 64 * dice.below(8), 0)
        if drawn < 26:
            return self.transaction(drawn, seat, ts, number)
        if drawn < 28:
            return "closehard %d" % to if number < 10 else "close %d" % to
        if drawn < 35:
            reads = "readat {to} {key}", "scanat {to} - {key}"
            forms = *reads, "protect {to}", "release {number}", "collect {to}", "stats"
            return forms[dice.below(6)].format(to=to, key=name, number=number + 1)
        if drawn < 36:
            spans = "openevery - {key} {to} 5", "openinitialevery - {key} {to} 5", "open {key} - {to}"
            forms = "openinitial - - {to}", *spans
            return forms[dice.below(4)].format(to=to, key=name)
        if drawn < 37 and number < 4:
            return "cancel %d" % (number + 1)
        return "poll %d %d" % (number // 4 + 1, 1 + number)

    def transaction(self, drawn, seat, ts, number):
        if drawn < 10:
            return "put %d %s %d" % (ts, key(number), self.dice.below(1000))
        if drawn < 11:
            return "del %d %s" % (ts, key(number))
        if drawn < 18:
            return "get %d %s" % (ts, key(number))
        if drawn < 19:
            return "scan %d %s %s" % (ts, key(number), key(number + 5))
        self.own[seat] = 0
        return "abort %d" % ts if number == 0 else "commit %d" % ts
