// Short histories to begin with: the page opens with the first. Most of them are those of docs/GUIDE.md, which says more
// about each.

export const EXAMPLES = {
  two: {
    title: "Two sessions, a feed and a read",
    lines: `0 begin 10
0 put 10 apple 3
0 put 10 pear 5
0 commit 10
0 close 15
1 open - - 0
1 poll 1 10
1 begin 20
1 get 20 apple`,
  },
  first: {
    title: "A write below a read comes too late",
    lines: `0 begin 10
0 put 10 apple 3
0 put 10 pear 5
0 commit 10
1 begin 20
1 get 20 apple
1 get 20 plum
0 begin 15
0 put 15 apple 4
1 commit 20`,
  },
  between: {
    title: "A write between two versions is let in",
    lines: `0 begin 5
0 put 5 a 1
0 commit 5
0 begin 12
0 put 12 a 2
0 commit 12
1 begin 15
1 get 15 a
0 begin 11
0 put 11 a 3
0 commit 11`,
  },
  scan: {
    title: "A scan reads keys that aren't there, too",
    lines: `0 begin 20
0 scan 20 - -
1 begin 10
1 put 10 z 1
0 put 20 b 2
0 commit 20`,
  },
  blocked: {
    title: "A read is blocked by an undecided write",
    lines: `0 begin 10
0 put 10 a 1
1 begin 20
1 get 20 a`,
  },
  closing: {
    title: "Closing stops below what is undecided",
    lines: `0 begin 10
0 put 10 a 1
0 close 100
0 commit 10
0 close 100
0 begin 50`,
  },
  hard: {
    title: "A hard closing waits for nobody",
    lines: `0 begin 10
0 put 10 a 1
1 begin 50
1 put 50 b 2
2 closehard 20
0 commit 10
1 commit 50`,
  },
  order: {
    title: "A feed tells by timestamp, not by commit",
    lines: `0 open - - 0
1 begin 20
1 put 20 a 2
1 commit 20
2 begin 10
2 put 10 b 1
2 commit 10
0 poll 1 10
0 close 30
0 poll 1 10`,
  },
  initial: {
    title: "A feed with an initial scan",
    lines: `0 begin 5
0 put 5 a 1
0 put 5 b 2
0 put 5 c 3
0 commit 5
0 begin 8
0 del 8 b
0 put 8 c 4
0 commit 8
0 close 9
1 openinitial - - 7
1 poll 1 2
0 collect 9
1 poll 1 10`,
  },
  gap: {
    title: "A feed with a gap says resolved less often",
    lines: `0 openevery - - 0 10
0 close 9
0 poll 1 5
0 close 10
0 poll 1 5
1 begin 15
1 put 15 a 1
1 commit 15
0 close 19
0 poll 1 5
0 close 20
0 poll 1 5`,
  },
  replica: {
    title: "A replica, from a snapshot and a feed",
    lines: `0 begin 10
0 put 10 a 1
0 commit 10
0 close 10
1 protect 10
1 scanat 10 - -
1 open - - 10
1 release 1
0 begin 20
0 put 20 b 2
0 del 20 a
0 commit 20
0 close 25
1 poll 1 100`,
  },
  horizon: {
    title: "What holds the horizon",
    lines: `0 begin 10
0 put 10 a 1
0 commit 10
0 begin 20
0 put 20 a 2
0 commit 20
0 begin 30
0 put 30 a 3
0 commit 30
0 close 40
1 protect 20
2 open - - 15
0 collect 40
2 cancel 1
0 collect 40
1 release 1
0 collect 40
0 readat 10 a`,
  },
  shop: {
    title: "All of it together",
    lines: `2 open - - 0
3 open k q 0
0 begin 10
0 put 10 apple 3
0 put 10 kiwi 8
1 begin 14
1 put 14 pear 5
0 commit 10
1 put 14 kiwi 9
1 commit 14
0 close 15
2 poll 1 10
0 begin 22
0 put 22 apple 4
1 begin 26
1 get 26 pear
1 del 26 kiwi
1 commit 26
0 commit 22
0 close 28
2 poll 1 10
3 poll 2 2
0 collect 28
0 begin 34
0 put 34 pear 6
1 begin 38
1 scan 38 a b
0 begin 32
0 put 32 apple 7`,
  },
};
