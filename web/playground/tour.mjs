// The tour: ten steps of one history. A step's lines are called after those of the steps before it.

export const TOUR = [
  {
    title: "Begin",
    says:
      "A transaction is named by its timestamp, its place in time. Session 0 begins 10 and writes two keys, which " +
      "are dashed here, since it may still abort.",
    lines: ["0 begin 10", "0 put 10 apple 3", "0 put 10 pear 5"],
  },
  {
    title: "Commit",
    says:
      "The commit makes both versions stand from 10 on. A later write changes neither: it puts a new version beside " +
      "the old one.",
    lines: ["0 commit 10"],
  },
  {
    title: "Read",
    says:
      "Session 1 reads apple at 20 and finds the version of 10. The line under apple says that no write may come in " +
      "along it any more.",
    lines: ["1 begin 20", "1 get 20 apple"],
  },
  {
    title: "Too late",
    says:
      "Transaction 20 was told that apple is 3. A write of apple at 15 would make that answer wrong, so it comes too " +
      "late: it is refused, and transaction 15 is aborted.",
    lines: ["0 begin 15", "0 put 15 apple 4"],
  },
  {
    title: "Again, higher",
    says: "Begun again at 25, above the reader, the same write is let in, and at 20 apple is still 3.",
    lines: ["1 commit 20", "0 begin 25", "0 put 25 apple 4", "0 commit 25"],
  },
  {
    title: "A feed",
    says:
      "A cache, session 2, opens a feed of every key and polls it, but is told nothing yet, because a transaction at " +
      "22 could still come before the one at 25.",
    lines: ["2 open - - 0", "2 poll 1 10"],
  },
  {
    title: "Closed",
    says:
      "Closing promises that nothing at or below a timestamp will ever change; asked for 40 it stops at 29, because " +
      "transaction 30 is undecided.",
    lines: ["1 begin 30", "1 put 30 pear 6", "0 close 40"],
  },
  {
    title: "Resolved",
    says:
      "What is closed is told, each version once and by timestamp. Then resolved 29 says: no row at or below 29 is " +
      "still to come. So the cache may answer from its map of 29, and stores the map with that number.",
    lines: ["2 poll 1 10"],
  },
  {
    title: "The horizon",
    says:
      "Below the horizon nothing is read, so a collection drops the old apple. The horizon could go up to closed, " +
      "40, but the cache protects 29, so that it can go on from its stored map even when its feed is lost.",
    lines: ["2 protect 29", "1 commit 30", "0 close 40", "0 collect 40"],
  },
  {
    title: "A crash, and back",
    says:
      "The cache crashes before it stores the rest. Its stored map and 29 are enough: a new feed from 29 on tells it " +
      "pear again, so nothing is lost. Once it stores 40, it can protect 40 and release protection 1.",
    lines: ["2 poll 1 10", "2 cancel 1", "2 open - - 29", "2 poll 2 10"],
  },
];
