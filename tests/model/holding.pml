/* The protocol of a holding: lock, record, held file, ledger, log and sums, purge and grace folder (cli/src/holding.rs,
   removal.rs, locks.rs). Writers, readers and a sweep run beside each other, and processes are killed at any step.

   A file is the number of the state that it belongs to; 0 stands for no file. The log of compactions is the number of its
   entries. A state is due where its ledger lets the holding go. What each define stands for is said in run.sh. */

#ifndef READERS
#define READERS 1
#endif
#ifndef WRITERS
#define WRITERS 2
#endif
#ifndef KILLS
#define KILLS 1
#endif
#define LOCKS 9
#define STATES 6

/* The lock file: at its path lies this one of those that were ever made. A lock belongs to the file, not to the path. */
byte path = 0, made = 0;
bool exclusive[LOCKS];
byte shared[LOCKS];

/* The holding, and what has been moved. */
byte held = 1, ledger = 1, sums = 1, log = 0;
byte bin_held = 0, bin_ledger = 0, bin_sums = 0, bin_log = 0;
bool due[STATES];

/* Of each state: a number for the bytes of held file and ledger, higher where the ledger has more lines; the compactions
   that the sums note; and the entries of the log. A compaction brings bytes of earlier back, but no state. With no line
   they are as they were opened; what is opened later is another frame. */
byte bytes[STATES], notes[STATES], logged[STATES], opened = 1;

mtype = { keeps, corrects, compacts };

/* The record: the state that it follows and the one that it makes, which is 0 where the holding goes. */
bool recorded = false;
byte follows = 0, makes = 0;

/* What must hold: who is at work, the newest state that is promised, those ever made, and what is left to happen. */
byte inside = 0, newest = 1, states = 1, kills = KILLS;

/* A process is killed instead of its next step, or makes it. */
#define STEP(s) atomic { if :: s :: kills > 0 -> kills--; goto killed fi }

inline open_or_make(fd) {
    if :: path == 0 -> made++; path = made; fd = path :: else -> fd = path fi
}

#define FREE(fd) (!exclusive[fd] && shared[fd] == 0)

/* For a process alone: the lock is had, and its file is still the one at the path. */
inline own(fd, has) {
    do
    :: STEP(open_or_make(fd));
       atomic { FREE(fd) -> exclusive[fd] = true; has = true };
       if
       :: atomic { fd == path -> break }
       :: atomic { fd != path -> exclusive[fd] = false; has = false }
       fi
    od;
    atomic { at_work = true; inside++ };
    assert(inside == 1)
}

/* The end, or what the end of a process does by itself. */
inline let_go(fd, has) {
    atomic {
        if :: at_work -> inside--; at_work = false :: else fi;
        if
        :: has && exclusive[fd] -> exclusive[fd] = false
        :: has && !exclusive[fd] -> shared[fd]--
        :: else
        fi;
        has = false
    }
}

#define SAME(file, state) (bytes[file] == bytes[state])
#define WHOLE (SAME(held, follows) && SAME(ledger, follows) && log == logged[follows])

/* Notes are only added, so a record knows every note that is there. Its own is there once all of its files are. */
#ifdef NO_NOTES
#define KNOWN true
#else
#define KNOWN (notes[sums] <= notes[makes])
#endif
#ifdef ANY_NOTE
#define OWN true
#else
#define OWN (notes[makes] == notes[follows] || notes[sums] < notes[makes] || SAME(ledger, makes))
#endif

/* A record belongs to the files where each of them is as before it or as after it. */
#define FITS(file) (SAME(file, follows) || SAME(file, makes))
#define LOG_FITS (log == logged[follows] || log == logged[makes])
#define BELONGS (FITS(held) && FITS(ledger) && LOG_FITS && KNOWN && OWN)
#ifdef ANY_RECORD
#define USABLE true
#else
#define USABLE BELONGS
#endif

/* Only a compaction that is logged has a log to put in place. */
inline put_log() {
    if :: logged[makes] != logged[follows] -> STEP(log = logged[makes]) :: else fi
}

/* The files are put in place and the record goes. No old record is done again, and no line goes before it is logged. */
inline put() {
    assert(makes >= newest);
#ifndef LOG_LAST
    put_log();
#endif
    STEP(held = makes);
    STEP(ledger = makes; assert(log == logged[ledger]));
    STEP(sums = makes);
#ifdef LOG_LAST
    put_log();
#endif
    STEP(recorded = false)
}

/* The held file goes first and the ledger last. Nothing that is not due goes. With the lock file the work is over. */
inline take_away() {
    assert(ledger == 0 || due[ledger]);
    STEP(bin_held = (held -> held : bin_held); held = 0; newest = 0);
    STEP(bin_sums = (sums -> sums : bin_sums); sums = 0);
    if :: logged[follows] != 0 -> STEP(bin_log = (log -> log : bin_log); log = 0) :: else fi;
    STEP(bin_ledger = (ledger -> ledger : bin_ledger); ledger = 0);
    STEP(recorded = false);
    STEP(path = 0; inside--; at_work = false)
}

/* An unfinished change is finished, a removal that has not begun is given up, and another one is left to the sweep. */
inline settle(refused) {
    refused = false;
    if
    :: !recorded -> skip
    :: recorded && makes != 0 && USABLE -> put()
    :: recorded && makes != 0 && !(USABLE) -> refused = true
    :: recorded && makes == 0 && WHOLE -> STEP(recorded = false)
    :: recorded && makes == 0 && !(WHOLE) -> refused = true
    fi
}

#define APPENDED (ledger -> bytes[ledger] + 1 : states + 1)

/* The state that a change makes. With a keep date it is not due. A compaction stands for the withdrawals before it too: it
   leaves any smaller number of lines, with or without a log. */
inline next_state(kind) {
    states++;
    follows = ledger;
    makes = states;
    due[makes] = kind != keeps && (ledger == 0 || due[ledger]);
    bytes[makes] = APPENDED;
    notes[makes] = notes[ledger];
    logged[makes] = logged[ledger];
    if
    :: ledger == 0 -> opened = bytes[makes]
    :: ledger != 0 && kind == compacts ->
       bytes[makes] = opened;
       do :: bytes[makes] + 1 < bytes[ledger] -> bytes[makes]++ :: break od;
       notes[makes]++;
       if :: logged[makes]++ :: skip fi
    :: else
    fi
}

/* A change of a holding, or a new one where there is none. A ledger without lines is compact already. */
proctype writer(mtype kind) {
    byte fd;
    bool has = false, at_work = false, refused;
    own(fd, has);
    settle(refused);
    if
    :: refused || (held == 0) != (ledger == 0) || kind == compacts && bytes[ledger] <= opened -> skip
    :: else ->
       STEP(next_state(kind); recorded = true; newest = makes);
       put()
    fi;
killed:
    let_go(fd, has)
}

#define GONE (held == 0 && ledger == 0 && !recorded)
#ifdef ONLY_THE_LOCK
#define DISTURBED (path != 0 || recorded)
#else
#define DISTURBED (path != 0 || recorded || GONE)
#endif

/* A question. Without a lock file it reads unlocked, and reads again where one has come or the holding has gone. */
inline ask(fd, has, no_lock, first, second, third, entries) {
    do
    :: if :: atomic { GONE -> break } :: else fi;
#ifdef LOST_LOCK
       STEP(open_or_make(fd));
#else
       STEP(fd = path);
#endif
       no_lock = (fd == 0);
       if
       :: no_lock
       :: else -> atomic { !exclusive[fd] -> shared[fd]++; has = true };
          if :: fd == path :: else -> atomic { shared[fd]--; has = false }; goto again fi
       fi;
#ifdef LOST_LOCK
       if
       :: GONE ->
          STEP(path = 0);
          atomic { shared[fd]--; has = false; break }
       :: else
       fi;
#endif
       if :: recorded -> atomic { if :: has -> shared[fd]--; has = false :: else fi; first = 0; break } :: else fi;
       STEP(first = held);
       STEP(second = ledger);
       STEP(third = sums);
#ifdef COMPACTION
       STEP(entries = log);
#endif
       if
       :: atomic { no_lock && DISTURBED -> skip }
       :: atomic { !(no_lock && DISTURBED) ->
              assert(first == 0 || second == 0 || third == 0 ||
                     (first == second && second == third && entries == logged[third]));
              if :: has -> shared[fd]--; has = false :: else fi; break }
       fi;
again:
       skip
    od
}

proctype reader() {
    byte fd, first, second, third, entries;
    bool has = false, at_work = false, no_lock;
    ask(fd, has, no_lock, first, second, third, entries);
killed:
    let_go(fd, has)
}

/* The sweep asks, and asks again with the lock held before anything goes. */
proctype sweep() {
    byte fd, first = 0, second = 0, third = 0, entries = 0;
    bool has = false, at_work = false, no_lock, refused;
    ask(fd, has, no_lock, first, second, third, entries);
    if
    :: first == 0 && !recorded -> goto killed
    :: !recorded && second != 0 && !due[second] -> goto killed
    :: else
    fi;
    own(fd, has);
    if
    :: recorded && makes == 0 && held == 0 && (ledger == 0 || SAME(ledger, follows)) -> take_away()
    :: else ->
       settle(refused);
       if
       :: refused || held == 0 || ledger == 0 -> skip
#ifdef ASKED_ONCE
       :: !refused && held != 0 && ledger != 0 ->
#else
       :: !refused && held != 0 && ledger != 0 && !due[ledger] -> skip
       :: !refused && held != 0 && ledger != 0 && due[ledger] ->
#endif
          STEP(follows = ledger; makes = 0; recorded = true);
          take_away()
       fi
    fi;
killed:
    let_go(fd, has)
}

/* The record of a change is copied, and put back by hand when it has gone. */
proctype restore() {
    byte old_follows, old_makes;
end_no_record:
    atomic { recorded && makes != 0 -> old_follows = follows; old_makes = makes };
end_record_there:
    atomic { !recorded -> follows = old_follows; makes = old_makes; recorded = true }
}

/* The next command, with nobody else there. */
inline next_command() {
    d_step {
        if
        :: recorded && makes != 0 && USABLE ->
           log = logged[makes]; held = makes; ledger = makes; sums = makes; recorded = false
        :: recorded && makes == 0 && WHOLE -> recorded = false
        :: recorded && makes == 0 && held == 0 ->
           bin_sums = (sums -> sums : bin_sums); sums = 0;
           bin_log = (log -> log : bin_log); log = 0;
           bin_ledger = (ledger -> ledger : bin_ledger); ledger = 0;
           recorded = false
        :: else
        fi
    }
}

init {
    atomic {
        due[1] = true;
        bytes[1] = 2;
        run writer(corrects);
#if WRITERS > 1
        run writer(keeps);
#endif
#ifdef COMPACTION
        run writer(compacts);
#endif
        byte number = 0;
        do :: number < READERS -> run reader(); number++ :: else -> break od;
        run sweep();
#ifdef RESTORE
        run restore()
#endif
    };
#ifdef RESTORE
    timeout ->
#else
    _nr_pr == 1 ->
#endif
    next_command();
    /* As before or as after: the newest state that was promised, in all of its files, here or moved. */
    assert(held == newest && ledger == newest && sums == newest && log == logged[newest]);
    assert(bin_held == bin_ledger && bin_ledger == bin_sums && bin_log == logged[bin_held]);
    assert(bin_held == 0 || due[bin_held]);
#ifndef RESTORE
    /* No record is taken for a foreign one where none was put back. */
    assert(!recorded)
#endif
}
