/* cell.pml: `Sleepers` of ti_cell, as sleeping.rt, cell.rt, hold.rt and waits.rt have it, after all pauses: whoever waits sleeps at once.
 *
 * The word of a cell has the lock bit, the barred bit and the number of entries. Its users are the thread (it hands over, and returns once
 * it is not barred), an environment that suspends and resumes it, one that posts a call and waits for more entries, and, with -DOTHER, one
 * that only looks. Each atomic step of the code is one step here, and so is the futex's comparison.
 *
 * Faults: -DF_ADD (a sleeper counts itself only once it sleeps), -DF_LOAD (the count is loaded before the word is stored), -DF_QUIET (the
 * thread's own hold wakes nobody), -DF_CALLED (while the thread is barred, only those who wait for the end of a bar are woken), -DF_FREE (a
 * refused hold, which adds nothing, wakes nobody). */
bool locked, barred, posted; byte entries;
byte ordinary, unbarred;   /* the two halves of the count of sleepers */
bool lies[4];

inline sleep(condition, half) {
#ifndef F_ADD
    half++;
#endif
    atomic { met = (condition); l = locked; b = barred; e = entries };
    if
    :: met
    :: !met -> atomic { if :: l == locked && b == barred && e == entries -> lies[me] = true :: else fi };
#ifdef F_ADD
        half++;
#endif
        !lies[me];
#ifdef F_ADD
        half--
#endif
    fi;
#ifdef F_ADD
    half++;
#endif
    atomic { assert(half > 0); half--; met = false; l = false; b = false; e = 0 }
}
inline take() { do :: atomic { !locked -> locked = true }; break :: locked -> sleep(!locked, ordinary) od }
inline wake_up(may) {
    if
    :: ordinary + unbarred == 0 || !(may)
    :: else ->
        b = barred;
        if
#ifdef F_CALLED
        :: !b && ordinary + unbarred > 0 ->
#else
        :: ordinary > 0 || (unbarred > 0 && !b) ->
#endif
            d_step { lies[0] = false; lies[1] = false; lies[2] = false; lies[3] = false }
        :: else
        fi;
        b = false
    fi
}
inline store(more, bars, may) {
#ifdef F_LOAD
    some = ordinary + unbarred > 0;
    atomic { locked = false; entries = entries + more; barred = bars };
    if :: some -> wake_up(may) :: else fi; some = false
#else
    atomic { locked = false; entries = entries + more; barred = bars };
    wake_up(may)
#endif
}
#ifdef F_QUIET
#define THREADS_STORE 0
#else
#define THREADS_STORE 1
#endif
#ifdef F_FREE
#define REFUSED_STORE 0
#else
#define REFUSED_STORE 1
#endif

proctype Thread() {
    byte me = 0, e, seen; bool met, l, b, some, back;
    posted;                               /* the program has it so: the call is posted before */
    take(); store(1, barred, THREADS_STORE);   /* a hand-over: the call is answered */
    do
    :: back -> break
    :: else ->
        take();
        if
        :: atomic { !barred -> back = true; seen = 0 }; store(1, false, THREADS_STORE)
        :: atomic { barred -> seen = entries }; store(0, true, REFUSED_STORE);
            do                            /* await_unbarred */
            :: atomic { !barred && entries > seen -> skip }; break
            :: atomic { !(!barred && entries > seen) -> skip }; sleep(!barred, unbarred)
            od
        fi
    od
}
proctype Suspender() {
    byte me = 1, e; bool met, l, b, some;
    take(); store(1, true, 1);
    take(); store(1, false, 1)
}
proctype Caller() {
    byte me = 2, e, seen; bool met, l, b, some;
    take(); seen = entries + 1; store(1, barred, 1); posted = true;
    do                                    /* await_news */
    :: atomic { entries > seen -> seen = 0 }; break
    :: atomic { !(entries > seen) -> skip }; sleep(entries > seen, ordinary)
    od
}
#ifdef OTHER
proctype Other() {
    byte me = 3, e; bool met, l, b, some;
    take(); store(1, barred, 1)
}
#endif
init {
    atomic {
        run Thread(); run Suspender(); run Caller();
#ifdef OTHER
        run Other()
#endif
    }
    (_nr_pr == 1) -> assert(ordinary == 0 && unbarred == 0)
}
