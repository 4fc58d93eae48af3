/* wait.pml: the protocol of cebdyraq_wait.c, over threads, suspensions and traces as cebdyraq.h describes them.
 *
 * There are N threads and two environments. Each thread starts, polls once, blocks and returns (-DBLOCKS), and ends. An environment gathers
 * a trace: it stops all threads in the order of their numbers, sees them, reads them and lets them go. With -DSUSPENDS one environment
 * suspends a thread and resumes it instead. With -DTIMED a trace may be given up at any moment.
 *
 * A try of a call is one step. Counting oneself, reading the news, the last try and the futex's comparison are steps of their own, and so
 * are a waker's call, its look at the sleepers, its change of the news, and its wake.
 *
 * Faults: -DF_EARLY (a trace wakes before it lets go), -DF_LATE (the news are read after the last try), -DF_BIT (a wrong bit), -DF_END (an
 * end does not wake who waits for the thread), -DF_TRACE (no wake at a trace's end), -DF_ORDER (the second environment stops threads from
 * the highest number on), -DF_SWALLOW (a window's answers cannot be discarded while another holds the thread, and the window is said to be
 * full; with -DALONE nobody else holds it, and that is right). */
#ifndef N
#define N 2
#endif
#define THREADS 0
#define AGENTS 1
#define COMINGS (1 << 7)
#define ALL 255
#define BIT(t) (1 << (t))

/* The news are not numbers here: `stale` has a bit for each user that has not read them since they changed. */
byte stale[2], sleepers[2];
/* Who sleeps at which word, for which bits. Users 0 to N - 1 are the threads, N and N + 1 the environments. */
bool lies[4]; byte bits_of[4]; byte on[4];

/* Threads. */
mtype = { fresh, runs, polls, blocked, ended };
mtype at[N];
bool suspended[N]; bool posted[N]; bool answered[N];
byte stopper[N];            /* 0 for none, or the environment plus one */
bool suspends_by[N];        /* a suspension waits at the running thread */
byte stillrunning[N];       /* stopped, and has not handed over since */
#define BARRED(t) (suspended[t] || stopper[t])
#define STANDS(t) (at[t] != runs)

inline wake(w, b) {
    if
    :: sleepers[w] == 0
    :: else ->
        stale[w] = 255;
        d_step {
            k = 0;
            do
            :: k < N + 2 -> if :: lies[k] && on[k] == w && (bits_of[k] & (b)) -> lies[k] = false; on[k] = 0; bits_of[k] = 0 :: else fi; k++
            :: else -> break
            od;
            k = 0
        }
    fi
}
/* Waits until `cond`, and does `act` in the same step. */
#ifdef F_LATE
#define SEEN_EARLY(w, me) skip
#define SEEN_LATE(w, me) stale[w] = stale[w] & ~BIT(me)
#else
#define SEEN_EARLY(w, me) stale[w] = stale[w] & ~BIT(me)
#define SEEN_LATE(w, me) skip
#endif
inline leave(w, me) { if :: atomic { counted -> assert(sleepers[w] > 0); sleepers[w]--; counted = false; stale[w] = stale[w] | BIT(me) } :: else fi }
#define WAIT(me, w, b, cond, act) \
    do \
    :: atomic { (cond) -> act }; leave(w, me); break \
    :: atomic { !(cond) -> skip }; \
        if \
        :: atomic { !counted -> sleepers[w]++; counted = true } \
        :: else -> SEEN_LATE(w, me); \
            atomic { if :: !(stale[w] & BIT(me)) -> lies[me] = true; on[me] = w; bits_of[me] = b :: else fi }; \
            !lies[me] \
        fi; \
        SEEN_EARLY(w, me) \
    od

/* A hand-over: the suspension that waits takes place, and a call that was posted is answered. */
inline hand_over(t, next) {
    at[t] = next;
    if :: suspends_by[t] && next != ended -> suspended[t] = true; suspends_by[t] = false :: else -> suspends_by[t] = false fi;
    if :: posted[t] -> answered[t] = true; posted[t] = false :: else fi;
    stillrunning[t] = 0
}

proctype Thread(byte t) {
    byte k; bool counted;
    WAIT(t, THREADS, BIT(t), !BARRED(t), at[t] = runs);
    wake(AGENTS, COMINGS);
    /* a poll, at which it may be held */
    if
    :: atomic { (stopper[t] || suspends_by[t] || posted[t]) -> hand_over(t, polls) };
        wake(AGENTS, BIT(t));
        WAIT(t, THREADS, BIT(t), !BARRED(t), at[t] = runs)
    :: atomic { !(stopper[t] || suspends_by[t] || posted[t]) -> skip }
    fi;
#ifdef BLOCKS
    /* a block and its return */
    atomic { hand_over(t, blocked) };
#ifndef F_BIT
    wake(AGENTS, BIT(t));
#else
    wake(AGENTS, BIT(t + 1));
#endif
    WAIT(t, THREADS, BIT(t), !BARRED(t), at[t] = runs);
#endif
    atomic { hand_over(t, ended) };
    wake(AGENTS, COMINGS);
#ifndef F_END
    wake(AGENTS, BIT(t))
#endif
}

/* A trace. It stops each thread in its order, sees each standing, and lets each go. */
inline gather(me, e) {
    i = 0; given = false; held = 0;
    do
    :: i < N ->
#ifdef F_ORDER
        t = (e == 1 -> N - 1 - i : i);
#else
        t = i;
#endif
#ifdef TIMED
        if
        :: true -> given = true; break
        :: true ->
#endif
        WAIT(me, AGENTS, ALL, stopper[t] == 0, stopper[t] = e + 1; stillrunning[t] = (STANDS(t) -> 0 : 1); held = held | BIT(t));
#ifdef TIMED
        fi;
#endif
        i++
    :: else -> break
    od;
    i = 0;
    do
    :: i < N && !given ->
#ifdef TIMED
        if
        :: true -> given = true; break
        :: true ->
#endif
        WAIT(me, AGENTS, ALL, STANDS(i) || stillrunning[i] == 0, skip);
#ifdef TIMED
        fi;
#endif
        i++
    :: else -> break
    od;
    i = 0;
#ifdef F_EARLY
    wake(THREADS, ALL); wake(AGENTS, ALL);
#endif
    do
    :: i < N -> atomic { if :: held & BIT(i) -> stopper[i] = 0 :: else fi }; i++
    :: else -> break
    od;
#if !defined(F_TRACE) && !defined(F_EARLY)
    wake(THREADS, ALL); wake(AGENTS, ALL);
#endif
    i = 0; held = 0
}

proctype Gatherer(byte me; byte e) {
    byte k, i, t, held; bool counted, given;
    gather(me, e)
}

/* Suspends thread 0, and resumes it once it is suspended. */
proctype Suspender(byte me) {
    byte k; bool counted; bool mine;
    atomic {
        if
        :: at[0] == runs && !suspends_by[0] -> suspends_by[0] = true; mine = true
        :: at[0] != runs && at[0] != fresh && at[0] != ended && !suspended[0] -> suspended[0] = true; mine = true
        :: else
        fi
    }
    WAIT(me, AGENTS, BIT(0), !mine || !suspends_by[0], skip);
    atomic { suspended[0] = false };
    wake(THREADS, BIT(0))
}

#ifdef F_SWALLOW
/* A window of one call, which was cancelled and is answered once the thread has handed over. Another holds thread 0 at times. */
bool held_by_other, cancelled = true, answer_there, room_taken = true;
proctype Other() { held_by_other = true; held_by_other = false }
proctype Full(byte me) {
    byte k; bool counted, done;
    do
    :: done -> leave(AGENTS, me); break
    :: !done ->
        if :: held_by_other :: else -> atomic { if :: at[0] != runs && at[0] != fresh -> room_taken = false :: else fi } fi;
        if
        :: !room_taken -> done = true
        :: else ->
            if
            :: atomic { !counted -> sleepers[AGENTS]++; counted = true }
            :: else -> atomic { if :: !(stale[AGENTS] & BIT(me)) -> lies[me] = true; on[me] = AGENTS; bits_of[me] = BIT(0) :: else fi }; !lies[me]
            fi;
            stale[AGENTS] = stale[AGENTS] & ~BIT(me)
        fi
    od
}
#endif

init {
    byte n = 0;
    atomic {
        stale[0] = 255; stale[1] = 255;
        do :: n < N -> at[n] = fresh; n++ :: else -> break od;
        n = 0;
        do :: n < N -> run Thread(n); n++ :: else -> break od;
#ifdef F_SWALLOW
        run Full(N);
#ifndef ALONE
        run Other()
#endif
#elif defined(SUSPENDS)
        run Gatherer(N, 0); run Suspender(N + 1)
#else
        run Gatherer(N, 0); run Gatherer(N + 1, 1)
#endif
    }
    (_nr_pr == 1);
    assert(sleepers[THREADS] == 0 && sleepers[AGENTS] == 0)
}
