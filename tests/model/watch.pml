/* watch.pml: how a thread becomes wanted and its runtime is told: `WantedList` and `Watched` of ti_cell, the calls of cebdyraq_calls.c, and
 * cebdyraq_watch.c.
 *
 * There are N threads and two posters, of which each posts POSTS calls at a thread and waits for the answer. A thread is watched once it
 * runs, also if somebody has called for it by then; with -DWATCHED it is watched at first, and with -DAGAIN it is unwatched then, and
 * watched once more. It polls only when it
 * is requested to, and with -DPOLLS once by itself. The watcher sleeps by a futex, or with -DFD in poll. In the end it closes the watch.
 *
 * Each atomic step of the code is one step here. A hold of a cell is a lock: who polls and finds it taken tries again (CQ_BUSY). Who reads
 * the news once they are freed goes no further.
 *
 * Faults. In the list: -DF_NEWS (the news come before the thread is in the list), -DF_TOLD (a thread is told before it may be entered
 * again), -DF_NEXT (its link is cleared after that), -DF_WANTED (a thread that is wanted when it is watched is not entered). In the calls:
 * -DF_LOOK (they look who watches before they post), -DF_BEFORE (they wake before they post). In the watch: -DF_SEEN (the news are read
 * after the try), -DF_TAKE (who wakes takes the count away, and compares no news), -DF_ARM (the file is armed before it is emptied),
 * -DF_TRY (there is no try once it is armed), -DF_WAKERS (the count of news goes while somebody wakes). In the runtime: -DF_BACK (a request
 * is cleared after the poll), -DF_ONCE (a poll that finds the lock taken is not tried again). */
#ifndef N
#define N 1
#endif
#ifndef POSTS
#define POSTS 2
#endif
#define END 0
#define UNWRITTEN 255
#define LINK(t) ((t) + 1)
#define SECOND_LINK (N + 1)
#define THREAD(l) ((l) == SECOND_LINK -> 0 : (l) - 1)
#define DONE (answers == 2 * POSTS)

/* Cells. */
bool locked[N], word[N]; byte link[N];
bool posted[2], answered[2]; byte answers;
/* The list. */
byte head; byte next[N + 2] = UNWRITTEN; bool entered[N + 2];
byte news; bool is_there = true, is_freed;
/* Who watches. */
byte count, last_told, wakers; bool armed, file = true, sleeps;
bool request[N];

inline enter(l) {
    if
    :: atomic { entered[l] -> skip }
    :: atomic { !entered[l] -> entered[l] = true };
#ifdef F_NEWS
        news++;
#endif
        atomic { before = head; head = l };
        atomic { next[l] = before; before = 0 };
#ifndef F_NEWS
        news++
#endif
    fi
}
inline tell() {
    sleeps = false;
    if
    :: !armed
    :: armed -> atomic { if :: armed -> armed = false; count--; file = true :: else fi }
    fi
}
#ifdef F_TAKE
inline wake() { if :: atomic { count > 0 -> count = 0 }; tell() :: count == 0 fi }
#else
inline wake() {
    wakers++;
    if
    :: !is_there
    :: is_there ->
        do
        :: told = last_told; !is_freed; now = news;
            if
            :: told == now -> break
            :: told != now ->
                if
                :: atomic { last_told == told -> last_told = now }; tell(); break
                :: atomic { last_told != told -> skip }
                fi
            fi
        od
    fi;
    atomic { told = 0; now = 0; wakers-- }
}
#endif
inline look() { if :: count == 0 :: count > 0 -> wake() fi }

proctype Poster(byte p) {
    byte t = p % N, before, told, now, l, i; bool some;
    do
    :: i == POSTS -> break
    :: i < POSTS ->
#ifdef F_LOOK
        some = count > 0;
#endif
#ifdef F_BEFORE
        look();
#endif
        atomic { !locked[t] -> locked[t] = true; posted[p] = true; answered[p] = false };
        atomic { l = (word[t] -> 0 : link[t]); word[t] = true };
        locked[t] = false;
        if :: l != 0 -> enter(l) :: else fi;
#if defined(F_LOOK)
        if :: some -> wake() :: else fi;
#elif !defined(F_BEFORE)
        look();
#endif
        answered[p];
        atomic { i++; l = 0; some = false }
    od
}

inline watch_thread(l) {
    atomic { !locked[t] -> locked[t] = true; link[t] = l; called = word[t] };
    locked[t] = false;
#ifndef F_WANTED
    if :: called -> enter(l) :: else fi;
#endif
    called = false;
    look()
}
/* The thread hands over: each call that waits is answered. */
inline hand_over() {
    word[t] = false;
    d_step {
        i = 0;
        do
        :: i < 2 -> if :: i % N == t && posted[i] -> posted[i] = false; answered[i] = true; answers++ :: else fi; i++
        :: else -> break
        od;
        i = 0
    }
}
inline poll() {
    if
    :: !word[t]
    :: word[t] ->
        if
        :: atomic { !locked[t] -> locked[t] = true }; hand_over(); locked[t] = false
#ifdef F_ONCE
        :: atomic { locked[t] -> skip }
#endif
        fi
    fi
}
proctype Thread(byte t) {
    byte before, told, now, i; bool called;
#ifdef POLLS
    bool by_itself = true;
#endif
#ifndef WATCHED
    watch_thread(LINK(t));
#endif
#ifdef AGAIN
    atomic { !locked[t] -> locked[t] = true; link[t] = 0 };
    locked[t] = false;
    watch_thread(SECOND_LINK);
#endif
    do
    :: DONE -> break
    :: request[t] ->
#ifdef F_BACK
        poll(); request[t] = false
#else
        request[t] = false; poll()
#endif
#ifdef POLLS
    :: word[t] && by_itself -> by_itself = false; poll()
#endif
    od
}

/* One try: the thread that it finds is requested to poll. */
inline try() {
    got = false;
    if :: taken == END -> atomic { taken = head; head = END } :: else fi;
    if
    :: taken == END
    :: taken != END ->
        rest = next[taken];
        if
        :: rest == UNWRITTEN
        :: rest != UNWRITTEN ->
#if defined(F_TOLD)
            next[taken] = UNWRITTEN; request[THREAD(taken)] = true; entered[taken] = false;
#elif defined(F_NEXT)
            entered[taken] = false; next[taken] = UNWRITTEN; request[THREAD(taken)] = true;
#else
            next[taken] = UNWRITTEN; entered[taken] = false; request[THREAD(taken)] = true;
#endif
            atomic { taken = rest; got = true }
        fi
    fi;
    rest = 0
}
#ifdef F_ARM
inline empty_and_arm() { arm(); file = false }
#else
inline empty_and_arm() { file = false; arm() }
#endif
inline arm() { atomic { if :: !armed -> armed = true; count++ :: else fi } }
proctype Watcher() {
    byte seen, taken, rest; bool got;
#ifdef FD
    do
    :: DONE -> break
    :: file ->
        do
        :: try();
            if
            :: got
            :: !got ->
                empty_and_arm();
#ifndef F_TRY
                try();
#endif
                if :: got :: !got -> break fi
            fi
        od
    od;
    atomic { if :: armed -> armed = false; count-- :: else fi };
#else
    do
    :: DONE -> break
    :: !DONE ->
#ifndef F_SEEN
        seen = news;
#endif
        try();
        if
        :: got
        :: !got ->
#ifdef F_SEEN
            seen = news;
#endif
#ifdef F_TAKE
            count = 1;
#else
            count++;
#endif
            atomic { if :: news == seen -> sleeps = true :: else fi };
            (!sleeps || DONE);
#ifndef F_TAKE
            count--
#endif
        fi;
        seen = 0
    od;
#endif
    is_there = false;
#ifndef F_WAKERS
    wakers == 0;
#endif
    is_freed = true
}

init {
    byte t = 0;
    atomic {
        run Poster(0); run Poster(1); run Watcher();
        do
        :: t < N -> run Thread(t);
#ifdef WATCHED
            link[t] = LINK(t);
#endif
            t++
        :: else -> break
        od
    }
    (_nr_pr == 1)
}
