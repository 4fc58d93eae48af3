/* explore.c: the search through all schedules of each scenario (README.md).
 *
 *     explore [-w] [-r] [-p PREEMPTIONS] [-b BUSIES] [-e EARLY_ENDS] [-m MOST_RUNS] [-n] [-s] [-t TICK_NS] [-f] [-v] [SCENARIO ..]
 *
 *     -w  those with servers, and no others      -r  schedules by chance, the same each time
 *     -n  the news come round in each run        -s  two processors: callers spin first
 *     -f  ends at the first wrong run            -v  tells each step of a wrong run
 *
 * It prints a line for each scenario. The exit status is 1 if a run was wrong. */
#define _GNU_SOURCE
#include "explore.h"
#include "scenarios.h"

#include <stdio.h>
#include <stdlib.h>
#include <string.h>
#include <ucontext.h>
#include <unistd.h>

enum { MOST_CHOICES = 20000, MOST_STEPS = 3000, STACK = 256 * 1024, NOBODY = -1 };

bounds left;
int64_t time_ns, tick_ns = 1000;
int processors_there = 1;
bool is_set_up, goes_one_way;

/* ------------------------------------------------------------------------------------------------------------------
 * Choices. A run repeats the choices before the last one that could still go another way.
 */

static struct { int taken, ways; } path[MOST_CHOICES];
static int depth, known;
static unsigned long runs;
static bool is_by_chance;
static uint64_t chance;
static unsigned odds;  /* one in so many choices is another than the first */

static void give_up(const char *why) {
    puts(why);
    exit(3);
}

static int choose_by_chance(int ways) {
    chance ^= chance << 13;
    chance ^= chance >> 7;
    chance ^= chance << 17;
    return (chance >> 32) % odds == 0 ? (int)((chance & UINT32_MAX) % (unsigned)ways) : 0;
}

int choose(int ways) {
    if (ways <= 1 || goes_one_way) return 0;
    if (depth == MOST_CHOICES) give_up("a run has too many choices");
    if (depth == known) {
        path[known].taken = is_by_chance ? choose_by_chance(ways) : 0;
        path[known++].ways = ways;
    }
    if (path[depth].ways != ways) give_up("a run was not repeated");
    return path[depth++].taken;
}

/* Whether there is a further path. By chance there always is. */
static bool next_path(void) {
    static const unsigned ODDS[] = { 3, 8, 20, 50 };
    if (is_by_chance) {
        known = 0;
        odds = ODDS[runs % 4];
        return true;
    }
    while (known > 0 && path[known - 1].taken + 1 == path[known - 1].ways) known--;
    if (known > 0) path[known - 1].taken++;
    return known > 0;
}

/* ------------------------------------------------------------------------------------------------------------------
 * Actors.
 */

typedef struct {
    ucontext_t at;
    enum { READY, ASLEEP, GONE } is;
    body act;
    const char *name;
    const char *doing;
    const uint32_t *word;  /* at which it sleeps */
    uint32_t bits;
    int64_t end;
    bool is_long;          /* its time does not end its sleep if nobody else can go on */
    bool is_late;          /* its time has ended its sleep */
} actor;

static actor actors[MOST_ACTORS];
static int actor_count, running;
static char stacks[MOST_ACTORS][STACK] __attribute__((aligned(64)));
static ucontext_t search;

static const char *wrong;     /* why the run is wrong, or NULL */
static char text[200];
static bool tells;            /* each step is told */
static unsigned long sleeps;
static int steps;

void fail(const char *why) {
    if (is_set_up) give_up(why);
    if (wrong == NULL) wrong = why;
    swapcontext(&actors[running].at, &search);
}

void fail_with(const char *what, uint32_t code) {
    snprintf(text, sizeof text, "%s gives %u", what, code);
    fail(text);
}

void tell_step(const char *what) {
    if (tells && !goes_one_way) printf("    %-9s %s\n", actors[running].name, what);
}

/* The sleeper whose time ends first. */
static int first_to_end(bool also_long) {
    int first = NOBODY;
    for (int i = 0; i < actor_count; i++) {
        bool ends = actors[i].is == ASLEEP && actors[i].end >= 0 && (also_long || !actors[i].is_long);
        if (ends && (first == NOBODY || actors[i].end < actors[first].end)) first = i;
    }
    return first;
}

/* Who may go on, the one that runs first. Writes how many of them need not be late for that. */
static int list_who_may(int *who, int *ready) {
    int count = 0, late;
    bool goes_on = actors[running].is == READY;
    if (goes_on) who[count++] = running;
    for (int i = 0; i < actor_count; i++) {
        if (i != running && actors[i].is == READY && (!goes_on || left.preemptions > 0)) who[count++] = i;
    }
    *ready = count;
    if ((left.preemptions > 0 || count == 0) && (late = first_to_end(count > 0 || goes_one_way)) != NOBODY) who[count++] = late;
    return count;
}

/* Another goes on, or the one that runs. If nobody can, the run is over. */
static void take_turn(void) {
    int who[MOST_ACTORS + 1], ready, before = running, count = list_who_may(who, &ready);
    if (count == 0) {
        swapcontext(&actors[before].at, &search);
        return;
    }
    int chosen = choose(count);
    bool is_late = chosen >= ready;
    if ((actors[before].is == READY && chosen > 0) || (is_late && ready > 0)) left.preemptions--;
    running = who[chosen];
    if (is_late) {
        actors[running].is = READY;
        actors[running].is_late = true;
        if (actors[running].end > time_ns) time_ns = actors[running].end;
    }
    if (running != before) swapcontext(&actors[before].at, &actors[running].at);
}

void step(const char *what) {
    if (is_set_up) return;
    if (++steps > MOST_STEPS) fail("callers nap for ever");
    actors[running].doing = what;
    take_turn();
    tell_step(what);
}

static bool sleep_for_some(const uint32_t *word, uint32_t bits, int64_t end, bool is_long) {
    actor *self = &actors[running];
    sleeps++;
    self->is_long = is_long;
    self->word = word;
    self->bits = bits;
    self->end = end;
    self->is_late = false;
    self->is = ASLEEP;
    take_turn();
    return self->is_late;
}

bool sleep_at(const uint32_t *word, uint32_t bits, int64_t end) { return sleep_for_some(word, bits, end, false); }

bool sleep_long_at(const uint32_t *word, int64_t end) { return sleep_for_some(word, 1, end, true); }

uint32_t count_asleep(const uint32_t *word) {
    uint32_t count = 0;
    for (int i = 0; i < actor_count; i++) count += actors[i].is == ASLEEP && actors[i].word == word;
    return count;
}

int who_runs(void) { return running; }

void wake_at(const uint32_t *word, uint32_t bits) {
    for (int i = 0; i < actor_count; i++) {
        if (actors[i].is == ASLEEP && actors[i].word == word && (actors[i].bits & bits)) actors[i].is = READY;
    }
}

static void act(int number) {
    actors[number].act();
    actors[number].is = GONE;
    for (;;) take_turn();
}

/* ------------------------------------------------------------------------------------------------------------------
 * Runs.
 */

static bounds most;
static bool news_come_round;
static uint32_t gate;

void begin_search(void) {
    goes_one_way = false;
    left = most;
    steps = 0;
    wake_at(&gate, 1);
}

void end_search(void) {
    goes_one_way = true;
    left = (bounds){ 0 };
}

void await_search(void) {
    if (goes_one_way) sleep_at(&gate, 1, -1);
}

static void set_up(const scenario *of) {
    forget_heap();
    forget_service();
    forget_spins();
    forget_servers();
    forget_sockets();
    goes_one_way = false;
    left = (bounds){ 0 };
    is_set_up = true;
    if (news_come_round) the_signal.threads.news = the_signal.agents.news = UINT32_MAX;
    of->set_up();
    is_set_up = false;
    if (!goes_one_way) left = most;
}

static void set_stage(const scenario *of) {
    actor_count = 0;
    for (int i = 0; i < MOST_ACTORS && of->acts[i] != NULL; i++) {
        actors[i] = (actor){ .is = READY, .act = of->acts[i], .name = of->actors[i], .doing = "" };
        getcontext(&actors[i].at);
        actors[i].at.uc_stack.ss_sp = stacks[i];
        actors[i].at.uc_stack.ss_size = STACK;
        makecontext(&actors[i].at, (void (*)(void))act, 1, i);
        actor_count++;
    }
}

/* One run, along the path. */
static void run(const scenario *of) {
    depth = steps = running = 0;
    time_ns = 1000000;
    wrong = NULL;
    set_up(of);
    set_stage(of);
    running = choose(actor_count);
    swapcontext(&search, &actors[running].at);
    runs++;
    bool all_gone = true;
    for (int i = 0; i < actor_count; i++) all_gone = all_gone && actors[i].is == GONE;
    if (wrong == NULL && !all_gone) wrong = "a caller sleeps for ever";
    if (wrong == NULL && (the_signal.threads.sleepers || the_signal.agents.sleepers)) wrong = "somebody is counted as a sleeper at the end";
    if (wrong == NULL && count_looking() > 0) wrong = "somebody is counted as looking for stops at the end";
}

/* Tells a wrong run once more, step by step. */
static void tell(const scenario *of) {
    tells = true;
    run(of);
    tells = false;
    for (int i = 0; i < actor_count; i++) {
        const char *is = actors[i].is == GONE ? "has returned" : actors[i].is == ASLEEP ? "sleeps in" : "is at";
        printf("    %-9s %s %s\n", actors[i].name, is, actors[i].is == GONE ? "" : actors[i].doing);
    }
}

/* Whether all runs are right, of so many at the most. */
static bool explore(const scenario *of, unsigned long most_runs, bool in_detail) {
    bool has_more = true;
    runs = sleeps = 0;
    known = 0;
    chance = 88172645463325252;
    odds = 3;
    for (wrong = NULL; wrong == NULL && has_more && runs < most_runs;) {
        run(of);
        has_more = wrong == NULL && next_path();
    }
    if (wrong != NULL) {
        printf("%s: WRONG: %s, in run %lu\n", of->name, wrong, runs);
        if (in_detail) tell(of);
    } else {
        printf("%s: %lu runs, %lu sleeps%s\n", of->name, runs, sleeps, has_more ? ", and there are more" : "");
    }
    fflush(stdout);
    return wrong == NULL;
}

static bool is_named(const char *name, char **words) {
    bool is_there = false;
    for (; *words != NULL; words++) is_there = is_there || strcmp(*words, name) == 0;
    return is_there;
}

int main(int count, char **words) {
    unsigned long most_runs = 10000;
    bool ends_at_first = false, in_detail = false, with_servers = false, all_right = true;
    for (int letter; (letter = getopt(count, words, "p:b:e:m:t:wrnsfv")) != -1;) {
        switch (letter) {
        case 'p': most.preemptions = atoi(optarg); break;
        case 'b': most.busies = atoi(optarg); break;
        case 'e': most.early_ends = atoi(optarg); break;
        case 'm': most_runs = strtoul(optarg, NULL, 10); break;
        case 't': tick_ns = atoll(optarg); break;
        case 'w': with_servers = true; break;
        case 'r': is_by_chance = true; break;
        case 'n': news_come_round = true; break;
        case 's': processors_there = 2; tick_ns = 7000; break;
        case 'f': ends_at_first = true; break;
        case 'v': in_detail = true; break;
        default: return 2;
        }
    }
    use_heap();
    for (size_t i = 0; i < CHAPTERS; i++) {
        for (size_t k = 0; k < chapters[i]->count && (all_right || !ends_at_first); k++) {
            const scenario *of = &chapters[i]->all[k];
            bool is_asked_for = words[optind] == NULL ? chapters[i]->has_servers == with_servers : is_named(of->name, words + optind);
            if (is_asked_for) all_right = explore(of, most_runs, in_detail) && all_right;
        }
    }
    return all_right ? 0 : 1;
}
