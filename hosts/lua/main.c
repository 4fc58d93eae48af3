/* main.c: the command line. */
#include <lauxlib.h>
#include <stdio.h>
#include <stdlib.h>
#include <string.h>

#include "agent.h"

static const char USAGE[] =
    "usage: cqlua run [OPTION..] [--no-service] SCRIPT..\n"
    "       cqlua serve ADDRESS [OPTION..] SCRIPT..\n"
    "       cqlua prof [OPTION..] [--seconds N] [--rate N] [--svg] [-o FILE] SCRIPT..\n"
    "       cqlua top [OPTION..] SCRIPT..\n"
    "       cqlua debug [OPTION..] SCRIPT..\n"
    "Each takes these options:\n"
    "  -e STATEMENT     runs it in each script's state first\n"
    "  --serve ADDRESS  serves profiles, stacks and counters over HTTP\n"
    "  --debug ADDRESS  lets debuggers for Java attach, such as jdb\n"
    "  --suspend        with --debug: a script begins when a debugger resumes it\n"
    "An ADDRESS is 127.0.0.1:PORT, [::1]:PORT, localhost:PORT or unix:PATH.\n";

struct arguments {
    const char *command;
    struct prof_options prof;
    bool inspected;
    const char *addresses[DOORS];  /* where each door listens, or NULL */
    bool suspends;
    const char **statements;
    size_t statement_count;
    char **scripts;
    size_t script_count;
};

static bool read_number(const char *text, double least, double most, double *number) {
    char *end;
    if (!text)
        return false;
    *number = strtod(text, &end);
    return end != text && !*end && *number >= least && *number <= most;
}

/* Reads the option at `at`, and its value. Returns how many words it has, or 0 if it is none of this command's. */
static size_t read_option(struct arguments *a, char **at) {
    static const char *const options[DOORS] = { "--serve", "--debug" };
    bool run = !strcmp(a->command, "run"), prof = !strcmp(a->command, "prof");
    if (!strcmp(at[0], "-e") && at[1]) {
        a->statements[a->statement_count++] = at[1];
        return 2;
    }
    for (size_t i = 0; i < DOORS; i++)
        if (!strcmp(at[0], options[i]) && at[1]) {
            a->addresses[i] = at[1];
            return 2;
        }
    if (!strcmp(at[0], "--suspend")) {
        a->suspends = true;
        return 1;
    }
    if (run && !strcmp(at[0], "--no-service")) {
        a->inspected = false;
        return 1;
    }
    if (prof && !strcmp(at[0], "--svg")) {
        a->prof.svg = true;
        return 1;
    }
    if (prof && !strcmp(at[0], "--seconds"))
        return read_number(at[1], 0.001, 1e6, &a->prof.seconds) ? 2 : 0;
    if (prof && !strcmp(at[0], "--rate"))
        return read_number(at[1], 0.1, 1e5, &a->prof.rate) ? 2 : 0;
    if (prof && !strcmp(at[0], "-o") && at[1]) {
        a->prof.file = at[1];
        return 2;
    }
    return 0;
}

static bool read_command(struct arguments *a, const char *word) {
    static const char *const commands[] = { "run", "serve", "prof", "top", "debug" };
    for (size_t i = 0; word && i < sizeof commands / sizeof *commands; i++)
        if (!strcmp(word, commands[i]))
            a->command = commands[i];
    return a->command;
}

static bool has_door(const struct arguments *a) {
    bool has = false;
    for (size_t i = 0; i < DOORS; i++)
        has = has || a->addresses[i];
    return has;
}

static bool read_arguments(struct arguments *a, char **argv) {
    size_t at = 2;
    if (!argv[0] || !read_command(a, argv[1]))
        return false;
    if (!strcmp(a->command, "serve")) {
        a->addresses[DOOR_HTTP] = argv[at];
        at += argv[at] != NULL;
    }
    while (argv[at] && argv[at][0] == '-') {
        size_t words = read_option(a, &argv[at]);
        if (!words)
            return false;
        at += words;
    }
    a->scripts = &argv[at];
    while (argv[at + a->script_count])
        a->script_count++;
    return a->script_count > 0 && (a->inspected || !has_door(a)) && (!a->suspends || a->addresses[DOOR_DEBUGGER]);
}

static int run_command(const struct arguments *a, struct host *host) {
    if (!strcmp(a->command, "prof"))
        return prof(host, &a->prof);
    if (!strcmp(a->command, "top"))
        return top(host);
    if (!strcmp(a->command, "debug"))
        return debug(host);
    return host_start(host);
}

static int run(const struct arguments *a) {
    static struct host host;
    host.statements = a->statements;
    host.statement_count = a->statement_count;
    host.suspended_at = a->suspends ? a->addresses[DOOR_DEBUGGER] : NULL;
    if (host_make(&host, a->scripts, a->script_count, a->inspected))
        return 1;
    for (size_t i = 0; i < DOORS; i++)
        if (a->addresses[i] && !(i == DOOR_DEBUGGER && a->suspends) && host_open(&host, (enum door)i, a->addresses[i]))
            return 1;
    bool failed = run_command(a, &host);
    failed = host_join(&host) || failed;
    host_free(&host);
    return failed ? 1 : 0;
}

int main(int argc, char **argv) {
    struct arguments a = { .inspected = true, .prof = { .rate = 1000 } };
    a.statements = calloc((size_t)argc + 1, sizeof *a.statements);
    if (!a.statements || !read_arguments(&a, argv)) {
        fputs(USAGE, stderr);
        free(a.statements);
        return 2;
    }
    int status = run(&a);
    free(a.statements);
    return status;
}
