/* bench_classes.c: what many methods cost, in nanoseconds and bytes. It is no test.
 *
 *     bench_classes
 *
 * Classes of 1,000 methods each are defined by ranges, in a process for each count of methods. A method has a name of 12 bytes, a
 * signature of 4, and a table of 8 lines. Then names and lines of methods are told, in an order that looks random. */
#define _POSIX_C_SOURCE 200809L
#include "check.h"

#include <sys/resource.h>
#include <sys/wait.h>
#include <time.h>
#include <unistd.h>

enum { METHODS = 1000, NAME = 12, SIGNATURE = 4, LINES = 8, ASKED = 100000 };

static cq_service service;
static cq_env env;
static uint8_t text[METHODS * NAME + SIGNATURE];
static cq_method_ranges methods[METHODS];
static cq_line_entry lines[LINES];

static double now_ns(void) {
    struct timespec now;
    clock_gettime(CLOCK_MONOTONIC, &now);
    return (double)now.tv_sec * 1e9 + (double)now.tv_nsec;
}

static double peak_bytes(void) {
    struct rusage usage;
    SAME(getrusage(RUSAGE_SELF, &usage), 0);
    return (double)usage.ru_maxrss * 1024;
}

/* The parts of a class. Its methods are named by their numbers. */
static void write_class(uint32_t first) {
    char name[NAME + 1];
    for (uint32_t i = 0; i < METHODS; i++) {
        snprintf(name, sizeof name, "method%06" PRIu32, (first + i) % 1000000);
        memcpy(&text[i * NAME], name, NAME);
        methods[i] = (cq_method_ranges){ { i * NAME, NAME }, { METHODS * NAME, SIGNATURE }, { 0, LINES }, CQ_LINES_TABLE, first + i };
    }
    memcpy(&text[METHODS * NAME], "(I)V", SIGNATURE);
    for (uint32_t i = 0; i < LINES; i++) lines[i] = (cq_line_entry){ 4 * i, i + 1 };
}

static double define_all(uint32_t count) {
    static const cq_class_ranges about = { { METHODS * NAME, SIGNATURE }, { 0, NAME } };
    double spent = 0;
    for (uint32_t first = 0; first < count; first += METHODS) {
        uint32_t class_no, first_method;
        write_class(first);
        double began = now_ns();
        OK(cq_define_class(&service, text, sizeof text, &about, methods, METHODS, lines, LINES, &class_no, &first_method));
        spent += now_ns() - began;
        SAME(first_method, first);
    }
    return spent / count;
}

static uint32_t chosen(uint32_t i, uint32_t count) { return (uint32_t)((uint64_t)i * 2654435761U % count); }

static double ask_names(uint32_t count) {
    double began = now_ns();
    for (uint32_t i = 0; i < ASKED; i++) {
        cq_method_name info;
        uint8_t name[NAME], signature[SIGNATURE];
        OK(cq_get_method_name(&env, chosen(i, count), &info, name, NAME, signature, SIGNATURE));
        SAME(info.first_line, chosen(i, count));
    }
    return (now_ns() - began) / ASKED;
}

static double ask_lines(uint32_t count) {
    double began = now_ns();
    for (uint32_t i = 0; i < ASKED; i++) {
        cq_line_entry table[LINES];
        uint32_t kind;
        uint64_t found;
        OK(cq_get_line_number_table(&env, chosen(i, count), &kind, table, LINES, &found));
        SAME(found, LINES);
    }
    return (now_ns() - began) / ASKED;
}

static void measure(uint32_t count) {
    OK(cq_make(1, 1, 1, 0, &service));
    OK(cq_attach_environment(&service, &env));
    write_class(0);
    double before = peak_bytes();
    double defined = define_all(count);
    double bytes = (peak_bytes() - before) / count;
    double names = ask_names(count), tables = ask_lines(count);
    printf("%9" PRIu32 " methods: %5.0f ns and %4.0f bytes each; %4.0f ns to tell a name, %4.0f a table of lines\n", count, defined, bytes,
           names, tables);
    fflush(stdout);
}

int main(void) {
    static const uint32_t counts[] = { 10000, 100000, 1000000 };
    for (int i = 0; i < 3; i++) {
        int status = 0;
        pid_t child = fork();
        if (child == 0) {
            measure(counts[i]);
            _exit(0);
        }
        CHECK(child > 0 && waitpid(child, &status, 0) == child && status == 0);
    }
}
