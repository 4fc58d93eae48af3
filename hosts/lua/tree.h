/* tree.h: a tree of calls, in which a profile is counted. */
#ifndef TREE_H
#define TREE_H

#include <stdbool.h>
#include <stddef.h>
#include <stdint.h>
#include <stdio.h>

#include "cebdyraq.h"

/* A method at its place in a stack. A child is a method that this one called. */
struct node {
    uint32_t method;
    uint64_t own;           /* samples of which this is the newest frame */
    uint64_t all;           /* samples in which this frame is, here */
    struct node *children;  /* the first, or NULL */
    struct node *next;      /* the next child of the same parent */
};

/* Counts a stack, newest frame first, some times. `root` is zeros at first. False when there is no memory. */
bool tree_add(struct node *root, const cq_frame *frames, size_t count, uint64_t times);

/* Puts the children of each node in the order of their names. */
void tree_sort(struct node *root);

/* Writes a line for each stack, oldest method first: "a;b;c 12". */
void tree_write_folded(const struct node *root, FILE *out);

/* Writes a flame graph as one SVG, with no script in it. */
void tree_write_flame(const struct node *root, const char *title, FILE *out);

/* Frees all nodes below the root. */
void tree_free(struct node *root);

#endif
