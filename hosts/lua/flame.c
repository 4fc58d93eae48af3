/* flame.c: a tree of calls as a flame graph. Oldest methods are below. A bar is as wide as its share of the samples. */
#include <stdio.h>
#include <string.h>

#include "methods.h"
#include "tree.h"

enum { WIDTH = 1200, ROW = 18, HEAD = 28, TEXT = 256 };

static const double LETTER = 6.6;    /* how wide a letter of the font is */
static const double SMALLEST = 0.1;  /* a bar that is less wide is left out */

struct picture {
    FILE *out;
    double all;
    int bottom;  /* the y of the lowest row */
};

/* How many rows the bars above this one need that are wide enough. */
static int rows_of(const struct node *n, double all) {
    int most = 0;
    for (const struct node *c = n->children; c; c = c->next)
        if ((double)c->all * WIDTH / all >= SMALLEST) {
            int rows = 1 + rows_of(c, all);
            most = rows > most ? rows : most;
        }
    return most;
}

static void write_escaped(FILE *out, const char *text, size_t length) {
    for (; *text && length; text++, length--)
        switch (*text) {
        case '&': fputs("&amp;", out); break;
        case '<': fputs("&lt;", out); break;
        case '>': fputs("&gt;", out); break;
        default: fputc(*text, out);
        }
}

/* How many bytes of the text fit, in whole letters of UTF-8. */
static size_t fitting(const char *text, double width) {
    size_t letters = width > LETTER ? (size_t)(width / LETTER) : 0, length = 0;
    while (text[length] && letters--)
        do
            length++;
        while (((unsigned char)text[length] & 0xc0) == 0x80);
    return length;
}

/* Warm colours for Lua functions and cool ones for C functions. The same name has the same colour. */
static void write_colour(FILE *out, const char *text) {
    unsigned hash = 0;
    for (const char *c = text; *c; c++)
        hash = hash * 31 + (unsigned char)*c;
    int hue = (text[0] == '[' ? 185 : 0) + (int)(hash % 56);
    fprintf(out, "hsl(%d,%u%%,%u%%)", hue, 70 + hash / 56 % 20, 58 + hash / 1120 % 12);
}

static void write_bar(const struct picture *p, const struct node *n, const char *text, double x, int row) {
    double width = (double)n->all * WIDTH / p->all;
    int y = p->bottom - row * ROW;
    fprintf(p->out, "<g><title>");
    write_escaped(p->out, text, strlen(text));
    fprintf(p->out, ": %llu of %.0f samples, %.1f %%, of which %llu here</title>", (unsigned long long)n->all, p->all,
            100 * (double)n->all / p->all, (unsigned long long)n->own);
    fprintf(p->out, "<rect x=\"%.2f\" y=\"%d\" width=\"%.2f\" height=\"%d\" rx=\"1\" fill=\"", x, y, width, ROW - 1);
    write_colour(p->out, text);
    fprintf(p->out, "\"/>");
    size_t shown = fitting(text, width - 6);
    if (shown >= 3) {
        fprintf(p->out, "<text x=\"%.2f\" y=\"%d\">", x + 3, y + ROW - 5);
        write_escaped(p->out, text, shown == strlen(text) ? shown : fitting(text, width - 6 - 2 * LETTER));
        fprintf(p->out, "%s</text>", shown == strlen(text) ? "" : "..");
    }
    fprintf(p->out, "</g>\n");
}

static void write_above(const struct picture *p, const struct node *n, double x, int row) {
    char text[TEXT];
    for (const struct node *c = n->children; c; c = c->next) {
        double width = (double)c->all * WIDTH / p->all;
        if (width >= SMALLEST) {
            method_text(c->method, text, sizeof text);
            write_bar(p, c, text, x, row);
            write_above(p, c, x, row + 1);
        }
        x += width;
    }
}

void tree_write_flame(const struct node *root, const char *title, FILE *out) {
    double all = root->all ? (double)root->all : 1;
    int rows = 1 + rows_of(root, all), height = HEAD + rows * ROW + 6;
    struct picture p = { out, all, HEAD + (rows - 1) * ROW };
    fprintf(out, "<svg xmlns=\"http://www.w3.org/2000/svg\" viewBox=\"0 0 %d %d\" width=\"%d\" height=\"%d\" "
            "font-family=\"monospace\" font-size=\"11\">\n", WIDTH, height, WIDTH, height);
    fprintf(out, "<style>rect{stroke:#fffaf0;stroke-width:.5}g:hover rect{stroke:#000}</style>\n");
    fprintf(out, "<rect width=\"100%%\" height=\"100%%\" fill=\"#fffaf0\"/>\n<text x=\"3\" y=\"16\">");
    write_escaped(out, title, strlen(title));
    fprintf(out, "</text>\n");
    write_bar(&p, root, "all", 0, 0);
    write_above(&p, root, 0, 1);
    fprintf(out, "</svg>\n");
}
