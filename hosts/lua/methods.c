/* methods.c: the table of methods. Numbers count from 0, and a hash table with open addressing leads to them: by source
 * and line, and to C functions by name. Methods that have these in common follow one another in it. */
#include "methods.h"

#include <pthread.h>
#include <stdio.h>
#include <stdlib.h>
#include <string.h>

#include "signature.h"
#include "text.h"

static pthread_mutex_t lock = PTHREAD_MUTEX_INITIALIZER;
static cq_service service;       /* empty if there is none */
static struct method **methods;  /* by number; there is room for half as many as places */
static uint32_t count;
static uint32_t *places;         /* a number and one, or 0 for an empty place */
static size_t place_count;       /* a power of two */

/* ------------------------------------------------------------------------------------------------------------------
 * The hash table.
 */

static uint64_t hash_of(const char *text, int line) {
    uint64_t hash = 0xcbf29ce484222325u;
    for (; *text; text++)
        hash = (hash ^ (unsigned char)*text) * 0x100000001b3u;
    hash = (hash ^ (uint32_t)line) * 0x9e3779b97f4a7c15u;
    return hash ^ (hash >> 29);
}

static size_t first_place(const char *source, int line, const char *name) {
    return hash_of(line < 0 ? name : source, line) & (place_count - 1);
}

static size_t next_place(size_t at) {
    return (at + 1) & (place_count - 1);
}

/* Whether it is a chunk's method of these lines. */
static bool is_within(const struct method *m, const struct function *f) {
    return m->code && m->line == f->line && m->last == f->last && !strcmp(m->source, f->source);
}

/* Whether it is that of a function that was met without its chunk. */
static bool is_alone(const struct method *m, const struct function *f) {
    return !m->code && m->line == f->line && !strcmp(m->source, f->source) && !strcmp(m->name, f->name);
}

/* The method of a chunk, or else the one that was met alone. */
static struct method *look_up(const struct function *f) {
    struct method *alone = NULL;
    for (size_t at = first_place(f->source, f->line, f->name); places[at]; at = next_place(at)) {
        struct method *m = methods[places[at] - 1];
        if (is_within(m, f) && (!f->code || f->code == m->code))
            return m;
        if (is_alone(m, f))
            alone = m;
    }
    return alone;
}

static void put(const struct method *m) {
    size_t at = first_place(m->source, m->line, m->name);
    while (places[at])
        at = next_place(at);
    places[at] = m->number + 1;
}

/* Makes the table of this size, and puts the methods into it. */
static int grow(size_t size) {
    uint32_t *more_places = calloc(size, sizeof *more_places);
    if (!more_places)
        return -1;
    struct method **more = realloc(methods, size / 2 * sizeof *more);
    if (!more) {
        free(more_places);
        return -1;
    }
    methods = more;
    free(places);
    places = more_places;
    place_count = size;
    for (uint32_t i = 0; i < count; i++)
        put(methods[i]);
    return 0;
}

/* Makes room for so many methods more. */
static int reserve(size_t more) {
    size_t size = place_count ? place_count : 1024;
    while (count + more > size / 2)
        size *= 2;
    return size > place_count ? grow(size) : 0;
}

/* ------------------------------------------------------------------------------------------------------------------
 * Classes.
 */

/* A class that is being made. */
struct class {
    char *signature, *source;
    struct method *methods;
    size_t count;
    const struct proto *protos;  /* of a chunk: one for each method. NULL of another class */
};

static char *copy_clean(const char *text) {
    char *copy = strdup(text);
    if (copy)
        text_clean(copy);
    return copy;
}

/* A table of lines, each of which is a location. */
static cq_line_entry *entries_of(const struct proto *proto) {
    cq_line_entry *entries = calloc(proto->line_count + 1, sizeof *entries);
    for (size_t i = 0; i < proto->line_count && entries; i++)
        entries[i] = (cq_line_entry){ proto->lines[i], proto->lines[i] };
    return entries;
}

static void put_lines(cq_method_strings *strings, const struct proto *proto) {
    strings->lines = entries_of(proto);
    strings->line_count = strings->lines ? proto->line_count : 0;
    strings->lines_kind = strings->lines ? CQ_LINES_TABLE : CQ_LINES_LOCATIONS;
}

static cq_method_strings strings_of(const struct class *class, size_t at) {
    const struct method *m = &class->methods[at];
    cq_method_strings strings = { .name = copy_clean(m->name),
                                  .lines_kind = m->line < 0 ? CQ_LINES_NATIVE : CQ_LINES_LOCATIONS,
                                  .first_line = m->line > 0 ? (uint32_t)m->line : 0 };
    if (class->protos)
        put_lines(&strings, &class->protos[at]);
    return strings;
}

/* Defines the class in the service. Its methods have the next numbers there, as they have here. */
static bool define_strings(const struct class *class, const char *file, cq_method_strings *strings) {
    uint32_t class_no, number, code = CQ_OUT_OF_MEMORY;
    bool all = true;
    for (size_t i = 0; i < class->count; i++) {
        strings[i] = strings_of(class, i);
        all = all && strings[i].name;
    }
    if (all)
        do
            code = cq_define_class_strings(&service, class->signature, file, strings, class->count, &class_no, &number);
        while (code == CQ_BUSY);
    for (size_t i = 0; i < class->count; i++) {
        free((char *)strings[i].name);
        free((cq_line_entry *)strings[i].lines);
    }
    return code == CQ_OK;
}

static bool define(const struct class *class) {
    bool native = class->methods[0].line < 0;
    char *file = native ? NULL : copy_clean(class->source);
    cq_method_strings *strings = calloc(class->count, sizeof *strings);
    bool defined = strings && (native || file) && (!service.kind || define_strings(class, file, strings));
    free(strings);
    free(file);
    return defined;
}

static bool is_whole(const struct class *class) {
    bool whole = class->signature && class->source && class->methods;
    for (size_t i = 0; i < class->count && whole; i++)
        whole = class->methods[i].name && (class->methods[i].variables || !class->protos);
    return whole;
}

static void keep(const struct class *class) {
    for (size_t i = 0; i < class->count; i++) {
        struct method *m = &class->methods[i];
        m->number = count;
        methods[count++] = m;
        put(m);
    }
}

static void discard(const struct class *class) {
    for (size_t i = 0; i < class->count && class->methods; i++) {
        free((char *)class->methods[i].name);
        free((struct variable *)class->methods[i].variables);
    }
    free(class->methods);
    free(class->source);
}

/* Keeps a class, or frees it if there is no memory. Takes the signature. Returns whether it is kept. */
static bool finish(const struct class *class) {
    bool kept = is_whole(class) && !reserve(class->count) && define(class);
    if (kept)
        keep(class);
    else
        discard(class);
    free(class->signature);
    return kept;
}

static struct class begin(char *signature, const char *source, size_t methods) {
    struct class class = { signature, strdup(source), calloc(methods, sizeof *class.methods), methods, NULL };
    for (size_t i = 0; i < methods && class.methods; i++)
        class.methods[i].source = class.source;
    return class;
}

/* ------------------------------------------------------------------------------------------------------------------
 * What is asked for.
 */

/* Makes a function that no chunk has a class of its own. */
static const struct method *make_alone(const struct function *f) {
    char *signature = f->line < 0 ? signature_of_native(f->name) : signature_of_source(f->source);
    struct class class = begin(signature, f->source, 1);
    if (class.methods) {
        class.methods->line = f->line;
        class.methods->name = strdup(f->name);
    }
    return finish(&class) ? class.methods : NULL;
}

const struct method *methods_find(const struct function *f) {
    pthread_mutex_lock(&lock);
    const struct method *m = look_up(f);
    if (!m)
        m = make_alone(f);
    pthread_mutex_unlock(&lock);
    return m;
}

bool methods_are_many(const struct function *f) {
    size_t many = 0;
    pthread_mutex_lock(&lock);
    for (size_t at = first_place(f->source, f->line, f->name); places[at]; at = next_place(at))
        many += is_within(methods[places[at] - 1], f);
    pthread_mutex_unlock(&lock);
    return many > 1;
}

static size_t length_of_names(const struct proto *proto) {
    size_t length = 0;
    for (size_t i = 0; i < proto->variable_count; i++)
        length += proto->variables[i].name.length;
    return length;
}

/* Copies the variables, with their names behind them. */
static struct variable *copy_variables(const struct proto *proto) {
    struct variable *copy = calloc(1, (proto->variable_count + 1) * sizeof *copy + length_of_names(proto));
    char *name = (char *)(copy + proto->variable_count);
    for (size_t i = 0; i < proto->variable_count && copy; i++) {
        const struct variable *v = &proto->variables[i];
        copy[i] = *v;
        copy[i].name.at = v->name.length ? memcpy(name, v->name.at, v->name.length) : name;
        name += v->name.length;
    }
    return copy;
}

static void fill(struct method *m, const struct proto *proto) {
    m->line = proto->line;
    m->last = proto->last;
    m->code = proto->code;
    m->name = strndup(proto->name.at, proto->name.length);
    m->variables = copy_variables(proto);
    m->variable_count = proto->variable_count;
    m->local_count = proto->local_count;
}

/* The main function of a chunk, whose methods follow it. NULL when there is no memory. */
static const struct method *define_chunk(const char *source, const struct protos *protos) {
    const struct proto *chunk = protos->at;
    const struct method *known = look_up(&(struct function){ source, chunk->line, chunk->last, "", chunk->code });
    if (known && known->code)
        return known;
    struct class class = begin(signature_of_source(source), source, protos->count);
    for (size_t i = 0; i < protos->count && class.methods; i++)
        fill(&class.methods[i], &protos->at[i]);
    class.protos = protos->at;
    return finish(&class) ? class.methods : NULL;
}

bool methods_define(const char *source, const struct protos *protos, uint32_t *first) {
    pthread_mutex_lock(&lock);
    const struct method *main = define_chunk(source, protos);
    if (main)
        *first = main->number;
    pthread_mutex_unlock(&lock);
    return main;
}

const struct method *methods_get(uint32_t number) {
    pthread_mutex_lock(&lock);
    const struct method *m = methods[number < count ? number : METHOD_UNKNOWN];
    pthread_mutex_unlock(&lock);
    return m;
}

/* The methods that are no functions are one class. */
static bool make_own(void) {
    static const char *const names[] = { "(no memory for the method)", "(frames left out)", "late" };
    struct class class = begin(strdup("Lcqlua;"), "[C]", METHOD_OWN + 1);
    for (size_t i = 0; i <= METHOD_OWN && class.methods; i++) {
        class.methods[i].line = -1;
        class.methods[i].name = strdup(names[i]);
    }
    return finish(&class);
}

int methods_make(cq_service *of) {
    bool made = (!of || cq_share(of, &service) == CQ_OK) && make_own();
    return made ? 0 : -1;
}

void methods_end(void) {
    pthread_mutex_lock(&lock);
    cq_free(&service);
    pthread_mutex_unlock(&lock);
}

void method_text(uint32_t number, char *text, size_t size) {
    const struct method *m = methods_get(number);
    if (number <= METHOD_OWN)
        snprintf(text, size, "%s", m->name);
    else if (m->line < 0)
        snprintf(text, size, "[C] %s", m->name);
    else
        snprintf(text, size, "%s (%s:%d)", m->name, m->source, m->line);
    text_clean(text);
}
