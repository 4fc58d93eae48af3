/* cebdyraq_classes.c: a class of strings, as the parts that cq_define_class takes.
 *
 * One block has the methods, then the line entries, then the text. */
#include "cebdyraq.h"
#include "cebdyraq_heap.h"

#include <string.h>

/* The kind of a handle of the service that is full, as the proved half has it. */
enum { SERVICE = 1 };

/* A class that is put together: how many methods, entries and bytes of text there are so far. */
typedef struct {
    cq_method_ranges *methods;
    cq_line_entry *entries;
    uint8_t *text;
    size_t method_count, entry_count, text_length;
} parts;

static size_t length_of(const char *string) {
    return string != NULL ? strlen(string) : 0;
}

static size_t entries_of(const cq_method_strings *method) {
    return method->lines_kind == CQ_LINES_TABLE ? method->line_count : 0;
}

/* Adds `count` items of `size` bytes, and gives whether the sum is a size. */
static bool add(size_t *sum, size_t count, size_t size) {
    return !__builtin_mul_overflow(count, size, &size) && !__builtin_add_overflow(*sum, size, sum);
}

/* How many bytes a class takes. It gives whether that is a size. */
static bool measure(const char *signature, const char *source_file, const cq_method_strings *methods, size_t count,
                    size_t *sum) {
    bool fits = add(sum, count, sizeof(cq_method_ranges)) && add(sum, length_of(signature), 1)
                && add(sum, length_of(source_file), 1);
    for (size_t i = 0; i < count && fits; i++) {
        fits = add(sum, entries_of(&methods[i]), sizeof(cq_line_entry)) && add(sum, length_of(methods[i].name), 1)
               && add(sum, length_of(methods[i].signature), 1);
    }
    return fits;
}

static size_t all_entries(const cq_method_strings *methods, size_t count) {
    size_t sum = 0;
    for (size_t i = 0; i < count; i++) {
        sum += entries_of(&methods[i]);
    }
    return sum;
}

static cq_range put_text(parts *made, const char *string) {
    cq_range range = { made->text_length, length_of(string) };
    if (range.length != 0) {
        memcpy(made->text + range.start, string, range.length);
    }
    made->text_length += range.length;
    return range;
}

static cq_range put_lines(parts *made, const cq_method_strings *method) {
    cq_range range = { made->entry_count, entries_of(method) };
    if (range.length != 0) {
        memcpy(made->entries + range.start, method->lines, range.length * sizeof(cq_line_entry));
    }
    made->entry_count += range.length;
    return range;
}

static void put_method(parts *made, const cq_method_strings *method) {
    cq_range name = put_text(made, method->name), signature = put_text(made, method->signature);
    made->methods[made->method_count++] =
        (cq_method_ranges){ name, signature, put_lines(made, method), method->lines_kind, method->first_line };
}

uint32_t cq_define_class_strings(cq_service *service, const char *signature, const char *source_file,
                                 const cq_method_strings *methods, size_t count, uint32_t *class_no,
                                 uint32_t *first_method) {
    size_t size = 0;
    if (service->kind != SERVICE) {
        return CQ_MISUSED;
    }
    if (!measure(signature, source_file, methods, count, &size)) {
        return CQ_OUT_OF_MEMORY;
    }
    tried block = rattle_alloc(size, _Alignof(cq_method_ranges));
    if (!block.ok) {
        return CQ_OUT_OF_MEMORY;
    }
    parts made = { .methods = block.at };
    made.entries = (cq_line_entry *)(made.methods + count);
    made.text = (uint8_t *)(made.entries + all_entries(methods, count));
    cq_range signature_at = put_text(&made, signature);
    cq_class_ranges ranges = { signature_at, put_text(&made, source_file) };
    for (size_t i = 0; i < count; i++) {
        put_method(&made, &methods[i]);
    }
    uint32_t code = cq_define_class(service, made.text, made.text_length, &ranges, made.methods, count, made.entries,
                                    made.entry_count, class_no, first_method);
    rattle_dealloc(block.at);
    return code;
}
