/* classes.c: an agent that defines all classes of a Java VM in a service, and compares what both tell of them.
 *
 * When the VM has started, the agent takes the classes that are loaded (JVM TI 11, GetLoadedClasses) and defines each with its
 * methods by cq_define_class_strings. Then it asks JVM TI and the service the same of each class and of each method. It writes how
 * many answers were compared, how many names are no UTF-8 and so cannot be defined, and a line for each of the first answers that
 * differ. */
#include "../../../c/cebdyraq.h"

#include <jvmti.h>
#include <stdio.h>
#include <stdlib.h>
#include <string.h>

enum { ROOM = 65536, SHOWN = 20 };

/* A class of the VM that is defined in the service. */
typedef struct {
    jclass class;
    jmethodID *methods;
    jint count;
    uint32_t number;    /* the service's */
    uint32_t first;     /* the number of its first method */
} known;

static jvmtiEnv *vm;
static cq_service service;
static cq_env env;
static known *all;
static jint all_count;
static unsigned long compared, differing, undefined;

static void stop(const char *what, int code) {
    fprintf(stderr, "classes.c: %s gives %d\n", what, code);
    exit(1);
}

#define VM(call) do { jvmtiError code_ = (*vm)->call; if (code_ != JVMTI_ERROR_NONE) stop(#call, (int)code_); } while (0)
#define CQ(call) do { uint32_t code_ = call; if (code_ != CQ_OK) stop(#call, (int)code_); } while (0)

static void *some(size_t size) {
    void *given = malloc(size ? size : 1);
    if (!given) stop("malloc", CQ_OUT_OF_MEMORY);
    return given;
}

static void give(void *memory) { (*vm)->Deallocate(vm, memory); }

/* Notes whether an answer is the same on both sides. */
static void compare(const char *what, const known *k, jint method, int is_same) {
    compared++;
    if (is_same || differing++ >= SHOWN) return;
    printf("%s differs: class %u, method %d of it\n", what, k->number, (int)method);
}

static int is_text(const char *text, const uint8_t *told, uint64_t length) {
    return strlen(text) == length && length <= ROOM && memcmp(text, told, length) == 0;
}

/* The method's table of lines as the service wants it, and the kind of lines that it has. The caller frees it. */
static cq_line_entry *lines_of(jmethodID method, jint *count, uint32_t *kind) {
    jvmtiLineNumberEntry *entries = NULL;
    *count = 0;
    jvmtiError code = (*vm)->GetLineNumberTable(vm, method, count, &entries);
    if (code == JVMTI_ERROR_NATIVE_METHOD || code == JVMTI_ERROR_ABSENT_INFORMATION) {
        *kind = code == JVMTI_ERROR_NATIVE_METHOD ? CQ_LINES_NATIVE : CQ_LINES_ABSENT;
        return NULL;
    }
    if (code != JVMTI_ERROR_NONE) stop("GetLineNumberTable", (int)code);
    cq_line_entry *copy = some(sizeof *copy * (size_t)*count);
    for (jint i = 0; i < *count; i++) {
        copy[i] = (cq_line_entry){ (uint32_t)entries[i].start_location, (uint32_t)entries[i].line_number };
    }
    *kind = CQ_LINES_TABLE;
    give(entries);
    return copy;
}

/* Defines a class. It gives whether it is defined: not if a name of it is no UTF-8. */
static int define(known *k) {
    char *signature, *file = NULL;
    VM(GetClassSignature(vm, k->class, &signature, NULL));
    if ((*vm)->GetSourceFileName(vm, k->class, &file) != JVMTI_ERROR_NONE) file = NULL;
    cq_method_strings *methods = some(sizeof *methods * (size_t)k->count);
    for (jint i = 0; i < k->count; i++) {
        char *name, *type;
        jint lines;
        VM(GetMethodName(vm, k->methods[i], &name, &type, NULL));
        cq_method_strings *m = &methods[i];
        *m = (cq_method_strings){ .name = name, .signature = type };
        m->lines = lines_of(k->methods[i], &lines, &m->lines_kind);
        m->line_count = (size_t)lines;
    }
    uint32_t code = cq_define_class_strings(&service, signature, file, methods, (size_t)k->count, &k->number, &k->first);
    for (jint i = 0; i < k->count; i++) {
        give((void *)methods[i].name);
        give((void *)methods[i].signature);
        free((void *)methods[i].lines);
    }
    free(methods);
    give(signature);
    give(file);
    if (code != CQ_OK && code != CQ_ILLEGAL_ARGUMENT) stop("cq_define_class_strings", (int)code);
    return code == CQ_OK;
}

static void define_all(void) {
    jclass *classes;
    jint count;
    VM(GetLoadedClasses(vm, &count, &classes));
    all = some(sizeof *all * (size_t)count);
    for (jint i = 0; i < count; i++) {
        known k = { .class = classes[i] };
        jvmtiError code = (*vm)->GetClassMethods(vm, k.class, &k.count, &k.methods);
        if (code == JVMTI_ERROR_CLASS_NOT_PREPARED) continue;
        if (code != JVMTI_ERROR_NONE) stop("GetClassMethods", (int)code);
        if (define(&k)) all[all_count++] = k;
        else undefined++;
    }
    give(classes);
}

static void compare_class(const known *k) {
    static uint8_t told[ROOM];
    uint64_t length = 0;
    char *text = NULL;
    VM(GetClassSignature(vm, k->class, &text, NULL));
    uint32_t code = cq_get_class_signature(&env, k->number, told, ROOM, &length);
    compare("GetClassSignature", k, -1, code == CQ_OK && is_text(text, told, length));
    give(text);
    text = NULL;
    jvmtiError wanted = (*vm)->GetSourceFileName(vm, k->class, &text);
    code = cq_get_source_file_name(&env, k->number, told, ROOM, &length);
    compare("GetSourceFileName", k, -1, code == (uint32_t)wanted && (code != CQ_OK || is_text(text, told, length)));
    give(text);
    uint64_t count = 0;
    uint32_t *methods = some(sizeof *methods * (size_t)k->count);
    code = cq_get_class_methods(&env, k->number, methods, (size_t)k->count, &count);
    int is_same = code == CQ_OK && count == (uint64_t)k->count;
    for (jint i = 0; is_same && i < k->count; i++) is_same = methods[i] == k->first + (uint32_t)i;
    compare("GetClassMethods", k, -1, is_same);
    free(methods);
}

static void compare_name(const known *k, jint i) {
    static uint8_t name[ROOM], signature[ROOM];
    char *wanted_name, *wanted_signature;
    cq_method_name info = { 0, 0, 0 };
    VM(GetMethodName(vm, k->methods[i], &wanted_name, &wanted_signature, NULL));
    uint32_t code = cq_get_method_name(&env, k->first + (uint32_t)i, &info, name, ROOM, signature, ROOM);
    compare("GetMethodName", k, i, code == CQ_OK && is_text(wanted_name, name, info.name_length)
                                       && is_text(wanted_signature, signature, info.signature_length));
    give(wanted_name);
    give(wanted_signature);
}

static void compare_lines(const known *k, jint i) {
    static cq_line_entry told[ROOM];
    jvmtiLineNumberEntry *wanted = NULL;
    jint wanted_count = 0;
    uint32_t kind = CQ_LINES_ABSENT;
    uint64_t count = 0;
    jvmtiError wanted_code = (*vm)->GetLineNumberTable(vm, k->methods[i], &wanted_count, &wanted);
    uint32_t code = cq_get_line_number_table(&env, k->first + (uint32_t)i, &kind, told, ROOM, &count);
    int is_same = code == (uint32_t)wanted_code;
    if (is_same && code == CQ_OK) {
        is_same = kind == CQ_LINES_TABLE && count == (uint64_t)wanted_count && count <= ROOM;
        for (jint j = 0; is_same && j < wanted_count; j++) {
            is_same = told[j].start_location == (uint64_t)wanted[j].start_location && told[j].line_number == (uint32_t)wanted[j].line_number;
        }
    }
    compare("GetLineNumberTable", k, i, is_same);
    give(wanted);
}

static void compare_method(const known *k, jint i, JNIEnv *jni) {
    jclass declaring;
    uint32_t number = k->first + (uint32_t)i, class_no = 0;
    VM(GetMethodDeclaringClass(vm, k->methods[i], &declaring));
    uint32_t code = cq_get_method_declaring_class(&env, number, &class_no);
    compare("GetMethodDeclaringClass", k, i, code == CQ_OK && class_no == k->number && (*jni)->IsSameObject(jni, declaring, k->class));
    (*jni)->DeleteLocalRef(jni, declaring);
    jboolean wanted;
    bool is_native = false;
    VM(IsMethodNative(vm, k->methods[i], &wanted));
    code = cq_is_method_native(&env, number, &is_native);
    compare("IsMethodNative", k, i, code == CQ_OK && is_native == (wanted == JNI_TRUE));
    compare_name(k, i);
    compare_lines(k, i);
}

/* What both say of numbers that name nothing. */
static void compare_none(void) {
    static const known none = { .number = 0 };
    const known *last = all_count > 0 ? &all[all_count - 1] : &none;
    uint64_t length;
    uint32_t class_no;
    char *text;
    jclass declaring;
    compare("an invalid class", &none, -1,
            cq_get_class_signature(&env, last->number + 1, NULL, 0, &length) == (uint32_t)(*vm)->GetClassSignature(vm, NULL, &text, NULL));
    compare("an invalid method", &none, -1,
            cq_get_method_declaring_class(&env, last->first + (uint32_t)last->count, &class_no)
                == (uint32_t)(*vm)->GetMethodDeclaringClass(vm, NULL, &declaring));
}

static void JNICALL on_start(jvmtiEnv *of, JNIEnv *jni, jthread thread) {
    (void)of;
    (void)thread;
    CQ(cq_make(4, 1, 4, CQ_CAN_SUSPEND | CQ_CAN_POP_FRAME, &service));
    CQ(cq_attach_environment(&service, &env));
    define_all();
    uint64_t count = 0;
    uint32_t *numbers = some(sizeof *numbers * (size_t)all_count);
    CQ(cq_get_loaded_classes(&env, numbers, (size_t)all_count, &count));
    static const known none = { .number = 0 };
    int is_same = count == (uint64_t)all_count;
    for (jint i = 0; is_same && i < all_count; i++) is_same = numbers[i] == all[i].number;
    compare("GetLoadedClasses", &none, -1, is_same);
    free(numbers);
    for (jint i = 0; i < all_count; i++) {
        compare_class(&all[i]);
        for (jint j = 0; j < all[i].count; j++) compare_method(&all[i], j, jni);
        give(all[i].methods);
    }
    compare_none();
    free(all);
    CQ(cq_dispose_environment(&env));
    CQ(cq_free(&service));
    printf("%d classes defined, %lu with a name that is no UTF-8\n", (int)all_count, undefined);
    printf("%lu passed, %lu failed\n", compared - differing, differing);
    fflush(stdout);
}

JNIEXPORT jint JNICALL Agent_OnLoad(JavaVM *java, char *options, void *reserved) {
    (void)options;
    (void)reserved;
    if ((*java)->GetEnv(java, (void **)&vm, JVMTI_VERSION_11) != JNI_OK) return JNI_ERR;
    jvmtiCapabilities wanted = { .can_get_source_file_name = 1, .can_get_line_numbers = 1, .can_maintain_original_method_order = 1 };
    jvmtiEventCallbacks callbacks = { .VMInit = on_start };
    VM(AddCapabilities(vm, &wanted));
    VM(SetEventCallbacks(vm, &callbacks, sizeof callbacks));
    VM(SetEventNotificationMode(vm, JVMTI_ENABLE, JVMTI_EVENT_VM_INIT, NULL));
    return JNI_OK;
}
