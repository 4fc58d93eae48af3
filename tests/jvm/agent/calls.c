/* The agents' calls. Each gives the text of its outcome, as a walk's line has it. */
#include "agent.h"

#include <inttypes.h>
#include <stdarg.h>
#include <stdint.h>
#include <stdio.h>
#include <stdlib.h>
#include <string.h>

/* No walker is that deep. So a trace that asks for more frames needs no more room. */
enum { MOST_FRAMES = 1024, FRAME_TEXT = 256 };

/* The capabilities of the profile, by their bits. */
enum { SUSPEND = 1, POP_FRAME = 2, TAG_OBJECTS = 4 };

static jstring outcome(JNIEnv *jni, jvmtiError error, const char *format, ...) {
    char text[FRAME_TEXT];
    if (error != JVMTI_ERROR_NONE) {
        snprintf(text, sizeof text, "error %d", (int)error);
    } else {
        va_list values;
        va_start(values, format);
        vsnprintf(text, sizeof text, format, values);
        va_end(values);
    }
    return (*jni)->NewStringUTF(jni, text);
}

/* ---- states and counts */

JNIEXPORT jstring JNICALL Java_Agent_state(JNIEnv *jni, jclass self, jint number, jobject thread) {
    (void)self;
    jvmtiEnv *ti = environment(number);
    jint bits = 0;
    jvmtiError error = (*ti)->GetThreadState(ti, thread, &bits);
    return outcome(jni, error, "state 0x%x", (unsigned)bits);
}

JNIEXPORT jstring JNICALL Java_Agent_count(JNIEnv *jni, jclass self, jint number, jobject thread) {
    (void)self;
    jvmtiEnv *ti = environment(number);
    jint count = 0;
    jvmtiError error = (*ti)->GetFrameCount(ti, thread, &count);
    return outcome(jni, error, "count %d", (int)count);
}

/* The state's bits, for the driver. */
JNIEXPORT jint JNICALL Java_Agent_bits(JNIEnv *jni, jclass self, jobject thread) {
    (void)self;
    jvmtiEnv *ti = environment(DRIVER);
    jint bits = 0;
    succeeded(jni, "GetThreadState", (*ti)->GetThreadState(ti, thread, &bits));
    return bits;
}

/* The number of frames, for the driver. */
JNIEXPORT jint JNICALL Java_Agent_depth(JNIEnv *jni, jclass self, jobject thread) {
    (void)self;
    jvmtiEnv *ti = environment(DRIVER);
    jint count = 0;
    succeeded(jni, "GetFrameCount", (*ti)->GetFrameCount(ti, thread, &count));
    return count;
}

/* ---- frames */

static void deallocate(jvmtiEnv *ti, void *memory) {
    if (memory && (*ti)->Deallocate(ti, memory) != JVMTI_ERROR_NONE) fprintf(stderr, "Deallocate failed\n");
}

/* The line of a place in a method, or -1 if the VM knows none. */
static jint line_of(JNIEnv *jni, jmethodID method, jlocation place) {
    jvmtiEnv *ti = environment(DRIVER);
    jvmtiLineNumberEntry *lines = NULL;
    jint count = 0, line = -1;
    jlocation best = -1;
    jvmtiError error = (*ti)->GetLineNumberTable(ti, method, &count, &lines);
    if (error == JVMTI_ERROR_ABSENT_INFORMATION) return -1;
    if (!succeeded(jni, "GetLineNumberTable", error)) return -1;
    for (jint n = 0; n < count; n++) {
        if (lines[n].start_location <= place && lines[n].start_location > best) {
            best = lines[n].start_location;
            line = lines[n].line_number;
        }
    }
    deallocate(ti, lines);
    return line;
}

/* The name of the method's class, with the marks of a signature around it. */
static int class_of(JNIEnv *jni, jmethodID method, char **signature) {
    jvmtiEnv *ti = environment(DRIVER);
    jclass declaring = NULL;
    if (!succeeded(jni, "GetMethodDeclaringClass", (*ti)->GetMethodDeclaringClass(ti, method, &declaring))) return 0;
    jvmtiError error = (*ti)->GetClassSignature(ti, declaring, signature, NULL);
    (*jni)->DeleteLocalRef(jni, declaring);
    return succeeded(jni, "GetClassSignature", error);
}

/* Writes a frame: its class, its method, and its line or, in native code, its location. */
static void write_frame(JNIEnv *jni, char *text, const jvmtiFrameInfo *frame) {
    jvmtiEnv *ti = environment(DRIVER);
    char *name = NULL, *signature = NULL;
    jvmtiError error = (*ti)->GetMethodName(ti, frame->method, &name, NULL, NULL);
    if (succeeded(jni, "GetMethodName", error) && class_of(jni, frame->method, &signature)) {
        int is_native = frame->location < 0;
        jlong place = is_native ? frame->location : line_of(jni, frame->method, frame->location);
        snprintf(text, FRAME_TEXT, " %s%s%s%" PRId64, signature, name, is_native ? "@" : ":", (int64_t)place);
    }
    deallocate(ti, name);
    deallocate(ti, signature);
}

/* The word and the frames after it. */
static jstring frames_text(JNIEnv *jni, const char *word, const jvmtiFrameInfo *frames, jint count) {
    char *text = calloc((size_t)count + 1, FRAME_TEXT);
    if (!text) {
        succeeded(jni, "calloc", JVMTI_ERROR_OUT_OF_MEMORY);
        return NULL;
    }
    strcpy(text, word);
    for (jint n = 0; n < count && !(*jni)->ExceptionCheck(jni); n++) write_frame(jni, text + strlen(text), &frames[n]);
    jstring made = (*jni)->ExceptionCheck(jni) ? NULL : (*jni)->NewStringUTF(jni, text);
    free(text);
    return made;
}

JNIEXPORT jstring JNICALL Java_Agent_trace(JNIEnv *jni, jclass self, jint number, jobject thread, jint start, jint most) {
    (void)self;
    jvmtiEnv *ti = environment(number);
    jvmtiFrameInfo frames[MOST_FRAMES];
    jint count = 0;
    jvmtiError error = (*ti)->GetStackTrace(ti, thread, start, most, frames, &count);
    return error == JVMTI_ERROR_NONE ? frames_text(jni, "trace", frames, count) : outcome(jni, error, "");
}

JNIEXPORT jstring JNICALL Java_Agent_location(JNIEnv *jni, jclass self, jint number, jobject thread, jint depth) {
    (void)self;
    jvmtiEnv *ti = environment(number);
    jvmtiFrameInfo frame = {0};
    jvmtiError error = (*ti)->GetFrameLocation(ti, thread, depth, &frame.method, &frame.location);
    return error == JVMTI_ERROR_NONE ? frames_text(jni, "location", &frame, 1) : outcome(jni, error, "");
}

/* ---- suspensions and pops */

JNIEXPORT jstring JNICALL Java_Agent_suspend(JNIEnv *jni, jclass self, jint number, jobject thread) {
    (void)self;
    jvmtiEnv *ti = environment(number);
    return outcome(jni, (*ti)->SuspendThread(ti, thread), "ok");
}

JNIEXPORT jstring JNICALL Java_Agent_resume(JNIEnv *jni, jclass self, jint number, jobject thread) {
    (void)self;
    jvmtiEnv *ti = environment(number);
    return outcome(jni, (*ti)->ResumeThread(ti, thread), "ok");
}

JNIEXPORT jstring JNICALL Java_Agent_pop(JNIEnv *jni, jclass self, jint number, jobject thread) {
    (void)self;
    jvmtiEnv *ti = environment(number);
    return outcome(jni, (*ti)->PopFrame(ti, thread), "ok");
}

/* ---- words */

static void *of_word(jlong word) {
    return (void *)(uintptr_t)(uint64_t)word;
}

static jstring word_outcome(JNIEnv *jni, jvmtiError error, void *word) {
    return outcome(jni, error, "word %" PRIu64, (uint64_t)(uintptr_t)word);
}

JNIEXPORT jstring JNICALL Java_Agent_get(JNIEnv *jni, jclass self, jint number, jobject thread) {
    (void)self;
    jvmtiEnv *ti = environment(number);
    void *word = NULL;
    jvmtiError error = (*ti)->GetThreadLocalStorage(ti, thread, &word);
    return word_outcome(jni, error, word);
}

JNIEXPORT jstring JNICALL Java_Agent_set(JNIEnv *jni, jclass self, jint number, jobject thread, jlong word) {
    (void)self;
    jvmtiEnv *ti = environment(number);
    return outcome(jni, (*ti)->SetThreadLocalStorage(ti, thread, of_word(word)), "ok");
}

JNIEXPORT jstring JNICALL Java_Agent_getenv(JNIEnv *jni, jclass self, jint number) {
    (void)self;
    jvmtiEnv *ti = environment(number);
    void *word = NULL;
    jvmtiError error = (*ti)->GetEnvironmentLocalStorage(ti, &word);
    return word_outcome(jni, error, word);
}

JNIEXPORT jstring JNICALL Java_Agent_setenv(JNIEnv *jni, jclass self, jint number, jlong word) {
    (void)self;
    jvmtiEnv *ti = environment(number);
    return outcome(jni, (*ti)->SetEnvironmentLocalStorage(ti, of_word(word)), "ok");
}

/* ---- capabilities */

static jvmtiCapabilities of_bits(jint bits) {
    jvmtiCapabilities capabilities = {
        .can_suspend = (bits & SUSPEND) != 0,
        .can_pop_frame = (bits & POP_FRAME) != 0,
        .can_tag_objects = (bits & TAG_OBJECTS) != 0,
    };
    return capabilities;
}

JNIEXPORT jstring JNICALL Java_Agent_add(JNIEnv *jni, jclass self, jint number, jint bits) {
    (void)self;
    jvmtiEnv *ti = environment(number);
    jvmtiCapabilities wanted = of_bits(bits);
    return outcome(jni, (*ti)->AddCapabilities(ti, &wanted), "ok");
}

JNIEXPORT jstring JNICALL Java_Agent_relinquish(JNIEnv *jni, jclass self, jint number, jint bits) {
    (void)self;
    jvmtiEnv *ti = environment(number);
    jvmtiCapabilities unwanted = of_bits(bits);
    return outcome(jni, (*ti)->RelinquishCapabilities(ti, &unwanted), "ok");
}

JNIEXPORT jstring JNICALL Java_Agent_caps(JNIEnv *jni, jclass self, jint number) {
    (void)self;
    jvmtiEnv *ti = environment(number);
    jvmtiCapabilities held = {0};
    jvmtiError error = (*ti)->GetCapabilities(ti, &held);
    return outcome(jni, error, "caps%s%s%s", held.can_suspend ? " can_suspend" : "",
                   held.can_pop_frame ? " can_pop_frame" : "", held.can_tag_objects ? " can_tag_objects" : "");
}

/* ---- a monitor that the driver's thread holds from one event to another */

JNIEXPORT void JNICALL Java_Agent_lock(JNIEnv *jni, jclass self, jobject monitor) {
    (void)self;
    if ((*jni)->MonitorEnter(jni, monitor) != JNI_OK) (*jni)->FatalError(jni, "MonitorEnter failed");
}

JNIEXPORT void JNICALL Java_Agent_unlock(JNIEnv *jni, jclass self, jobject monitor) {
    (void)self;
    if ((*jni)->MonitorExit(jni, monitor) != JNI_OK) (*jni)->FatalError(jni, "MonitorExit failed");
}
