/* What walkers do in native code: they wait for an order, and carry it out.
 * A walker is in native code while it has no frame, and while its newest frame is the method n. */
#include "agent.h"

#include <pthread.h>

/* The orders of Orders.java that a walker can get here. */
enum { NONE, LEAVE, A, B, N };

enum { WALKERS = 3 };

/* Where a walker waits, and the order that it has not taken yet. */
struct stay {
    int waits;
    int order;
};

static struct stay stays[WALKERS];
static pthread_mutex_t mutex = PTHREAD_MUTEX_INITIALIZER;
static pthread_cond_t ordered = PTHREAD_COND_INITIALIZER;
/* the class Frames */
static jclass frames;

static void must(JNIEnv *jni, int failed, const char *what) {
    if (failed) (*jni)->FatalError(jni, what);
}

static int await_order(JNIEnv *jni, struct stay *stay) {
    must(jni, pthread_mutex_lock(&mutex), "no lock");
    stay->waits = 1;
    while (stay->order == NONE) must(jni, pthread_cond_wait(&ordered, &mutex), "no wait");
    int order = stay->order;
    stay->order = NONE;
    stay->waits = 0;
    must(jni, pthread_mutex_unlock(&mutex), "no unlock");
    return order;
}

static void enter(JNIEnv *jni, int order, jint number) {
    const char *name = order == A ? "a" : order == B ? "b" : "n";
    jmethodID method = (*jni)->GetStaticMethodID(jni, frames, name, order == N ? "(I)V" : "()V");
    must(jni, !method, "no such method");
    (*jni)->CallStaticVoidMethod(jni, frames, method, number);
    if ((*jni)->ExceptionCheck(jni)) {
        (*jni)->ExceptionDescribe(jni);
        (*jni)->FatalError(jni, "a walker met an exception");
    }
}

static void obey(JNIEnv *jni, jint number) {
    for (;;) {
        int order = await_order(jni, &stays[number]);
        if (order == LEAVE) return;
        enter(jni, order, number);
    }
}

static void JNICALL begun(jvmtiEnv *ti, JNIEnv *jni, void *stay) {
    (void)ti;
    obey(jni, (jint)((struct stay *)stay - stays));
}

/* Starts a walker, as a thread that has no frame. */
JNIEXPORT void JNICALL Java_Frames_begin(JNIEnv *jni, jclass self, jobject walker, jint number) {
    if (!frames) frames = (*jni)->NewGlobalRef(jni, self);
    must(jni, !frames, "no global reference");
    jvmtiEnv *ti = environment(DRIVER);
    jvmtiError error = (*ti)->RunAgentThread(ti, walker, begun, &stays[number], JVMTI_THREAD_NORM_PRIORITY);
    succeeded(jni, "RunAgentThread", error);
}

JNIEXPORT void JNICALL Java_Frames_n(JNIEnv *jni, jclass self, jint number) {
    (void)self;
    obey(jni, number);
}

JNIEXPORT void JNICALL Java_Frames_order(JNIEnv *jni, jclass self, jint number, jint order) {
    (void)self;
    must(jni, pthread_mutex_lock(&mutex), "no lock");
    stays[number].order = order;
    must(jni, pthread_cond_broadcast(&ordered), "no broadcast");
    must(jni, pthread_mutex_unlock(&mutex), "no unlock");
}

/* Whether the walker waits here and has taken every order. */
JNIEXPORT jboolean JNICALL Java_Frames_stands(JNIEnv *jni, jclass self, jint number) {
    (void)self;
    must(jni, pthread_mutex_lock(&mutex), "no lock");
    int stands = stays[number].waits && stays[number].order == NONE;
    must(jni, pthread_mutex_unlock(&mutex), "no unlock");
    return stands ? JNI_TRUE : JNI_FALSE;
}
