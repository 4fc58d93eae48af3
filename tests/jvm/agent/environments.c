/* The environments. All are made while the VM loads this library. */
#include "agent.h"

#include <stdio.h>

static jvmtiEnv *environments[ENVIRONMENTS];

jvmtiEnv *environment(jint number) {
    return environments[number];
}

int succeeded(JNIEnv *jni, const char *function, jvmtiError error) {
    if (error == JVMTI_ERROR_NONE) return 1;
    char text[100];
    snprintf(text, sizeof text, "%s gave error %d", function, (int)error);
    jclass exception = (*jni)->FindClass(jni, "java/lang/IllegalStateException");
    if (exception) (*jni)->ThrowNew(jni, exception, text);
    return 0;
}

static jvmtiError add(jvmtiCapabilities wanted) {
    jvmtiEnv *ti = environment(DRIVER);
    return (*ti)->AddCapabilities(ti, &wanted);
}

/* The driver has to know lines. Some VMs pop no frames, and some let it be asked for later only if it was asked for now. */
static int take_early(void) {
    jvmtiError lines = add((jvmtiCapabilities){.can_get_line_numbers = 1});
    jvmtiError pops = add((jvmtiCapabilities){.can_pop_frame = 1});
    if (lines != JVMTI_ERROR_NONE) fprintf(stderr, "this VM gives no can_get_line_numbers: error %d\n", (int)lines);
    return lines == JVMTI_ERROR_NONE && (pops == JVMTI_ERROR_NONE || pops == JVMTI_ERROR_NOT_AVAILABLE);
}

JNIEXPORT jint JNICALL Agent_OnLoad(JavaVM *vm, char *options, void *reserved) {
    (void)options;
    (void)reserved;
    for (int number = 0; number < ENVIRONMENTS; number++) {
        jint got = (*vm)->GetEnv(vm, (void **)&environments[number], JVMTI_VERSION_11);
        if (got != JNI_OK) {
            fprintf(stderr, "this VM gives no environment of JVM TI 11: GetEnv gave %d\n", (int)got);
            return JNI_ERR;
        }
    }
    return take_early() ? JNI_OK : JNI_ERR;
}
