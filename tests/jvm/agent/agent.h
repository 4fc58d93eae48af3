/* What the files of the agent library share. */
#ifndef AGENT_H
#define AGENT_H

#include <jvmti.h>

/* The agents of a walk come first. The last environment is the driver's own. */
enum { AGENTS = 3, DRIVER = AGENTS, ENVIRONMENTS };

jvmtiEnv *environment(jint number);

/* Throws an IllegalStateException that names the function, unless it succeeded. Returns whether it did. */
int succeeded(JNIEnv *jni, const char *function, jvmtiError error);

#endif
