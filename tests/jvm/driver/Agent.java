/**
 * The agents' calls, which the VM answers. Each gives its outcome's text, with frames as the VM has them.
 *
 * <p>A thread is an {@code Object}, since a walk also names threads that are not there.
 */
final class Agent {
    static {
        System.loadLibrary("walks");
    }

    /** How many agents a walk may have. */
    static final int AGENTS = 3;
    /** The driver's own environment, after those of the agents. */
    static final int DRIVER = AGENTS;

    static final int CAN_SUSPEND = 1;
    static final int CAN_POP_FRAME = 2;
    static final int CAN_TAG_OBJECTS = 4;

    private Agent() {}

    /** Wants a call of the driver to be done. */
    static void must(String outcome) {
        if (!outcome.equals("ok")) throw new IllegalStateException("a call of the driver gave " + outcome);
    }

    static native String state(int agent, Object thread);

    static native String count(int agent, Object thread);

    static native String trace(int agent, Object thread, int start, int most);

    static native String location(int agent, Object thread, int depth);

    static native String suspend(int agent, Object thread);

    static native String resume(int agent, Object thread);

    static native String pop(int agent, Object thread);

    static native String get(int agent, Object thread);

    static native String set(int agent, Object thread, long word);

    static native String getenv(int agent);

    static native String setenv(int agent, long word);

    static native String add(int agent, int capabilities);

    static native String relinquish(int agent, int capabilities);

    static native String caps(int agent);

    /** The bits of a thread's state, for the driver. */
    static native int bits(Thread thread);

    /** How many frames a thread has, for the driver. */
    static native int depth(Thread thread);

    static native void lock(Object monitor);

    static native void unlock(Object monitor);
}
