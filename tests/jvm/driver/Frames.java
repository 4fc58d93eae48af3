/**
 * The methods that walkers enter. {@code a} and {@code b} are one text under two names.
 *
 * <p>Such a method has three places. At each a walker waits for its next order, and from there it makes its calls. While it waits
 * it calls nothing, so that the method is its newest frame. A place begins with the line where the walker waits.
 */
final class Frames {
    /** What a walker is ordered to do. {@code agent/walkers.c} has those that it can get in native code. */
    static final int NONE = 0;

    static final int LEAVE = 1;
    static final int A = 2;
    static final int B = 3;
    static final int N = 4;
    static final int BLOCK = 5;
    /** Go to place 0. The orders after it are for the further places. */
    static final int AT = 6;

    static final int PLACES = 3;

    private Frames() {}

    /** Starts a walker, as a thread that has no frame. */
    static native void begin(Thread walker, int number);

    /** Gives a walker in native code its next order. */
    static native void order(int number, int order);

    /** Whether the walker waits in native code for its next order. */
    static native boolean stands(int number);

    static native void n(int number);

    static void a() {
        Walker w = Walker.here();
        int order = w.isPopped() ? LEAVE : AT;
        int place = 0;
        while (order != LEAVE) {
            switch (place) {
                case 0:
                    while (w.order == NONE) w.turns++;
                    order = w.take();
                    if (order == A) a();
                    if (order == B) b();
                    if (order == N) n(w.number);
                    if (order == BLOCK) w.block();
                    break;
                case 1:
                    while (w.order == NONE) w.turns++;
                    order = w.take();
                    if (order == A) a();
                    if (order == B) b();
                    if (order == N) n(w.number);
                    if (order == BLOCK) w.block();
                    break;
                case 2:
                    while (w.order == NONE) w.turns++;
                    order = w.take();
                    if (order == A) a();
                    if (order == B) b();
                    if (order == N) n(w.number);
                    if (order == BLOCK) w.block();
                    break;
            }
            if (order >= AT) place = order - AT;
        }
    }

    static void b() {
        Walker w = Walker.here();
        int order = w.isPopped() ? LEAVE : AT;
        int place = 0;
        while (order != LEAVE) {
            switch (place) {
                case 0:
                    while (w.order == NONE) w.turns++;
                    order = w.take();
                    if (order == A) a();
                    if (order == B) b();
                    if (order == N) n(w.number);
                    if (order == BLOCK) w.block();
                    break;
                case 1:
                    while (w.order == NONE) w.turns++;
                    order = w.take();
                    if (order == A) a();
                    if (order == B) b();
                    if (order == N) n(w.number);
                    if (order == BLOCK) w.block();
                    break;
                case 2:
                    while (w.order == NONE) w.turns++;
                    order = w.take();
                    if (order == A) a();
                    if (order == B) b();
                    if (order == N) n(w.number);
                    if (order == BLOCK) w.block();
                    break;
            }
            if (order >= AT) place = order - AT;
        }
    }
}
