import java.util.concurrent.locks.LockSupport;

/** A thread that does what the driver orders. */
final class Walker extends Thread {
    final int number;
    final Object monitor = new Object();

    /** The order that it has not taken yet. In native code it gets its orders by {@link Frames#order}. */
    volatile int order;
    /** How often it has looked for an order. */
    volatile long turns;

    /** How it is to be blocked. */
    volatile Block kind;
    /** It need not be blocked any longer. */
    volatile boolean released;
    /** The driver has done all that wakes it. */
    volatile boolean woken;
    /** Its newest frame was popped. The VM makes that call again, which has to return at once. */
    volatile boolean popped;

    Walker(int number) {
        super("walker " + number);
        this.number = number;
    }

    static Walker here() {
        return (Walker) Thread.currentThread();
    }

    int take() {
        int taken = order;
        order = Frames.NONE;
        return taken;
    }

    boolean isPopped() {
        boolean was = popped;
        popped = false;
        return was;
    }

    /** Is blocked until the driver wakes it. At last it uses up what would end its next park at once. */
    void block() {
        while (!released) {
            try {
                kind.await(this);
            } catch (InterruptedException e) {
                // so a sleep is ended
            }
        }
        while (!woken) Thread.onSpinWait();
        LockSupport.parkNanos(1);
    }
}
