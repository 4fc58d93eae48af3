import java.util.concurrent.locks.LockSupport;

/** The ways to be blocked. */
enum Block {
    MONITOR {
        @Override
        void prepare(Walker w) {
            Agent.lock(w.monitor);
        }

        @Override
        void await(Walker w) {
            synchronized (w.monitor) {
                // it only has to be entered
            }
        }

        @Override
        void wake(Walker w) {
            Agent.unlock(w.monitor);
        }
    },

    WAIT {
        @Override
        void await(Walker w) throws InterruptedException {
            synchronized (w.monitor) {
                if (!w.released) w.monitor.wait();
            }
        }

        @Override
        void wake(Walker w) {
            notifyWaiter(w);
        }
    },

    TIMED_WAIT {
        @Override
        void await(Walker w) throws InterruptedException {
            synchronized (w.monitor) {
                if (!w.released) w.monitor.wait(DAY_MILLIS);
            }
        }

        @Override
        void wake(Walker w) {
            notifyWaiter(w);
        }
    },

    SLEEP {
        @Override
        void await(Walker w) throws InterruptedException {
            Thread.sleep(DAY_MILLIS);
        }

        @Override
        void wake(Walker w) {
            w.interrupt();
        }
    },

    PARK {
        @Override
        void await(Walker w) {
            LockSupport.park();
        }

        @Override
        void wake(Walker w) {
            LockSupport.unpark(w);
        }
    },

    TIMED_PARK {
        @Override
        void await(Walker w) {
            LockSupport.parkNanos(DAY_MILLIS * 1_000_000);
        }

        @Override
        void wake(Walker w) {
            LockSupport.unpark(w);
        }
    };

    /** No walk takes so long. */
    static final long DAY_MILLIS = 86_400_000;

    /** What the driver does before the walker is blocked. */
    void prepare(Walker w) {}

    /** Blocks the walker that calls it. */
    abstract void await(Walker w) throws InterruptedException;

    /** Wakes a walker that is released. The driver calls it. */
    abstract void wake(Walker w);

    /** The kind of this word of a walk. */
    static Block of(String word) {
        return valueOf(word.toUpperCase());
    }

    private static void notifyWaiter(Walker w) {
        synchronized (w.monitor) {
            w.monitor.notify();
        }
    }
}
