import java.util.function.BooleanSupplier;

/** Waits for what a walker does next. */
final class Until {
    private static final int LOOKS = 1_000;
    private static final long SECONDS = 30;

    private Until() {}

    /** Looks often at first, then sleeps in between, and gives up at last. */
    static void so(BooleanSupplier it, String what) {
        for (int looks = 0; looks < LOOKS; looks++) {
            if (it.getAsBoolean()) return;
            Thread.onSpinWait();
        }
        long end = System.nanoTime() + SECONDS * 1_000_000_000;
        while (!it.getAsBoolean()) {
            if (System.nanoTime() > end) throw new IllegalStateException("waited in vain for " + what);
            pause(50_000);
        }
    }

    static void pause(int nanos) {
        try {
            Thread.sleep(nanos / 1_000_000, nanos % 1_000_000);
        } catch (InterruptedException e) {
            throw new IllegalStateException("nobody interrupts the driver", e);
        }
    }
}
