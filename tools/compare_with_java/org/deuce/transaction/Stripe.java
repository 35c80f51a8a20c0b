package org.deuce.transaction;

/** A word that threads share: twice a version, or, while a context holds it, twice that context's number and one. */
final class Stripe {
    private static final int COUNT = 4096;
    private static final Stripe[] ALL = new Stripe[COUNT];
    /** How often a commit has written. */
    static final Stripe CLOCK = new Stripe();
    private static final long WORD = Memory.offset(Stripe.class, "word");

    static {
        for (int i = 0; i < COUNT; i++) {
            ALL[i] = new Stripe();
        }
    }

    volatile long word;

    /** The number of the stripe of a place in an object, as Deuce's table of locks has it. */
    static int number(Object object, long place) {
        return (System.identityHashCode(object) + (int) place) & (COUNT - 1);
    }

    static Stripe at(int number) {
        return ALL[number];
    }

    boolean exchange(long old, long next) {
        return Memory.UNSAFE.compareAndSwapLong(this, WORD, old, next);
    }

    /** Adds one to the clock, and answers its new value. */
    static long tick() {
        return Memory.UNSAFE.getAndAddLong(CLOCK, WORD, 1) + 1;
    }
}
