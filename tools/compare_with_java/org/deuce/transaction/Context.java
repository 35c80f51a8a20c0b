package org.deuce.transaction;

import java.util.Arrays;

/**
 * The transactions of one thread, by Transactional Locking II, as rewritten classes call them. A conflict is thrown as an exception, as
 * Deuce throws it.
 */
public final class Context {
    private static final java.util.concurrent.atomic.AtomicInteger NUMBERS = new java.util.concurrent.atomic.AtomicInteger();

    private final long own = 2L * NUMBERS.getAndIncrement() + 1;
    private final Writes writes = new Writes();
    private int[] reads = new int[64];
    private int readCount;
    private int attempts;
    private long conflicts;
    /** Twice the clock's value as the attempt began. */
    private long bound;
    // What beforeReadAccess saw, for the onReadAccess that follows.
    private int lookedStripe;
    private long lookedWord;
    private int lookedWrite;

    /** How many attempts ended by a conflict. */
    public long conflicts() {
        return conflicts;
    }

    void beginCall() {
        attempts = 0;
    }

    /** Begins an attempt of the wrapper of this number, which may make so many. */
    public void init(int wrapper, int retries) {
        if (++attempts > retries) {
            throw new IllegalStateException("wrapper " + wrapper + " used up its attempts");
        }
        writes.clear();
        readCount = 0;
        bound = 2 * Stripe.CLOCK.word;
    }

    public void rollback() {
        conflicts++;
    }

    public boolean commit() {
        if (writes.count() == 0) {
            return true;
        }
        int[] numbers = writes.sortedStripes();
        long[] words = new long[numbers.length];
        int held = 0;
        while (held < numbers.length && take(numbers[held], words, held)) {
            held++;
        }
        if (held < numbers.length) {
            return release(numbers, words, held);
        }
        long version = 2 * Stripe.tick();
        if (!isValid(numbers, words)) {
            return release(numbers, words, held);
        }
        writes.store();
        for (int number : numbers) {
            Stripe.at(number).word = version;
        }
        return true;
    }

    private boolean take(int number, long[] words, int at) {
        Stripe stripe = Stripe.at(number);
        long word = stripe.word;
        words[at] = word;
        return (word & 1) == 0 && stripe.exchange(word, own);
    }

    /** Whether what was read is as it was at the bound. */
    private boolean isValid(int[] numbers, long[] words) {
        for (int i = 0; i < readCount; i++) {
            long word = Stripe.at(reads[i]).word;
            if (word == own) {
                word = words[Arrays.binarySearch(numbers, reads[i])];
            }
            if ((word & 1) != 0 || word > bound) {
                return false;
            }
        }
        return true;
    }

    private boolean release(int[] numbers, long[] words, int held) {
        for (int i = 0; i < held; i++) {
            Stripe.at(numbers[i]).word = words[i];
        }
        conflicts++;
        return false;
    }

    private void look(Object object, long place) {
        int number = Stripe.number(object, place);
        lookedWrite = writes.find(object, place, number);
        if (lookedWrite < 0) {
            long word = Stripe.at(number).word;
            if ((word & 1) != 0 || word > bound) {
                throw TransactionException.CONFLICT;
            }
            lookedStripe = number;
            lookedWord = word;
        }
    }

    /** Whether the place that was looked at has a logged write; where it has none, what was read is logged. */
    private boolean isWritten() {
        if (lookedWrite >= 0) {
            return true;
        }
        Memory.UNSAFE.loadFence();
        if (Stripe.at(lookedStripe).word != lookedWord) {
            throw TransactionException.CONFLICT;
        }
        if (readCount == reads.length) {
            reads = Arrays.copyOf(reads, 2 * readCount);
        }
        reads[readCount++] = lookedStripe;
        return false;
    }

    private void log(Object object, long place, char kind, long bits, Object reference) {
        if (object == null) {
            throw new NullPointerException();
        }
        writes.put(object, place, kind, bits, reference);
    }

    private void logElement(Object array, int length, int index, char kind, long bits, Object reference) {
        if (index < 0 || index >= length) {
            throw new ArrayIndexOutOfBoundsException(index);
        }
        writes.put(array, index, kind, bits, reference);
    }

    // Fields. The access itself finds a null object.

    public void beforeReadAccess(Object object, long place) {
        look(object, place);
    }

    public boolean onReadAccess(Object object, boolean value, long place) {
        return isWritten() ? writes.bits(lookedWrite) != 0 : value;
    }

    public byte onReadAccess(Object object, byte value, long place) {
        return isWritten() ? (byte) writes.bits(lookedWrite) : value;
    }

    public char onReadAccess(Object object, char value, long place) {
        return isWritten() ? (char) writes.bits(lookedWrite) : value;
    }

    public short onReadAccess(Object object, short value, long place) {
        return isWritten() ? (short) writes.bits(lookedWrite) : value;
    }

    public int onReadAccess(Object object, int value, long place) {
        return isWritten() ? (int) writes.bits(lookedWrite) : value;
    }

    public long onReadAccess(Object object, long value, long place) {
        return isWritten() ? writes.bits(lookedWrite) : value;
    }

    public Object onReadAccess(Object object, Object value, long place) {
        return isWritten() ? writes.reference(lookedWrite) : value;
    }

    public void onWriteAccess(Object object, boolean value, long place) {
        log(object, place, 'Z', value ? 1 : 0, null);
    }

    public void onWriteAccess(Object object, byte value, long place) {
        log(object, place, 'B', value, null);
    }

    public void onWriteAccess(Object object, char value, long place) {
        log(object, place, 'C', value, null);
    }

    public void onWriteAccess(Object object, short value, long place) {
        log(object, place, 'S', value, null);
    }

    public void onWriteAccess(Object object, int value, long place) {
        log(object, place, 'I', value, null);
    }

    public void onWriteAccess(Object object, long value, long place) {
        log(object, place, 'J', value, null);
    }

    public void onWriteAccess(Object object, Object value, long place) {
        log(object, place, 'L', 0, value);
    }

    // Elements of arrays. The load itself finds a null array, and an index that is outside.

    public void beforeReadAccess(Object array, int index) {
        look(array, index);
    }

    public boolean onReadAccess(Object array, boolean value, int index) {
        return isWritten() ? writes.bits(lookedWrite) != 0 : value;
    }

    public byte onReadAccess(Object array, byte value, int index) {
        return isWritten() ? (byte) writes.bits(lookedWrite) : value;
    }

    public char onReadAccess(Object array, char value, int index) {
        return isWritten() ? (char) writes.bits(lookedWrite) : value;
    }

    public short onReadAccess(Object array, short value, int index) {
        return isWritten() ? (short) writes.bits(lookedWrite) : value;
    }

    public int onReadAccess(Object array, int value, int index) {
        return isWritten() ? (int) writes.bits(lookedWrite) : value;
    }

    public long onReadAccess(Object array, long value, int index) {
        return isWritten() ? writes.bits(lookedWrite) : value;
    }

    public Object onReadAccess(Object array, Object value, int index) {
        return isWritten() ? writes.reference(lookedWrite) : value;
    }

    public void onWriteAccess(Object array, boolean value, int index) {
        logElement(array, ((boolean[]) array).length, index, 'z', value ? 1 : 0, null);
    }

    public void onWriteAccess(Object array, byte value, int index) {
        logElement(array, ((byte[]) array).length, index, 'b', value, null);
    }

    public void onWriteAccess(Object array, char value, int index) {
        logElement(array, ((char[]) array).length, index, 'c', value, null);
    }

    public void onWriteAccess(Object array, short value, int index) {
        logElement(array, ((short[]) array).length, index, 's', value, null);
    }

    public void onWriteAccess(Object array, int value, int index) {
        logElement(array, ((int[]) array).length, index, 'i', value, null);
    }

    public void onWriteAccess(Object array, long value, int index) {
        logElement(array, ((long[]) array).length, index, 'j', value, null);
    }

    public void onWriteAccess(Object array, Object value, int index) {
        int length = ((Object[]) array).length;
        if (index >= 0 && index < length && value != null && !array.getClass().getComponentType().isInstance(value)) {
            throw new ArrayStoreException(value.getClass().getName());
        }
        logElement(array, length, index, 'l', 0, value);
    }
}
