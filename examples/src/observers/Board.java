package observers;

import org.deuce.Atomic;

/** A subject with observers of three kinds. */
public class Board {
    static final Subject SUBJECT = new Subject();
    static final Summing SUMMING = new Summing();
    static Counting last;

    static {
        SUBJECT.add(SUMMING);
    }

    @Atomic
    public static int join(boolean leaves) {
        last = leaves ? new Leaving() : new Counting();
        SUBJECT.add(last);
        return SUBJECT.count();
    }

    @Atomic
    public static long tell(int value) {
        SUBJECT.tell(value);
        return SUMMING.sum();
    }

    @Atomic
    public static int observers() {
        return SUBJECT.count();
    }

    @Atomic
    public static int calls() {
        return last.calls;
    }
}
