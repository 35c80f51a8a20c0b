package org.deuce.transaction;

import java.util.Queue;
import java.util.concurrent.ConcurrentLinkedQueue;

/** Hands each thread its context. */
public final class ContextDelegator {
    private static final Queue<Context> ALL = new ConcurrentLinkedQueue<>();
    private static final ThreadLocal<Context> CONTEXTS = ThreadLocal.withInitial(ContextDelegator::add);

    private ContextDelegator() {}

    /** The context of this thread, for a call that has made no attempt. */
    public static Context getInstance() {
        Context context = CONTEXTS.get();
        context.beginCall();
        return context;
    }

    /** How many attempts of all threads ended by a conflict. */
    public static long conflicts() {
        return ALL.stream().mapToLong(Context::conflicts).sum();
    }

    private static Context add() {
        Context context = new Context();
        ALL.add(context);
        return context;
    }
}
