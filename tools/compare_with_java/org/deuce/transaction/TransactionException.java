package org.deuce.transaction;

/** The conflict of an attempt. Wrappers alone catch it. */
public final class TransactionException extends RuntimeException {
    static final TransactionException CONFLICT = new TransactionException();

    private TransactionException() {
        super(null, null, false, false);
    }
}
