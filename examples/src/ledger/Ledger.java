package ledger;

import org.deuce.Atomic;

/** Accounts of two kinds, between which amounts are moved. */
public class Ledger {
    static class Overdrawn extends RuntimeException {
    }

    static class Account {
        protected long balance;

        Account(long balance) {
            this.balance = balance;
        }

        /** How far below 0 the balance may go. */
        long credit() {
            return 0;
        }

        void take(long amount) {
            if (balance - amount < -credit()) {
                throw new Overdrawn();
            }
            balance -= amount;
        }

        void give(long amount) {
            balance += amount;
        }
    }

    static class Current extends Account {
        private final long credit;
        private int moves;

        Current(long balance, long credit) {
            super(balance);
            this.credit = credit;
        }

        long credit() {
            return credit;
        }

        void take(long amount) {
            super.take(amount);
            moves++;
        }

        int moves() {
            return moves;
        }
    }

    private static final Account[] accounts = {
        new Account(100), new Current(100, 50), new Account(1000000000000L), new Current(0, 1000)
    };
    private static int refused;

    /** Moves an amount, and answers what is left; or throws, and moves nothing. */
    @Atomic
    public static long move(int from, int to, long amount) {
        Account giver = accounts[from];
        Account taker = accounts[to];
        giver.take(amount);
        taker.give(amount);
        return giver.balance;
    }

    /** The same, where a refusal is counted and answered as false. */
    @Atomic
    public static boolean tryMove(int from, int to, long amount) {
        try {
            move(from, to, amount);
            return true;
        } catch (Overdrawn e) {
            refused++;
            return false;
        } finally {
            accounts[to].give(0);
        }
    }

    @Atomic
    public static long sum() {
        long sum = 0;
        for (Account account : accounts) {
            sum += account.balance;
        }
        return sum;
    }

    @Atomic
    public static int moves(int account) {
        return ((Current) accounts[account]).moves();
    }

    @Atomic
    public static int refused() {
        return refused;
    }
}
