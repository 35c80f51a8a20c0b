package queue;

import org.deuce.Atomic;

/** Jobs that wait, in an array that is used as a ring. */
public class Jobs {
    interface Job {
        long run(long before);
    }

    static class Add implements Job {
        private final int amount;

        Add(int amount) {
            this.amount = amount;
        }

        public long run(long before) {
            return before + amount;
        }
    }

    static class Twice implements Job {
        private final Job job;

        Twice(Job job) {
            this.job = job;
        }

        public long run(long before) {
            return job.run(job.run(before));
        }
    }

    static class Full extends RuntimeException {
    }

    private static final Job[] ring = new Job[8];
    private static int head;
    private static int count;
    private static long total;

    private static void put(Job job) {
        if (count == ring.length) {
            throw new Full();
        }
        ring[(head + count++) % ring.length] = job;
    }

    private static Job take() {
        Job job = ring[head];
        ring[head] = null;
        head = (head + 1) % ring.length;
        count--;
        return job;
    }

    /** Puts a job that adds an amount, or one that does so twice. */
    @Atomic
    public static void add(int amount, boolean twice) {
        Job job = new Add(amount);
        put(twice ? new Twice(job) : job);
    }

    /** Runs up to so many jobs, the oldest first, and answers how many there were. */
    @Atomic
    public static int work(int most) {
        int done = 0;
        while (done < most && count > 0) {
            total = take().run(total);
            done++;
        }
        return done;
    }

    @Atomic
    public static int waiting() {
        return count;
    }

    @Atomic
    public static long total() {
        return total;
    }
}
