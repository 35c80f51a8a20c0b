import org.deuce.Atomic;

/** Quotients and remainders, also by 0. */
public class Divisions {
    static int last;

    @Atomic
    public static int quotient(int a, int b) {
        return a / b;
    }

    @Atomic
    public static int remainder(int a, int b) {
        return a % b;
    }

    /** The greatest common divisor, by remainders. */
    @Atomic
    public static int gcd(int a, int b) {
        while (b != 0) {
            int rest = a % b;
            a = b;
            b = rest;
        }
        return a;
    }

    /** Stores a number, and then lets another method divide by it. */
    @Atomic
    public static int share(int k) {
        last = k;
        return part(100, k);
    }

    private static int part(int whole, int k) {
        return whole / k;
    }

    @Atomic
    public static int last() {
        return last;
    }
}
