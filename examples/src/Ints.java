import org.deuce.Atomic;

/** Int code with loops, calls and parameters. */
public class Ints {
    static int total;

    /** 1 + 2 + .. + k. */
    @Atomic
    public static int sum(int k) {
        int s = 0;
        for (int i = 1; i <= k; i++) {
            s += i;
        }
        return s;
    }

    /** The greatest common divisor of two positive numbers, by subtraction. */
    @Atomic
    public static int gcd(int a, int b) {
        while (a != b) {
            if (a > b) {
                a -= b;
            } else {
                b -= a;
            }
        }
        return a;
    }

    @Atomic
    public static int ackermann(int m, int n) {
        if (m == 0) {
            return n + 1;
        }
        if (n == 0) {
            return ackermann(m - 1, 1);
        }
        return ackermann(m - 1, ackermann(m, n - 1));
    }

    /** 1 where k, which isn't negative, is even, else 0. */
    @Atomic
    public static int even(int k) {
        return isEven(k);
    }

    @Atomic
    public static int odd(int k) {
        return isOdd(k);
    }

    static int isEven(int k) {
        return k == 0 ? 1 : isOdd(k - 1);
    }

    private static int isOdd(int k) {
        return k == 0 ? 0 : isEven(k - 1);
    }

    /** Counts down by steps that one byte holds and that it doesn't hold. */
    @Atomic
    public static int steps(int k) {
        k += 127;
        k -= 128;
        k += 1000;
        k -= 32768;
        return k;
    }

    /** Bits, shifts and narrowing. */
    @Atomic
    public static int mixed(int a, int b) {
        return (a << b) ^ (a >> b) ^ (a >>> b) | (byte) a & (char) b ^ (short) (a * b) - -a;
    }

    /** Adds the sum of the numbers below k to the total. */
    @Atomic
    public static void add(int k) {
        while (--k > 0) {
            total += k;
        }
    }

    @Atomic
    public static int total() {
        return total;
    }
}
