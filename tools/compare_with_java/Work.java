import org.deuce.Atomic;

/** What is timed: plain int code, short calls, deep calls, and a counter in a field. */
public class Work {
    static int n;

    @Atomic
    public static int loop(int k) {
        int s = 0;
        for (int i = 0; i < k; i++) {
            s += i ^ 3;
        }
        return s;
    }

    @Atomic
    public static int pairs(int k) {
        int s = 0;
        for (int i = 1; i <= k; i++) {
            s += gcd(i, 84);
        }
        return s;
    }

    static int gcd(int a, int b) {
        return b == 0 ? a : gcd(b, a % b);
    }

    @Atomic
    public static int deep(int k) {
        int s = 0;
        for (int i = 0; i < k; i++) {
            s += down(190);
        }
        return s;
    }

    static int down(int k) {
        return k == 0 ? 0 : 1 + down(k - 1);
    }

    @Atomic
    public static int count(int k) {
        for (int i = 0; i < k; i++) {
            n++;
        }
        return n;
    }
}
