import org.deuce.Atomic;

public class Apple extends Zebra {
    static int n = 1;

    static {
        while (n != 0) {
            n |= 1;
        }
    }

    @Atomic
    public static int get() {
        return n;
    }
}
