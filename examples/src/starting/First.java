import org.deuce.Atomic;

public class First extends Last {
    static int m = 2 * Last.n;

    @Atomic
    public static int get() {
        return m;
    }
}
