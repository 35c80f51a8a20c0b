import org.deuce.Atomic;

public class One {
    @Atomic
    public static int go(int x) {
        return Two.twice(x) + 1;
    }
}
