import org.deuce.Atomic;

public class Sub extends Base {
    @Atomic
    public static int inc() {
        return ++Sub.n;
    }
}
