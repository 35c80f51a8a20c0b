public class Worse {
    static int zero;
    static int m = Good.n / zero;
}
