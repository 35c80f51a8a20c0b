public class Zebra {
    static int zero;
    static int m = 7 / zero;
}
