import org.deuce.Atomic;

/** Fields, parameters and results of the types that are narrower than int. */
public class Narrow {
    static boolean flag;
    static byte small;
    static char letter;
    static short middle;
    static int large;

    @Atomic
    public static boolean flip(boolean b) {
        flag = flag ^ b;
        return flag;
    }

    @Atomic
    public static byte addByte(byte b) {
        return small += b;
    }

    @Atomic
    public static char addChar(char c) {
        return letter += c;
    }

    @Atomic
    public static short addShort(short s) {
        return middle += s;
    }

    /** What the fields hold together, after each took a part of the arguments. */
    @Atomic
    public static int mix(boolean z, byte b, char c, short s, int i) {
        flag = !z;
        small = (byte) (i >> 3);
        letter = (char) (b - c);
        middle = (short) (c * s);
        large = small * 31 + letter;
        return (flag ? large : -large) + middle;
    }
}
