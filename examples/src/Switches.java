import org.deuce.Atomic;

/** Int code with switches, dense and sparse. */
public class Switches {
    static int count;

    /** The days of a month of a year that is no leap year, or -1. */
    @Atomic
    public static int days(int month) {
        switch (month) {
            case 2:
                return 28;
            case 4:
            case 6:
            case 9:
            case 11:
                return 30;
            case 1:
            case 3:
            case 5:
            case 7:
            case 8:
            case 10:
            case 12:
                return 31;
            default:
                return -1;
        }
    }

    /** A code for some numbers that lie far apart, whose cases fall through. */
    @Atomic
    public static int sparse(int x) {
        int code = 0;
        switch (x) {
            case -2147483648:
                code += 1;
            case -100000:
                code += 10;
                break;
            case 0:
                code += 100;
            default:
                code += 1000;
            case 77777:
                code += 10000;
                break;
            case 2147483647:
                code += 100000;
        }
        return code;
    }

    /** How often each of the three last bits' cases was met from n down to 1, by digits. */
    @Atomic
    public static int walk(int n) {
        count = 0;
        while (n > 0) {
            switch (n & 7) {
                case 0:
                    count += 1;
                    break;
                case 3:
                    count += 100;
                    n--;
                    continue;
                case 5:
                    count += 10000;
            }
            n--;
        }
        return count;
    }
}
