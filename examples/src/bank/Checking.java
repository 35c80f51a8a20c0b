public class Checking {
    static int balance = 100;
}
