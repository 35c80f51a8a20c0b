public class Savings {
    static int balance;
}
