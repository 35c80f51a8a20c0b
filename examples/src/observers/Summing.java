package observers;

class Summing extends Counting {
    private long sum;

    public void told(Subject subject, int value) {
        super.told(subject, value);
        sum += value;
    }

    long sum() {
        return sum;
    }
}
