package observers;

/** Leaves once it was told a negative value. */
class Leaving extends Counting {
    public void told(Subject subject, int value) {
        super.told(subject, value);
        if (value < 0) {
            subject.remove(this);
        }
    }
}
