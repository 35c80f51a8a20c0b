package observers;

class Subject {
    private Observer[] observers = new Observer[2];
    private int count;

    void add(Observer observer) {
        if (count == observers.length) {
            Observer[] more = new Observer[2 * count];
            for (int i = 0; i < count; i++) {
                more[i] = observers[i];
            }
            observers = more;
        }
        observers[count++] = observer;
    }

    void remove(Observer observer) {
        int kept = 0;
        for (int i = 0; i < count; i++) {
            if (observers[i] != observer) {
                observers[kept++] = observers[i];
            }
        }
        while (count > kept) {
            observers[--count] = null;
        }
    }

    void tell(int value) {
        for (int i = count - 1; i >= 0; i--) {
            observers[i].told(this, value);
        }
    }

    int count() {
        return count;
    }
}
