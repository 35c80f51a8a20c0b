package observers;

class Counting implements Observer {
    int calls;

    public void told(Subject subject, int value) {
        calls++;
    }
}
