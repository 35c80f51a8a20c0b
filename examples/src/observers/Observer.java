package observers;

interface Observer {
    void told(Subject subject, int value);
}
