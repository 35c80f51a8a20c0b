import java.nio.charset.StandardCharsets;
import java.nio.file.Files;
import java.nio.file.Paths;
import java.util.ArrayList;
import java.util.Arrays;
import java.util.List;
import java.util.Map;
import java.util.TreeMap;

/**
 * Makes the calls of a history, and prints their answers in its order. Each line of the given file is a call: its phase, its lane, the method and
 * the arguments. Phases go one after another, and each lane of a phase has a thread of its own. Each call is made under one lock, which goes to the
 * calls in the order of the lines.
 */
public final class Locked {
    private final List<String[]> calls = new ArrayList<>();
    private final String[] answers;
    /** The number of the call that has the lock next. */
    private int turn;

    private Locked(List<String> lines) {
        for (String line : lines) {
            calls.add(line.split(" "));
        }
        answers = new String[calls.size()];
    }

    public static void main(String[] words) throws Exception {
        Locked locked = new Locked(Files.readAllLines(Paths.get(words[0]), StandardCharsets.UTF_8));
        locked.run();
        System.out.println(String.join("\n", locked.answers));
    }

    private void run() throws InterruptedException {
        int from = 0;
        while (from < calls.size()) {
            int to = from;
            while (to < calls.size() && calls.get(to)[0].equals(calls.get(from)[0])) {
                to++;
            }
            runPhase(from, to);
            from = to;
        }
    }

    /** Makes the calls with these numbers, which are those of a phase. */
    private void runPhase(int from, int to) throws InterruptedException {
        Map<String, List<Integer>> lanes = new TreeMap<>();
        for (int number = from; number < to; number++) {
            lanes.computeIfAbsent(calls.get(number)[1], lane -> new ArrayList<>()).add(number);
        }
        List<Thread> threads = new ArrayList<>();
        for (List<Integer> lane : lanes.values()) {
            threads.add(new Thread(() -> runLane(lane)));
        }
        for (Thread thread : threads) {
            thread.start();
        }
        for (Thread thread : threads) {
            thread.join();
        }
    }

    private void runLane(List<Integer> numbers) {
        try {
            for (int number : numbers) {
                call(number);
            }
        } catch (Throwable fault) {
            // A call that can't be made would have the other lanes wait for ever.
            fault.printStackTrace();
            Runtime.getRuntime().halt(1);
        }
    }

    private synchronized void call(int number) throws Exception {
        while (turn != number) {
            wait();
        }
        String[] words = calls.get(number);
        answers[number] = Calls.answer(Arrays.copyOfRange(words, 2, words.length));
        turn++;
        notifyAll();
    }
}
