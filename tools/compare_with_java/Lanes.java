import java.io.IOException;
import java.nio.ByteBuffer;
import java.nio.file.Files;
import java.nio.file.Path;
import java.util.ArrayList;
import java.util.List;

/**
 * Makes the calls of a script, each lane of a phase on a thread of its own. The calls are ints in a file: the number of phases; of each phase
 * the number of lanes, and of each lane the number of its calls and that of their ints; each call as Called has it. The words name the file and then the classes to
 * initialise first.
 */
public final class Lanes {
    private final int[] words;
    private int at;
    private long last;
    private volatile Throwable fault;

    private Lanes(int[] words) {
        this.words = words;
    }

    public static void main(String[] arguments) throws Exception {
        for (int i = 1; i < arguments.length; i++) {
            Class.forName(arguments[i]);
        }
        Lanes lanes = new Lanes(read(arguments[0]));
        lanes.run();
        System.out.println(lanes.last);
    }

    static int[] read(String path) throws IOException {
        ByteBuffer bytes = ByteBuffer.wrap(Files.readAllBytes(Path.of(path)));
        int[] words = new int[bytes.remaining() / 4];
        bytes.asIntBuffer().get(words);
        return words;
    }

    private void run() throws Exception {
        int phases = words[at++];
        for (int phase = 0; phase < phases; phase++) {
            List<Thread> threads = new ArrayList<>();
            for (int lanes = words[at++]; lanes > 0; lanes--) {
                int calls = words[at++];
                int from = at + 1;
                at = from + words[at];
                threads.add(new Thread(() -> call(from, calls)));
            }
            for (Thread thread : threads) {
                thread.start();
            }
            for (Thread thread : threads) {
                thread.join();
            }
            if (fault != null) {
                throw new IllegalStateException(fault);
            }
        }
    }

    private void call(int from, int calls) {
        try {
            int place = from;
            long answer = 0;
            for (int i = 0; i < calls; i++) {
                answer = Called.call(words, place);
                place += Called.LENGTHS[words[place]];
            }
            if (calls > 0) {
                last = answer;
            }
        } catch (Throwable thrown) {
            fault = thrown;
        }
    }
}
