import java.nio.charset.StandardCharsets;
import java.nio.file.Files;
import java.nio.file.Path;
import java.nio.file.Paths;
import java.util.ArrayList;
import java.util.List;

/** Makes the calls of each given file, one on a line, and writes the answers beside it, as a history has them. */
public class Answers {
    public static void main(String[] files) throws Exception {
        for (String file : files) {
            List<String> answers = new ArrayList<>();
            for (String line : Files.readAllLines(Paths.get(file), StandardCharsets.UTF_8)) {
                answers.add(Calls.answer(line.split(" ")));
            }
            Path beside = Paths.get(file + ".answers");
            Files.write(beside, answers, StandardCharsets.UTF_8);
        }
    }
}
