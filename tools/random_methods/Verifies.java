import java.io.IOException;
import java.nio.file.Files;
import java.nio.file.Path;
import java.nio.file.Paths;

/** Says of each class file of a folder, by its name, whether the machine's verifier takes it: NAME taken, or NAME refused WHY. */
public class Verifies extends ClassLoader {
    private Class<?> define(Path file) throws IOException {
        byte[] content = Files.readAllBytes(file);
        return defineClass(null, content, 0, content.length);
    }

    private static String answer(Path file) throws IOException, ClassNotFoundException {
        try {
            Class<?> found = new Verifies().define(file);
            Class.forName(found.getName(), true, found.getClassLoader());
            return "taken";
        } catch (VerifyError | ClassFormatError fault) {
            return "refused " + fault.getClass().getSimpleName() + " " + fault.getMessage().replace('\n', ' ');
        }
    }

    public static void main(String[] words) throws Exception {
        Path folder = Paths.get(words[0]);
        for (int i = 0; i < Integer.parseInt(words[1]); i++) {
            System.out.println(i + " " + answer(folder.resolve(i + ".class")));
        }
    }
}
