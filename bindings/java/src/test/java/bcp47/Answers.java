package bcp47;

import java.io.BufferedOutputStream;
import java.io.IOException;
import java.io.PrintStream;
import java.nio.charset.StandardCharsets;
import java.nio.file.Files;
import java.nio.file.Path;
import java.util.List;

/** Answers each line of a file as the program does. Arguments: registry, lines; and <code>explain</code>, to answer as that does. */
final class Answers {
    private static String explained(Registry registry, String tag) {
        try {
            Explanation explanation = registry.explain(tag);
            return explanation.toString();
        } catch (RefusedTag refused) {
            return "! " + refused.getMessage();
        }
    }

    public static void main(String[] words) throws IOException {
        List<String> tags = Files.readString(Path.of(words[1]), StandardCharsets.UTF_8).lines().toList();
        try (Registry registry = Registry.open(Path.of(words[0]));
                PrintStream out = new PrintStream(new BufferedOutputStream(System.out), false, StandardCharsets.UTF_8)) {
            if (words.length > 2) {
                tags.forEach(tag -> out.print(explained(registry, tag) + "\n"));
            } else {
                tags.forEach(tag -> out.print(registry.answer(tag) + "\n"));
            }
        }
    }
}
