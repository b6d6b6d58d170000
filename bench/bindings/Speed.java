import bcp47.RefusedTag;
import bcp47.Registry;
import bcp47.Tag;
import java.lang.management.ManagementFactory;
import java.nio.charset.StandardCharsets;
import java.nio.file.Files;
import java.nio.file.Path;
import java.util.IllformedLocaleException;
import java.util.List;
import java.util.Locale;
import java.util.function.ToIntFunction;

/** Calls a second, the best of ten rounds, beside those of java.util.Locale, and how many of its answers are canonical. Arguments:
 *  registry, tags. */
final class Speed {
    /** Seconds of a processor that this thread took. */
    private static double now() {
        return ManagementFactory.getThreadMXBean().getCurrentThreadCpuTime() / 1e9;
    }

    private static void measure(String name, List<String> tags, ToIntFunction<String> ask) {
        double best = 0;
        for (int round = 0; round < 10; round++) {
            long length = 0;
            double begun = now();
            for (String tag : tags) {
                length += ask.applyAsInt(tag);
            }
            double seconds = now() - begun;
            best = length == 0 ? 0 : Math.max(best, tags.size() / seconds / 1e6);
        }
        System.out.printf("Java, %s: %.2f million tags a second%n", name, best);
    }

    /** What Locale.Builder makes of a tag, or "" where it refuses it. */
    private static String built(String tag) {
        try {
            return new Locale.Builder().setLanguageTag(tag).build().toLanguageTag();
        } catch (IllformedLocaleException refused) {
            return "";
        }
    }

    public static void main(String[] words) throws Exception {
        List<String> all = Files.readString(Path.of(words[1]), StandardCharsets.UTF_8).lines().toList();
        try (Registry registry = Registry.open(Path.of(words[0]))) {
            List<String> tags = all.stream().filter(registry::isValid).toList();
            measure("Registry.canonical, valid tags", tags, tag -> registry.canonical(tag).length());
            measure("Locale.Builder, valid tags", tags, tag -> built(tag).length());
            measure("Locale.forLanguageTag, valid tags", tags, tag -> Locale.forLanguageTag(tag).toLanguageTag().length());
            List<String> bad = all.stream().filter(tag -> !registry.isValid(tag)).toList();
            measure("Registry.answer, refused tags", bad, tag -> (int) registry.answer(tag).refusal().place() + 1);
            measure("Registry.canonical, refused tags", bad, tag -> {
                try {
                    return registry.canonical(tag).length();
                } catch (RefusedTag refused) {
                    return 1;
                }
            });
            measure("Tag.of, valid tags", tags, tag -> Tag.of(tag).length());
            List<String> twelve = List.of("en", "de", "fr", "es", "pt-BR", "zh-Hans", "zh-Hant", "ja", "ko", "nb", "he", "sr-Latn");
            List<String> headers = java.util.Collections.nCopies(100_000, "de-CH,de;q=0.9,en;q=0.8");
            bcp47.Available available = registry.available(twelve);
            measure("Available.best, headers of three ranges over twelve", headers, header -> available.best(header).length());
            measure("Locale.lookupTag, the same", headers, header -> Locale.lookupTag(Locale.LanguageRange.parse(header), twelve).length());
            long same = tags.stream().filter(tag -> built(tag).equals(registry.canonical(tag))).count();
            long refused = tags.stream().filter(tag -> built(tag).isEmpty()).count();
            long taken = all.stream().filter(tag -> !registry.isValid(tag) && !built(tag).isEmpty()).count();
            System.out.printf("Java, Locale.Builder: of %d valid tags it refuses %d, and makes %d canonical; of %d that are refused it takes %d%n",
                    tags.size(), refused, same, all.size() - tags.size(), taken);
        }
    }
}
