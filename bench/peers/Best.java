// Compares Available's best with lookup and filtering of java.util.Locale, by generated Accept-Language headers over tags where
// equivalence plays no role, and counts the answers by why they differ. The status is 1 where one differs and none of these is why.
//
// Arguments: a registry, and the number of cases.

import bcp47.Available;
import bcp47.Registry;
import java.io.IOException;
import java.nio.file.Path;
import java.util.ArrayList;
import java.util.Arrays;
import java.util.LinkedHashMap;
import java.util.LinkedHashSet;
import java.util.List;
import java.util.Locale;
import java.util.Locale.LanguageRange;
import java.util.Map;
import java.util.Objects;
import java.util.Random;

class Best {
    private static final List<String> LANGUAGES = List.of("de", "en", "fr", "ja", "nl", "sv", "pt", "tr");
    private static final List<String> ENDS = List.of("", "", "", "-Latn", "-DE", "-US", "-CH", "-Latn-DE", "-Latn-CH", "-DE-1996", "-CH-x-own");
    private static final Random DICE = new Random(1);

    private static <T> T drawn(List<T> all) {
        return all.get(DICE.nextInt(all.size()));
    }

    private static String madeHeader() {
        List<String> ranges = new ArrayList<>();
        for (int n = 1 + DICE.nextInt(4); n > 0; n--) {
            String range = DICE.nextInt(12) == 0 ? "*" : drawn(LANGUAGES) + drawn(ENDS);
            int weight = DICE.nextInt(12);
            ranges.add(weight > 10 ? range : range + ";q=" + weight / 10.0);
        }
        return String.join(", ", ranges);
    }

    /** What Java finds by lookup for each range in turn, or else by filtering, and for `*` after all others. */
    private static String byTurns(List<LanguageRange> ranges, List<String> tags) {
        List<LanguageRange> zeros = ranges.stream().filter(range -> range.getWeight() == 0).toList();
        List<LanguageRange> turns = new ArrayList<>(ranges.stream().filter(range -> range.getWeight() > 0 && !range.getRange().equals("*")).toList());
        ranges.stream().filter(range -> range.getWeight() > 0 && range.getRange().equals("*")).forEach(turns::add);
        for (LanguageRange range : turns) {
            List<LanguageRange> one = new ArrayList<>(List.of(range));
            one.addAll(zeros);
            String found = Locale.lookupTag(one, tags);
            List<String> more = found == null ? Locale.filterTags(one, tags) : List.of(found);
            if (!more.isEmpty()) {
                return more.get(0);
            }
        }
        return null;
    }

    private static String why(String header, String ours, List<LanguageRange> ranges, List<String> tags) {
        if (Objects.equals(ours, Locale.lookupTag(ranges, tags))) {
            return "the same as lookup";
        }
        if (Objects.equals(ours, byTurns(ranges, tags))) {
            return ranges.stream().anyMatch(range -> range.getRange().equals("*") && range.getWeight() > 0)
                    ? "the same as lookup of each range, or else its filtering, with a `*`"
                    : "the same as lookup of each range, or else its filtering";
        }
        if (ranges.stream().anyMatch(range -> range.getWeight() == 0)) {
            return "a weight of 0";
        }
        List<String> texts = Arrays.stream(header.split(", ")).map(range -> range.replaceAll(";.*", "")).toList();
        return texts.stream().distinct().count() < texts.size() ? "a range twice, of which Java keeps the first" : "not known why";
    }

    public static void main(String[] words) throws IOException {
        Map<String, Integer> counts = new LinkedHashMap<>();
        Map<String, String> examples = new LinkedHashMap<>();
        try (Registry registry = Registry.open(Path.of(words[0]))) {
            for (int n = Integer.parseInt(words[1]); n > 0; n--) {
                LinkedHashSet<String> made = new LinkedHashSet<>();
                for (int tags = 1 + DICE.nextInt(8); tags > 0; tags--) {
                    made.add(drawn(LANGUAGES) + drawn(ENDS));
                }
                List<String> tags = List.copyOf(made);
                String header = madeHeader();
                try (Available available = registry.available(tags)) {
                    List<LanguageRange> ranges = LanguageRange.parse(header);
                    String best = available.best(header);
                    String why = why(header, best, ranges, tags);
                    String shown = header + " of " + String.join(" ", tags) + ": " + best + ", Java " + Locale.lookupTag(ranges, tags);
                    counts.merge(why, 1, Integer::sum);
                    examples.merge(why, shown, (one, other) -> one.length() <= other.length() ? one : other);
                }
            }
        }
        counts.forEach((why, number) -> System.out.printf("%8d %s, for example %s%n", number, why, examples.get(why)));
        System.exit(counts.containsKey("not known why") ? 1 : 0);
    }
}
