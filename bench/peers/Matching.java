// Answers each case of the standard input by java.util.Locale: `basic`, `extended` or `lookup`, ranges and tags, with tabs between the
// three and spaces between several. An answer is the tags that are found, in their order, or `!` where a range is refused.

import java.io.BufferedReader;
import java.io.IOException;
import java.io.InputStreamReader;
import java.util.ArrayList;
import java.util.List;
import java.util.Locale;
import java.util.Locale.FilteringMode;
import java.util.Locale.LanguageRange;

class Matching {
    static String answer(String scheme, List<LanguageRange> ranges, List<String> tags) {
        switch (scheme) {
            case "basic":
                return String.join(" ", Locale.filterTags(ranges, tags, FilteringMode.MAP_EXTENDED_RANGES));
            case "extended":
                return String.join(" ", Locale.filterTags(ranges, tags, FilteringMode.EXTENDED_FILTERING));
            default:
                String found = Locale.lookupTag(ranges, tags);
                return found == null ? "" : found;
        }
    }

    public static void main(String[] words) throws IOException {
        BufferedReader lines = new BufferedReader(new InputStreamReader(System.in));
        StringBuilder answers = new StringBuilder();
        for (String line = lines.readLine(); line != null; line = lines.readLine()) {
            String[] fields = line.split("\t", -1);
            List<LanguageRange> ranges = new ArrayList<>();
            try {
                for (String range : fields[1].split(" ")) ranges.add(new LanguageRange(range));
                answers.append(answer(fields[0], ranges, List.of(fields[2].split(" "))));
            } catch (IllegalArgumentException refused) {
                answers.append('!');
            }
            answers.append('\n');
        }
        System.out.print(answers);
    }
}
