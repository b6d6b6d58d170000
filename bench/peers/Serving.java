// Answers each line of the standard input, an Accept-Language header and tags with a tab between them, by java.util.Locale: the tag to
// serve, or a hyphen where none fits.

import java.io.BufferedReader;
import java.io.IOException;
import java.io.InputStreamReader;
import java.util.List;
import java.util.Locale;
import java.util.Locale.LanguageRange;

class Serving {
    public static void main(String[] words) throws IOException {
        BufferedReader lines = new BufferedReader(new InputStreamReader(System.in));
        for (String line = lines.readLine(); line != null; line = lines.readLine()) {
            String[] fields = line.split("\t");
            String found = Locale.lookupTag(LanguageRange.parse(fields[0]), List.of(fields[1].split(" ")));
            System.out.println(found == null ? "-" : found);
        }
    }
}
