// SPDX-License-Identifier: MIT OR Apache-2.0
package bcp47;

import java.io.IOException;
import java.io.InputStream;
import java.nio.charset.StandardCharsets;
import java.nio.file.Files;
import java.nio.file.Path;
import java.nio.file.StandardCopyOption;
import java.util.stream.IntStream;

/**
 * The calls of the library. A tag is its bytes. How a call ended goes to five numbers: its status, of which 0 says that it is done, the
 * fault, its place, of which of two texts it is, and the address of what was opened. Where it is not done, a text that is answered is
 * the variant, or the line of a registry, or null.
 */
final class Native {
    static final int STATUS = 0, STATUS_HELP = 1, FAULT = 2, FAULT_HELP = 3, PART_KIND = 4, STEP_KIND = 5;
    static final int CANONICAL = 0, EXTLANG = 1, VALIDATE = 2, MATCH = 3, PARTS = 4, PARENT = 5, WITH = 6, POSIX = 7;

    static {
        load();
    }

    private Native() {}

    static native String version();

    static native String name(int which, int number);

    static native String open(byte[] bytes, long[] ended);

    static native void close(long registry);

    /**
     * The text that a call makes of one text, or of two; null where that is the first of them, or none. The number is a scheme, of which 0
     * asks whether two tags are equivalent, or a kind of part. Of PARTS it is the text of a tag, a point, and a character for each part.
     */
    static native String text(int call, long registry, int number, byte[] first, byte[] second, long[] ended);

    /** The names and bodies of the fields in turn, with a zero after each; their lengths in bytes go to an array. */
    static native byte[] record(long registry, int number, long[] ended, int[][] lengths);

    /** The tags to which the steps lead, and the canonical one, a line each; the kind, place and number of each step go to an array. */
    static native String explain(long registry, byte[] tag, long most, long[] ended, int[][] steps);

    static native long info(long registry, byte[] date, byte[] sha256);

    /** The tags stand one after another, each of its length. */
    static native void openAvailable(long registry, byte[] tags, long[] lengths, long[] ended);

    static native void closeAvailable(long available);

    /** The number of the best tag, or 0; or how many a header accepts, whose numbers go to an array, if there is one. */
    static native int best(long available, byte[] accept, long[] places, long[] ended);

    /** The names of the first numbers. */
    static String[] names(int which) {
        return IntStream.range(0, 32).mapToObj(number -> name(which, number)).toArray(String[]::new);
    }

    static long[] ended() {
        return new long[5];
    }

    static byte[] bytes(CharSequence text) {
        return text.toString().getBytes(StandardCharsets.UTF_8);
    }

    /** Loads the library of java.library.path, or else that of the jar, by a file that nobody else can write. */
    private static void load() {
        try {
            try {
                System.loadLibrary("bcp47jni");
            } catch (UnsatisfiedLinkError notThere) {
                loadOfJar();
            }
        } catch (IOException | UnsatisfiedLinkError failed) {
            throw because("bcp47: its library can't be written to a temporary file and run there: name a folder where it can by"
                    + " -Djava.io.tmpdir, or put libbcp47jni.so of the jar in a folder that -Djava.library.path names", failed);
        } catch (RuntimeException denied) {
            throw because("bcp47: Java does not let it call its library: allow it by --enable-native-access=ALL-UNNAMED,"
                    + " or by --enable-native-access=bcp47 where the jar is on the module path", denied);
        }
    }

    private static UnsatisfiedLinkError because(String message, Throwable cause) {
        UnsatisfiedLinkError error = new UnsatisfiedLinkError(message + ": " + cause.getMessage());
        error.initCause(cause);
        return error;
    }

    private static void loadOfJar() throws IOException {
        String system = System.getProperty("os.name").toLowerCase() + "-" + System.getProperty("os.arch");
        try (InputStream inside = Native.class.getResourceAsStream("/bcp47/" + system + "/libbcp47jni.so")) {
            if (inside == null) {
                throw new UnsatisfiedLinkError("the jar has no library for " + system);
            }
            Path file = Files.createTempFile("libbcp47jni", ".so");
            try {
                Files.copy(inside, file, StandardCopyOption.REPLACE_EXISTING);
                System.load(file.toString());
            } finally {
                Files.delete(file);
            }
        }
    }
}
