// SPDX-License-Identifier: MIT OR Apache-2.0
package bcp47;

import java.io.IOException;
import java.io.InputStream;
import java.io.UncheckedIOException;
import java.nio.charset.StandardCharsets;
import java.nio.file.Files;
import java.nio.file.Path;
import java.util.Collection;
import java.util.HexFormat;
import java.util.List;
import java.util.Objects;
import java.util.stream.IntStream;

/**
 * A registry of language subtags that passes the check. Any number of threads may ask it at once. It is freed by
 * {@link #close}, or when it is collected; asked after that, each call throws IllegalStateException. Each throws
 * NullPointerException for null, OutOfMemoryError where memory ran out, and {@link BusyException}.
 *
 * <p>It has some 2 MB that the heap does not show: open one, and keep it.
 */
public final class Registry implements AutoCloseable {
    /** The most steps of an explanation, if a call names no number. */
    private static final int STEPS = 20_000;

    private final Held held;

    /** The registry of a content, and of the file that it is of, if any. */
    private Registry(byte[] content, String file) {
        long[] ended = Native.ended();
        Refusal refusal = Refusal.of(ended, Native.open(Objects.requireNonNull(content), ended));
        if (refusal != null) {
            throw new RefusedRegistry(refusal, file);
        }
        held = new Held(this, "the registry", ended[4], Native::close);
    }

    /** @return the version of the library */
    public static String version() {
        return Native.version();
    }

    /**
     * Reads a registry.
     *
     * @param content its bytes
     * @return the registry whose text the bytes are
     * @throws RefusedRegistry where they are none that passes the check
     */
    public static Registry of(byte[] content) {
        return new Registry(content, "");
    }

    /**
     * Reads the registry of a file.
     *
     * @param file its path
     * @return the registry
     * @throws IOException where the file can't be read
     * @throws RefusedRegistry where it is no registry that passes the check; its toString names the file
     */
    public static Registry open(Path file) throws IOException {
        return new Registry(Files.readAllBytes(file), file.toString());
    }

    /**
     * Reads the registry that <code>bcp47-registry</code> has, which is of IANA's and has a day of its own.
     *
     * @return the registry
     * @throws IllegalStateException where that jar is on neither the class path nor the module path
     */
    public static Registry bundled() {
        try (InputStream file = Registry.class.getClassLoader().getResourceAsStream("META-INF/bcp47/registry.txt")) {
            if (file == null) {
                throw new IllegalStateException("bcp47-registry is on neither the class path nor the module path: add its jar, or open a file");
            }
            return of(file.readAllBytes());
        } catch (IOException failed) {
            throw new UncheckedIOException(failed);
        }
    }

    /** Closes it: calls that are under way end as they would. */
    @Override
    public void close() {
        held.close();
    }

    private Answer answer(int call, CharSequence tag) {
        byte[] bytes = Native.bytes(tag);
        long[] ended = Native.ended();
        String text = held.ask(registry -> Native.text(call, registry, 0, bytes, null, ended));
        Refusal refusal = Refusal.of(ended, text);
        return new Answer(refusal != null ? null : text == null ? tag.toString() : text, refusal);
    }

    /**
     * The canonical text of a tag (RFC 5646, 4.5).
     *
     * @param tag a tag
     * @return the text: <code>yue</code> for <code>zh-yue</code>
     * @throws RefusedTag where there is none
     */
    public String canonical(CharSequence tag) {
        return answer(tag).get(tag);
    }

    /**
     * The canonical text of a tag, or why there is none: nothing is thrown for a tag that is refused, which takes a seventh
     * of the time of an exception.
     *
     * @param tag a tag
     * @return the answer
     */
    public Answer answer(CharSequence tag) {
        return answer(Native.CANONICAL, tag);
    }

    /**
     * The canonical text with its extlang prefix (RFC 5646, 4.5).
     *
     * @param tag a tag
     * @return the text: <code>zh-yue</code> for <code>yue</code>
     * @throws RefusedTag where there is none
     */
    public String extlang(CharSequence tag) {
        return answer(Native.EXTLANG, tag).get(tag);
    }

    /**
     * Tells whether a tag is valid (RFC 5646, 2.2.9).
     *
     * @param tag a tag
     * @throws RefusedTag where it is not
     */
    public void validate(CharSequence tag) {
        answer(Native.VALIDATE, tag).get(tag);
    }

    /**
     * Tells whether a tag is valid (RFC 5646, 2.2.9).
     *
     * @param tag a tag
     * @return whether it is
     */
    public boolean isValid(CharSequence tag) {
        return answer(Native.VALIDATE, tag).refusal() == null;
    }

    private boolean agree(int scheme, CharSequence first, CharSequence second) {
        byte[] one = Native.bytes(first);
        byte[] other = Native.bytes(second);
        long[] ended = Native.ended();
        String variant = held.ask(registry -> Native.text(Native.MATCH, registry, scheme, one, other, ended));
        if (ended[0] == Refusal.DIFFERENT) {
            return false;
        }
        RefusedTag.check(ended, variant, ended[3] == 2 ? second : first);
        return true;
    }

    /**
     * Tells whether two tags are equivalent: their canonical texts are equal.
     *
     * @param first a tag
     * @param second another one
     * @return whether they are
     * @throws RefusedTag where the first is refused, or else the second
     */
    public boolean equivalent(CharSequence first, CharSequence second) {
        return agree(0, first, second);
    }

    /**
     * Tells whether a language range matches a tag (RFC 4647, 3.3 and 3.4), in a spelling of each: <code>zh-yue</code>
     * matches <code>yue-HK</code>. Of a range that is no valid tag, for example <code>yue-*</code>, the first subtag is taken in
     * its extlang form.
     *
     * @param range a language range
     * @param tag a tag
     * @param scheme how it matches
     * @return whether it does
     * @throws RefusedTag where the range is neither a valid tag nor a range, or else the tag is refused
     */
    public boolean matches(CharSequence range, CharSequence tag, Scheme scheme) {
        return agree(scheme.ordinal() + 1, range, tag);
    }

    /**
     * Prepares the tags of which a service serves one to each reader.
     *
     * @param tags the tags
     * @return what tells which of them that is
     * @throws RefusedTag for the first that {@link #canonical} refuses
     */
    public Available available(Collection<? extends CharSequence> tags) {
        return new Available(held, tags);
    }

    /**
     * The steps from a tag to its canonical form, at most 20,000: a tag can have 57,000.
     *
     * @param tag a tag
     * @return the steps, and the canonical form
     * @throws RefusedTag where the tag is refused
     */
    public Explanation explain(CharSequence tag) {
        return explain(tag, STEPS);
    }

    /**
     * The steps from a tag to its canonical form.
     *
     * @param tag a tag
     * @param most the most steps that are wanted
     * @return the steps, and the canonical form
     * @throws RefusedTag where the tag is refused, or, by {@link Fault#TOO_MANY_STEPS}, where there are more steps
     */
    public Explanation explain(CharSequence tag, int most) {
        byte[] bytes = Native.bytes(tag);
        long[] ended = Native.ended();
        int[][] steps = new int[1][];
        String lines = held.ask(registry -> Native.explain(registry, bytes, Math.max(most, 0), ended, steps));
        RefusedTag.check(ended, lines, tag);
        List<String> tags = lines.lines().toList();
        int last = tags.size() - 1;
        return new Explanation(IntStream.range(0, last).mapToObj(i -> Step.of(steps[0], 3 * i, tags.get(i))).toList(), tags.get(last));
    }

    /**
     * The fields of a record of the file. The first call reads the records.
     *
     * @param number its number from 1 on, with the header counted, as that of a {@link Step}
     * @return the fields; none where it is not there
     */
    public List<Field> record(int number) {
        long[] ended = Native.ended();
        int[][] lengths = new int[1][];
        byte[] all = held.ask(registry -> Native.record(registry, number, ended, lengths));
        Refusal.of(ended, null);
        String[] texts = new String[lengths[0].length];
        for (int i = 0, at = 0; i < texts.length; at += lengths[0][i] + 1, i++) {
            texts[i] = new String(all, at, lengths[0][i], StandardCharsets.UTF_8);
        }
        return IntStream.range(0, texts.length / 2).mapToObj(i -> new Field(texts[2 * i], texts[2 * i + 1])).toList();
    }

    /** @return whether it is open; {@link #info} says which registry it is */
    @Override
    public String toString() {
        return held.isClosed() ? "Registry[closed]" : "Registry[open]";
    }

    /** @return which registry it is; the digest is taken anew at each call */
    public Info info() {
        byte[] date = new byte[11];
        byte[] sha256 = new byte[32];
        long entries = held.ask(registry -> Native.info(registry, date, sha256));
        String fileDate = new String(date, StandardCharsets.US_ASCII).replace("\0", "");
        return new Info(fileDate, entries, HexFormat.of().formatHex(sha256));
    }
}
