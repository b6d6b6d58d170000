// SPDX-License-Identifier: MIT OR Apache-2.0
package bcp47;

import java.io.Serializable;
import java.util.ArrayList;
import java.util.Arrays;
import java.util.Collections;
import java.util.LinkedHashMap;
import java.util.List;
import java.util.Locale;
import java.util.Map;

/**
 * A tag in conventional case (RFC 5646, 2.1.1), by no registry. It does not change. Tags are equal, and in order, as
 * their texts are: {@link Registry#equivalent} compares what they mean.
 */
public final class Tag implements CharSequence, Comparable<Tag>, Serializable {
    private static final long serialVersionUID = 1;

    /** The class of a tag (RFC 5646, 2.1). */
    public enum Kind {
        /** A langtag, as <code>zh-Hant</code>. */
        LANGTAG,
        /** Private use alone, as <code>x-own</code>. */
        PRIVATE_USE,
        /** One of the 26 grandfathered tags, as <code>i-klingon</code>. */
        GRANDFATHERED
    }

    private static final String[] KINDS = Native.names(Native.PART_KIND);

    /** In conventional case. */
    private final String text;
    private final transient List<Part> parts;

    private Tag(String text, List<Part> parts) {
        this.text = text;
        this.parts = parts;
    }

    /** What a call makes of a text. */
    private static String written(int call, CharSequence text) {
        long[] ended = Native.ended();
        String made = Native.text(call, 0, 0, Native.bytes(text), null, ended);
        RefusedTag.check(ended, null, text);
        return made;
    }

    /**
     * Reads a tag.
     *
     * @param text a text in any letter case
     * @return its tag
     * @throws RefusedTag where the text is no tag
     */
    public static Tag of(CharSequence text) {
        String shown = written(Native.PARTS, text);
        int point = shown.indexOf('.');
        String tag = shown.substring(0, point);
        String kinds = shown.substring(point + 1);
        // A grandfathered tag is one part.
        String[] texts = kinds.length() == 1 ? new String[] {tag} : tag.split("-");
        List<Part> parts = new ArrayList<>();
        for (int i = 0; i < texts.length; i++) {
            parts.add(new Part(KINDS[kinds.charAt(i) - 64], texts[i]));
        }
        return new Tag(tag, List.copyOf(parts));
    }

    /**
     * Reads the tag of a locale.
     *
     * @param locale a locale
     * @return the tag that it writes
     */
    public static Tag of(Locale locale) {
        return of(locale.toLanguageTag());
    }

    /** @return the tag without its last subtag and the singletons that then end it (RFC 4647, 3.4), or null where nothing is left */
    public Tag parent() {
        String parent = written(Native.PARENT, text);
        return parent == null ? null : of(parent);
    }

    /**
     * The tag with one of its parts replaced. {@link Registry#validate} tells whether it is valid.
     *
     * @param kind <code>Language</code> (with its extlangs), <code>Script</code>, <code>Region</code>, <code>Variant</code> (all of them),
     *     <code>Singleton</code> (all extensions) or <code>PrivateUseSingleton</code>
     * @param value what stands there instead, for example <code>AT</code>; nothing, where it is empty
     * @return the tag
     * @throws RefusedTag where the value has not the form of the part
     * @throws IllegalArgumentException where it is no such kind
     */
    public Tag with(String kind, CharSequence value) {
        long[] ended = Native.ended();
        int number = Arrays.asList(KINDS).indexOf(kind);
        String made = Native.text(Native.WITH, 0, number, Native.bytes(text), Native.bytes(value), ended);
        if (ended[0] == Refusal.BAD_CALL) {
            throw new IllegalArgumentException(kind
                    + " can't be replaced: name one of Language, Script, Region, Variant, Singleton, PrivateUseSingleton");
        }
        RefusedTag.check(ended, null, ended[3] == 1 ? text : value);
        return made == null ? this : of(made);
    }

    /**
     * The tag that the name of a POSIX locale stands for.
     *
     * @param name a name, for example <code>sr_RS.UTF-8@latin</code>
     * @return its tag, for example <code>sr-Latn-RS</code>
     * @throws RefusedTag where it is none
     */
    public static Tag ofPosix(CharSequence name) {
        String made = written(Native.POSIX, name);
        return of(made == null ? name : made);
    }

    /** @return the locale of this tag; what Java's locales have no place for is left out */
    public Locale toLocale() {
        return Locale.forLanguageTag(text);
    }

    /** @return the tag of the text that was written, which is read anew */
    private Object readResolve() {
        return of(text);
    }

    /** @return its class */
    public Kind kind() {
        return switch (parts.get(0).kind()) {
            case "Language" -> Kind.LANGTAG;
            case "PrivateUseSingleton" -> Kind.PRIVATE_USE;
            default -> Kind.GRANDFATHERED;
        };
    }

    /** @return its parts, one for each subtag, in their order; a grandfathered tag is one part */
    public List<Part> parts() {
        return parts;
    }

    private List<String> all(String kind) {
        return parts.stream().filter(part -> part.kind().equals(kind)).map(Part::text).toList();
    }

    private String one(String kind) {
        List<String> all = all(kind);
        return all.isEmpty() ? null : all.get(0);
    }

    /** @return the primary language (RFC 5646, 2.2.1), or null for private use alone and for a grandfathered tag */
    public String language() {
        return one("Language");
    }

    /** @return the extended languages (RFC 5646, 2.2.2) */
    public List<String> extlangs() {
        return all("Extlang");
    }

    /** @return the script (RFC 5646, 2.2.3), or null */
    public String script() {
        return one("Script");
    }

    /** @return the region (RFC 5646, 2.2.4), or null */
    public String region() {
        return one("Region");
    }

    /** @return the variants (RFC 5646, 2.2.5) */
    public List<String> variants() {
        return all("Variant");
    }

    /** @return the subtags of each extension, by its singleton (RFC 5646, 2.2.6); of two alike the first counts */
    public Map<String, List<String>> extensions() {
        Map<String, List<String>> found = new LinkedHashMap<>();
        List<String> subtags = null;
        for (Part part : parts) {
            if (part.kind().equals("Singleton")) {
                subtags = new ArrayList<>();
                found.putIfAbsent(part.text(), subtags);
            } else if (part.kind().equals("PrivateUseSingleton")) {
                break;
            } else if (subtags != null) {
                subtags.add(part.text());
            }
        }
        found.replaceAll((singleton, list) -> List.copyOf(list));
        return Collections.unmodifiableMap(found);
    }

    /** @return the subtags for private use (RFC 5646, 2.2.7) */
    public List<String> privateUse() {
        return all("PrivateUse");
    }

    /** @return its text in conventional case */
    @Override
    public String toString() {
        return text;
    }

    @Override
    public int length() {
        return text.length();
    }

    @Override
    public char charAt(int index) {
        return text.charAt(index);
    }

    @Override
    public CharSequence subSequence(int start, int end) {
        return text.subSequence(start, end);
    }

    @Override
    public boolean equals(Object other) {
        return other instanceof Tag tag && text.equals(tag.text);
    }

    @Override
    public int hashCode() {
        return text.hashCode();
    }

    @Override
    public int compareTo(Tag other) {
        return text.compareTo(other.text);
    }
}
