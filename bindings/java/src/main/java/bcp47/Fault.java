// SPDX-License-Identifier: MIT OR Apache-2.0
package bcp47;

// Written by tools/describe.py of bindings/c/names.c.

/** What is wrong with a text, a record or a registry, by the names that the program prints. */
public enum Fault {
    /** A text of more than 1,024 bytes, which is no tag: see whether line ends are missing. */
    TOO_LONG(1),
    /** Nothing between two hyphens, or an empty text: remove a hyphen too many, or the empty line. */
    EMPTY_SUBTAG(2),
    /** A byte that is no ASCII letter, digit or hyphen: write zh-Hant for zh_Hant; remove quotes, spaces, a byte order mark. */
    BAD_BYTE(3),
    /** A subtag of more than 8 letters and digits: put a hyphen where subtags meet. */
    LONG_SUBTAG(4),
    /** The first subtag is no language: begin with a language of 2 to 8 letters, or with x. */
    BAD_LANGUAGE(5),
    /** A subtag that can't stand where it does: order them: language, extlang, script, region, variants, extensions, x. */
    MISPLACED(6),
    /** The text ends after a singleton or x: add what follows it, or remove it. */
    UNFINISHED(7),
    /** The registry lacks the language: correct it (en for eng or English), or get a newer registry. */
    UNKNOWN_LANGUAGE(8),
    /** The registry lacks the extlang: correct it, or get a newer registry. */
    UNKNOWN_EXTLANG(9),
    /** The extlang belongs to another language: put it after its language (zh-yue), or leave the language out (yue). */
    EXTLANG_PREFIX(10),
    /** A second extlang: keep only one. */
    TOO_MANY_EXTLANGS(11),
    /** The registry lacks the script: correct it, or get a newer registry. */
    UNKNOWN_SCRIPT(12),
    /** The registry lacks the region: correct it (GB for UK), or get a newer registry. */
    UNKNOWN_REGION(13),
    /** The registry lacks the variant: correct it, or get a newer registry. */
    UNKNOWN_VARIANT(14),
    /** A variant stands twice: remove one. */
    DUPLICATE_VARIANT(15),
    /** An extension stands twice: join the two, or remove one. */
    DUPLICATE_SINGLETON(16),
    /** A t extension without its form: mend it: a language, and fields such as m0-names. */
    BAD_TRANSFORM(17),
    /** A line of more than 65,536 bytes: it is no registry, or its line feeds are missing. */
    LINE_TOO_LONG(18),
    /** A line that is not UTF-8: convert the file, or unpack it. */
    NOT_UTF8(19),
    /** A continuation with no field before it: remove the spaces that begin the line. */
    LEADING_CONTINUATION(20),
    /** Neither a field, %%, nor a continuation. This is no registry, or not its plain text: get one from https://www.iana.org/assignments/language-subtag-registry/language-subtag-registry, or remove a byte order mark. */
    BAD_LINE(21),
    /** Record 100,001: cut the file. */
    TOO_MANY_RECORDS(22),
    /** The file or the input can't be read to its end: see whether it is a folder, or closed, or a disk fails. */
    READ(23),
    /** After 10,000,000 reads the input had not ended: write larger pieces, or start the program again. */
    TOO_MANY_TURNS(24),
    /** Reading failed before, at the place that is named: see what was answered then. */
    FAILED(25),
    /** Type, Subtag, Tag or Preferred-Value stands twice: keep one. */
    REPEATED_FIELD(26),
    /** There is no Type: add it. */
    MISSING_TYPE(27),
    /** The Type is none of the seven: mend it. */
    UNKNOWN_TYPE(28),
    /** No Subtag, or no Tag where one is wanted: add it. */
    MISSING_NAME(29),
    /** A range without its form: write two subtags of one length with two full stops between them, the lower one first. */
    BAD_RANGE(30),
    /** A Subtag without the form of its Type: mend it. */
    BAD_SUBTAG(31),
    /** A Tag without the form of its Type: mend it. */
    BAD_TAG(32),
    /** A Preferred-Value without the form of its Type: mend it. */
    BAD_PREFERRED(33),
    /** A Prefix that is no list of subtags: mend it. */
    BAD_PREFIX(34),
    /** An earlier record has the same kind and name, or the same tag: remove one of the two. */
    C1(35),
    /** The value of a language, script or region is not registered as the same kind: register it, or mend the Preferred-Value. */
    C2(36),
    /** The preferred values lead round in a circle: mend one of them. */
    C3(37),
    /** An extlang without one Prefix that is a registered language with no value, or it and its value lead to two languages: mend the record. */
    C4(38),
    /** The value of a variant is not registered, or leads on from a variant to a language: mend the Preferred-Value. */
    C5(39),
    /** A variant whose value is a language has no Prefix, or one that is no registered language with no value: mend it. */
    C6(40),
    /** A Prefix of a variant is no langtag, or has extensions or private use: mend it. */
    C7(41),
    /** A grandfathered record has none of the 26 tags, or its subtags are registered so that its tag is valid by its parts: remove one of them. */
    C8(42),
    /** The value of a whole tag, or a redundant tag with a value, is no valid langtag without extensions and private use: mend it. */
    C9(43),
    /** The value of a whole tag leads on to another whole tag, or repeats a variant: mend the Preferred-Value. */
    C10(44),
    /** The subtags of a redundant tag lead to another tag than its Preferred-Value: mend the Preferred-Value. */
    C11(45),
    /** A range has a Preferred-Value: remove it. */
    C12(46),
    /** The newer registry lacks a subtag of the older one, or has no one range that holds a range of it: register it. */
    U1(47),
    /** In the newer registry a subtag and its older value lead to two subtags: lead both to one. */
    U2(48),
    /** The newer registry lacks an extlang, or gives it another Prefix or leads it elsewhere: keep what it was. */
    U3(49),
    /** In the newer registry a variant no longer becomes a language, or has other Prefixes, or becomes another language: keep what it was. */
    U4(50),
    /** In the newer registry a variant of the older one becomes a language: remove its Preferred-Value. */
    U5(51),
    /** In the newer registry a whole tag and its older value lead to two canonical tags: lead both to one. */
    U6(52),
    /** The first subtag of a language range has a digit: begin with a language of letters alone, or with *. */
    BAD_FIRST(53),
    /** A range of the header has a * beside other subtags: write it without *, or * alone. */
    EXTENDED_RANGE(54),
    /** What follows a range of the header is no weight: write ;q= and a number from 0 to 1 with up to three decimals, or a comma. */
    BAD_WEIGHT(55),
    /** Replacements would repeat the variant that is named: remove one of the variants. */
    REPLACEMENT_REPEATS(-3),
    /** The explanation has more steps than were allowed: allow more, or leave the tag unexplained. */
    TOO_MANY_STEPS(-16),
    /** The registry has no entries: the file is empty, or was not downloaded or written to its end: get it again. */
    NO_ENTRIES(-17);

    private static final Fault[] ALL = values();

    private final int number;
    private final String text;
    private final String help;

    /** The number of a fault, or that of a status, below 0. */
    Fault(int number) {
        this.number = number;
        text = Native.name(isStatus() ? Native.STATUS : Native.FAULT, Math.abs(number));
        help = Native.name(isStatus() ? Native.STATUS_HELP : Native.FAULT_HELP, Math.abs(number));
    }

    /** The fault of an outcome, or else its status; null where that is no refusal. */
    static Fault of(int status, int fault) {
        if (fault > 0) {
            return ALL[fault - 1];
        }
        for (Fault one : ALL) {
            if (one.number == -status) {
                return one;
            }
        }
        return null;
    }

    boolean isStatus() {
        return number < 0;
    }

    /** @return what it means, and what to do, in a sentence */
    public String help() {
        return help;
    }

    /** @return the name that the program prints, for example <code>BadByte</code> */
    @Override
    public String toString() {
        return text;
    }
}
