/* Each call once, and what bad input and bad arguments get. Arguments: the sample registry,
   and its SHA-256, number of entries and File-Date. */
#include "support.h"

#define REPEATS "ja-Latn-hepburn-alalc97-heploc"
static char buffer[2048];
static bcp47_registry *registry;

/* A text that is written has a zero after it. */
static int is_text(bcp47_outcome o, const char *text) {
    return o.status == BCP47_DONE && o.length == strlen(text) && !strcmp(buffer, text) && !o.text && !o.reserved;
}

static int is_ended(bcp47_outcome o, int status) {
    return o.status == status && !o.detail && !o.place && !o.length && !o.text && !o.reserved;
}

#define ASK(call, text) call(registry, text, strlen(text), buffer, sizeof buffer)
#define EQUAL(first, second) bcp47_equivalent(registry, first, strlen(first), second, strlen(second), buffer, sizeof buffer)
#define MATCH(scheme, range, tag) bcp47_match(registry, scheme, range, strlen(range), tag, strlen(tag), buffer, sizeof buffer)

static void refused_registry(const char *bytes, int status, size_t place, const char *line) {
    bcp47_registry *refused = registry;
    bcp47_outcome o = bcp47_open(&refused, bytes, strlen(bytes), buffer, sizeof buffer);
    CHECK(o.status == status && o.place == place && !refused);
    CHECK(o.length == strlen(line) && !strcmp(buffer, line));
    /* The reason is told without the line too. */
    memset(buffer, '#', sizeof buffer);
    refused = registry;
    o = bcp47_open(&refused, bytes, strlen(bytes), buffer, strlen(line) - 1);
    CHECK(o.status == status && o.place == place && !refused && o.length == strlen(line) && buffer[0] == '#');
    o = bcp47_open(&refused, bytes, strlen(bytes), buffer, strlen(line));
    CHECK(o.status == status && !memcmp(buffer, line, o.length) && buffer[o.length] == '#');
    o = bcp47_open(&refused, bytes, strlen(bytes), NULL, 0);
    CHECK(o.status == status && o.length == strlen(line));
}

/* The parts of a tag in one text: each kind and the bytes that it is. */
static int has_parts(const char *tag, const char *shown, const char *wanted) {
    bcp47_part parts[BCP47_PARTS];
    char text[BCP47_TEXT], told[2048] = "";
    bcp47_outcome o = bcp47_parts(tag, strlen(tag), text, sizeof text, parts, BCP47_PARTS);
    if (o.status || o.length != strlen(shown) || strcmp(text, shown)) return 0;
    for (size_t i = 0; i < o.place; i++)
        sprintf(told + strlen(told), "%s%s %.*s", i ? ", " : "", bcp47_part_kind_name(parts[i].kind), (int)parts[i].length,
                text + parts[i].start);
    return !strcmp(told, wanted);
}

/* The tags are those of RFC 5646, 2.2 and appendix A, RFC 6067, 2.1 and RFC 6497, 2.2. */
static void parts(void) {
    bcp47_part room[4], kept = {77, 77, 77};
    CHECK(has_parts("ZH-yue-hANT-hk", "zh-yue-Hant-HK", "Language zh, Extlang yue, Script Hant, Region HK"));
    CHECK(has_parts("sl-IT-nedis-1994", "sl-IT-nedis-1994", "Language sl, Region IT, Variant nedis, Variant 1994"));
    CHECK(has_parts("de-u-attr-co-phonebk", "de-u-attr-co-phonebk", "Language de, Singleton u, Attribute attr, Key co, Type phonebk"));
    CHECK(has_parts("und-t-und-cyrl-m0-ungegn", "und-t-und-cyrl-m0-ungegn",
                    "Language und, Singleton t, SourceLanguage und, SourceScript cyrl, Separator m0, Value ungegn"));
    CHECK(has_parts("en-t-zh-yue-hk-1994", "en-t-zh-yue-hk-1994",
                    "Language en, Singleton t, SourceLanguage zh, SourceExtlang yue, SourceRegion hk, SourceVariant 1994"));
    CHECK(has_parts("en-a-bbb-x-A-ccc", "en-a-bbb-x-a-ccc",
                    "Language en, Singleton a, ExtensionSubtag bbb, PrivateUseSingleton x, PrivateUse a, PrivateUse ccc"));
    CHECK(has_parts("x-own", "x-own", "PrivateUseSingleton x, PrivateUse own"));
    CHECK(has_parts("I-KLINGON", "i-klingon", "Grandfathered i-klingon"));
    bcp47_outcome o = bcp47_parts("en_US", 5, buffer, sizeof buffer, room, 4);
    CHECK(o.status == BCP47_NOT_A_TAG && o.detail == BCP47_FAULT_BAD_BYTE && o.place == 1 && o.length == 0);
    /* What does not fit is not written. */
    for (int k = 0; k < 4; k++) room[k] = kept;
    memset(buffer, '#', sizeof buffer);
    o = bcp47_parts("zh-yue", 6, buffer, 6, room, 1);
    CHECK(o.status == BCP47_BUFFER_TOO_SMALL && o.place == 2 && o.length == 6 && buffer[0] == '#' && room[0].kind == 77);
    o = bcp47_parts("zh-yue", 6, buffer, 5, room, 2);
    CHECK(o.status == BCP47_BUFFER_TOO_SMALL && o.place == 2 && o.length == 6 && buffer[0] == '#' && room[0].kind == 77);
    o = bcp47_parts("zh-yue", 6, NULL, 0, NULL, 0);
    CHECK(o.status == BCP47_BUFFER_TOO_SMALL && o.place == 2 && o.length == 6);
    o = bcp47_parts("zh-yue", 6, buffer, 6, room, 2);
    CHECK(o.status == BCP47_DONE && o.place == 2 && !memcmp(buffer, "zh-yue#", 7) && room[1].start == 3 && room[2].kind == 77);
    o = bcp47_parts(NULL, 0, buffer, sizeof buffer, room, 4);
    CHECK(o.status == BCP47_NOT_A_TAG && o.place == 1);
    /* Lengths that no array has, and rooms over one another. */
    CHECK(is_ended(bcp47_parts("en", 2, buffer, sizeof buffer, NULL, 1), BCP47_BAD_CALL));
    CHECK(is_ended(bcp47_parts("en", 2, buffer, sizeof buffer, room, SIZE_MAX), BCP47_BAD_CALL));
    CHECK(is_ended(bcp47_parts("en", 2, NULL, 1, room, 4), BCP47_BAD_CALL));
    CHECK(is_ended(bcp47_parts(NULL, 1, buffer, sizeof buffer, room, 4), BCP47_BAD_CALL));
    CHECK(is_ended(bcp47_parts((char *)room, 2, buffer, sizeof buffer, room, 4), BCP47_BAD_CALL));
    CHECK(is_ended(bcp47_parts("en", 2, (char *)room, 9, room, 4), BCP47_BAD_CALL));
    CHECK(is_ended(bcp47_parts(buffer, 2, buffer, sizeof buffer, room, 4), BCP47_BAD_CALL));
}

static int is_refused(bcp47_outcome o, int status, int text, size_t place) {
    return o.status == status && o.text == text && o.place == place;
}

#define ALONE(call, text) call(text, strlen(text), buffer, sizeof buffer)

/* The first are those of RFC 4647, 3.4. */
static void parents(void) {
    static const char *const chain[] = {"zh-Hant-CN-x-private1-private2", "zh-Hant-CN-x-private1", "zh-Hant-CN", "zh-Hant", "zh", ""};
    for (int i = 0; i < 5; i++) CHECK(is_text(ALONE(bcp47_parent, chain[i]), chain[i + 1]));
    CHECK(is_text(ALONE(bcp47_parent, "EN-a-bbb-x-a-b"), "en-a-bbb") && is_text(ALONE(bcp47_parent, "x-own"), ""));
    CHECK(is_text(ALONE(bcp47_parent, "i-klingon"), "") && is_text(ALONE(bcp47_parent, "en-GB-oed"), ""));
    CHECK(ALONE(bcp47_parent, "en_US").status == BCP47_NOT_A_TAG);
    CHECK(bcp47_parent("zh-Hant", 7, NULL, 0).status == BCP47_BUFFER_TOO_SMALL);
    CHECK(is_ended(bcp47_parent(NULL, 1, buffer, 9), BCP47_BAD_CALL));
}

static bcp47_outcome with(const char *tag, int part, const char *value) {
    return bcp47_with(tag, strlen(tag), part, value, strlen(value), buffer, sizeof buffer);
}

static int is_fault(bcp47_outcome o, int text, const char *name, size_t place) {
    return is_refused(o, BCP47_NOT_A_TAG, text, place) && !strcmp(bcp47_fault_name(o.detail), name) && !o.length;
}

/* The tags are those of RFC 5646, 2.2 and appendix A. */
static void changed(void) {
    static const struct {
        const char *tag;
        int part;
        const char *value, *made;
    } rows[] = {
        {"ZH-tw", BCP47_PART_SCRIPT, "hANT", "zh-Hant-TW"},
        {"zh-Hant-TW", BCP47_PART_SCRIPT, "", "zh-TW"},
        {"zh-cmn-Hans-CN", BCP47_PART_LANGUAGE, "zh-gan", "zh-gan-Hans-CN"},
        {"zh-cmn-Hans-CN", BCP47_PART_LANGUAGE, "CMN", "cmn-Hans-CN"},
        {"en-US-x-twain", BCP47_PART_REGION, "gb", "en-GB-x-twain"},
        {"es-419", BCP47_PART_REGION, "", "es"},
        {"sl-IT", BCP47_PART_VARIANT, "rozaj-biske", "sl-IT-rozaj-biske"},
        {"sl-rozaj-biske-1994", BCP47_PART_VARIANT, "NEDIS", "sl-nedis"},
        {"de-1996", BCP47_PART_VARIANT, "", "de"},
        {"de-DE-u-co-phonebk-x-own", BCP47_PART_SINGLETON, "T-IT-u-kn", "de-DE-t-it-u-kn-x-own"},
        {"de-DE-u-co-phonebk-x-own", BCP47_PART_SINGLETON, "", "de-DE-x-own"},
        {"az-Arab", BCP47_PART_PRIVATE_USE_SINGLETON, "x-AZE-derbend", "az-Arab-x-aze-derbend"},
        {"az-Arab-x-aze", BCP47_PART_PRIVATE_USE_SINGLETON, "", "az-Arab"},
        {"art-Latn-lojban", BCP47_PART_SCRIPT, "", "art-lojban"},
    };
    for (size_t i = 0; i < sizeof rows / sizeof *rows; i++) CHECK(is_text(with(rows[i].tag, rows[i].part, rows[i].value), rows[i].made));
    CHECK(is_fault(with("en_US", BCP47_PART_SCRIPT, "Latn"), 1, "BadByte", 1));
    CHECK(is_fault(with("i-klingon", BCP47_PART_REGION, "US"), 1, "BadLanguage", 1));
    CHECK(is_fault(with("zh-min-nan", BCP47_PART_REGION, "US"), 1, "BadLanguage", 1));
    CHECK(is_fault(with("x-own", BCP47_PART_REGION, "U_S"), 1, "BadLanguage", 1));
    CHECK(is_fault(with("zh", BCP47_PART_SCRIPT, "La_n"), 2, "BadByte", 1));
    CHECK(is_fault(with("zh", BCP47_PART_SCRIPT, "TW"), 2, "Misplaced", 1));
    CHECK(is_fault(with("zh", BCP47_PART_SCRIPT, "Hant-TW"), 2, "Misplaced", 2));
    CHECK(is_fault(with("de", BCP47_PART_VARIANT, "1996-1901-DE"), 2, "Misplaced", 3));
    CHECK(is_fault(with("de", BCP47_PART_SINGLETON, "u-co-x-own"), 2, "Misplaced", 3));
    CHECK(is_fault(with("de", BCP47_PART_SINGLETON, "u"), 2, "Unfinished", 2));
    CHECK(is_fault(with("de", BCP47_PART_PRIVATE_USE_SINGLETON, "own"), 2, "Misplaced", 1));
    CHECK(is_fault(with("de", BCP47_PART_LANGUAGE, ""), 2, "EmptySubtag", 1));
    CHECK(is_fault(with("de", BCP47_PART_LANGUAGE, "en-US"), 2, "Misplaced", 2));
    CHECK(is_fault(with("de", BCP47_PART_LANGUAGE, "x-own"), 2, "BadLanguage", 1));
    /* 1,021 bytes of private use fit a tag of three bytes more, and no other. */
    static char longest[1023] = "x-";
    memset(longest + 2, 'a', 1020);
    for (int i = 8; i < 1020; i += 7) longest[i] = '-';
    longest[1021] = 0;
    CHECK(with("de", BCP47_PART_PRIVATE_USE_SINGLETON, longest).length == 1024 && !strcmp(buffer + 3, longest));
    CHECK(is_fault(with("gsw", BCP47_PART_PRIVATE_USE_SINGLETON, longest), 0, "TooLong", 0));
    longest[1021] = 'a';
    CHECK(is_fault(with("de", BCP47_PART_PRIVATE_USE_SINGLETON, longest), 2, "TooLong", 0));
    static const int none[] = {-1, 0, BCP47_PART_EXTLANG, BCP47_PART_EXTENSION_SUBTAG, BCP47_PART_PRIVATE_USE, 21};
    for (size_t i = 0; i < sizeof none / sizeof *none; i++) CHECK(is_ended(with("de", none[i], "DE"), BCP47_BAD_CALL));
    memset(buffer, '#', sizeof buffer);
    bcp47_outcome o = bcp47_with("de", 2, BCP47_PART_REGION, "DE", 2, buffer, 4);
    CHECK(o.status == BCP47_BUFFER_TOO_SMALL && o.length == 5 && buffer[0] == '#');
    CHECK(bcp47_with("de", 2, BCP47_PART_REGION, "DE", 2, buffer, 5).length == 5 && !memcmp(buffer, "de-DE#", 6));
    CHECK(is_text(bcp47_with("de-DE", 5, BCP47_PART_REGION, NULL, 0, buffer, sizeof buffer), "de"));
    CHECK(bcp47_with("de", 2, BCP47_PART_REGION, "DE", 2, NULL, 0).status == BCP47_BUFFER_TOO_SMALL);
    CHECK(is_ended(bcp47_with(NULL, 1, BCP47_PART_REGION, "DE", 2, buffer, 9), BCP47_BAD_CALL));
    CHECK(is_ended(bcp47_with("de", 2, BCP47_PART_REGION, NULL, 1, buffer, 9), BCP47_BAD_CALL));
    CHECK(is_ended(bcp47_with("de", 2, BCP47_PART_REGION, buffer, 2, buffer, 9), BCP47_BAD_CALL));
    CHECK(is_ended(bcp47_with(buffer, 2, BCP47_PART_REGION, "DE", 2, buffer, 9), BCP47_BAD_CALL));
}

/* Names of the GNU C Library, and forms of ICU. */
static void locales(void) {
    static const char *const rows[][2] = {
        {"en_US.UTF-8", "en-US"}, {"de_DE@euro", "de-DE"}, {"sr_RS.UTF-8@latin", "sr-Latn-RS"}, {"tt_RU@iqtelif", "tt-Latn-RU"},
        {"uz_UZ@cyrillic", "uz-Cyrl-UZ"}, {"ks_IN@devanagari", "ks-Deva-IN"}, {"ca_ES@valencia", "ca-ES-valencia"},
        {"aa_ER@saaho", "ssy-ER"}, {"gez_ET@abegede", "gez-ET"}, {"ber_MA", "ber-MA"}, {"eo", "eo"}, {"sr_Latn_RS", "sr-Latn-RS"},
        {"C", "en-US-u-va-posix"}, {"C.UTF-8", "en-US-u-va-posix"}, {"POSIX", "en-US-u-va-posix"}, {"zh_Hant-TW", "zh-Hant-TW"},
    };
    for (size_t i = 0; i < sizeof rows / sizeof *rows; i++) CHECK(is_text(ALONE(bcp47_posix, rows[i][0]), rows[i][1]));
    CHECK(is_fault(ALONE(bcp47_posix, "en_US@quot"), 0, "BadByte", 0) && is_fault(ALONE(bcp47_posix, "sr_RS@latin.UTF-8"), 0, "BadByte", 0));
    CHECK(is_fault(ALONE(bcp47_posix, "en_U S"), 0, "BadByte", 2) && is_fault(ALONE(bcp47_posix, "@euro"), 0, "EmptySubtag", 1));
    CHECK(is_fault(ALONE(bcp47_posix, ".UTF-8@latin"), 0, "EmptySubtag", 1) && is_fault(ALONE(bcp47_posix, "c"), 0, "BadLanguage", 1));
    CHECK(bcp47_posix("en_US", 5, NULL, 0).status == BCP47_BUFFER_TOO_SMALL);
    CHECK(is_ended(bcp47_posix(NULL, 1, buffer, 9), BCP47_BAD_CALL));
}

static void canonical(void) {
    CHECK(is_text(ASK(bcp47_canonical, "zh-yue"), "yue"));
    CHECK(is_text(ASK(bcp47_canonical, "I-KLINGON"), "tlh"));
    bcp47_outcome o = ASK(bcp47_canonical, "en_US");
    CHECK(o.status == BCP47_NOT_A_TAG && o.place == 1 && o.length == 0 && buffer[0] == 0);
    o = ASK(bcp47_canonical, "xx-Latn");
    CHECK(o.status == BCP47_INVALID && o.place == 1);
    o = bcp47_canonical(registry, NULL, 0, buffer, sizeof buffer);
    CHECK(o.status == BCP47_NOT_A_TAG && o.place == 1);
    memset(buffer, '#', sizeof buffer);
    o = bcp47_canonical(registry, "zh-yue", 6, buffer, 2);
    CHECK(o.status == BCP47_BUFFER_TOO_SMALL && o.length == 3 && buffer[0] == '#');
    o = bcp47_canonical(registry, "zh-yue", 6, NULL, 0);
    CHECK(o.status == BCP47_BUFFER_TOO_SMALL && o.length == 3);
    o = bcp47_canonical(registry, "zh-yue", 6, buffer, 3);
    CHECK(o.status == BCP47_DONE && o.length == 3 && !memcmp(buffer, "yue#", 4));
    o = bcp47_canonical(registry, "zh-yue", 6, buffer, 5);
    CHECK(is_text(o, "yue") && buffer[4] == '#');
    o = bcp47_canonical(registry, REPEATS, strlen(REPEATS), buffer, sizeof buffer);
    CHECK(o.status == BCP47_REPLACEMENT_REPEATS && o.length == 7 && !strcmp(buffer, "alalc97"));
    static char longest[1025];
    memset(longest, 'a', sizeof longest);
    o = bcp47_canonical(registry, longest, sizeof longest, buffer, sizeof buffer);
    CHECK(o.status == BCP47_NOT_A_TAG && o.detail == BCP47_FAULT_TOO_LONG && o.place == 0);
}

static void classify(const bcp47_registry *by) {
    bcp47_outcome o = bcp47_classify(by, "EN-gb-OED", 9, buffer, sizeof buffer);
    CHECK(is_text(o, "en-GB-oed") && o.detail == BCP47_GRANDFATHERED);
    o = bcp47_classify(by, "ZH-cmn-hANS-cn", 14, buffer, sizeof buffer);
    CHECK(is_text(o, "zh-cmn-Hans-CN") && o.detail == BCP47_LANGTAG);
    o = bcp47_classify(by, "X-Own", 5, buffer, sizeof buffer);
    CHECK(is_text(o, "x-own") && o.detail == BCP47_PRIVATE_USE);
    CHECK(bcp47_classify(by, "-", 1, buffer, sizeof buffer).status == BCP47_NOT_A_TAG);
    CHECK(bcp47_classify(by, NULL, 0, NULL, 0).status == BCP47_NOT_A_TAG);
    o = bcp47_classify(by, "EN", 2, NULL, 0);
    CHECK(o.status == BCP47_BUFFER_TOO_SMALL && o.length == 2);
}

static void equal(void) {
    CHECK(is_ended(EQUAL("zh-yue", "YUE"), BCP47_DONE));
    CHECK(is_ended(EQUAL("zh-yue", "zh"), BCP47_DIFFERENT));
    CHECK(is_ended(bcp47_equivalent(registry, "zh", 2, "yue", 3, NULL, 0), BCP47_DIFFERENT));
    CHECK(is_refused(EQUAL("zh", "xx"), BCP47_INVALID, 2, 1));
    CHECK(is_refused(EQUAL("xx", "zh"), BCP47_INVALID, 1, 1));
    CHECK(is_refused(EQUAL("", "xx"), BCP47_NOT_A_TAG, 1, 1));
    CHECK(is_refused(EQUAL("en_US", "x"), BCP47_NOT_A_TAG, 1, 1));
    CHECK(is_refused(EQUAL("en-GB", "en-x"), BCP47_NOT_A_TAG, 2, 3));
    CHECK(is_refused(EQUAL("xx", "en_US"), BCP47_NOT_A_TAG, 2, 1));
    CHECK(is_refused(EQUAL("en-yy", "xx"), BCP47_INVALID, 1, 2));
    memset(buffer, '#', sizeof buffer);
    bcp47_outcome o = EQUAL(REPEATS, "en");
    CHECK(is_refused(o, BCP47_REPLACEMENT_REPEATS, 1, 0) && o.length == 7 && !strcmp(buffer, "alalc97"));
    o = EQUAL("en", REPEATS);
    CHECK(is_refused(o, BCP47_REPLACEMENT_REPEATS, 2, 0) && o.length == 7);
    o = EQUAL("xx", REPEATS);
    CHECK(is_refused(o, BCP47_INVALID, 1, 1) && o.length == 0);
    memset(buffer, '#', sizeof buffer);
    o = bcp47_equivalent(registry, "en", 2, REPEATS, strlen(REPEATS), buffer, 6);
    CHECK(is_refused(o, BCP47_REPLACEMENT_REPEATS, 2, 0) && o.length == 7 && buffer[0] == '#');
    o = bcp47_equivalent(registry, "en", 2, REPEATS, strlen(REPEATS), buffer, 7);
    CHECK(o.length == 7 && !memcmp(buffer, "alalc97#", 8));
}

/* The examples of RFC 4647, 3.3.1, 3.3.2 and 3.4, as far as the sample has their subtags, and equivalent ranges and tags. */
static void match(void) {
    static const struct {
        int scheme;
        const char *range, *tag;
        int status;
    } rows[] = {
        {BCP47_BASIC, "de-de", "de-DE-1996", BCP47_DONE},
        {BCP47_BASIC, "de-de", "de-Latn-DE", BCP47_DIFFERENT},
        {BCP47_BASIC, "*", "x-own", BCP47_DONE},
        {BCP47_BASIC, "*-DE", "en", BCP47_DONE},
        {BCP47_BASIC, "zh-yue", "yue-GB", BCP47_DONE},
        {BCP47_BASIC, "zh", "zh-yue", BCP47_DONE},
        {BCP47_BASIC, "zh", "yue-GB", BCP47_DONE},
        {BCP47_BASIC, "yue-*", "zh-yue-GB", BCP47_DONE},
        {BCP47_BASIC, "iw-*", "he-GB", BCP47_DONE},
        {BCP47_BASIC, "yue", "zh-GB", BCP47_DIFFERENT},
        {BCP47_BASIC, "iw", "he", BCP47_DONE},
        {BCP47_BASIC, "xx", "en", BCP47_DIFFERENT},
        {BCP47_EXTENDED, "de-*-DE", "de-DE", BCP47_DONE},
        {BCP47_EXTENDED, "de-*-DE", "de-de", BCP47_DONE},
        {BCP47_EXTENDED, "de-*-DE", "de-Latn-DE", BCP47_DONE},
        {BCP47_EXTENDED, "de-DE", "de-DE-x-goethe", BCP47_DONE},
        {BCP47_EXTENDED, "de-DE", "de-Latn-DE-1996", BCP47_DONE},
        {BCP47_EXTENDED, "de-DE", "de", BCP47_DIFFERENT},
        {BCP47_EXTENDED, "de-DE", "de-x-DE", BCP47_DIFFERENT},
        {BCP47_EXTENDED, "de-DE", "de-Latn", BCP47_DIFFERENT},
        {BCP47_EXTENDED, "*-DE", "de-Latn-DD", BCP47_DONE},
        {BCP47_EXTENDED, "zh-yue", "yue-Hans-GB", BCP47_DONE},
        {BCP47_LOOKUP, "zh-Hans-XA-x-private1-private2", "zh-Hans-XA-x-private1-private2", BCP47_DONE},
        {BCP47_LOOKUP, "zh-Hans-XA-x-private1-private2", "zh-Hans-XA-x-private1", BCP47_DONE},
        {BCP47_LOOKUP, "zh-Hans-XA-x-private1-private2", "zh-Hans-XA", BCP47_DONE},
        {BCP47_LOOKUP, "zh-Hans-XA-x-private1-private2", "zh-Hans", BCP47_DONE},
        {BCP47_LOOKUP, "zh-Hans-XA-x-private1-private2", "zh", BCP47_DONE},
        {BCP47_LOOKUP, "zh-Hans-XA-x-private1-private2", "zh-XA", BCP47_DIFFERENT},
        {BCP47_LOOKUP, "zh-yue-GB", "yue", BCP47_DONE},
        {BCP47_LOOKUP, "yue-GB", "zh", BCP47_DONE},
        {BCP47_BASIC, "sgn", "gsg", BCP47_DONE},
        {BCP47_BASIC, "sgn-BE", "sfb", BCP47_DONE},
        {BCP47_BASIC, "sgn-BE", "gsg", BCP47_DIFFERENT},
        {BCP47_EXTENDED, "gsg", "sgn-DE-x-a", BCP47_DONE},
        {BCP47_LOOKUP, "gsg", "sgn", BCP47_DONE},
        {BCP47_LOOKUP, "de", "de-DE", BCP47_DIFFERENT},
        {BCP47_LOOKUP, "*", "de", BCP47_DIFFERENT},
    };
    for (size_t i = 0; i < sizeof rows / sizeof *rows; i++) {
        if (!is_ended(MATCH(rows[i].scheme, rows[i].range, rows[i].tag), rows[i].status)) fprintf(stderr, "%s %s\n", rows[i].range, rows[i].tag);
        CHECK(is_ended(MATCH(rows[i].scheme, rows[i].range, rows[i].tag), rows[i].status));
    }
    CHECK(is_ended(bcp47_match(registry, BCP47_BASIC, "zh", 2, "yue", 3, NULL, 0), BCP47_DONE));
}

static int is_no_range(const char *range, const char *fault) {
    bcp47_outcome o = MATCH(BCP47_EXTENDED, range, "en_US");
    return is_refused(o, BCP47_NOT_A_TAG, 1, 0) && !strcmp(bcp47_fault_name(o.detail), fault);
}

static void match_refused(void) {
    static const int wrong[] = {0, 4, -1, 257, INT32_MAX, INT32_MIN};
    CHECK(is_no_range("", "EmptySubtag") && is_no_range("en--DE", "EmptySubtag") && is_no_range("en_US", "BadByte"));
    CHECK(is_no_range("de-**", "BadByte") && is_no_range("de-abcdefghi", "LongSubtag") && is_no_range("1996-de", "BadFirst"));
    CHECK(is_no_range("*-1996-de_1", "BadByte"));
    CHECK(bcp47_match(registry, BCP47_BASIC, NULL, 0, "en", 2, NULL, 0).text == 1);
    CHECK(is_refused(MATCH(BCP47_BASIC, "en", "en_US"), BCP47_NOT_A_TAG, 2, 1));
    CHECK(is_refused(MATCH(BCP47_BASIC, "*", "*"), BCP47_NOT_A_TAG, 2, 1));
    CHECK(is_refused(MATCH(BCP47_LOOKUP, "xx-*", "en-yy"), BCP47_INVALID, 2, 2));
    CHECK(is_refused(MATCH(BCP47_LOOKUP, "xx", "xx"), BCP47_INVALID, 2, 1));
    memset(buffer, '#', sizeof buffer);
    bcp47_outcome o = MATCH(BCP47_BASIC, REPEATS, "en_US");
    CHECK(is_refused(o, BCP47_REPLACEMENT_REPEATS, 1, 0) && o.length == 7 && !strcmp(buffer, "alalc97"));
    memset(buffer, '#', sizeof buffer);
    o = MATCH(BCP47_BASIC, "ja-*", REPEATS);
    CHECK(is_refused(o, BCP47_REPLACEMENT_REPEATS, 2, 0) && o.length == 7 && !strcmp(buffer, "alalc97"));
    memset(buffer, '#', sizeof buffer);
    o = bcp47_match(registry, BCP47_BASIC, "ja", 2, REPEATS, strlen(REPEATS), buffer, 6);
    CHECK(is_refused(o, BCP47_REPLACEMENT_REPEATS, 2, 0) && o.length == 7 && buffer[0] == '#');
    for (size_t i = 0; i < sizeof wrong / sizeof *wrong; i++) CHECK(is_ended(MATCH(wrong[i], "en", "en_US"), BCP47_BAD_CALL));
}

/* ---- tags of which one is served */

#define BEST(available, header) bcp47_best(available, header, strlen(header))

static bcp47_available *prepared(const char *const *tags, size_t count) {
    bcp47_available *available = NULL;
    size_t lengths[16];
    for (size_t i = 0; i < count; i++) lengths[i] = strlen(tags[i]);
    CHECK(is_ended(bcp47_available_open(&available, registry, tags, lengths, count), BCP47_DONE));
    return available;
}

static int is_served(bcp47_available *available, const char *header, size_t place) {
    bcp47_outcome o = BEST(available, header);
    return o.status == BCP47_DONE && o.place == place && !o.detail && !o.length && !o.text && !o.reserved;
}

static int is_bad_header(bcp47_outcome o, size_t place, const char *fault) {
    return o.status == BCP47_BAD_HEADER && o.place == place && !strcmp(bcp47_fault_name(o.detail), fault) && !o.length && !o.text;
}

/* The header of RFC 9110, 12.5.4, and others, over tags that are equivalent to what they ask for. */
static void best(void) {
    static const char *const tags[] = {"en-GB", "zh-yue", "iw", "de", "ja"};
    static const struct {
        const char *header;
        size_t place;
    } rows[] = {
        {"da, en-gb;q=0.8, en;q=0.7", 1}, {"de-DE, en;q=0.5", 4}, {"yue", 2}, {"zh", 2}, {"zh-yue-GB, en", 2}, {"he", 3},
        {"en", 1},       {"fr", 0},       {"", 0},            {"*", 1},          {"*, en;q=0", 2},
        {"*;q=0.1, ja;q=0.5", 5}, {"de;q=0, de-DE", 0}, {"de;q=0, de-DE, *;q=0.1", 1},
    };
    bcp47_available *available = prepared(tags, 5);
    for (size_t i = 0; i < sizeof rows / sizeof *rows; i++) {
        if (!is_served(available, rows[i].header, rows[i].place)) fprintf(stderr, "%s\n", rows[i].header);
        CHECK(is_served(available, rows[i].header, rows[i].place));
    }
    CHECK(is_bad_header(BEST(available, "de, en_US"), 2, "BadByte") && is_bad_header(BEST(available, "de;q=2"), 1, "BadWeight"));
    CHECK(is_bad_header(BEST(available, "de, , de-*"), 3, "ExtendedRange"));
    CHECK(is_ended(BEST(available, REPEATS), BCP47_REPLACEMENT_REPEATS));
    CHECK(is_ended(bcp47_best(available, NULL, 1), BCP47_BAD_CALL) && is_ended(bcp47_best(NULL, "de", 2), BCP47_NOT_OPEN));
    CHECK(is_ended(bcp47_best(available, NULL, 0), BCP47_DONE));
    bcp47_available_close(available);
}

static void accepted(void) {
    static const char *const tags[] = {"en-GB", "zh-yue", "iw", "de", "ja"};
    bcp47_available *available = prepared(tags, 5);
    size_t places[5] = {9, 9, 9, 9, 9};
    static const char header[] = "ja;q=0.2, zh, en;q=0.5, de;q=0";
    bcp47_outcome o = bcp47_filter(available, header, strlen(header), places, 5);
    CHECK(o.status == BCP47_DONE && o.place == 3 && places[0] == 2 && places[1] == 1 && places[2] == 5 && places[3] == 9);
    o = bcp47_filter(available, header, strlen(header), places, 2);
    CHECK(o.status == BCP47_BUFFER_TOO_SMALL && o.place == 3 && places[0] == 2);
    o = bcp47_filter(available, "fr", 2, NULL, 0);
    CHECK(is_ended(o, BCP47_DONE));
    CHECK(is_bad_header(bcp47_filter(available, "de;q", 4, places, 5), 1, "BadWeight"));
    CHECK(is_ended(bcp47_filter(available, "de", 2, NULL, 1), BCP47_BAD_CALL));
    CHECK(is_ended(bcp47_filter(available, NULL, 1, places, 5), BCP47_BAD_CALL));
    CHECK(is_ended(bcp47_filter(NULL, "de", 2, places, 5), BCP47_NOT_OPEN));
    bcp47_available_close(available);
}

/* Lists that are refused, one of no tags, and one whose registry is closed before. */
static void lists(const char *bytes, size_t length) {
    static const char *const wrong[] = {"de", "en_US"}, *const invalid[] = {"de", "ja", "xx"}, *const repeats[] = {REPEATS};
    static const size_t lengths[] = {2, 5}, short_ones[] = {2, 2, 2}, long_ones[] = {sizeof REPEATS - 1}, no_length[] = {SIZE_MAX};
    static const char *const empty[] = {"de", NULL, NULL};
    static const size_t of_empty[] = {2, 0, 1};
    bcp47_available *available = NULL;
    bcp47_registry *other;
    bcp47_outcome o = bcp47_available_open(&available, registry, wrong, lengths, 2);
    CHECK(o.status == BCP47_NOT_A_TAG && o.text == 2 && o.place == 1 && !strcmp(bcp47_fault_name(o.detail), "BadByte") && !available);
    o = bcp47_available_open(&available, registry, invalid, short_ones, 3);
    CHECK(o.status == BCP47_INVALID && o.text == 3 && o.place == 1 && !strcmp(bcp47_fault_name(o.detail), "UnknownLanguage") && !available);
    o = bcp47_available_open(&available, registry, repeats, long_ones, 1);
    CHECK(o.status == BCP47_REPLACEMENT_REPEATS && o.text == 1 && !o.length && !available);
    o = bcp47_available_open(&available, registry, &(const char *){"de\nja"}, lengths + 1, 1);
    CHECK(o.status == BCP47_NOT_A_TAG && o.text == 1 && o.place == 1 && !strcmp(bcp47_fault_name(o.detail), "BadByte") && !available);
    o = bcp47_available_open(&available, registry, empty, of_empty, 3);
    CHECK(o.status == BCP47_NOT_A_TAG && o.text == 2 && o.place == 1 && !strcmp(bcp47_fault_name(o.detail), "EmptySubtag") && !available);
    CHECK(is_ended(bcp47_available_open(&available, registry, empty + 2, no_length, 1), BCP47_BAD_CALL) && !available);
    CHECK(is_ended(bcp47_available_open(&available, registry, wrong, no_length, 1), BCP47_BAD_CALL) && !available);
    CHECK(is_ended(bcp47_available_open(&available, registry, NULL, lengths, 1), BCP47_BAD_CALL));
    CHECK(is_ended(bcp47_available_open(&available, registry, wrong, NULL, 1), BCP47_BAD_CALL));
    CHECK(is_ended(bcp47_available_open(NULL, registry, wrong, lengths, 1), BCP47_BAD_CALL));
    CHECK(is_ended(bcp47_available_open(&available, NULL, wrong, lengths, 1), BCP47_NOT_OPEN));
    available = prepared(NULL, 0);
    size_t place;
    CHECK(is_served(available, "*", 0) && is_bad_header(BEST(available, "de;"), 1, "BadWeight"));
    CHECK(is_ended(bcp47_filter(available, "*", 1, &place, 1), BCP47_DONE));
    bcp47_available_close(available);
    CHECK(is_ended(bcp47_open(&other, bytes, length, NULL, 0), BCP47_DONE));
    CHECK(is_ended(bcp47_available_open(&available, other, wrong, lengths, 1), BCP47_DONE));
    bcp47_close(other);
    CHECK(is_served(available, "de", 1));
    bcp47_available_close(available);
    bcp47_available_close(NULL);
}

static void others(void) {
    CHECK(is_text(ASK(bcp47_extlang, "yue"), "zh-yue"));
    CHECK(is_ended(bcp47_validate(registry, "zh-yue", 6), BCP47_DONE));
    bcp47_outcome o = bcp47_validate(registry, "xx-Latn", 7);
    CHECK(o.status == BCP47_INVALID && o.place == 1 && o.length == 0);
    CHECK(bcp47_validate(registry, NULL, 0).status == BCP47_NOT_A_TAG);
    CHECK(is_text(ASK(bcp47_explain, "sgn-dd"), "Region 2 27 sgn-DE\nWhole 1 44 gsg\n= gsg\n"));
    CHECK(is_text(ASK(bcp47_explain, "EN"), "= en\n"));
    CHECK(ASK(bcp47_explain, "en_US").status == BCP47_NOT_A_TAG);
    memset(buffer, '#', sizeof buffer);
    o = bcp47_explain(registry, "en", 2, buffer, 4);
    CHECK(o.status == BCP47_BUFFER_TOO_SMALL && o.length == 5 && buffer[0] == '#');
}

static int is_shown(const bcp47_registry *by, const char *tag, const char *wanted) {
    char *rows;
    bcp47_outcome o = bcp47_show(by, tag, strlen(tag), &rows);
    int is_so = !o.status && !o.detail && !o.place && !o.text && o.length == strlen(wanted) && rows && !strcmp(rows, wanted);
    if (!is_so && rows) fprintf(stderr, "%s\n", rows);
    bcp47_free(rows);
    return is_so;
}

/* The rows are those of RFC 5646, 3.1.2 and 2.2.8: a subtag's record, which tag is redundant, what no registry lists. */
static void shown(void) {
    static const char bytes[] =
        "File-Date: 2000-01-01\n%%\nType: language\nSubtag: zh\nDescription: Chinese\nScope: macrolanguage\nAdded: 2005-10-16\n"
        "%%\nType: extlang\nSubtag: yue\nDescription: Yue\n  Chinese\nDescription: \"Cantonese\"\nPreferred-Value: yue\nPrefix: zh\n"
        "%%\nType: language\nSubtag: yue\n%%\nType: script\nSubtag: Hant\n%%\nType: redundant\nTag: zh-Hant\nDescription: traditional\n";
    static const char yue[] =
        "[{\"place\":1,\"kind\":\"Language\",\"text\":\"zh\",\"listing\":\"Record\",\"record\":2,\"fields\":[{\"name\":\"Description\",\"body\":"
        "\"Chinese\"},{\"name\":\"Scope\",\"body\":\"macrolanguage\"}]},{\"place\":2,\"kind\":\"Extlang\",\"text\":\"yue\",\"listing\":\"Record\","
        "\"record\":3,\"fields\":[{\"name\":\"Description\",\"body\":\"Yue Chinese\"},{\"name\":\"Description\",\"body\":\"\\\"Cantonese\\\"\"},"
        "{\"name\":\"Preferred-Value\",\"body\":\"yue\"},{\"name\":\"Prefix\",\"body\":\"zh\"}]}]";
    static const char hant[] =
        "[{\"place\":1,\"kind\":\"Whole\",\"text\":\"zh-Hant\",\"listing\":\"Record\",\"record\":6,\"fields\":[{\"name\":\"Description\",\"body\":"
        "\"traditional\"}]},{\"place\":1,\"kind\":\"Language\",\"text\":\"zh\",\"listing\":\"Record\",\"record\":2,\"fields\":[{\"name\":\"Description\","
        "\"body\":\"Chinese\"},{\"name\":\"Scope\",\"body\":\"macrolanguage\"}]},{\"place\":2,\"kind\":\"Script\",\"text\":\"Hant\",\"listing\":\"Record\","
        "\"record\":5,\"fields\":[]}]";
    static const char own[] =
        "[{\"place\":1,\"kind\":\"Language\",\"text\":\"xx\",\"listing\":\"Unregistered\",\"record\":null,\"fields\":[]},{\"place\":2,\"kind\":"
        "\"PrivateUseSingleton\",\"text\":\"x\",\"listing\":\"Unlisted\",\"record\":null,\"fields\":[]},{\"place\":3,\"kind\":\"PrivateUse\",\"text\":"
        "\"own\",\"listing\":\"Unlisted\",\"record\":null,\"fields\":[]}]";
    bcp47_registry *opened;
    char *rows = buffer;
    CHECK(is_ended(bcp47_open(&opened, bytes, strlen(bytes), buffer, sizeof buffer), BCP47_DONE));
    CHECK(is_shown(opened, "ZH-yue", yue));
    CHECK(is_shown(opened, "zh-hant", hant));
    CHECK(is_shown(opened, "XX-x-own", own));
    bcp47_outcome o = bcp47_show(opened, "en_US", 5, &rows);
    CHECK(o.status == BCP47_NOT_A_TAG && o.detail == BCP47_FAULT_BAD_BYTE && o.place == 1 && o.length == 0 && !rows);
    o = bcp47_show(opened, NULL, 0, &rows);
    CHECK(o.status == BCP47_NOT_A_TAG && o.place == 1 && !rows);
    /* More than there is room for at first. */
    char longest[1025] = "x";
    for (int i = 0; i < 500; i++) strcat(longest, "-a");
    o = bcp47_show(opened, longest, strlen(longest), &rows);
    CHECK(o.status == BCP47_DONE && o.length > 500 * 64 && rows && strlen(rows) == o.length && !strcmp(rows + o.length - 2, "}]"));
    bcp47_free(rows);
    rows = buffer;
    CHECK(is_ended(bcp47_show(opened, NULL, 1, &rows), BCP47_BAD_CALL) && !rows);
    rows = buffer;
    CHECK(is_ended(bcp47_show(opened, "en", SIZE_MAX, &rows), BCP47_BAD_CALL) && !rows);
    CHECK(is_ended(bcp47_show(opened, "en", 2, NULL), BCP47_BAD_CALL));
    bcp47_close(opened);
}

/* The fields of a record in one text. */
static int has_fields(const bcp47_registry *by, uint32_t number, const char *wanted) {
    bcp47_field *fields;
    const char *texts;
    static char told[1024];
    bcp47_outcome o = bcp47_record(by, number, &fields, &texts);
    told[0] = 0;
    for (size_t i = 0; i < o.place; i++) {
        const char *body = texts + fields[i].name + 1;
        if (strlen(texts) != fields[i].name || strlen(body) != fields[i].body) return 0;
        sprintf(told + strlen(told), "%s: %s\n", texts, body);
        texts = body + fields[i].body + 1;
    }
    int is_so = !o.status && !o.detail && !o.length && !o.text && fields && !strcmp(told, wanted);
    bcp47_free(fields);
    return is_so;
}

/* RFC 5646, 3.1.1: the records in their order, with the header, and a body that is folded. */
static void records(void) {
    static const char bytes[] = "File-Date: 2000-01-01\n%%\nType: extlang\nSubtag: yue\nDescription: Yue\n  Chinese\nPreferred-Value: yue\nPrefix: zh\n%%\n"
        "Type: language\nSubtag: zh\n%%\nType: language\nSubtag: yue\n";
    bcp47_registry *opened;
    bcp47_field field, *fields = &field;
    const char *texts = buffer;
    bcp47_outcome o = bcp47_open(&opened, bytes, strlen(bytes), buffer, sizeof buffer);
    CHECK(is_ended(o, BCP47_DONE));
    CHECK(has_fields(opened, 1, "File-Date: 2000-01-01\n"));
    CHECK(has_fields(opened, 2, "Type: extlang\nSubtag: yue\nDescription: Yue Chinese\nPreferred-Value: yue\nPrefix: zh\n"));
    CHECK(has_fields(opened, 3, "Type: language\nSubtag: zh\n"));
    CHECK(has_fields(opened, 4, "Type: language\nSubtag: yue\n"));
    CHECK(has_fields(opened, 5, "") && has_fields(opened, 0, "") && has_fields(opened, UINT32_MAX, ""));
    o = bcp47_record(NULL, 1, &fields, &texts);
    CHECK(is_ended(o, BCP47_NOT_OPEN) && !fields && !texts);
    CHECK(is_ended(bcp47_record(opened, 1, NULL, &texts), BCP47_BAD_CALL) && is_ended(bcp47_record(opened, 1, &fields, NULL), BCP47_BAD_CALL));
    bcp47_close(opened);
}

static void explanations(void) {
    char *lines = buffer, longest[1025] = "en-u";
    bcp47_outcome o = bcp47_explanation(registry, "sgn-dd", 6, SIZE_MAX, &lines);
    CHECK(o.status == BCP47_DONE && lines && !strcmp(lines, "Region 2 27 sgn-DE\nWhole 1 44 gsg\n= gsg\n") && o.length == strlen(lines));
    bcp47_free(lines);
    o = bcp47_explanation(registry, "sgn-dd", 6, 2, &lines);
    CHECK(o.status == BCP47_DONE && lines);
    bcp47_free(lines);
    lines = buffer;
    CHECK(is_ended(bcp47_explanation(registry, "sgn-dd", 6, 1, &lines), BCP47_TOO_MANY_STEPS) && !lines);
    o = bcp47_explanation(registry, "en", 2, 0, &lines);
    CHECK(o.status == BCP47_DONE && lines && !strcmp(lines, "= en\n"));
    bcp47_free(lines);
    lines = buffer;
    o = bcp47_explanation(registry, "en_US", 5, 0, &lines);
    CHECK(o.status == BCP47_NOT_A_TAG && o.place == 1 && !lines);
    for (int i = 60; i > 0; i--) sprintf(longest + strlen(longest), "-z%02d", i);
    o = bcp47_explanation(registry, longest, strlen(longest), SIZE_MAX, &lines);
    CHECK(o.status == BCP47_DONE && lines && o.length > 4096 && strlen(lines) == o.length);
    size_t count = 0;
    for (const char *at = lines; (at = strchr(at, '\n')); at++) count++;
    CHECK(count == 60 * 59 / 2 + 1);
    bcp47_free(lines);
    lines = buffer;
    CHECK(is_ended(bcp47_explanation(registry, longest, strlen(longest), count - 2, &lines), BCP47_TOO_MANY_STEPS) && !lines);
    lines = buffer;
    CHECK(is_ended(bcp47_explanation(registry, REPEATS, strlen(REPEATS), SIZE_MAX, &lines), BCP47_REPLACEMENT_REPEATS) && !lines);
    CHECK(is_ended(bcp47_explanation(registry, NULL, 1, 0, &lines), BCP47_BAD_CALL) && !lines);
    lines = buffer;
    CHECK(is_ended(bcp47_explanation(NULL, "en", 2, 0, &lines), BCP47_NOT_OPEN) && !lines);
    CHECK(is_ended(bcp47_explanation(registry, "en", 2, 0, NULL), BCP47_BAD_CALL));
    bcp47_free(NULL);
}

/* The steps of a tag in one text, as the lines of its explanation have them. */
static int has_steps(const char *tag, size_t most, const char *wanted) {
    bcp47_step *steps;
    const char *tags;
    static char told[4096];
    bcp47_outcome o = bcp47_steps(registry, tag, strlen(tag), most, &steps, &tags);
    if (o.status || o.detail || o.length || o.text || o.reserved) return 0;
    told[0] = 0;
    for (size_t i = 0; i < o.place; i++, tags += strlen(tags) + 1)
        sprintf(told + strlen(told), "%s %u %u %s\n", bcp47_kind_name(steps[i].kind), steps[i].place, steps[i].number, tags);
    sprintf(told + strlen(told), "= %s\n", tags);
    bcp47_free(steps);
    return !strcmp(told, wanted);
}

static int has_no_steps(bcp47_outcome o, int status, const bcp47_step *steps, const char *tags) {
    return is_ended(o, status) && !steps && !tags;
}

static void steps(void) {
    bcp47_step step, *none = &step;
    const char *tags = buffer;
    CHECK(has_steps("sgn-dd", 2, "Region 2 27 sgn-DE\nWhole 1 44 gsg\n= gsg\n"));
    CHECK(has_steps("EN", 0, "= en\n"));
    CHECK(has_steps("en-u-nn-co", 9, "SwapKeywords 3 0 en-u-co-nn\n= en-u-co-nn\n"));
    bcp47_outcome o = bcp47_steps(registry, "sgn-dd", 6, 1, &none, &tags);
    CHECK(has_no_steps(o, BCP47_TOO_MANY_STEPS, none, tags));
    none = &step, tags = buffer;
    o = bcp47_steps(registry, "en_US", 5, 0, &none, &tags);
    CHECK(o.status == BCP47_NOT_A_TAG && o.place == 1 && !none && !tags);
    o = bcp47_steps(registry, REPEATS, strlen(REPEATS), 9, &none, &tags);
    CHECK(o.status == BCP47_REPLACEMENT_REPEATS && !o.place && o.length == 7 && none && !strcmp(tags, "alalc97"));
    bcp47_free(none);
    o = bcp47_steps(registry, NULL, 1, 9, &none, &tags);
    CHECK(has_no_steps(o, BCP47_BAD_CALL, none, tags));
    o = bcp47_steps(NULL, "en", 2, 9, &none, &tags);
    CHECK(has_no_steps(o, BCP47_NOT_OPEN, none, tags));
    CHECK(is_ended(bcp47_steps(registry, "en", 2, 9, NULL, &tags), BCP47_BAD_CALL));
    CHECK(is_ended(bcp47_steps(registry, "en", 2, 9, &none, NULL), BCP47_BAD_CALL));
    /* They are those that bcp47_verify takes. */
    o = bcp47_steps(registry, "sgn-dd", 6, 9, &none, &tags);
    CHECK(o.place == 2 && is_ended(bcp47_verify(registry, "sgn-dd", 6, none, o.place, "gsg", 3), BCP47_DONE));
    bcp47_free(none);
}

/* Replacements that make a tag longer: each of 40 variants of 4 bytes becomes one of 8. */
static void longer(void) {
    static char bytes[8000] = "Type: language\nSubtag: de\n", text[400] = "de", canonical[400] = "de";
    bcp47_registry *opened;
    char *lines;
    for (int i = 0; i < 40; i++) {
        sprintf(bytes + strlen(bytes), "%%%%\nType: variant\nSubtag: 1a%02d\nPreferred-Value: abcdef%02d\n", i, i);
        sprintf(bytes + strlen(bytes), "%%%%\nType: variant\nSubtag: abcdef%02d\n", i);
        sprintf(text + strlen(text), "-1a%02d", i);
        sprintf(canonical + strlen(canonical), "-abcdef%02d", i);
    }
    CHECK(is_ended(bcp47_open(&opened, bytes, strlen(bytes), buffer, sizeof buffer), BCP47_DONE));
    bcp47_outcome o = bcp47_explanation(opened, text, strlen(text), 40, &lines);
    CHECK(o.status == BCP47_DONE && lines && strlen(lines) == o.length && o.length > 41 * (strlen(text) + 64));
    CHECK(!strncmp(lines, "Variant 2 ", 10) && !strncmp(strstr(lines, "= ") + 2, canonical, strlen(canonical)));
    bcp47_free(lines);
    bcp47_close(opened);
}

static int is_judged(const char *text, const bcp47_step *steps, size_t count, const char *last, int status, size_t place, int which) {
    bcp47_outcome o = bcp47_verify(registry, text, strlen(text), steps, count, last, strlen(last));
    return is_refused(o, status, which, place) && o.length == 0;
}

static void verify(void) {
    bcp47_step steps[2] = {{BCP47_REGION, 2, 27}, {BCP47_WHOLE, 1, 44}};
    CHECK(is_judged("sgn-dd", steps, 2, "GSG", BCP47_DONE, 0, 0));
    CHECK(is_judged("sgn-dd", steps, 1, "sgn-DE", BCP47_DONE, 0, 0));
    CHECK(is_judged("sgn-dd", NULL, 0, "sgn-DD", BCP47_DONE, 0, 0));
    CHECK(is_judged("sgn-dd", steps, 2, "sgn", BCP47_WRONG_END, 0, 0));
    CHECK(is_judged("sgn-dd", steps, 1, "gsg", BCP47_WRONG_END, 0, 0));
    CHECK(is_judged("sgn-dd", steps + 1, 1, "gsg", BCP47_NO_SUCH_STEP, 1, 0));
    CHECK(is_judged("xx", steps, 2, "gsg", BCP47_INVALID, 1, 1));
    CHECK(is_judged("en_US", steps, 2, "gsg", BCP47_NOT_A_TAG, 1, 1));
    CHECK(is_judged("sgn-dd", steps, 2, "gsg-", BCP47_NOT_A_TAG, 2, 2));
    steps[1].number = 43;
    CHECK(is_judged("sgn-dd", steps, 2, "gsg", BCP47_NO_SUCH_STEP, 2, 0));
    steps[1].kind = 15;
    CHECK(is_judged("sgn-dd", steps, 2, "gsg", BCP47_NO_SUCH_STEP, 2, 0));
    CHECK(is_judged("sgn-dd", steps, 2, "sgn-DE", BCP47_NO_SUCH_STEP, 2, 0));
    steps[0].kind = 0;
    CHECK(is_judged("sgn-dd", steps, 2, "sgn-DD", BCP47_NO_SUCH_STEP, 1, 0));
    CHECK(is_judged("xx", steps, 2, "gsg", BCP47_INVALID, 1, 1));
}

/* Each call on what is no registry that is open. */
static void not_open(const bcp47_registry *none) {
    bcp47_info info;
    bcp47_step step = {BCP47_WHOLE, 1, 44};
    char *rows = buffer;
    CHECK(is_ended(bcp47_canonical(none, "en", 2, buffer, sizeof buffer), BCP47_NOT_OPEN));
    CHECK(is_ended(bcp47_extlang(none, "en", 2, buffer, sizeof buffer), BCP47_NOT_OPEN));
    CHECK(is_ended(bcp47_explain(none, "en", 2, buffer, sizeof buffer), BCP47_NOT_OPEN));
    CHECK(is_ended(bcp47_show(none, "en", 2, &rows), BCP47_NOT_OPEN) && !rows);
    CHECK(is_ended(bcp47_validate(none, "en", 2), BCP47_NOT_OPEN));
    CHECK(is_ended(bcp47_equivalent(none, "en", 2, "en", 2, buffer, sizeof buffer), BCP47_NOT_OPEN));
    CHECK(is_ended(bcp47_match(none, BCP47_BASIC, "en", 2, "en", 2, buffer, sizeof buffer), BCP47_NOT_OPEN));
    CHECK(is_ended(bcp47_verify(none, "en", 2, &step, 1, "en", 2), BCP47_NOT_OPEN));
    CHECK(is_ended(bcp47_upgrade_check(none, registry), BCP47_NOT_OPEN));
    CHECK(is_ended(bcp47_upgrade_check(registry, none), BCP47_NOT_OPEN));
    CHECK(is_ended(bcp47_registry_info(none, &info), BCP47_NOT_OPEN));
    CHECK(is_ended(bcp47_canonical(none, NULL, 9, NULL, 9), BCP47_NOT_OPEN));
    CHECK(bcp47_classify(none, "en", 2, buffer, sizeof buffer).status == (none ? BCP47_NOT_OPEN : BCP47_DONE));
}

/* Each text and buffer of each call. */
static void bad_calls(void) {
    static const size_t too_long[2] = {SIZE_MAX, (size_t)PTRDIFF_MAX + 1};
    bcp47_outcome (*const calls[])(const bcp47_registry *, const char *, size_t, char *, size_t) = {
        bcp47_canonical, bcp47_extlang, bcp47_classify, bcp47_explain};
    bcp47_registry *opened;
    bcp47_step step = {BCP47_WHOLE, 1, 44};
    char over[64] = "zh-yue";
    for (size_t i = 0; i < 4; i++) {
        CHECK(is_ended(calls[i](registry, NULL, 1, buffer, sizeof buffer), BCP47_BAD_CALL));
        CHECK(is_ended(calls[i](registry, "en", 2, NULL, 1), BCP47_BAD_CALL));
        for (size_t k = 0; k < 2; k++) {
            CHECK(is_ended(calls[i](registry, "en", too_long[k], buffer, sizeof buffer), BCP47_BAD_CALL));
            CHECK(is_ended(calls[i](registry, "en", 2, buffer, too_long[k]), BCP47_BAD_CALL));
        }
        CHECK(is_ended(calls[i](registry, over, 6, over, sizeof over), BCP47_BAD_CALL));
        CHECK(is_ended(calls[i](registry, over, 6, over + 5, 9), BCP47_BAD_CALL));
        CHECK(is_ended(calls[i](registry, over + 3, 3, over, 4), BCP47_BAD_CALL));
        CHECK(calls[i](registry, over, 6, over + 6, sizeof over - 6).status == BCP47_DONE);
        CHECK(calls[i](registry, over + 3, 3, over, 3).status != BCP47_BAD_CALL);
        strcpy(over, "zh-yue");
        CHECK(calls[i](registry, over, 6, over + 3, 0).status == BCP47_BUFFER_TOO_SMALL);
    }
    CHECK(is_ended(bcp47_classify(NULL, over, 6, over, 6), BCP47_BAD_CALL));
    CHECK(is_ended(bcp47_validate(registry, NULL, 1), BCP47_BAD_CALL));
    CHECK(is_ended(bcp47_validate(registry, "en", SIZE_MAX), BCP47_BAD_CALL));
    CHECK(is_ended(bcp47_equivalent(registry, NULL, 1, "en", 2, buffer, 9), BCP47_BAD_CALL));
    CHECK(is_ended(bcp47_equivalent(registry, "en", 2, "en", SIZE_MAX, buffer, 9), BCP47_BAD_CALL));
    CHECK(is_ended(bcp47_equivalent(registry, "en", 2, over, 6, over, 9), BCP47_BAD_CALL));
    CHECK(is_ended(bcp47_equivalent(registry, over, 6, over, 6, NULL, 0), BCP47_DONE));
    CHECK(is_ended(bcp47_match(registry, BCP47_BASIC, NULL, 1, "en", 2, buffer, 9), BCP47_BAD_CALL));
    CHECK(is_ended(bcp47_match(registry, BCP47_BASIC, "en", 2, "en", SIZE_MAX, buffer, 9), BCP47_BAD_CALL));
    CHECK(is_ended(bcp47_match(registry, BCP47_BASIC, "en", 2, over, 6, over, 9), BCP47_BAD_CALL));
    CHECK(is_ended(bcp47_match(registry, BCP47_BASIC, over, 6, over, 6, NULL, 0), BCP47_DONE));
    CHECK(is_ended(bcp47_verify(registry, NULL, 1, &step, 1, "en", 2), BCP47_BAD_CALL));
    CHECK(is_ended(bcp47_verify(registry, "en", 2, NULL, 1, "en", 2), BCP47_BAD_CALL));
    CHECK(is_ended(bcp47_verify(registry, "en", 2, &step, SIZE_MAX / 8, "en", 2), BCP47_BAD_CALL));
    CHECK(is_ended(bcp47_verify(registry, "en", 2, &step, 1, NULL, 2), BCP47_BAD_CALL));
    CHECK(is_ended(bcp47_open(NULL, "", 0, buffer, sizeof buffer), BCP47_BAD_CALL));
    opened = registry;
    CHECK(is_ended(bcp47_open(&opened, NULL, 1, buffer, sizeof buffer), BCP47_BAD_CALL) && !opened);
    opened = registry;
    CHECK(is_ended(bcp47_open(&opened, over, 6, over, 6), BCP47_BAD_CALL) && !opened);
    CHECK(is_ended(bcp47_open(&opened, "", 0, NULL, 1), BCP47_BAD_CALL));
    CHECK(is_ended(bcp47_registry_info(registry, NULL), BCP47_BAD_CALL));
}

static void names(void) {
    CHECK(!strcmp(bcp47_version(), BCP47_VERSION));
    CHECK(!strcmp(bcp47_status_name(BCP47_INVALID), "Invalid") && !strcmp(bcp47_status_name(BCP47_NO_ENTRIES), "NoEntries"));
    CHECK(!strcmp(bcp47_fault_name(1), "TooLong") && !strcmp(bcp47_fault_name(52), "U6") && !strcmp(bcp47_fault_name(53), "BadFirst"));
    CHECK(!strcmp(bcp47_fault_name(55), "BadWeight") && !strcmp(bcp47_status_name(BCP47_BAD_HEADER), "BadHeader"));
    CHECK(!strcmp(bcp47_kind_name(BCP47_EXTLANG), "Extlang") && !strcmp(bcp47_kind_name(BCP47_SWAP_FIELDS), "SwapFields"));
    CHECK(!strcmp(bcp47_fault_help(9), "The registry lacks the extlang: correct it, or get a newer registry."));
    CHECK(strstr(bcp47_status_help(BCP47_NOT_OPEN), "open it first") != NULL);
    static const int none[] = {-1, 256, 100, INT32_MAX, INT32_MIN, 1 << 30};
    for (size_t i = 0; i < sizeof none / sizeof *none; i++)
        CHECK(!*bcp47_status_name(none[i]) && !*bcp47_fault_name(none[i]) && !*bcp47_kind_name(none[i]) &&
              !*bcp47_status_help(none[i]) && !*bcp47_fault_help(none[i]));
    CHECK(!*bcp47_status_name(19) && !*bcp47_status_help(19) && !*bcp47_fault_name(56) && !*bcp47_fault_help(56));
    CHECK(!*bcp47_kind_name(0) && !*bcp47_kind_name(15));
    CHECK(!*bcp47_part_kind_name(-1) && !*bcp47_part_kind_name(0) && !*bcp47_part_kind_name(21));
    CHECK(!strcmp(bcp47_part_kind_name(BCP47_PART_GRANDFATHERED), "Grandfathered"));
}

/* What a registry of these bytes says of itself. */
static bcp47_info info_of(const char *bytes, size_t length) {
    bcp47_registry *opened = NULL;
    bcp47_info info;
    memset(&info, '#', sizeof info);
    CHECK(is_ended(bcp47_open(&opened, bytes, length, buffer, sizeof buffer), BCP47_DONE));
    CHECK(is_ended(bcp47_registry_info(opened, &info), BCP47_DONE));
    bcp47_close(opened);
    return info;
}

static int has_digest(bcp47_info info, const char *hexadecimal) {
    char shown[65];
    for (size_t i = 0; i < 32; i++) sprintf(shown + 2 * i, "%02x", info.sha256[i]);
    return !strcmp(shown, hexadecimal);
}

/* Before a record, and alone: that is no registry. */
static void info(const char *bytes, size_t length, char **wanted) {
    static const struct {
        const char *header, *date;
    } rows[] = {
        {"File-Date: 2000-01-01\n", "2000-01-01"},   {"File-Date: 1 May\n", ""},           {"File-Date: 2000-1-001\n", ""},
        {"File-Date: 2000-01-0\n", ""},              {"File-Date: 2000/01-01\n", ""},      {"File-Date: 2000-01/01\n", ""},
        {"File-Date: 2OOO-01-01\n", ""},             {"File-Date: 2000-O1-01\n", ""},      {"File-Date: 2000-01-O1\n", ""},
        {"File-Date: 2000-01-01\r\n", "2000-01-01"}, {"File-Date: 2000-01-011\n", ""},     {"File-Date: 0000-01-01\n", ""},
        {"File-Date: 2000-00-01\n", ""},             {"File-Date: 2000-13-01\n", ""},      {"File-Date: 2000-01-00\n", ""},
        {"File-Date: 2000-04-31\n", ""},             {"File-Date: 2000-02-29\n", "2000-02-29"}, {"File-Date: 2000-01-31\n", "2000-01-31"},
        {"File-Date: 2024-02-29\n", "2024-02-29"},   {"File-Date: 2023-02-29\n", ""},      {"File-Date: 1900-02-29\n", ""},
    };
    for (size_t i = 0; i < sizeof rows / sizeof *rows; i++) {
        char whole[99];
        refused_registry(rows[i].header, BCP47_NO_ENTRIES, 0, "NoEntries");
        bcp47_info got = info_of(whole, (size_t)sprintf(whole, "%s%%%%\nType: language\nSubtag: en\n", rows[i].header));
        if (strcmp(got.file_date, rows[i].date)) fprintf(stderr, "row %zu: %s\n", i, got.file_date);
        CHECK(!strcmp(got.file_date, rows[i].date) && got.entries == 1);
    }
    refused_registry("", BCP47_NO_ENTRIES, 0, "NoEntries");
    refused_registry("File-Date: 2000-01-01", BCP47_NO_ENTRIES, 0, "NoEntries");
    static const char two[] = "Type: language\nSubtag: en\n%%\nType: language\nSubtag: de";
    static const char late[] = "Type: language\nSubtag: en\nFile-Date: 2000-01-01\n";
    bcp47_info got = info_of(two, sizeof two - 1);
    CHECK(!*got.file_date && got.entries == 2);
    CHECK(has_digest(got, "2699d1e636291cfcdf9d0eb0b69c154e5fa4614fecd582ef747825f2a18db0bb"));
    CHECK(!*info_of(late, sizeof late - 1).file_date);
    bcp47_info sample = info_of(bytes, length);
    CHECK(has_digest(sample, wanted[0]) && sample.entries == (size_t)atol(wanted[1]) && !strcmp(sample.file_date, wanted[2]));
}

static void upgrades(void) {
    static const char bytes[] = "File-Date: 2000-01-01\n%%\nType: language\nSubtag: en\n";
    bcp47_registry *other;
    CHECK(is_ended(bcp47_upgrade_check(registry, registry), BCP47_DONE));
    CHECK(!bcp47_open(&other, bytes, sizeof bytes - 1, buffer, sizeof buffer).status);
    bcp47_outcome o = bcp47_upgrade_check(registry, other);
    CHECK(o.status == BCP47_NO_UPGRADE && o.detail == BCP47_FAULT_U1 && o.place > 0);
    CHECK(is_ended(bcp47_upgrade_check(other, registry), BCP47_DONE));
    bcp47_close(other);
}

int main(int count, char **words) {
    size_t length;
    if (count < 5) return 3;
    char *bytes = read_all(words[1], &length);
    static const union {
        char zeros[1 << 16];
        max_align_t aligned;
    } zero = {{0}};
    bcp47_outcome o = bcp47_open(&registry, bytes, length, NULL, 0);
    CHECK(is_ended(o, BCP47_DONE) && registry);
    refused_registry("no registry\n", BCP47_BAD_FILE, 1, "jar BadLine line 1");
    refused_registry("%%\nType: language\nSubtag: en\n%%\nType: tongue\nSubtag: fr\n", BCP47_BAD_RECORD, 2, "record 2 UnknownType");
    refused_registry("File-Date: 2000-01-01\n%%\nType: language\nSubtag: en\n%%\nType: language\nSubtag: en\n", BCP47_REJECTED, 3,
                     "check C1 record 3");
    parts();
    canonical();
    classify(registry);
    classify(NULL);
    equal();
    match();
    match_refused();
    best();
    accepted();
    lists(bytes, length);
    others();
    shown();
    parents();
    changed();
    locales();
    records();
    explanations();
    steps();
    longer();
    verify();
    not_open(NULL);
    not_open((const bcp47_registry *)(const void *)&zero);
    bad_calls();
    names();
    info(bytes, length, words + 2);
    upgrades();
    free(bytes);
    canonical();
    bcp47_close(registry);
    bcp47_close(NULL);
    bcp47_close((bcp47_registry *)(uintptr_t)&zero);
    if (!failures) puts("calls: passed");
    return failures != 0;
}
