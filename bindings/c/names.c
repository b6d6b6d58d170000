/* SPDX-License-Identifier: MIT OR Apache-2.0 */
/* Names and meanings of numbers. tests/bindings.sh compares them with those that the program prints. */
#include "bcp47.h"

/* A name, and what it means and what to do. */
typedef struct {
    const char *name, *help;
} word;

static const word statuses[] = {
    {"Done", "The call did what was asked."},
    {"NotATag", "The text is no tag, or the range no language range: the fault and its place say what is wrong with it."},
    {"Invalid", "The tag is not valid by the registry: the fault and its place say why."},
    {"ReplacementRepeats", "Replacements would repeat the variant that is named: remove one of the variants."},
    {"OutOfMemory", "No memory was left: end other programs, or use a larger machine."},
    {"BufferTooSmall", "The text does not fit the buffer: make room for as many bytes as its length says, and call again."},
    {"Different", "The tags are not equivalent, or the range does not match the tag."},
    {"BadFile", "The bytes are no registry: the fault and the line say what is wrong."},
    {"BadRecord", "A record of the registry gives no entry: the fault and its number say why."},
    {"Rejected", "A record of the registry does not meet a condition: the fault names the condition."},
    {"NoUpgrade", "The newer registry does not keep what the older one promised: the fault names the condition."},
    {"NoSuchStep", "The step at the place that is named does not lead on: mend it, or take the registry by which the tag was explained."},
    {"WrongEnd", "The steps lead to another tag than the last: mend the last tag, or the steps."},
    {"NotOpen", "The registry is not open: open it first, and ask nothing of it once it is closed."},
    {"BadCall", "NULL where something is needed, a length that no text has, a buffer over a text, or a number of no scheme or part: mend the call."},
    {"Busy", "64 calls and more are under way, and no memory was left for one more: call again, by fewer threads or on a larger machine."},
    {"TooManySteps", "The explanation has more steps than were allowed: allow more, or leave the tag unexplained."},
    {"NoEntries", "The registry has no entries: the file is empty, or was not downloaded or written to its end: get it again."},
    {"BadHeader", "The text is no Accept-Language header: the fault and the number of the list element say what is wrong with it."},
};

static const word faults[] = {
    {"None", "Nothing is wrong."},
    {"TooLong", "A text of more than 1,024 bytes, which is no tag: see whether line ends are missing."},
    {"EmptySubtag", "Nothing between two hyphens, or an empty text: remove a hyphen too many, or the empty line."},
    {"BadByte", "A byte that is no ASCII letter, digit or hyphen: write zh-Hant for zh_Hant; remove quotes, spaces, a byte order mark."},
    {"LongSubtag", "A subtag of more than 8 letters and digits: put a hyphen where subtags meet."},
    {"BadLanguage", "The first subtag is no language: begin with a language of 2 to 8 letters, or with x."},
    {"Misplaced", "A subtag that can't stand where it does: order them: language, extlang, script, region, variants, extensions, x."},
    {"Unfinished", "The text ends after a singleton or x: add what follows it, or remove it."},
    {"UnknownLanguage", "The registry lacks the language: correct it (en for eng or English), or get a newer registry."},
    {"UnknownExtlang", "The registry lacks the extlang: correct it, or get a newer registry."},
    {"ExtlangPrefix", "The extlang belongs to another language: put it after its language (zh-yue), or leave the language out (yue)."},
    {"TooManyExtlangs", "A second extlang: keep only one."},
    {"UnknownScript", "The registry lacks the script: correct it, or get a newer registry."},
    {"UnknownRegion", "The registry lacks the region: correct it (GB for UK), or get a newer registry."},
    {"UnknownVariant", "The registry lacks the variant: correct it, or get a newer registry."},
    {"DuplicateVariant", "A variant stands twice: remove one."},
    {"DuplicateSingleton", "An extension stands twice: join the two, or remove one."},
    {"BadTransform", "A t extension without its form: mend it: a language, and fields such as m0-names."},
    {"LineTooLong", "A line of more than 65,536 bytes: it is no registry, or its line feeds are missing."},
    {"NotUtf8", "A line that is not UTF-8: convert the file, or unpack it."},
    {"LeadingContinuation", "A continuation with no field before it: remove the spaces that begin the line."},
    {"BadLine", "Neither a field, %%, nor a continuation. This is no registry, or not its plain text: get one from https://www.iana.org/assignments/language-subtag-registry/language-subtag-registry, or remove a byte order mark."},
    {"TooManyRecords", "Record 100,001: cut the file."},
    {"Read", "The file or the input can't be read to its end: see whether it is a folder, or closed, or a disk fails."},
    {"TooManyTurns", "After 10,000,000 reads the input had not ended: write larger pieces, or start the program again."},
    {"Failed", "Reading failed before, at the place that is named: see what was answered then."},
    {"RepeatedField", "Type, Subtag, Tag or Preferred-Value stands twice: keep one."},
    {"MissingType", "There is no Type: add it."},
    {"UnknownType", "The Type is none of the seven: mend it."},
    {"MissingName", "No Subtag, or no Tag where one is wanted: add it."},
    {"BadRange", "A range without its form: write two subtags of one length with two full stops between them, the lower one first."},
    {"BadSubtag", "A Subtag without the form of its Type: mend it."},
    {"BadTag", "A Tag without the form of its Type: mend it."},
    {"BadPreferred", "A Preferred-Value without the form of its Type: mend it."},
    {"BadPrefix", "A Prefix that is no list of subtags: mend it."},
    {"C1", "An earlier record has the same kind and name, or the same tag: remove one of the two."},
    {"C2", "The value of a language, script or region is not registered as the same kind: register it, or mend the Preferred-Value."},
    {"C3", "The preferred values lead round in a circle: mend one of them."},
    {"C4", "An extlang without one Prefix that is a registered language with no value, or it and its value lead to two languages: mend the record."},
    {"C5", "The value of a variant is not registered, or leads on from a variant to a language: mend the Preferred-Value."},
    {"C6", "A variant whose value is a language has no Prefix, or one that is no registered language with no value: mend it."},
    {"C7", "A Prefix of a variant is no langtag, or has extensions or private use: mend it."},
    {"C8", "A grandfathered record has none of the 26 tags, or its subtags are registered so that its tag is valid by its parts: remove one of them."},
    {"C9", "The value of a whole tag, or a redundant tag with a value, is no valid langtag without extensions and private use: mend it."},
    {"C10", "The value of a whole tag leads on to another whole tag, or repeats a variant: mend the Preferred-Value."},
    {"C11", "The subtags of a redundant tag lead to another tag than its Preferred-Value: mend the Preferred-Value."},
    {"C12", "A range has a Preferred-Value: remove it."},
    {"U1", "The newer registry lacks a subtag of the older one, or has no one range that holds a range of it: register it."},
    {"U2", "In the newer registry a subtag and its older value lead to two subtags: lead both to one."},
    {"U3", "The newer registry lacks an extlang, or gives it another Prefix or leads it elsewhere: keep what it was."},
    {"U4", "In the newer registry a variant no longer becomes a language, or has other Prefixes, or becomes another language: keep what it was."},
    {"U5", "In the newer registry a variant of the older one becomes a language: remove its Preferred-Value."},
    {"U6", "In the newer registry a whole tag and its older value lead to two canonical tags: lead both to one."},
    {"BadFirst", "The first subtag of a language range has a digit: begin with a language of letters alone, or with *."},
    {"ExtendedRange", "A range of the header has a * beside other subtags: write it without *, or * alone."},
    {"BadWeight", "What follows a range of the header is no weight: write ;q= and a number from 0 to 1 with up to three decimals, or a comma."},
};

static const char *const kinds[] = {"", "Extlang", "Language", "Script", "Region", "Variant", "VariantLanguage", "Whole",
    "SwapExtensions", "DropAttribute", "SwapAttributes", "DropKeyword", "SwapKeywords", "DropTrue", "SwapFields"};

static const char *const part_kinds[] = {"", "Language", "Extlang", "Script", "Region", "Variant", "Singleton", "ExtensionSubtag",
    "Attribute", "Key", "Type", "SourceLanguage", "SourceExtlang", "SourceScript", "SourceRegion", "SourceVariant", "Separator",
    "Value", "PrivateUseSingleton", "PrivateUse", "Grandfathered"};

#define COUNT(table) ((int)(sizeof(table) / sizeof *(table)))

const char *bcp47_version(void) {
    return BCP47_VERSION;
}

const char *bcp47_status_name(int status) {
    return 0 <= status && status < COUNT(statuses) ? statuses[status].name : "";
}

const char *bcp47_status_help(int status) {
    return 0 <= status && status < COUNT(statuses) ? statuses[status].help : "";
}

const char *bcp47_fault_name(int fault) {
    return 0 <= fault && fault < COUNT(faults) ? faults[fault].name : "";
}

const char *bcp47_fault_help(int fault) {
    return 0 <= fault && fault < COUNT(faults) ? faults[fault].help : "";
}

const char *bcp47_kind_name(int kind) {
    return 0 <= kind && kind < COUNT(kinds) ? kinds[kind] : "";
}

const char *bcp47_part_kind_name(int kind) {
    return 0 <= kind && kind < COUNT(part_kinds) ? part_kinds[kind] : "";
}
