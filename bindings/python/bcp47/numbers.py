# SPDX-License-Identifier: MIT OR Apache-2.0
"""What the library numbers. Written by tools/describe.py of bindings/c/bcp47.h and names.c."""
import enum


class Fault(str, enum.Enum):
    """What is wrong with a text, a registry or steps: a `str`, which is the name that the program prints, with a `help`."""

    help: str

    def __new__(cls, name: str, help: str) -> "Fault":
        fault = str.__new__(cls, name)
        fault._value_, fault.help = name, help
        return fault

    def __str__(self) -> str:
        return str(self.value)

    def __format__(self, form: str) -> str:
        return format(str(self), form)

    TooLong = "TooLong", "A text of more than 1,024 bytes, which is no tag: see whether line ends are missing."
    EmptySubtag = "EmptySubtag", "Nothing between two hyphens, or an empty text: remove a hyphen too many, or the empty line."
    BadByte = "BadByte", "A byte that is no ASCII letter, digit or hyphen: write zh-Hant for zh_Hant; remove quotes, spaces, a byte order mark."
    LongSubtag = "LongSubtag", "A subtag of more than 8 letters and digits: put a hyphen where subtags meet."
    BadLanguage = "BadLanguage", "The first subtag is no language: begin with a language of 2 to 8 letters, or with x."
    Misplaced = "Misplaced", "A subtag that can't stand where it does: order them: language, extlang, script, region, variants, extensions, x."
    Unfinished = "Unfinished", "The text ends after a singleton or x: add what follows it, or remove it."
    UnknownLanguage = "UnknownLanguage", "The registry lacks the language: correct it (en for eng or English), or get a newer registry."
    UnknownExtlang = "UnknownExtlang", "The registry lacks the extlang: correct it, or get a newer registry."
    ExtlangPrefix = "ExtlangPrefix", "The extlang belongs to another language: put it after its language (zh-yue), or leave the language out (yue)."
    TooManyExtlangs = "TooManyExtlangs", "A second extlang: keep only one."
    UnknownScript = "UnknownScript", "The registry lacks the script: correct it, or get a newer registry."
    UnknownRegion = "UnknownRegion", "The registry lacks the region: correct it (GB for UK), or get a newer registry."
    UnknownVariant = "UnknownVariant", "The registry lacks the variant: correct it, or get a newer registry."
    DuplicateVariant = "DuplicateVariant", "A variant stands twice: remove one."
    DuplicateSingleton = "DuplicateSingleton", "An extension stands twice: join the two, or remove one."
    BadTransform = "BadTransform", "A t extension without its form: mend it: a language, and fields such as m0-names."
    LineTooLong = "LineTooLong", "A line of more than 65,536 bytes: it is no registry, or its line feeds are missing."
    NotUtf8 = "NotUtf8", "A line that is not UTF-8: convert the file, or unpack it."
    LeadingContinuation = "LeadingContinuation", "A continuation with no field before it: remove the spaces that begin the line."
    BadLine = "BadLine", "Neither a field, %%, nor a continuation. This is no registry, or not its plain text: get one from https://www.iana.org/assignments/language-subtag-registry/language-subtag-registry, or remove a byte order mark."
    TooManyRecords = "TooManyRecords", "Record 100,001: cut the file."
    Read = "Read", "The file or the input can't be read to its end: see whether it is a folder, or closed, or a disk fails."
    TooManyTurns = "TooManyTurns", "After 10,000,000 reads the input had not ended: write larger pieces, or start the program again."
    Failed = "Failed", "Reading failed before, at the place that is named: see what was answered then."
    RepeatedField = "RepeatedField", "Type, Subtag, Tag or Preferred-Value stands twice: keep one."
    MissingType = "MissingType", "There is no Type: add it."
    UnknownType = "UnknownType", "The Type is none of the seven: mend it."
    MissingName = "MissingName", "No Subtag, or no Tag where one is wanted: add it."
    BadRange = "BadRange", "A range without its form: write two subtags of one length with two full stops between them, the lower one first."
    BadSubtag = "BadSubtag", "A Subtag without the form of its Type: mend it."
    BadTag = "BadTag", "A Tag without the form of its Type: mend it."
    BadPreferred = "BadPreferred", "A Preferred-Value without the form of its Type: mend it."
    BadPrefix = "BadPrefix", "A Prefix that is no list of subtags: mend it."
    C1 = "C1", "An earlier record has the same kind and name, or the same tag: remove one of the two."
    C2 = "C2", "The value of a language, script or region is not registered as the same kind: register it, or mend the Preferred-Value."
    C3 = "C3", "The preferred values lead round in a circle: mend one of them."
    C4 = "C4", "An extlang without one Prefix that is a registered language with no value, or it and its value lead to two languages: mend the record."
    C5 = "C5", "The value of a variant is not registered, or leads on from a variant to a language: mend the Preferred-Value."
    C6 = "C6", "A variant whose value is a language has no Prefix, or one that is no registered language with no value: mend it."
    C7 = "C7", "A Prefix of a variant is no langtag, or has extensions or private use: mend it."
    C8 = "C8", "A grandfathered record has none of the 26 tags, or its subtags are registered so that its tag is valid by its parts: remove one of them."
    C9 = "C9", "The value of a whole tag, or a redundant tag with a value, is no valid langtag without extensions and private use: mend it."
    C10 = "C10", "The value of a whole tag leads on to another whole tag, or repeats a variant: mend the Preferred-Value."
    C11 = "C11", "The subtags of a redundant tag lead to another tag than its Preferred-Value: mend the Preferred-Value."
    C12 = "C12", "A range has a Preferred-Value: remove it."
    U1 = "U1", "The newer registry lacks a subtag of the older one, or has no one range that holds a range of it: register it."
    U2 = "U2", "In the newer registry a subtag and its older value lead to two subtags: lead both to one."
    U3 = "U3", "The newer registry lacks an extlang, or gives it another Prefix or leads it elsewhere: keep what it was."
    U4 = "U4", "In the newer registry a variant no longer becomes a language, or has other Prefixes, or becomes another language: keep what it was."
    U5 = "U5", "In the newer registry a variant of the older one becomes a language: remove its Preferred-Value."
    U6 = "U6", "In the newer registry a whole tag and its older value lead to two canonical tags: lead both to one."
    BadFirst = "BadFirst", "The first subtag of a language range has a digit: begin with a language of letters alone, or with *."
    ExtendedRange = "ExtendedRange", "A range of the header has a * beside other subtags: write it without *, or * alone."
    BadWeight = "BadWeight", "What follows a range of the header is no weight: write ;q= and a number from 0 to 1 with up to three decimals, or a comma."
    ReplacementRepeats = "ReplacementRepeats", "Replacements would repeat the variant that is named: remove one of the variants."
    NoSuchStep = "NoSuchStep", "The step at the place that is named does not lead on: mend it, or take the registry by which the tag was explained."
    WrongEnd = "WrongEnd", "The steps lead to another tag than the last: mend the last tag, or the steps."
    TooManySteps = "TooManySteps", "The explanation has more steps than were allowed: allow more, or leave the tag unexplained."
    NoEntries = "NoEntries", "The registry has no entries: the file is empty, or was not downloaded or written to its end: get it again."


# The kinds of part, and of step, each after its number; none has the first.
PARTS = ("", "Language", "Extlang", "Script", "Region", "Variant", "Singleton", "ExtensionSubtag", "Attribute", "Key", "Type", "SourceLanguage", "SourceExtlang", "SourceScript", "SourceRegion", "SourceVariant", "Separator", "Value", "PrivateUseSingleton", "PrivateUse", "Grandfathered")
STEPS = ("", "Extlang", "Language", "Script", "Region", "Variant", "VariantLanguage", "Whole", "SwapExtensions", "DropAttribute", "SwapAttributes", "DropKeyword", "SwapKeywords", "DropTrue", "SwapFields")
