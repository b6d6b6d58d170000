//! What the library numbers. Written by tools/describe.py of bindings/c/bcp47.h and names.c.

numbered! {
    /// What is wrong with a text, a record or a registry; it is shown as the program shows it.
    Fault {
        /// A text of more than 1,024 bytes, which is no tag: see whether line ends are missing.
        TooLong = 1,
        /// Nothing between two hyphens, or an empty text: remove a hyphen too many, or the empty line.
        EmptySubtag = 2,
        /// A byte that is no ASCII letter, digit or hyphen: write zh-Hant for zh_Hant; remove quotes, spaces, a byte order mark.
        BadByte = 3,
        /// A subtag of more than 8 letters and digits: put a hyphen where subtags meet.
        LongSubtag = 4,
        /// The first subtag is no language: begin with a language of 2 to 8 letters, or with x.
        BadLanguage = 5,
        /// A subtag that can't stand where it does: order them: language, extlang, script, region, variants, extensions, x.
        Misplaced = 6,
        /// The text ends after a singleton or x: add what follows it, or remove it.
        Unfinished = 7,
        /// The registry lacks the language: correct it (en for eng or English), or get a newer registry.
        UnknownLanguage = 8,
        /// The registry lacks the extlang: correct it, or get a newer registry.
        UnknownExtlang = 9,
        /// The extlang belongs to another language: put it after its language (zh-yue), or leave the language out (yue).
        ExtlangPrefix = 10,
        /// A second extlang: keep only one.
        TooManyExtlangs = 11,
        /// The registry lacks the script: correct it, or get a newer registry.
        UnknownScript = 12,
        /// The registry lacks the region: correct it (GB for UK), or get a newer registry.
        UnknownRegion = 13,
        /// The registry lacks the variant: correct it, or get a newer registry.
        UnknownVariant = 14,
        /// A variant stands twice: remove one.
        DuplicateVariant = 15,
        /// An extension stands twice: join the two, or remove one.
        DuplicateSingleton = 16,
        /// A t extension without its form: mend it: a language, and fields such as m0-names.
        BadTransform = 17,
        /// A line of more than 65,536 bytes: it is no registry, or its line feeds are missing.
        LineTooLong = 18,
        /// A line that is not UTF-8: convert the file, or unpack it.
        NotUtf8 = 19,
        /// A continuation with no field before it: remove the spaces that begin the line.
        LeadingContinuation = 20,
        /// Neither a field, %%, nor a continuation. This is no registry, or not its plain text: get one from https://www.iana.org/assignments/language-subtag-registry/language-subtag-registry, or remove a byte order mark.
        BadLine = 21,
        /// Record 100,001: cut the file.
        TooManyRecords = 22,
        /// The file or the input can't be read to its end: see whether it is a folder, or closed, or a disk fails.
        Read = 23,
        /// After 10,000,000 reads the input had not ended: write larger pieces, or start the program again.
        TooManyTurns = 24,
        /// Reading failed before, at the place that is named: see what was answered then.
        Failed = 25,
        /// Type, Subtag, Tag or Preferred-Value stands twice: keep one.
        RepeatedField = 26,
        /// There is no Type: add it.
        MissingType = 27,
        /// The Type is none of the seven: mend it.
        UnknownType = 28,
        /// No Subtag, or no Tag where one is wanted: add it.
        MissingName = 29,
        /// A range without its form: write two subtags of one length with two full stops between them, the lower one first.
        BadRange = 30,
        /// A Subtag without the form of its Type: mend it.
        BadSubtag = 31,
        /// A Tag without the form of its Type: mend it.
        BadTag = 32,
        /// A Preferred-Value without the form of its Type: mend it.
        BadPreferred = 33,
        /// A Prefix that is no list of subtags: mend it.
        BadPrefix = 34,
        /// An earlier record has the same kind and name, or the same tag: remove one of the two.
        C1 = 35,
        /// The value of a language, script or region is not registered as the same kind: register it, or mend the Preferred-Value.
        C2 = 36,
        /// The preferred values lead round in a circle: mend one of them.
        C3 = 37,
        /// An extlang without one Prefix that is a registered language with no value, or it and its value lead to two languages: mend the record.
        C4 = 38,
        /// The value of a variant is not registered, or leads on from a variant to a language: mend the Preferred-Value.
        C5 = 39,
        /// A variant whose value is a language has no Prefix, or one that is no registered language with no value: mend it.
        C6 = 40,
        /// A Prefix of a variant is no langtag, or has extensions or private use: mend it.
        C7 = 41,
        /// A grandfathered record has none of the 26 tags, or its subtags are registered so that its tag is valid by its parts: remove one of them.
        C8 = 42,
        /// The value of a whole tag, or a redundant tag with a value, is no valid langtag without extensions and private use: mend it.
        C9 = 43,
        /// The value of a whole tag leads on to another whole tag, or repeats a variant: mend the Preferred-Value.
        C10 = 44,
        /// The subtags of a redundant tag lead to another tag than its Preferred-Value: mend the Preferred-Value.
        C11 = 45,
        /// A range has a Preferred-Value: remove it.
        C12 = 46,
        /// The newer registry lacks a subtag of the older one, or has no one range that holds a range of it: register it.
        U1 = 47,
        /// In the newer registry a subtag and its older value lead to two subtags: lead both to one.
        U2 = 48,
        /// The newer registry lacks an extlang, or gives it another Prefix or leads it elsewhere: keep what it was.
        U3 = 49,
        /// In the newer registry a variant no longer becomes a language, or has other Prefixes, or becomes another language: keep what it was.
        U4 = 50,
        /// In the newer registry a variant of the older one becomes a language: remove its Preferred-Value.
        U5 = 51,
        /// In the newer registry a whole tag and its older value lead to two canonical tags: lead both to one.
        U6 = 52,
        /// The first subtag of a language range has a digit: begin with a language of letters alone, or with *.
        BadFirst = 53,
        /// A range of the header has a * beside other subtags: write it without *, or * alone.
        ExtendedRange = 54,
        /// What follows a range of the header is no weight: write ;q= and a number from 0 to 1 with up to three decimals, or a comma.
        BadWeight = 55,
    }
}

numbered! {
    /// The kind of a part of a tag (RFC 5646, 2.1; RFC 6067, 2.1; RFC 6497, 2.2).
    #[allow(missing_docs)]
    PartKind {
        Language = 1,
        Extlang = 2,
        Script = 3,
        Region = 4,
        Variant = 5,
        Singleton = 6,
        ExtensionSubtag = 7,
        Attribute = 8,
        Key = 9,
        Type = 10,
        SourceLanguage = 11,
        SourceExtlang = 12,
        SourceScript = 13,
        SourceRegion = 14,
        SourceVariant = 15,
        Separator = 16,
        Value = 17,
        PrivateUseSingleton = 18,
        PrivateUse = 19,
        Grandfathered = 20,
    }
}

numbered! {
    /// The kind of a step of an explanation.
    #[allow(missing_docs)]
    StepKind {
        Extlang = 1,
        Language = 2,
        Script = 3,
        Region = 4,
        Variant = 5,
        VariantLanguage = 6,
        Whole = 7,
        SwapExtensions = 8,
        DropAttribute = 9,
        SwapAttributes = 10,
        DropKeyword = 11,
        SwapKeywords = 12,
        DropTrue = 13,
        SwapFields = 14,
    }
}
