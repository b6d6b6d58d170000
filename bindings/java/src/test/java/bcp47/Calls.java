package bcp47;

import static java.util.stream.Collectors.joining;

import java.io.ByteArrayInputStream;
import java.io.ByteArrayOutputStream;
import java.io.IOException;
import java.io.ObjectInputStream;
import java.io.ObjectOutputStream;
import java.lang.ref.WeakReference;
import java.net.URL;
import java.net.URLClassLoader;
import java.nio.charset.StandardCharsets;
import java.nio.file.Files;
import java.nio.file.NoSuchFileException;
import java.nio.file.Path;
import java.security.MessageDigest;
import java.util.ArrayList;
import java.util.Arrays;
import java.util.HexFormat;
import java.util.List;
import java.util.Locale;
import java.util.Map;
import java.util.Objects;
import java.util.Set;
import java.util.TreeSet;
import java.util.concurrent.Callable;
import java.util.concurrent.Executors;
import java.util.concurrent.Future;
import java.util.concurrent.atomic.AtomicBoolean;
import java.util.concurrent.atomic.AtomicInteger;
import java.util.stream.IntStream;
import java.util.stream.Stream;

/** Each call of the package. Arguments: examples/sample-registry.txt, and `bundled` where bcp47-registry is on the class path. */
final class Calls {
    private static final AtomicInteger CHECKS = new AtomicInteger();
    private static final String CLOSED = " is closed: keep it open until the last call, or make another";

    private static void is(Object wanted, Object got) {
        CHECKS.incrementAndGet();
        if (!wanted.equals(got)) {
            throw new AssertionError("wanted " + wanted + ", got " + got);
        }
    }

    /** What a call throws, which is of this class. */
    private static <T extends Throwable> T thrown(Class<T> kind, Callable<?> call) {
        Throwable thrown = null;
        try {
            call.call();
        } catch (Throwable any) {
            thrown = any;
        }
        CHECKS.incrementAndGet();
        if (!kind.isInstance(thrown)) {
            throw new AssertionError("wanted " + kind + ", got " + thrown);
        }
        return kind.cast(thrown);
    }

    private static Callable<?> nothing(Runnable call) {
        return Executors.callable(call);
    }

    private static void texts(Registry registry) {
        is("yue", registry.canonical("zh-yue"));
        is("en-t-he-t0-und", registry.canonical("en-t-iw-t0-und"));
        is("zh-yue", registry.extlang("yue"));
        is(true, registry.equivalent("I-KLINGON", Tag.of("tlh")));
        is(false, registry.equivalent("zh", "yue"));
        List<Answer> answers = List.of(registry.answer("iw"), registry.answer("en_US"), registry.answer(Tag.of("YUE")));
        is("[he, ! BadByte 1, yue]", answers.toString());
        is("NotATag BAD_BYTE 1 null", answers.get(1).refusal().status() + " " + answers.get(1).refusal().fault().name() + " "
                + answers.get(1).refusal().place() + " " + answers.get(1).refusal().variant());
    }

    private static void ranges(Registry registry) {
        String all = "";
        for (String pair : List.of("zh-yue yue-GB", "yue-GB zh-yue", "de-DE de-Latn-DE", "zh-* zh-Hans", "* de", "en de")) {
            String[] texts = pair.split(" ");
            for (Scheme scheme : Scheme.values()) {
                all += registry.matches(texts[0], Tag.of(texts[1]), scheme) ? 1 : 0;
            }
            all += " ";
        }
        is("110 001 010 110 110 000 ", all);
        for (String range : List.of("*-".repeat(2050) + "zz", "en-" + "*-".repeat(2050) + "zz")) {
            is(false, registry.matches(range, "en", Scheme.EXTENDED));
        }
        RefusedTag refused = thrown(RefusedTag.class, () -> registry.matches("e_n", "e_m", Scheme.BASIC));
        is("BadByte 0 e_n", refused.getMessage() + " " + refused.tag());
        refused = thrown(RefusedTag.class, () -> registry.matches("en", "e_m", Scheme.LOOKUP));
        is("BadByte 1 e_m", refused.getMessage() + " " + refused.tag());
        refused = thrown(RefusedTag.class, () -> registry.matches("*", "ja-Latn-hepburn-alalc97-heploc", Scheme.EXTENDED));
        is("ReplacementRepeats alalc97 alalc97", refused.getMessage() + " " + refused.variant());
        thrown(NullPointerException.class, () -> registry.matches("en", "en", null));
    }

    /** A tag of 204 variants of 4 letters and digits, each of which becomes one of 8. */
    private static void longest() {
        StringBuilder records = new StringBuilder("Type: language\nSubtag: aa\n");
        StringBuilder tag = new StringBuilder("aa");
        StringBuilder canonical = new StringBuilder("aa");
        for (int n = 0; n < 204; n++) {
            records.append(String.format("%%%%\nType: variant\nSubtag: 1%03d\nPreferred-Value: value%03d\n", n, n));
            records.append(String.format("%%%%\nType: variant\nSubtag: value%03d\n", n));
            tag.append(String.format("-1%03d", n));
            canonical.append(String.format("-value%03d", n));
        }
        try (Registry registry = Registry.of(records.toString().getBytes(StandardCharsets.UTF_8))) {
            is(canonical.toString(), registry.canonical(tag));
        }
    }

    private static void refusals(Registry registry) {
        RefusedTag refused = thrown(RefusedTag.class, () -> registry.canonical("en_US"));
        is("BadByte 1", refused.getMessage());
        is(Fault.BAD_BYTE, refused.fault());
        is("NotATag BadByte 1 en_US", refused.refusal().status() + " " + refused.fault() + " " + refused.place() + " " + refused.tag());
        is(true, refused.help().contains("hyphen"));
        is(true, refused.variant() == null);
        is("UnknownLanguage 1", thrown(RefusedTag.class, nothing(() -> registry.validate("xx"))).getMessage());
        is("Invalid", thrown(RefusedTag.class, nothing(() -> registry.validate("xx"))).refusal().status());
        is("e_n", thrown(RefusedTag.class, () -> registry.equivalent("en", "e_n")).tag());
        is("TooLong 0", thrown(RefusedTag.class, () -> registry.canonical("a".repeat(100_000))).getMessage());
        is(1024, thrown(RefusedTag.class, () -> registry.canonical("a".repeat(100_000_000))).tag().length());
        is("TooLong 0", thrown(RefusedTag.class, () -> registry.canonical("é".repeat(513))).getMessage());
        is("BadByte 1", thrown(RefusedTag.class, () -> registry.canonical("é".repeat(512))).getMessage());
        for (String text : List.of("en\ud800", "en\0", "é", "en\n")) {
            is("BadByte 1", thrown(RefusedTag.class, () -> registry.extlang(text)).getMessage());
        }
        is("EmptySubtag 1", thrown(RefusedTag.class, () -> Tag.of("")).getMessage());
        is(true, registry.isValid("zh-yue"));
        is(false, registry.isValid("xx"));
        thrown(NullPointerException.class, () -> registry.canonical(null));
        thrown(NullPointerException.class, () -> Tag.of((CharSequence) null));
        thrown(NullPointerException.class, () -> Registry.of(null));
        thrown(NullPointerException.class, () -> registry.answer(null));
        thrown(NullPointerException.class, () -> registry.equivalent("en", null));
        thrown(NullPointerException.class, () -> registry.available(null));
        thrown(NullPointerException.class, () -> registry.available(Arrays.asList("en", null)));
        RefusedRegistry none = thrown(RefusedRegistry.class, () -> Registry.of("no registry\n".getBytes(StandardCharsets.UTF_8)));
        is("jar BadLine line 1/BadFile/BadLine/1", none.getMessage() + "/" + none.refusal().status() + "/" + none.fault() + "/" + none.place());
        for (String empty : List.of("", "File-Date: 2000-01-01\n")) {
            none = thrown(RefusedRegistry.class, () -> Registry.of(empty.getBytes(StandardCharsets.UTF_8)));
            is("NoEntries NO_ENTRIES", none.getMessage() + " " + none.fault().name());
        }
        is(Fault.NO_ENTRIES, thrown(RefusedRegistry.class, () -> Registry.open(Path.of("/dev/null"))).fault());
        thrown(NoSuchFileException.class, () -> Registry.open(Path.of("/no/such/file")));
        String repeats = "ja-Latn-hepburn-alalc97-heploc";
        List<Callable<?>> calls = List.of(() -> registry.canonical(repeats), () -> registry.explain(repeats), () -> registry.equivalent("ja", repeats));
        for (Callable<?> call : calls) {
            RefusedTag repeated = thrown(RefusedTag.class, call);
            is("ReplacementRepeats alalc97/alalc97/0", repeated.getMessage() + "/" + repeated.variant() + "/" + repeated.place());
        }
        is("ReplacementRepeats alalc97", registry.answer(repeats).refusal().toString());
    }

    /** What logs and assertions show of an object, and which are equal. */
    private static void shown(Registry registry, Path sample) {
        is("bcp47.RefusedTag: BadByte 1: en_US?forged", thrown(RefusedTag.class, () -> registry.canonical("en_US\nforged")).toString());
        is("bcp47.RefusedTag: BadByte 1: en?31m", thrown(RefusedTag.class, () -> registry.canonical("en\u009b31m")).toString());
        is("bcp47.RefusedTag: EmptySubtag 1", thrown(RefusedTag.class, () -> registry.canonical("")).toString());
        RefusedTag inHeader = thrown(RefusedTag.class, () -> registry.available(List.of("en")).best("en, e_n"));
        is("bcp47.RefusedTag: BadByte 2: en, e_n", inHeader.toString());
        Path page = sample.resolveSibling("../VERSION");
        is("bcp47.RefusedRegistry: jar BadLine line 1: " + page, thrown(RefusedRegistry.class, () -> Registry.open(page)).toString());
        is("bcp47.RefusedRegistry: NoEntries", thrown(RefusedRegistry.class, () -> Registry.of(new byte[0])).toString());
        String repeats = "ja-Latn-hepburn-alalc97-heploc";
        List<String> texts = List.of("en_US", "e_n", "en_US-x", "xx", repeats, "iw", "he", "de");
        is(8, Set.copyOf(texts.stream().map(text -> registry.answer(text) + text).toList()).size());
        for (String text : texts) {
            is(registry.answer(text), registry.answer(text));
            is(registry.answer(text).hashCode(), registry.answer(text).hashCode());
        }
        // one text more, and the same fault at the same place
        is(List.of(false, true, true), List.of(registry.answer("xx").equals(registry.answer("en_US")),
                registry.answer("e_n").equals(registry.answer("en_US")), registry.answer("iw").equals(registry.answer("he"))));
        is("Registry[open]", registry.toString());
        try (Available available = registry.available(List.of("en", Tag.of("zh-yue")))) {
            is("Available[en, zh-yue]", available.toString());
        }
        is("[Part[kind=Language, text=de], Part[kind=Region, text=CH]]", Tag.of("DE-ch").parts().toString());
        is(Set.of(Tag.of("DE")), Set.of(Tag.of("de")));
        is("zh-Hant-TW zh-Hant zh", Stream.iterate(Tag.of("zh-Hant-TW"), Objects::nonNull, Tag::parent).collect(joining(" ")));
    }

    private static void changes() {
        Tag tag = Tag.of("de-CH-1996-u-co-phonebk-x-own");
        is("zh-yue-CH-1996-u-co-phonebk-x-own", tag.with("Language", "zh-yue").toString());
        is("de-Latn-1901-x-a-b", tag.with("Script", "LATN").with("Region", "").with("Variant", "1901").with("Singleton", "")
                .with("PrivateUseSingleton", "x-a-b").toString());
        is("D_", thrown(RefusedTag.class, () -> tag.with("Region", "D_")).tag());
        is("x-own", thrown(RefusedTag.class, () -> Tag.of("x-own").with("Region", "DE")).tag());
        for (String kind : Arrays.asList("region", "Key", "", null)) {
            is(kind + " can't be replaced: name one of Language, Script, Region, Variant, Singleton, PrivateUseSingleton",
                    thrown(IllegalArgumentException.class, () -> tag.with(kind, "DE")).getMessage());
        }
        is(tag, tag.with("Region", "CH"));
        is("en", Tag.ofPosix("en").toString());
        thrown(NullPointerException.class, () -> tag.with("Region", null));
        thrown(NullPointerException.class, () -> Tag.ofPosix(null));
        is("en-US sr-Latn-RS en-US-u-va-posix", Tag.ofPosix("en_US.UTF-8") + " " + Tag.ofPosix("sr_RS@latin") + " " + Tag.ofPosix("C"));
        is("de_DE@nothing", thrown(RefusedTag.class, () -> Tag.ofPosix("de_DE@nothing")).tag());
    }

    private static void parents(Registry registry) {
        is("zh-Hant-CN", Tag.of("zh-Hant-CN-x-private1").parent().toString());
        is(true, Tag.of("zh").parent() == null);
        is("[Field[name=File-Date, body=2024-01-01]]", registry.record(1).toString());
        is(List.of(), registry.record(-1));
        String records = "File-Date: 2000-01-01\n%%\nType: language\nSubtag: de\nDescription: a\0b\nAdded: 2005-10-16\n";
        try (Registry zero = Registry.of(records.getBytes(StandardCharsets.UTF_8))) {
            is("[language, de, a\0b, 2005-10-16]", zero.record(2).stream().map(Field::body).toList().toString());
        }
    }

    private static void readers(byte[] content) throws Exception {
        Registry registry = Registry.of(content);
        Available available = registry.available(List.of("en", Tag.of("zh-yue"), "de-DE", "he"));
        for (String name : List.of("e_n", "xx", "")) {
            is(name, thrown(RefusedTag.class, () -> registry.available(List.of("en", name))).tag());
        }
        Available none = registry.available(List.of());
        is("null []", none.best("en") + " " + none.filter("*"));
        none.close();
        registry.close();
        Map.of("de, en;q=0.8", "de-DE", "iw-XA;q=0.5, EN-gb;q=0.3", "he", "zh;q=0.2, yue;q=0.1", "zh-yue", "en;q=0, *", "zh-yue", "gan, fr", "null",
                "", "null").forEach((accept, best) -> is(best, String.valueOf(available.best(accept))));
        is("[he, zh-yue]", available.filter("zh;q=0.5, iw, de;q=0").toString());
        for (Callable<?> call : List.<Callable<?>>of(() -> available.best("en, e_n"), () -> available.filter("en, e_n"))) {
            RefusedTag refused = thrown(RefusedTag.class, call);
            is("BadHeader 2 en, e_n", refused.refusal().status() + " " + refused.place() + " " + refused.tag());
        }
        RefusedTag repeats = thrown(RefusedTag.class, () -> available.best("ja-Latn-hepburn-alalc97-heploc"));
        is("ReplacementRepeats/ReplacementRepeats/null", repeats.fault() + "/" + repeats.getMessage() + "/" + repeats.variant());
        is("en [en, zh-yue, de-DE, he]", available.best(null) + " " + available.filter(null));
        var pool = Executors.newFixedThreadPool(70);
        List<Callable<Void>> askers = IntStream.range(0, 70).<Callable<Void>>mapToObj(i -> () -> {
            for (int n = 0; n < 200; n++) {
                is("zh-yue", available.best("zh-yue;q=0.5"));
            }
            return null;
        }).toList();
        for (Future<Void> one : pool.invokeAll(askers)) {
            one.get();
        }
        pool.shutdown();
        available.close();
        available.close();
        is("the list of available tags" + CLOSED, thrown(IllegalStateException.class, () -> available.best("en")).getMessage());
        is("the list of available tags" + CLOSED, thrown(IllegalStateException.class, () -> available.filter("en")).getMessage());
        is("the registry" + CLOSED, thrown(IllegalStateException.class, () -> registry.available(List.of())).getMessage());
    }

    private static void explanations(Registry registry) {
        Explanation explanation = registry.explain("sgn-dd");
        is("Region 2 27 sgn-DE\nWhole 1 44 gsg\n= gsg", explanation.toString());
        is("= en", registry.explain("en", 0).toString());
        is("TooManySteps", thrown(RefusedTag.class, () -> registry.explain("sgn-dd", 1)).getMessage());
        String many = IntStream.range(0, 210).mapToObj(i -> "-" + (char) ('z' - i / 26) + (char) ('z' - i % 26))
                .collect(joining("", "en-u", ""));
        is("TooManySteps", thrown(RefusedTag.class, () -> registry.explain(many)).getMessage());
        is(Fault.TOO_MANY_STEPS, thrown(RefusedTag.class, () -> registry.explain("sgn-dd", 1)).fault());
    }

    private static void tags() throws Exception {
        Tag tag = Tag.of("ZH-yue-hANT-hk-1996-U-co-phonebk-T-de-X-own-1");
        is("zh-yue-Hant-HK-1996-u-co-phonebk-t-de-x-own-1", tag.toString());
        is("zh [yue] Hant HK [1996] {u=[co, phonebk], t=[de]} [own, 1] LANGTAG", tag.language() + " " + tag.extlangs() + " " + tag.script() + " "
                + tag.region() + " " + tag.variants() + " " + tag.extensions() + " " + tag.privateUse() + " " + tag.kind());
        is(new Part("SourceLanguage", "de"), tag.parts().get(9));
        is(true, Tag.of("en").script() == null);
        is(List.of(Tag.Kind.PRIVATE_USE, Tag.Kind.GRANDFATHERED), List.of(Tag.of("X-own").kind(), Tag.of("i-KLINGON").kind()));
        is("[Part[kind=Grandfathered, text=i-klingon]]", Tag.of("i-KLINGON").parts().toString());
        is("[de, en]", new TreeSet<>(List.of(Tag.of("EN"), Tag.of("de"), Tag.of("en"))).toString());
        is(Tag.of("EN").hashCode(), Tag.of("en").hashCode());
        is("n2n", Tag.of("EN").charAt(1) + "" + tag.subSequence(0, 2).length() + Tag.of("en").subSequence(1, 2));
        thrown(UnsupportedOperationException.class, () -> tag.parts().remove(0));
        thrown(UnsupportedOperationException.class, () -> tag.extensions().put("a", List.of()));
        is(Map.of(), Tag.of("x-a-b").extensions());
        is("he-IL", Tag.of(new Locale("iw", "IL")).toString());
        is("TW", Tag.of("zh-Hant-TW").toLocale().getCountry());
        is("x-own", Tag.of("x-own").toLocale().toLanguageTag());
        is(List.of(tag, tag.parts()), List.of(copied(tag), copied(tag).parts()));
    }

    /** What Java writes and reads of an object. */
    @SuppressWarnings("unchecked")
    private static <T> T copied(T object) throws Exception {
        ByteArrayOutputStream bytes = new ByteArrayOutputStream();
        new ObjectOutputStream(bytes).writeObject(object);
        return (T) new ObjectInputStream(new ByteArrayInputStream(bytes.toByteArray())).readObject();
    }

    /** What a refusal has is there after it was written and read, as logs and remote calls do. */
    private static void travels(Registry registry) throws Exception {
        RefusedTag refused = copied(thrown(RefusedTag.class, () -> registry.canonical("en_US")));
        is("BadByte 1 BAD_BYTE 1 en_US", refused.getMessage() + " " + refused.fault().name() + " " + refused.place() + " " + refused.tag());
        is(registry.answer("en_US").refusal(), refused.refusal());
    }

    /** The registry of the jar bcp47-registry, or that there is none. */
    private static void bundled(String jar) {
        if (jar.isEmpty()) {
            thrown(IllegalStateException.class, Registry::bundled);
        } else {
            try (Registry registry = Registry.bundled()) {
                is("2025-05-15 yue", registry.info().fileDate() + " " + registry.canonical("zh-yue"));
            }
        }
    }

    private static void info(Registry registry, byte[] content) throws Exception {
        String sha256 = HexFormat.of().formatHex(MessageDigest.getInstance("SHA-256").digest(content));
        is(new Info("2024-01-01", new String(content, StandardCharsets.UTF_8).split("%%", -1).length - 1, sha256), registry.info());
        is(true, Registry.version().matches("\\d+\\.\\d+\\.\\d+"));
    }

    private static void closed(byte[] content) {
        Registry own = Registry.of(content);
        own.close();
        own.close();
        List<Callable<?>> calls = List.of(() -> own.canonical("en"), () -> own.answer("en"), () -> own.extlang("en"),
                () -> own.isValid("en"), () -> own.equivalent("en", "en"), () -> own.explain("en"), own::info,
                () -> own.matches("en", "en", Scheme.BASIC));
        calls.forEach(call -> is("the registry" + CLOSED, thrown(IllegalStateException.class, call).getMessage()));
        is("Registry[closed]", own.toString());
    }

    /** Many threads ask registries which others close meanwhile, and which are collected. */
    private static void threads(Registry shared, byte[] content) throws Exception {
        var pool = Executors.newFixedThreadPool(70);
        List<Future<?>> all = new ArrayList<>();
        for (int i = 0; i < 70; i++) {
            all.add(pool.submit(() -> {
                for (int n = 0; n < 2_000; n++) {
                    is("yue", shared.canonical("zh-yue"));
                }
                return null;
            }));
        }
        for (int round = 0; round < 50; round++) {
            Registry own = Registry.of(content);
            AtomicBoolean begun = new AtomicBoolean();
            List<Future<?>> asking = new ArrayList<>();
            for (int i = 0; i < 4; i++) {
                asking.add(pool.submit(() -> {
                    try {
                        while (true) {
                            own.explain("sgn-dd");
                            own.equivalent("zh-yue", "yue");
                            begun.set(true);
                        }
                    } catch (IllegalStateException closed) {
                        return null;
                    }
                }));
            }
            while (!begun.get()) {
                Thread.onSpinWait();
            }
            own.close();
            for (Future<?> one : asking) {
                one.get();
            }
        }
        for (Future<?> one : all) {
            one.get();
        }
        pool.shutdown();
    }

    /** How many bytes the process has in memory. */
    private static long resident() throws IOException {
        return 4096 * Long.parseLong(Files.readString(Path.of("/proc/self/statm")).split(" ")[1]);
    }

    /** Of 3000 registries that nobody closes, far less is left in memory than ten times what 300 take. */
    private static void collected(byte[] content) throws Exception {
        long before = resident();
        Registry[] kept = new Registry[300];
        Arrays.setAll(kept, i -> Registry.of(content));
        long of300 = resident() - before;
        for (Registry registry : kept) {
            registry.close();
        }
        before = resident();
        for (int i = 0; i < 3000; i++) {
            Registry.of(content);
            if (i % 100 == 99) {
                System.gc();
                Thread.sleep(20);
            }
        }
        long grown = resident() - before;
        is("collected", of300 > 10_000_000 && grown < 3 * of300 ? "collected" : "grown by " + grown + ", where 300 take " + of300);
    }

    /** That memory runs out, or is too little for many calls at once, is no fault of a tag. */
    private static void busy() {
        BusyException busy = thrown(BusyException.class, () -> Refusal.of(new long[] {15, 0, 0, 0, 0}, null));
        // it is none of those that tell of a closed registry, or of a refusal
        is(RuntimeException.class, busy.getClass().getSuperclass());
        thrown(OutOfMemoryError.class, () -> Refusal.of(new long[] {4, 0, 0, 0, 0}, null));
    }

    /** A class loader goes, with the classes that it loaded. */
    private static void loaders() throws Exception {
        URL jar = Native.class.getProtectionDomain().getCodeSource().getLocation();
        URLClassLoader loader = new URLClassLoader(new URL[] {jar}, ClassLoader.getPlatformClassLoader());
        is("zh-yue", Class.forName("bcp47.Tag", true, loader).getMethod("of", CharSequence.class).invoke(null, "zh-yue").toString());
        loader.close();
        WeakReference<ClassLoader> left = new WeakReference<>(loader);
        loader = null;
        for (int tries = 0; tries < 100 && left.get() != null; tries++) {
            System.gc();
            Thread.sleep(20);
        }
        is(true, left.get() == null);
    }

    public static void main(String[] words) throws Exception {
        Path sample = Path.of(words[0]);
        byte[] content = Files.readAllBytes(sample);
        try (Registry registry = Registry.open(sample)) {
            texts(registry);
            ranges(registry);
            longest();
            refusals(registry);
            shown(registry, sample);
            explanations(registry);
            parents(registry);
            changes();
            tags();
            info(registry, content);
            travels(registry);
            readers(content);
            closed(content);
            threads(registry, content);
            collected(content);
        }
        bundled(words.length > 1 ? words[1] : "");
        busy();
        loaders();
        System.out.println(CHECKS.get() > 140_000 ? "ok" : "too few: " + CHECKS);
    }
}
