package bcp47

import (
	"bytes"
	"crypto/sha256"
	"encoding/json"
	"errors"
	"fmt"
	"os"
	"reflect"
	"runtime"
	"strings"
	"sync"
	"testing"
	"time"
)

var sample = func() string {
	if path := os.Getenv("BCP47_SAMPLE"); path != "" {
		return path
	}
	return "../../examples/sample-registry.txt"
}()

func opened(t testing.TB) *Registry {
	t.Helper()
	registry, err := Open(sample)
	if err != nil {
		t.Fatal(err)
	}
	return registry
}

func is(t *testing.T, wanted, got any) {
	t.Helper()
	if !reflect.DeepEqual(wanted, got) {
		t.Errorf("wanted %#v, got %#v", wanted, got)
	}
}

// What an answer says: its text, or the error after a mark.
func said(text any, err error) string {
	if err != nil {
		return "! " + err.Error()
	}
	return fmt.Sprint(text)
}

func TestTexts(t *testing.T) {
	registry := opened(t)
	defer registry.Close()
	is(t, "yue", said(registry.Canonical("zh-yue")))
	is(t, "en-t-he-t0-und", said(registry.Canonical("en-t-iw-t0-und")))
	is(t, "zh-yue", said(registry.Extlang("yue")))
	is(t, "true", said(registry.Equivalent("I-KLINGON", "tlh")))
	is(t, "false", said(registry.Equivalent("zh", "yue")))
	is(t, nil, registry.Validate("zh-yue"))
	is(t, 3, strings.Count(Version()+".", "."))
}

func TestTheLongestTextHasRoom(t *testing.T) {
	records, tag, canonical := "Type: language\nSubtag: aa\n", "aa", "aa"
	for n := 0; n < 204; n++ {
		records += fmt.Sprintf("%%%%\nType: variant\nSubtag: 1%03d\nPreferred-Value: value%03d\n", n, n)
		records += fmt.Sprintf("%%%%\nType: variant\nSubtag: value%03d\n", n)
		tag += fmt.Sprintf("-1%03d", n)
		canonical += fmt.Sprintf("-value%03d", n)
	}
	registry, err := Read([]byte(records))
	is(t, nil, err)
	defer registry.Close()
	is(t, canonical, said(registry.Canonical(tag)))
}

func TestParents(t *testing.T) {
	is(t, "zh-Hant", MustParseTag("zh-Hant-TW").Parent().String())
	is(t, "zh-Hant-CN", MustParseTag("zh-Hant-CN-x-private1").Parent().String())
	is(t, Tag{}, MustParseTag("zh").Parent())
	is(t, Tag{}, Tag{}.Parent())
}

func TestTagsAreChanged(t *testing.T) {
	tag := MustParseTag("de-CH-1996-u-co-phonebk-x-own")
	for wanted, change := range map[string]struct {
		part  PartKind
		value string
	}{
		"zh-yue-CH-1996-u-co-phonebk-x-own": {Language, "zh-yue"}, "de-Latn-CH-1996-u-co-phonebk-x-own": {Script, "LATN"},
		"de-1996-u-co-phonebk-x-own": {Region, ""}, "de-CH-1901-u-co-phonebk-x-own": {Variant, "1901"},
		"de-CH-1996-x-own": {Singleton, ""}, "de-CH-1996-u-co-phonebk-x-a-b": {PrivateUseSingleton, "x-a-b"},
	} {
		is(t, wanted, said(tag.With(change.part, change.value)))
	}
	var refused *TagError
	_, err := tag.With(Region, "D_")
	is(t, true, errors.As(err, &refused) && errors.Is(err, ErrNotATag))
	is(t, "D_", refused.Tag)
	for _, part := range []PartKind{0, ExtendedLanguage, PrivateUse, 99} {
		_, err = tag.With(part, "DE")
		is(t, ErrPart, err)
	}
	_, err = Tag{}.With(Region, "DE")
	is(t, true, errors.Is(err, ErrNotATag))
	for name, wanted := range map[string]string{"en_US.UTF-8": "en-US", "sr_RS@latin": "sr-Latn-RS", "C": "en-US-u-va-posix"} {
		is(t, wanted, said(ParsePosix(name)))
	}
	_, err = ParsePosix("de_DE@nothing")
	is(t, true, errors.As(err, &refused))
	is(t, "de_DE@nothing", refused.Tag)
}

func TestRecords(t *testing.T) {
	registry := opened(t)
	defer registry.Close()
	header, err := registry.Record(1)
	is(t, nil, err)
	is(t, "[{File-Date 2024-01-01}]", fmt.Sprint(header))
	none, err := registry.Record(1 << 31)
	is(t, nil, err)
	is(t, 0, len(none))
	own := opened(t)
	own.Close()
	_, err = own.Record(1)
	is(t, ErrClosed, err)
}

func TestRefusals(t *testing.T) {
	registry := opened(t)
	defer registry.Close()
	_, err := registry.Canonical("en_US")
	var refused *TagError
	is(t, true, errors.As(err, &refused))
	is(t, "BadByte 1/NotATag/BadByte/1/en_US/", fmt.Sprintf("%v/%s/%s/%d/%s/%s", err, refused.Status, refused.Fault, refused.Place,
		refused.Tag, refused.Variant))
	is(t, true, errors.Is(err, ErrBadByte) && errors.Is(err, ErrNotATag))
	is(t, false, errors.Is(err, ErrTooLong) || errors.Is(err, ErrInvalid) || errors.Is(err, ErrClosed))
	is(t, true, strings.Contains(refused.Help(), "hyphen"))
	is(t, "UnknownLanguage 1", registry.Validate("xx").Error())
	_, err = registry.Equivalent("en", "e_n")
	is(t, true, errors.As(err, &refused))
	is(t, "e_n", refused.Tag)
	for tag, wanted := range map[string]string{
		strings.Repeat("a", 100_000): "! TooLong 0", strings.Repeat("é", 513): "! TooLong 0", strings.Repeat("é", 512): "! BadByte 1",
		"": "! EmptySubtag 1", "en\x00": "! BadByte 1", "\xff": "! BadByte 1", "en\n": "! BadByte 1",
	} {
		is(t, wanted, said(registry.Canonical(tag)))
		is(t, wanted, said(registry.Extlang(tag)))
		_, err := ParseTag(tag)
		is(t, wanted, said("", err))
	}
	_, err = registry.Canonical(strings.Repeat("a", 100_000_000))
	is(t, true, errors.As(err, &refused))
	is(t, longest, len(refused.Tag))
	_, err = Read([]byte("no registry\n"))
	var none *RegistryError
	is(t, true, errors.As(err, &none))
	is(t, "jar BadLine line 1/BadFile/BadLine/1", fmt.Sprintf("%v/%s/%s/%d", err, none.Status, none.Fault, none.Place))
	for _, empty := range []string{"", "File-Date: 2000-01-01\n"} {
		_, err = Read([]byte(empty))
		is(t, true, errors.As(err, &none) && errors.Is(err, ErrNoEntries))
		is(t, "NoEntries", err.Error())
	}
	_, err = Open("/dev/null")
	is(t, true, errors.Is(err, ErrNoEntries))
	_, err = Open("/no/such/file")
	is(t, true, errors.Is(err, os.ErrNotExist))
	is(t, true, strings.Contains(err.Error(), "/no/such/file"))
	_, err = Open("go.mod")
	is(t, true, errors.As(err, &none) && errors.Is(err, ErrBadFile) && errors.Is(err, ErrBadLine))
	is(t, "go.mod: jar BadLine line 1", err.Error())
	repeats := "ja-Latn-hepburn-alalc97-heploc"
	_, canonical := registry.Canonical(repeats)
	_, explain := registry.Explain(repeats, 9)
	_, equal := registry.Equivalent("ja", repeats)
	for _, err := range []error{canonical, explain, equal} {
		is(t, true, errors.As(err, &refused))
		is(t, "ReplacementRepeats alalc97/alalc97", err.Error()+"/"+refused.Variant)
		is(t, true, errors.Is(err, ErrReplacementRepeats) && strings.Contains(refused.Help(), "repeat the variant"))
	}
}

// A refusal of a long text keeps its front in memory, and not the whole.
func TestLongTextsAreLetGo(t *testing.T) {
	registry := opened(t)
	defer registry.Close()
	var kept [20]error
	for i := range kept {
		_, kept[i] = registry.Canonical(strings.Repeat("a", 10_000_000))
	}
	runtime.GC()
	var memory runtime.MemStats
	runtime.ReadMemStats(&memory)
	if memory.HeapAlloc > 100_000_000 {
		t.Error(memory.HeapAlloc, "bytes for refusals such as", kept[0])
	}
}

// A caller who asks only for the fault, or only for the cause, gets it of each refusal.
func TestFaultsAndCausesAreFound(t *testing.T) {
	registry := opened(t)
	defer registry.Close()
	_, tag := registry.Canonical("en_US")
	_, repeats := registry.Canonical("ja-Latn-hepburn-alalc97-heploc")
	_, content := Read([]byte("no registry\n"))
	for err, wanted := range map[error]Cause{
		tag: {ErrNotATag, ErrBadByte, 1}, repeats: {ErrReplacementRepeats, ErrReplacementRepeats, 0}, content: {ErrBadFile, ErrBadLine, 1},
		fmt.Errorf("row 7: %w", registry.Validate("xx")): {ErrInvalid, ErrUnknownLanguage, 1},
	} {
		var fault Fault
		var cause *Cause
		if !errors.As(err, &fault) || !errors.As(err, &cause) {
			t.Error("no fault or no cause: ", err)
			continue
		}
		is(t, wanted.Fault, fault)
		is(t, wanted, *cause)
		is(t, true, errors.Is(err, wanted.Fault) && errors.Is(err, wanted.Status) && !errors.Is(err, ErrTooLong))
	}
	var fault Fault
	is(t, true, errors.As(error(ErrBusy), &fault) && fault == ErrBusy)
}

// What fmt shows of each object, by each verb that logs use.
func TestShown(t *testing.T) {
	registry := opened(t)
	available, err := registry.Available("en", "zh-yue")
	is(t, nil, err)
	tag := MustParseTag("zh-HANT")
	is(t, `zh-Hant zh-Hant "zh-Hant" zh-Hant`, fmt.Sprintf("%v %+v %q %s", tag, tag, tag, tag))
	is(t, "BadByte BadByte \"BadByte\" 3", fmt.Sprintf("%v %+v %q %d", ErrBadByte, ErrBadByte, ErrBadByte, ErrBadByte))
	is(t, "Basic Extended Lookup Scheme(4)", fmt.Sprint(Basic, " ", Extended, " ", Lookup, " ", Scheme(4)))
	is(t, "Script", fmt.Sprint(Script))
	is(t, "Registry(open) Available[en zh-yue]", fmt.Sprint(registry, " ", available))
	registry.Close()
	is(t, "Registry(closed)", fmt.Sprintf("%v", registry))
	is(t, "Registry(closed)", fmt.Sprint(new(Registry)))
	_, err = new(Registry).Canonical("en")
	is(t, ErrClosed, err)
	is(t, nil, new(Registry).Close())
	is(t, "bcp47: the Registry or the Available is closed: keep it open until the last call, or open another", ErrClosed.Error())
	is(t, "bcp47: the scheme is none of Basic, Extended and Lookup", ErrScheme.Error())
}

// That memory runs out, or is too little for many calls at once, is no fault of a tag, and is told apart.
func TestMemory(t *testing.T) {
	for status, wanted := range map[int]error{4: ErrOutOfMemory, 15: ErrBusy} {
		_, err := causeOf(status, 0, 0)
		is(t, wanted, err)
	}
}

func TestRanges(t *testing.T) {
	registry := opened(t)
	defer registry.Close()
	all := ""
	for _, pair := range []string{"zh-yue yue-GB", "yue-GB zh-yue", "de-DE de-Latn-DE", "zh-* zh-Hans", "* de", "en de"} {
		texts := strings.Split(pair, " ")
		for scheme := Basic; scheme <= Lookup; scheme++ {
			matched, err := registry.Matches(texts[0], texts[1], scheme)
			is(t, nil, err)
			all += map[bool]string{true: "1", false: "0"}[matched]
		}
		all += " "
	}
	is(t, "110 001 010 110 110 000 ", all)
	var refused *TagError
	for wanted, texts := range map[string][2]string{
		"BadByte 0 e_n ": {"e_n", "e_m"}, "BadByte 1 e_m ": {"en", "e_m"},
		"ReplacementRepeats alalc97 ja-Latn-hepburn-alalc97-heploc alalc97": {"*", "ja-Latn-hepburn-alalc97-heploc"},
	} {
		_, err := registry.Matches(texts[0], texts[1], Extended)
		is(t, true, errors.As(err, &refused))
		is(t, wanted, err.Error()+" "+refused.Tag+" "+refused.Variant)
	}
	for _, scheme := range []Scheme{0, 4, -1} {
		_, err := registry.Matches("en", "en", scheme)
		is(t, ErrScheme, err)
	}
}

func TestReadersAreServed(t *testing.T) {
	registry := opened(t)
	available, err := registry.Available("en", "zh-yue", "de-DE", "he")
	is(t, nil, err)
	registry.Close()
	for accept, best := range map[string]string{
		"de, en;q=0.8": "de-DE", "iw-XA;q=0.5, EN-gb;q=0.3": "he", "zh;q=0.2, yue;q=0.1": "zh-yue", "en;q=0, *": "zh-yue", "gan, fr": "", "": "",
	} {
		is(t, best, said(available.Best(accept)))
	}
	is(t, "[he zh-yue]", said(available.Filter("zh;q=0.5, iw, de;q=0")))
	for _, call := range []func(string) error{
		func(accept string) error { _, err := available.Best(accept); return err },
		func(accept string) error { _, err := available.Filter(accept); return err },
	} {
		var refused *TagError
		is(t, true, errors.As(call("en, e_n"), &refused))
		is(t, "2 en, e_n", fmt.Sprint(refused.Place, " ", refused.Tag))
		is(t, true, errors.Is(refused, ErrBadHeader) && len(refused.Help()) > 9)
		is(t, "ReplacementRepeats", call("ja-Latn-hepburn-alalc97-heploc").Error())
	}
	registry = opened(t)
	for wanted, tags := range map[string][]string{"BadByte 1 e_n": {"en", "e_n"}, "UnknownLanguage 1 xx": {"xx", ""}, "EmptySubtag 1 ": {"en", ""}} {
		var refused *TagError
		_, err := registry.Available(tags...)
		is(t, true, errors.As(err, &refused))
		is(t, wanted, err.Error()+" "+refused.Tag)
	}
	none, err := registry.Available()
	is(t, nil, err)
	is(t, "", said(none.Best("en")))
	is(t, "[]", said(none.Filter("*")))
	var all sync.WaitGroup
	for i := 0; i < 200; i++ {
		all.Add(1)
		go func() {
			defer all.Done()
			for n := 0; n < 100; n++ {
				if text, err := available.Best("zh-yue;q=0.5"); text != "zh-yue" {
					t.Error(text, err)
				}
			}
		}()
	}
	all.Wait()
	available.Close()
	_, err = available.Best("en")
	is(t, ErrClosed, err)
	registry.Close()
	_, err = registry.Available("en")
	is(t, ErrClosed, err)
}

func TestExplanations(t *testing.T) {
	registry := opened(t)
	defer registry.Close()
	explanation, err := registry.Explain("sgn-dd", 100)
	is(t, nil, err)
	is(t, "Region 2 27 sgn-DE\nWhole 1 44 gsg\n= gsg", explanation.String())
	is(t, "= en", said(registry.Explain("en", 0)))
	is(t, "! TooManySteps", said(registry.Explain("sgn-dd", 1)))
	is(t, "! TooManySteps", said(registry.Explain("sgn-dd", -1)))
	_, err = registry.Explain("sgn-dd", 1)
	is(t, true, errors.Is(err, ErrTooManySteps))
}

func TestTags(t *testing.T) {
	tag, err := ParseTag("ZH-yue-hANT-hk-1996-U-co-phonebk-T-de-X-own-1")
	is(t, nil, err)
	is(t, "zh-yue-Hant-HK-1996-u-co-phonebk-t-de-x-own-1", tag.String())
	is(t, "[{Language zh} {Extlang yue} {Script Hant} {Region HK} {Variant 1996} {Singleton u} {Key co} {Type phonebk} "+
		"{Singleton t} {SourceLanguage de} {PrivateUseSingleton x} {PrivateUse own} {PrivateUse 1}]", fmt.Sprint(tag.Parts()))
	is(t, "zh [yue] Hant HK [1996] [own 1]", fmt.Sprint(tag.Language(), " ", tag.Extlangs(), " ", tag.Script(), " ", tag.Region(), " ",
		tag.Variants(), " ", tag.PrivateUse()))
	whole := MustParseTag("i-KLINGON")
	is(t, []Part{{Grandfathered, "i-klingon"}}, whole.Parts())
	is(t, "//[]", whole.Language()+"/"+whole.Script()+"/"+fmt.Sprint(whole.Variants()))
	is(t, true, MustParseTag("EN") == MustParseTag("en"))
	is(t, "/[]", Tag{}.String()+"/"+fmt.Sprint(Tag{}.Parts()))
	defer func() { is(t, `bcp47: "e": BadLanguage 1`, recover()) }()
	MustParseTag("e")
}

// A tag in JSON is its text, and no text that is none is read as a tag.
func TestJSON(t *testing.T) {
	var row struct{ Tag Tag }
	is(t, nil, json.Unmarshal([]byte(`{"Tag": "ZH-hant"}`), &row))
	is(t, MustParseTag("zh-Hant"), row.Tag)
	written, err := json.Marshal(row)
	is(t, `{"Tag":"zh-Hant"} <nil>`, fmt.Sprint(string(written), " ", err))
	err = json.Unmarshal([]byte(`{"Tag": "<script>en_US"}`), &row)
	is(t, true, errors.Is(err, ErrBadByte))
	is(t, `bcp47: "<script>en_US": BadByte 1`, err.Error())
	parts, err := json.Marshal(MustParseTag("de-CH").Parts())
	is(t, `[{"Kind":"Language","Text":"de"},{"Kind":"Region","Text":"CH"}] <nil>`, fmt.Sprint(string(parts), " ", err))
	var read []Part
	is(t, nil, json.Unmarshal(parts, &read))
	is(t, MustParseTag("de-CH").Parts(), read)
	is(t, `! bcp47: no kind of part: "Regoin"`, said("", json.Unmarshal([]byte(`[{"Kind":"Regoin"}]`), &read)))
	_, refused := opened(t).Canonical("en_US")
	told, err := json.Marshal(refused)
	is(t, `{"Status":"NotATag","Fault":"BadByte","Place":1,"Tag":"en_US","Variant":""} <nil>`, fmt.Sprint(string(told), " ", err))
	counts, err := json.Marshal(map[Tag]int{MustParseTag("zh-HANT"): 2})
	is(t, `{"zh-Hant":2} <nil>`, fmt.Sprint(string(counts), " ", err))
	is(t, Tag{}, row.Tag)
	is(t, nil, json.Unmarshal([]byte(`{"Tag": ""}`), &row))
	is(t, Tag{}, row.Tag)
}

// The parts of a tag are had without a large array in memory each time, and without a text for each name of a kind.
func TestPartsAreCheap(t *testing.T) {
	result := testing.Benchmark(func(b *testing.B) {
		b.ReportAllocs()
		for i := 0; i < b.N; i++ {
			tag, _ := ParseTag("zh-Hant-TW")
			tag.Parts()
		}
	})
	if bytes, pieces := result.AllocedBytesPerOp(), result.AllocsPerOp(); bytes > 3000 || pieces > 3 {
		t.Error(bytes, "bytes a tag, in", pieces)
	}
}

func TestInfo(t *testing.T) {
	registry := opened(t)
	defer registry.Close()
	content, err := os.ReadFile(sample)
	is(t, nil, err)
	info, err := registry.Info()
	is(t, nil, err)
	is(t, Info{"2024-01-01", bytes.Count(content, []byte("%%")), fmt.Sprintf("%x", sha256.Sum256(content))}, info)
}

func TestClosed(t *testing.T) {
	registry, own := opened(t), opened(t)
	defer registry.Close()
	is(t, nil, own.Close())
	is(t, nil, own.Close())
	_, canonical := own.Canonical("en")
	_, extlang := own.Extlang("en")
	_, equal := own.Equivalent("en", "en")
	_, match := own.Matches("en", "en", Basic)
	_, explain := own.Explain("en", 1)
	_, info := own.Info()
	for _, err := range []error{canonical, extlang, equal, match, explain, info, own.Validate("en")} {
		is(t, ErrClosed, err)
	}
}

// Goroutines ask a registry, and others that are closed meanwhile.
func TestGoroutines(t *testing.T) {
	registry := opened(t)
	defer registry.Close()
	var all sync.WaitGroup
	for i := 0; i < 200; i++ {
		all.Add(1)
		go func() {
			defer all.Done()
			for n := 0; n < 500; n++ {
				if text, err := registry.Canonical("zh-yue"); text != "yue" {
					t.Error(text, err)
				}
			}
		}()
	}
	for round := 0; round < 50; round++ {
		own := opened(t)
		begun := make(chan bool, 4)
		var asking sync.WaitGroup
		for i := 0; i < 4; i++ {
			asking.Add(1)
			go func() {
				defer asking.Done()
				for n := 0; ; n++ {
					_, err := own.Explain("sgn-dd", 100)
					if n == 0 {
						begun <- true
					}
					if err != nil {
						is(t, ErrClosed, err)
						return
					}
				}
			}()
		}
		<-begun
		own.Close()
		asking.Wait()
	}
	all.Wait()
}

// How many bytes the process has in memory.
func resident(t *testing.T) int {
	var all, pages int
	content, err := os.ReadFile("/proc/self/statm")
	is(t, nil, err)
	fmt.Sscan(string(content), &all, &pages)
	return pages * os.Getpagesize()
}

func TestCollected(t *testing.T) {
	before := resident(t)
	var kept [300]*Registry
	for i := range kept {
		kept[i] = opened(t)
	}
	of300 := resident(t) - before
	for _, registry := range kept {
		registry.Close()
	}
	before = resident(t)
	for i := 0; i < 3000; i++ {
		opened(t)
		if i%100 == 99 {
			runtime.GC()
			time.Sleep(20 * time.Millisecond)
		}
	}
	if grown := resident(t) - before; of300 < 10_000_000 || grown > 3*of300 {
		t.Errorf("registries are not collected: 300 have %d bytes, 3000 that are not kept %d", of300, grown)
	}
}

func BenchmarkParts(b *testing.B) {
	for i := 0; i < b.N; i++ {
		tag, _ := ParseTag("zh-Hant-TW")
		tag.Parts()
	}
}

func BenchmarkRefused(b *testing.B) {
	registry := opened(b)
	defer registry.Close()
	for i := 0; i < b.N; i++ {
		registry.Canonical("zh_Hant_TW")
	}
}

func BenchmarkCanonical(b *testing.B) {
	registry := opened(b)
	defer registry.Close()
	for i := 0; i < b.N; i++ {
		registry.Canonical("zh-Hant-TW")
	}
}
