/* bcp47.hpp: each call once, and what is refused. Arguments: the sample registry, and its File-Date. Or a registry, `canonical` or
   `explain`, and a file, of which each line is answered as the program does. */
#include <bcp47.hpp>
#include <array>
#include <cstdlib>
#include <cstring>
#include <fstream>
#include <iostream>
#include <list>
#include <set>
#if defined(__cpp_lib_ranges) && !defined(__clang__)
#include <ranges>
#endif
#include <thread>
#include <type_traits>

static int failures = 0;

#define CHECK(condition)                                                                     \
    do {                                                                                     \
        if (!(condition)) {                                                                  \
            std::fprintf(stderr, "%s:%d: not so: %s\n", __FILE__, __LINE__, #condition); \
            if (++failures == 1000) std::_Exit(1);                                           \
        }                                                                                    \
    } while (0)

static_assert(!std::is_copy_constructible_v<bcp47::registry> && std::is_nothrow_move_constructible_v<bcp47::registry>, "");
/* `if (registry.equivalent("zh", "yue"))` would ask whether that can be told. */
static_assert(!std::is_constructible_v<bool, bcp47::answer> && std::is_constructible_v<bool, bcp47::result<std::string>>, "");
static_assert(!std::is_convertible_v<bcp47::answer, bcp47::result<bool>> && !std::is_convertible_v<bcp47::result<int>, std::optional<int>>, "");
/* So would `if (available.best(header))`, and the same of other calls that may give nothing. */
template <class Call, class... Words> constexpr bool is_condition = std::is_constructible_v<bool, std::invoke_result_t<Call, Words...>>;
static_assert(!is_condition<decltype(&bcp47::parent), std::string_view> && is_condition<decltype(&bcp47::classify), std::string_view>, "");
static_assert(!is_condition<decltype(&bcp47::registry::record), bcp47::registry, std::uint32_t>, "");
static_assert(!is_condition<decltype(&bcp47::registry::equivalent), bcp47::registry, std::string_view, std::string_view>, "");
static_assert(!is_condition<decltype(&bcp47::registry::match), bcp47::registry, std::string_view, std::string_view, int>, "");
template <class Header> using best_of = decltype(std::declval<const bcp47::available>().best(std::declval<Header>()));
template <class Header> using all_of = decltype(std::declval<const bcp47::available>().filter(std::declval<Header>()));
static_assert(!std::is_constructible_v<bool, best_of<const char *>> && !std::is_constructible_v<bool, best_of<std::string>>, "");
static_assert(!std::is_constructible_v<bool, all_of<const char *>> && !std::is_constructible_v<bool, all_of<std::string>>, "");
/* A text is no list of texts. */
template <class Tags> using made_of = decltype(std::declval<const bcp47::registry>().available(std::declval<Tags>()));
template <class Tags, class = void> constexpr bool is_list = false;
template <class Tags> constexpr bool is_list<Tags, std::void_t<made_of<Tags>>> = true;
static_assert(!is_list<const char *> && !is_list<std::string> && !is_list<const char (&)[3]>, "");
static_assert(!is_list<std::vector<int>> && is_list<std::vector<std::string>>, "");
#if defined(__cpp_lib_expected)
static_assert(std::is_same_v<bcp47::result<int>, std::expected<int, bcp47::refusal>>, "");
#endif

#if defined(__cpp_exceptions)
/* The line of what is thrown. */
template <class Call> static std::string thrown(Call call) {
    try {
        call();
    } catch (const bcp47::error &error) {
        CHECK(error.why().line() == error.what());
        return error.what();
#if defined(__cpp_lib_expected)
    } catch (const std::bad_expected_access<bcp47::refusal> &access) {
        return access.error().line();
#endif
    }
    return "nothing";
}
#endif

static void refusals(const bcp47::registry &registry) {
    auto refused = registry.canonical("en_US");
    CHECK(!refused && refused.error().status() == BCP47_NOT_A_TAG && refused.error().place() == 1);
    CHECK(refused.error().fault() == BCP47_FAULT_BAD_BYTE && refused.error().name() == "BadByte");
    CHECK(refused.error().line() == "BadByte 1" && refused.value_or("und") == "und");
    CHECK(refused.error().help().substr(0, 33) == "A byte that is no ASCII letter, d");
#if defined(__cpp_exceptions)
    CHECK(thrown([&] { static_cast<void>(registry.canonical("xx").value()); }) == "UnknownLanguage 1");
    CHECK(thrown([&] { static_cast<void>(static_cast<const bcp47::result<std::string> &>(refused).value()); }) == "BadByte 1");
    CHECK(thrown([&] { static_cast<void>(refused.value()); }) == "BadByte 1");
    CHECK(thrown([&] { registry.validate("xx").value(); }) == "UnknownLanguage 1");
    CHECK(thrown([&] { static_cast<void>(registry.equivalent("en", "xx").value()); }) == "UnknownLanguage 1");
#endif
    CHECK(registry.equivalent("en", "xx").value_or(true) && !registry.equivalent("en", "xx").value_or(false));
    CHECK(registry.canonical("en_US").value_or("und") == "und");
    refused.error().text = "mine";
    CHECK(refused.error().line() == "mine");
    CHECK(registry.equivalent("en", "xx").error().outcome.text == 2 && registry.equivalent("xx", "en").error().outcome.text == 1);
    CHECK(registry.match("1996", "xx").error().name() == "BadFirst" && registry.match("1996", "xx").error().outcome.text == 1);
    CHECK(registry.match("*", "xx").error().line() == "UnknownLanguage 1" && registry.match("*", "xx").error().outcome.text == 2);
    CHECK(registry.match("ja-Latn-hepburn-alalc97-heploc", "ja").error().line() == "ReplacementRepeats alalc97");
    CHECK(registry.match("en", "en", 0).error().status() == BCP47_BAD_CALL);
    CHECK(registry.explain("sgn-DD", 1).error().status() == BCP47_TOO_MANY_STEPS);
    CHECK(registry.explain("sgn-DD", 1).error().line() == "TooManySteps");
    CHECK(registry.explain("ja-Latn-hepburn-alalc97-heploc").error().line() == "ReplacementRepeats alalc97");
    CHECK(registry.canonical("ja-Latn-hepburn-alalc97-heploc").error().text == "alalc97");
    CHECK(registry.equivalent("en", "ja-Latn-hepburn-alalc97-heploc").error().line() == "ReplacementRepeats alalc97");
    CHECK(registry.verify("sgn-DD", {{BCP47_REGION, 2, 27}}, "gsg").error().line() == "WrongEnd");
    CHECK(registry.verify("sgn-DD", {{BCP47_REGION, 3, 27}}, "gsg").error().line() == "NoSuchStep 1");
    CHECK(bcp47::registry::from_bytes("no registry\n").error().line() == "jar BadLine line 1");
    CHECK(bcp47::registry::from_bytes("").error().line() == "NoEntries" && bcp47::registry::from_bytes("").error().status() == BCP47_NO_ENTRIES);
    auto other = bcp47::registry::from_bytes("File-Date: 2000-01-01\n%%\nType: language\nSubtag: en\n");
    CHECK(registry.upgrade_check(*other).error().line() == "U1 2" && registry.upgrade_check(*other).error().name() == "U1");
    CHECK(bcp47::classify("e").error().line() == "BadLanguage 1");
    CHECK(registry.canonical(std::string(2000, 'a')).error().line() == "TooLong 0");
}

/* Tags of which one is served: they outlive the result, and a registry that ended. */
static void available(const bcp47::registry &registry) {
    auto made = registry.available({"en-GB", "zh-yue", "de"});
    bcp47::available tags = std::move(*made);
    CHECK(**tags.best("de-CH, de;q=0.8, en;q=0.5") == 2 && **tags.best("YUE-HK") == 1 && **tags.best("en") == 0);
    CHECK(!*tags.best("fr") && !*tags.best("de;q=0") && **tags.best("*") == 0);
    CHECK(*tags.filter("de, en;q=0.5") == (std::vector<std::size_t>{2, 0}) && tags.filter("fr")->empty());
    CHECK(tags.best("de;q=2").error().status() == BCP47_BAD_HEADER && tags.best("en, de;q=2").error().line() == "BadWeight 2");
    CHECK(tags.filter("e_n").error().name() == "BadByte");
    CHECK(!*registry.available({})->best("de") && registry.available({})->filter("*")->empty());
    auto refused = registry.available({"en", "e_n"});
    CHECK(refused.error().line() == "BadByte 1" && refused.error().outcome.text == 2);
    const bcp47::available moved = std::move(tags);
    CHECK(**moved.best("de") == 2 && tags.best("de").error().status() == BCP47_NOT_OPEN && tags.filter("de").error().line() == "NotOpen");
}

/* What a range gives is a text, if only while it is looked at. */
struct numbered {
    int number;
    int operator*() const { return number; }
    bool operator!=(numbered other) const { return number != other.number; }
    void operator++() { number++; }
};
struct made_tags {
    struct place : numbered {
        std::string operator*() const { return "en-x-a-tag-that-no-small-string-holds-" + std::to_string(number); }
    };
    place begin() const { return {{1}}; }
    place end() const { return {{3}}; }
};

/* Tags in any container, and headers as they come. */
static void lists(const bcp47::registry &registry) {
    const std::vector<std::string> strings{"en", "de"};
    const char *const pointers[] = {"en", "de"};
    const auto place_of_german = [&registry](auto &&tags) { return **registry.available(tags)->best("de"); };
    CHECK(place_of_german(strings) == 1 && place_of_german(std::vector<std::string>{"en", "de"}) == 1 && place_of_german(pointers) == 1);
    CHECK(place_of_german(std::vector<std::string_view>{"en", "de"}) == 1 && place_of_german(std::vector<const char *>{"en", "de"}) == 1);
    CHECK(place_of_german(std::list<std::string>{"en", "de"}) == 1 && place_of_german(std::set<std::string>{"en", "de"}) == 0);
    CHECK(place_of_german(std::array<std::string_view, 1>{"de"}) == 0 && **registry.available({strings[1], "en"})->best("de") == 0);
    CHECK(**registry.available(made_tags())->best("en-x-a-tag-that-no-small-string-holds-2") == 1);
#if defined(__cpp_lib_ranges) && !defined(__clang__)
    CHECK(**registry.available(strings | std::views::filter([](const std::string &tag) { return tag != "en"; }))->best("de") == 0);
#endif
    auto tags = registry.available(strings);
    const char *missing = nullptr;
    CHECK(**tags->best(missing) == 0 && **tags->best(nullptr) == 0 && *tags->filter(missing) == (std::vector<std::size_t>{0, 1}));
    CHECK(!*tags->best("") && !*tags->best(std::string_view()) && tags->filter(std::string())->empty() && **tags->best(std::string("de")) == 1);
    if (auto place = tags->best("de;q=2").value_or(std::nullopt)) CHECK(*place > 9);
    if (auto place = tags->best("en").value_or(std::nullopt)) CHECK(*place == 0);
    else CHECK(place);
    CHECK(tags->best("fr").has_value() && !tags->best("fr").value() && !tags->best("de;q=2").has_value());
    std::uint32_t records = 0;
    while (!registry.record(records + 1)->empty()) records++;
    CHECK(records == registry.info().entries + 1);
}

/* Values that are bound, moved and copied. */
static void values(const bcp47::registry &registry) {
    auto [text, parts] = *bcp47::classify("EN-gb");
    auto [steps, tags, canonical] = registry.explain("sgn-DD").value();
    CHECK(text == "en-GB" && parts.size() == 2 && steps.size() == tags.size() && canonical == "gsg");
    const auto kept = registry.canonical("iw");
    auto copied = kept;
    copied = registry.canonical("e_n");
    CHECK(*kept == "he" && !copied && copied.error().name() == "BadByte" && kept->size() == 2);
    std::string moved = std::move(copied).value_or(*kept), taken = registry.canonical("yue").value();
    CHECK(moved == "he" && taken == "yue" && *registry.canonical("iw") == "he");
    const auto parent = bcp47::parent("en-GB");
    CHECK(parent.value() == "en" && parent.has_value() && bcp47::parent("e_n").value_or("none") == "none");
#if defined(__cpp_exceptions)
    CHECK(thrown([&] { static_cast<void>(registry.available({"en"})->best("de;q=2").value()); }) == "BadWeight 1");
    CHECK(thrown([&] { static_cast<void>(bcp47::parent("e_n").value()); }) == "BadByte 1");
#endif
}

static int answer(const bcp47::registry &registry, bool is_explained, const char *path) {
    std::ifstream lines(path);
    for (std::string line; std::getline(lines, line);) {
        auto explained = registry.explain(line, 100000);
        auto answer = is_explained && explained ? explained->canonical : registry.canonical(line);
        if (is_explained && explained) {
            for (std::size_t i = 0; i < explained->steps.size(); i++) {
                const bcp47_step &step = explained->steps[i];
                std::cout << bcp47_kind_name(step.kind) << ' ' << step.place << ' ' << step.number << ' ' << explained->tags[i] << '\n';
            }
            CHECK(registry.verify(line, explained->steps, explained->canonical));
            std::cout << "= ";
        }
        if (!answer) std::cout << "! " << answer.error().line() << '\n';
        else std::cout << *answer << '\n';
    }
    return failures != 0;
}

int main(int count, char **words) {
    if (count == 4) return answer(bcp47::registry::from_file(words[1]).value(), !std::strcmp(words[2], "explain"), words[3]);
    if (count < 3) return 3;
    auto read = bcp47::registry::from_file(words[1]);
    CHECK(read.has_value());
    bcp47::registry registry = std::move(*read);
    auto again = bcp47::registry::from_file(words[1]);
    bcp47::registry mine = std::move(again.value()), yours = bcp47::registry::from_file(words[1]).value();
    CHECK(mine.is_valid("en") && yours.is_valid("en") && !again->get());
    auto text = registry.canonical("EN");
    text->push_back('!');
    (*text)[0] = 'E';
    text.value() += '?';
    const auto kept = text;
    CHECK(*text == "En!?" && kept.value() == *kept && kept->size() == 4 && std::move(text).value_or("") == "En!?");
    CHECK(registry.canonical("zh-yue").value() == "yue" && *registry.canonical("I-KLINGON") == "tlh");
    CHECK(registry.extlang("yue").value() == "zh-yue" && registry.extlang("yue")->size() == 6);
    CHECK(registry.is_valid("zh-yue") && !registry.is_valid("") && !registry.is_valid(std::string_view()) && registry.validate("en"));
    CHECK(registry.equivalent("zh-yue", "YUE").value() && !registry.equivalent("zh-yue", "zh").value());
    CHECK(registry.match("zh-yue", "yue-GB").value() && registry.match("zh", "yue-GB").value() && !registry.match("yue", "zh-GB").value());
    CHECK(registry.match("de-DE", "de-Latn-DE").value() && !registry.match("de-DE", "de-Latn-DE", BCP47_BASIC).value());
    CHECK(registry.show("YUE").value() ==
          R"([{"place":1,"kind":"Language","text":"yue","listing":"Record","record":16,"fields":[]}])");
    CHECK(registry.show("en_US").error().line() == "BadByte 1");
    auto explained = registry.explain("sgn-DD");
    CHECK(explained->tags == (std::vector<std::string>{"sgn-DE", "gsg"}) && explained->canonical == "gsg");
    CHECK(explained->steps[1].kind == BCP47_WHOLE && explained->steps[1].place == 1 && explained->steps[1].number == 44);
    CHECK(registry.verify("sgn-DD", explained->steps, explained->canonical) && registry.explain("EN")->steps.empty());
    CHECK(*bcp47::parent("ZH-hant-cn-x-private1") == "zh-Hant-CN" && bcp47::parent("zh")->empty());
    CHECK(bcp47::parent("en_US").error().line() == "BadByte 1");
    auto header = registry.record(1);
    CHECK(header->size() == 1 && header->front() == std::make_pair(std::string("File-Date"), std::string(words[2])));
    CHECK(registry.record(UINT32_MAX)->empty());
    auto told = bcp47::classify("zh-yue-hant-hk-1994-x-own");
    CHECK(told->parts.size() == 7 && told->parts[2].kind == BCP47_PART_SCRIPT && told->kind() == BCP47_LANGTAG);
    CHECK(told->language() == "zh" && told->script() == "Hant" && told->region() == "HK" && bcp47::classify("x-own")->kind() == BCP47_PRIVATE_USE);
    CHECK(told->extlangs() == std::vector<std::string>{"yue"} && told->variants() == std::vector<std::string>{"1994"});
    CHECK(!bcp47::classify("i-klingon")->language() && told->all(BCP47_PART_PRIVATE_USE) == std::vector<std::string>{"own"});
    CHECK(*bcp47::with("zh-tw", BCP47_PART_SCRIPT, "hant") == "zh-Hant-TW" && *bcp47::with("de-AT", BCP47_PART_REGION, "") == "de");
    CHECK(bcp47::with("en", BCP47_PART_SCRIPT, "Latin").error().outcome.text == 2);
    CHECK(bcp47::with("x-own", BCP47_PART_SCRIPT, "Latn").error().outcome.text == 1);
    CHECK(*bcp47::posix("sr_RS.UTF-8@latin") == "sr-Latn-RS" && *bcp47::posix("C") == "en-US-u-va-posix");
    CHECK(bcp47::posix("en_US@klingon").error().line() == "BadByte 0");
    available(registry);
    lists(registry);
    values(registry);
    CHECK(registry.verify("sgn-DD", {{BCP47_REGION, 2, 27}, {BCP47_WHOLE, 1, 44}}, "gsg") && registry.verify("en", {}, "EN"));
    CHECK(registry.upgrade_check(registry).has_value());
    auto tag = bcp47::classify("EN-gb-OED");
    CHECK(tag && tag->text == "en-GB-oed" && tag->kind() == BCP47_GRANDFATHERED);
    std::string longest = "en-x";
    while (longest.size() < 1000) longest += "-abcdefgh";
    CHECK(registry.canonical(longest).value() == longest && bcp47::classify(longest)->text == longest);
    CHECK(!std::strcmp(registry.info().file_date, words[2]) && registry.info().entries > 0);
    refusals(registry);
    auto absent = bcp47::registry::from_file("/no/such/file"), folder = bcp47::registry::from_file("/");
    CHECK(absent.error().line() == "can't read \"/no/such/file\": No such file or directory" && absent.error().name() == "BadFile");
    CHECK(absent.error().help().substr(0, 27) == "The file can't be opened, o" && absent.error().status() == BCP47_BAD_FILE);
    CHECK(folder.error().line() == "can't read \"/\": Is a directory" && folder.error().help() == absent.error().help());
    CHECK(bcp47::registry::from_bytes("no registry\n").error().help() == bcp47_fault_help(BCP47_FAULT_BAD_LINE));
    std::vector<std::thread> threads;
    for (int i = 0; i < 4; i++)
        threads.emplace_back([&registry] {
            for (int k = 0; k < 1000; k++) CHECK(registry.canonical("zh-yue").value() == "yue");
        });
    for (auto &thread : threads) thread.join();
    bcp47::registry moved = std::move(registry);
    CHECK(moved.is_valid("en") && registry.canonical("en").error().status() == BCP47_NOT_OPEN && !registry.get() && moved.get());
    CHECK(registry.info().entries == 0 && registry.canonical("en").error().line() == "NotOpen");
    CHECK(registry.canonical("en").error().help() == bcp47_status_help(BCP47_NOT_OPEN));
#if defined(__cpp_exceptions)
    CHECK(thrown([&] { static_cast<void>(registry.is_valid("en")); }) == "NotOpen");
#endif
    if (!failures) std::puts("objects: passed");
    return failures != 0;
}
