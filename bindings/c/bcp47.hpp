/* SPDX-License-Identifier: MIT OR Apache-2.0 */
/* BCP 47 language tags by a registry of language subtags, for C++17 and later, over bcp47.h. docs/C.md shows its use. */
#ifndef BCP47_HPP
#define BCP47_HPP

#include "bcp47.h"
#include <cerrno>
#include <cstddef>
#include <cstdio>
#include <cstdlib>
#include <cstring>
#include <initializer_list>
#include <iterator>
#include <memory>
#include <optional>
#include <stdexcept>
#include <string>
#include <string_view>
#include <utility>
#include <variant>
#include <vector>
#if defined(__has_include)
#if __has_include(<expected>)
#include <expected>
#endif
#endif

/* What a file is compiled by decides on the types here: files that were compiled by others can be linked to it. */
#if defined(__cpp_lib_expected) && defined(__cpp_exceptions)
#define BCP47_TYPES expected
#elif defined(__cpp_lib_expected)
#define BCP47_TYPES expected_without_exceptions
#elif defined(__cpp_exceptions)
#define BCP47_TYPES results
#else
#define BCP47_TYPES results_without_exceptions
#endif

namespace bcp47 {
inline namespace BCP47_TYPES {

/* Why a call was refused. */
struct refusal {
    bcp47_outcome outcome{};
    std::string text; /* the line of a registry that is refused, or the variant of BCP47_REPLACEMENT_REPEATS */

    int status() const noexcept { return outcome.status; }

    /* The fault: BCP47_FAULT_BAD_BYTE and so on; else 0. */
    int fault() const noexcept { return outcome.detail; }

    /* Of a fault: the subtag, the line, the record or the step, counted from 1; else 0. */
    std::size_t place() const noexcept { return outcome.place; }

    /* The name of the fault, as "BadByte"; that of the status where there is no fault. */
    std::string_view name() const noexcept {
        return outcome.detail ? bcp47_fault_name(outcome.detail) : bcp47_status_name(outcome.status);
    }

    /* What it means, and what to do. */
    std::string_view help() const noexcept {
        if (status() == BCP47_BAD_FILE && !fault())
            return "The file can't be opened, or not read to its end: see its path, who may read it, and whether it is a folder.";
        return outcome.detail ? bcp47_fault_help(outcome.detail) : bcp47_status_help(outcome.status);
    }

    /* The line of the program without `! `, as "BadByte 1" or "jar BadLine line 1"; of an upgrade the condition and the record,
       as "U1 3". */
    std::string line() const {
        if (outcome.status == BCP47_REPLACEMENT_REPEATS) return std::string(name()) + " " + text;
        if (!text.empty()) return text;
        const bool has_place = outcome.detail || outcome.place;
        return has_place ? std::string(name()) + " " + std::to_string(outcome.place) : std::string(name());
    }
};

/* What is thrown where a value is asked for that is not there. Without exceptions the process ends. */
class error : public std::runtime_error {
  public:
    explicit error(refusal why) : std::runtime_error(why.line()), why_(std::move(why)) {}
    const refusal &why() const noexcept { return why_; }

  private:
    refusal why_;
};

namespace detail {

[[noreturn]] inline void fail(const refusal &why) {
#if defined(__cpp_exceptions)
    throw bcp47::error(why);
#else
    static_cast<void>(why);
    std::abort();
#endif
}

} // namespace detail

#if defined(__cpp_lib_expected)
/* A value, or why there is none. */
template <class T> using result = std::expected<T, refusal>;

namespace detail {
using refused = std::unexpected<refusal>;
}
#else
namespace detail {
using refused = refusal;
}

/* A value, or why there is none, used as std::expected<T, refusal> of C++23, which it is there. */
template <class T> class result : std::optional<T> {
    using held = std::optional<T>;

  public:
    result(T value) : held(std::in_place, std::move(value)) {}
    result(refusal why) : why_(std::move(why)) {}

    using held::has_value, held::operator bool, held::operator*, held::operator->, held::value_or;

    T &value() & { return check(), **this; }
    const T &value() const & { return check(), **this; }
    T &&value() && { return check(), *std::move(*this); }

    /* There is one where there is no value. */
    refusal &error() noexcept { return why_; }
    const refusal &error() const noexcept { return why_; }

  private:
    void check() const {
        if (!has_value()) detail::fail(why_);
    }

    refusal why_;
};

/* Nothing, or why a call was refused. */
template <> class result<void> : public result<std::monostate> {
  public:
    result() : result<std::monostate>(std::monostate()) {}
    using result<std::monostate>::result;
    void value() const { static_cast<void>(result<std::monostate>::value()); }
};
#endif

/* A result that may say no or none. It is no condition: `if (registry.equivalent(a, b))` would be true of each two tags that are told
   of. Ask for the value(). */
template <class T> class [[nodiscard]] answer_of : result<T> {
    using base = result<T>;

  public:
    using base::base;
    answer_of(base known) : base(std::move(known)) {}
    using base::has_value, base::operator*, base::operator->, base::value, base::value_or, base::error;
    explicit operator bool() const = delete;
};

/* Whether something is so, or why that can't be told. */
using answer = answer_of<bool>;

/* A part of a tag: its kind, BCP47_PART_LANGUAGE and so on, and its text. */
struct part {
    int kind;
    std::string text;
};

/* A tag in conventional case, and its parts, one for each subtag: joined by hyphens they are the text. */
struct tag {
    std::string text;
    std::vector<part> parts;

    /* Its class: BCP47_LANGTAG, BCP47_PRIVATE_USE or BCP47_GRANDFATHERED; 0 of no tag. */
    int kind() const noexcept {
        if (parts.empty()) return 0;
        const int first = parts.front().kind;
        return first == BCP47_PART_GRANDFATHERED ? BCP47_GRANDFATHERED : first == BCP47_PART_LANGUAGE ? BCP47_LANGTAG : BCP47_PRIVATE_USE;
    }

    std::optional<std::string> language() const { return first(BCP47_PART_LANGUAGE); }
    std::optional<std::string> script() const { return first(BCP47_PART_SCRIPT); }
    std::optional<std::string> region() const { return first(BCP47_PART_REGION); }
    std::vector<std::string> extlangs() const { return all(BCP47_PART_EXTLANG); }
    std::vector<std::string> variants() const { return all(BCP47_PART_VARIANT); }

    /* The texts of the parts of a kind. */
    std::vector<std::string> all(int kind) const {
        std::vector<std::string> found;
        for (const part &one : parts)
            if (one.kind == kind) found.push_back(one.text);
        return found;
    }

  private:
    std::optional<std::string> first(int kind) const {
        for (const part &one : parts)
            if (one.kind == kind) return one.text;
        return {};
    }
};

/* The steps to the canonical tag, as `verify` takes them, and the tag to which each leads. */
struct explanation {
    std::vector<bcp47_step> steps;
    std::vector<std::string> tags;
    std::string canonical;
};

namespace detail {

/* What lets go of what a call gave. */
template <auto call> struct deleter {
    template <class T> void operator()(T *given) const noexcept { call(given); }
};

/* The text that a call writes, or why it is refused. There is room for any: a tag of 1,024 bytes can have 204 variants of 4, each of
   which becomes one of 8. */
template <class Call> result<std::string> text_of(Call call) {
    char buffer[2048];
    bcp47_outcome outcome = call(buffer, sizeof buffer);
    std::string text(buffer, outcome.length);
    if (outcome.status == BCP47_DONE) return text;
    return refused(refusal{outcome, std::move(text)});
}

/* Whether two texts go together, as a call tells it, or why one is refused. */
template <class Call> answer told_of_two(Call call) {
    char variant[9];
    bcp47_outcome outcome = call(variant, sizeof variant);
    if (outcome.status == BCP47_DONE || outcome.status == BCP47_DIFFERENT) return outcome.status == BCP47_DONE;
    return refused(refusal{outcome, std::string(variant, outcome.length)});
}

inline result<void> nothing_of(bcp47_outcome outcome) {
    if (outcome.status == BCP47_DONE) return {};
    return refused(refusal{outcome, {}});
}

} // namespace detail

/* The tag of a text, which needs no registry. */
[[nodiscard]] inline result<tag> classify(std::string_view text) {
    char shown[BCP47_TEXT];
    bcp47_part found[BCP47_PARTS];
    bcp47_outcome outcome = bcp47_parts(text.data(), text.size(), shown, sizeof shown, found, BCP47_PARTS);
    if (outcome.status != BCP47_DONE) return detail::refused(refusal{outcome, {}});
    tag read{std::string(shown, outcome.length), {}};
    read.parts.reserve(outcome.place);
    for (std::size_t i = 0; i < outcome.place; i++) read.parts.push_back({found[i].kind, std::string(shown + found[i].start, found[i].length)});
    return read;
}

/* A tag without its last subtag, and without the singletons that then end it; empty where nothing is left. */
inline answer_of<std::string> parent(std::string_view tag) {
    return detail::text_of([&](char *buffer, std::size_t room) { return bcp47_parent(tag.data(), tag.size(), buffer, room); });
}

/* A tag with another part, which needs no registry: the part is BCP47_PART_LANGUAGE (with extlangs), _SCRIPT, _REGION, _VARIANT (all of
   them), _SINGLETON (all extensions) or _PRIVATE_USE_SINGLETON ("x-a"). An empty value takes it away. `outcome.text` of a refusal is 1
   where the tag is refused, and 2 where the value is. */
[[nodiscard]] inline result<std::string> with(std::string_view tag, int part, std::string_view value) {
    return detail::text_of([&](char *buffer, std::size_t room) {
        return bcp47_with(tag.data(), tag.size(), part, value.data(), value.size(), buffer, room);
    });
}

/* The tag that the name of a POSIX locale stands for: "sr-Latn-RS" for "sr_RS.UTF-8@latin". It needs no registry. */
[[nodiscard]] inline result<std::string> posix(std::string_view name) {
    return detail::text_of([&](char *buffer, std::size_t room) { return bcp47_posix(name.data(), name.size(), buffer, room); });
}

/* Tags of which a service serves one, until their object ends, also where the registry ended before. Any number of threads may ask. */
class available {
  public:
    /* The place of the tag to serve to the reader of an Accept-Language header, from 0; none where no range of it serves a tag. A header
       that is missing, which is a null pointer here and below, accepts each tag. */
    answer_of<std::optional<std::size_t>> best(const char *accept) const { return best(std::string_view(accept ? accept : "*")); }
    answer_of<std::optional<std::size_t>> best(std::string_view accept) const {
        bcp47_outcome outcome = bcp47_best(opened_.get(), accept.data(), accept.size());
        if (outcome.status != BCP47_DONE) return detail::refused(refusal{outcome, {}});
        return outcome.place ? std::optional<std::size_t>(outcome.place - 1) : std::nullopt;
    }

    /* The places of all tags that the header accepts, from the greatest weight to the least. */
    answer_of<std::vector<std::size_t>> filter(const char *accept) const { return filter(std::string_view(accept ? accept : "*")); }
    answer_of<std::vector<std::size_t>> filter(std::string_view accept) const {
        std::vector<std::size_t> places(count_);
        bcp47_outcome outcome = bcp47_filter(opened_.get(), accept.data(), accept.size(), places.data(), places.size());
        if (outcome.status != BCP47_DONE) return detail::refused(refusal{outcome, {}});
        places.resize(outcome.place);
        for (std::size_t &place : places) place--;
        return places;
    }

  private:
    friend class registry;
    available(bcp47_available *opened, std::size_t count) noexcept : opened_(opened), count_(count) {}
    std::unique_ptr<bcp47_available, detail::deleter<bcp47_available_close>> opened_;
    std::size_t count_;
};

/* A registry that is open until its object ends. Any number of threads may make const calls at once. */
class registry {
  public:
    /* The registry whose text the bytes are. */
    [[nodiscard]] static result<registry> from_bytes(std::string_view bytes) {
        bcp47_registry *opened;
        char line[BCP47_LINE];
        bcp47_outcome outcome = bcp47_open(&opened, bytes.data(), bytes.size(), line, sizeof line);
        if (outcome.status == BCP47_DONE) return registry(opened);
        return detail::refused(refusal{outcome, std::string(line, outcome.length)});
    }

    /* The registry of a file: BCP47_BAD_FILE where it can't be read. */
    [[nodiscard]] static result<registry> from_file(const std::string &path) {
        std::unique_ptr<std::FILE, detail::deleter<std::fclose>> file(std::fopen(path.c_str(), "rb"));
        std::string bytes;
        char piece[1 << 16];
        for (std::size_t got = 1; file && got; bytes.append(piece, got)) got = std::fread(piece, 1, sizeof piece, file.get());
        if (!file || std::ferror(file.get()))
            return detail::refused(refusal{{BCP47_BAD_FILE, 0, 0, 0, 0, 0}, "can't read \"" + path + "\": " + std::strerror(errno)});
        return from_bytes(bytes);
    }

    /* The canonical text of a tag. */
    [[nodiscard]] result<std::string> canonical(std::string_view tag) const { return written(bcp47_canonical, tag); }

    /* The same, with the extlang prefix. */
    [[nodiscard]] result<std::string> extlang(std::string_view tag) const { return written(bcp47_extlang, tag); }

    /* Nothing, if the tag is valid. */
    [[nodiscard]] result<void> validate(std::string_view tag) const {
        return detail::nothing_of(bcp47_validate(opened_.get(), tag.data(), tag.size()));
    }

    /* Whether a tag is valid; throws an error where that can't be told, as where memory runs out. */
    [[nodiscard]] bool is_valid(std::string_view tag) const {
        auto judged = validate(tag);
        if (!judged && judged.error().status() != BCP47_NOT_A_TAG && judged.error().status() != BCP47_INVALID) detail::fail(judged.error());
        return judged.has_value();
    }

    /* Whether two tags are equivalent; `outcome.text` of a refusal says which of them it is of, 1 or 2. */
    answer equivalent(std::string_view first, std::string_view second) const {
        return detail::told_of_two([&](char *buffer, std::size_t room) {
            return bcp47_equivalent(opened_.get(), first.data(), first.size(), second.data(), second.size(), buffer, room);
        });
    }

    /* Whether a language range matches a tag by a scheme, BCP47_BASIC, BCP47_EXTENDED or BCP47_LOOKUP; `outcome.text` of a refusal
       is 1 of the range, and 2 of the tag. */
    answer match(std::string_view range, std::string_view tag, int scheme = BCP47_EXTENDED) const {
        return detail::told_of_two([&](char *buffer, std::size_t room) {
            return bcp47_match(opened_.get(), scheme, range.data(), range.size(), tag.data(), tag.size(), buffer, room);
        });
    }

    /* Tags of which a service serves one, prepared: a list in braces, or any range of texts, as a vector of strings. `outcome.text` of a
       refusal says which of them is refused, from 1. */
    template <class Tags = std::initializer_list<std::string_view>,
              class = decltype(std::string_view(*std::begin(std::declval<Tags &>())))>
    [[nodiscard]] result<bcp47::available> available(Tags &&tags) const {
        std::vector<std::string> texts;
        for (auto &&tag : tags) texts.emplace_back(std::string_view(tag));
        std::vector<const char *> starts;
        std::vector<std::size_t> lengths;
        for (const std::string &text : texts) starts.push_back(text.data()), lengths.push_back(text.size());
        bcp47_available *made;
        bcp47_outcome outcome = bcp47_available_open(&made, opened_.get(), starts.data(), lengths.data(), texts.size());
        if (outcome.status != BCP47_DONE) return detail::refused(refusal{outcome, {}});
        return bcp47::available(made, texts.size());
    }

    /* The steps to the canonical tag: BCP47_TOO_MANY_STEPS where there are more than `most`. */
    [[nodiscard]] result<explanation> explain(std::string_view tag, std::size_t most = 20000) const {
        bcp47_step *steps;
        const char *at;
        bcp47_outcome outcome = bcp47_steps(opened_.get(), tag.data(), tag.size(), most, &steps, &at);
        std::unique_ptr<bcp47_step, detail::deleter<bcp47_free>> freed(steps);
        if (outcome.status != BCP47_DONE) return detail::refused(refusal{outcome, at ? at : ""});
        explanation read{{steps, steps + outcome.place}, {}, {}};
        for (; read.tags.size() < outcome.place; at += read.tags.back().size() + 1) read.tags.emplace_back(at);
        read.canonical = at;
        return read;
    }

    /* What the registry says of a tag: the array of JSON that bcp47_show gives. */
    [[nodiscard]] result<std::string> show(std::string_view tag) const {
        char *rows;
        bcp47_outcome outcome = bcp47_show(opened_.get(), tag.data(), tag.size(), &rows);
        std::unique_ptr<char, detail::deleter<bcp47_free>> freed(rows);
        if (outcome.status == BCP47_DONE) return std::string(rows, outcome.length);
        return detail::refused(refusal{outcome, {}});
    }

    /* The names and bodies of the fields of a record, by its number from 1 on, with the header counted; none where it is not there. */
    answer_of<std::vector<std::pair<std::string, std::string>>> record(std::uint32_t number) const {
        bcp47_field *fields;
        const char *at;
        bcp47_outcome outcome = bcp47_record(opened_.get(), number, &fields, &at);
        std::unique_ptr<bcp47_field, detail::deleter<bcp47_free>> freed(fields);
        if (outcome.status != BCP47_DONE) return detail::refused(refusal{outcome, {}});
        std::vector<std::pair<std::string, std::string>> read;
        for (std::size_t i = 0; i < outcome.place; at += fields[i].name + fields[i].body + 2, i++)
            read.emplace_back(std::string(at, fields[i].name), std::string(at + fields[i].name + 1, fields[i].body));
        return read;
    }

    /* Nothing, if the steps lead from a valid tag, one after another, to the last. */
    [[nodiscard]] result<void> verify(std::string_view tag, const std::vector<bcp47_step> &steps, std::string_view last) const {
        return detail::nothing_of(
            bcp47_verify(opened_.get(), tag.data(), tag.size(), steps.data(), steps.size(), last.data(), last.size()));
    }

    /* Nothing, if a newer registry keeps what this one promised. */
    [[nodiscard]] result<void> upgrade_check(const registry &newer) const {
        return detail::nothing_of(bcp47_upgrade_check(opened_.get(), newer.opened_.get()));
    }

    /* File-Date, number of entries and digest; those of no registry where this one was moved away. */
    bcp47_info info() const noexcept {
        bcp47_info info{};
        bcp47_registry_info(opened_.get(), &info);
        return info;
    }

    /* For calls of bcp47.h. */
    const bcp47_registry *get() const noexcept { return opened_.get(); }

  private:
    explicit registry(bcp47_registry *opened) : opened_(opened) {}

    template <class Call> result<std::string> written(Call *call, std::string_view tag) const {
        return detail::text_of(
            [&](char *buffer, std::size_t room) { return call(opened_.get(), tag.data(), tag.size(), buffer, room); });
    }

    std::unique_ptr<bcp47_registry, detail::deleter<bcp47_close>> opened_;
};

} // namespace BCP47_TYPES
} // namespace bcp47

#endif
