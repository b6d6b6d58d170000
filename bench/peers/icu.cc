// ICU: each line as a locale, canonicalised, as a tag.
#include <unicode/locid.h>
#include <iostream>
#include <string>

static std::string answer(const std::string &line)
{
    UErrorCode status = U_ZERO_ERROR;
    icu::Locale locale = icu::Locale::forLanguageTag(line, status);
    if (U_SUCCESS(status)) locale.canonicalize(status);
    std::string text = locale.toLanguageTag<std::string>(status);
    return U_SUCCESS(status) ? text : "!";
}

int main()
{
    std::ios::sync_with_stdio(false);
    for (std::string line; std::getline(std::cin, line);) std::cout << answer(line) << '\n';
}
