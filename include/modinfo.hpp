/* modinfo for C++17 and later: the functions of modinfo.h, over std::string_view and std::string.
 *
 * An answer is returned without its line feed. A fault is thrown as modinfo::fault, std::bad_alloc where an
 * allocation fails, and std::invalid_argument for a number that is no media type. The check of a document throws no
 * fault: the report has it. Calls may run side by side in many threads.
 */
#ifndef MODINFO_HPP
#define MODINFO_HPP

#include <cstddef>
#include <cstdint>
#include <memory>
#include <new>
#include <stdexcept>
#include <string>
#include <string_view>
#include <utility>

#include "modinfo.h"

namespace modinfo {

/* What a source text is written in. of_specifier stands for the media type that the specifier has. */
enum class media_type : std::uint8_t {
    of_specifier = MODINFO_OF_SPECIFIER,
    javascript = MODINFO_JAVASCRIPT,
    jsx = MODINFO_JSX,
    mjs = MODINFO_MJS,
    cjs = MODINFO_CJS,
    typescript = MODINFO_TYPESCRIPT,
    mts = MODINFO_MTS,
    cts = MODINFO_CTS,
    dts = MODINFO_DTS,
    dmts = MODINFO_DMTS,
    dcts = MODINFO_DCTS,
    tsx = MODINFO_TSX,
    json = MODINFO_JSON,
    other = MODINFO_OTHER
};

/* Why there is no answer. what() is the name of the fault, as in modinfo.h: Syntax, Json, Tree .. */
class fault : public std::runtime_error {
public:
    fault(const std::string &name, std::string report) : std::runtime_error(name), report_(std::move(report)) {}

    /* The report, as JSON: where the fault is, and what was expected there. Empty where there is none. */
    const std::string &report() const noexcept { return report_; }

private:
    std::string report_;
};

namespace detail {

using document_function = std::uint8_t (*)(const std::uint8_t *, std::size_t, std::uint8_t *, std::size_t,
                                           std::size_t *);
using text_function = std::uint8_t (*)(const std::uint8_t *, std::size_t, const std::uint8_t *, std::size_t,
                                       std::uint8_t, std::uint8_t *, std::size_t, std::size_t *);

/* The status of a call, and what it wrote. */
struct written {
    std::uint8_t status;
    std::string text;
};

/* A pointer that isn't null, also for an empty view. */
inline const std::uint8_t *bytes(std::string_view text) noexcept
{
    return reinterpret_cast<const std::uint8_t *>(text.empty() ? "" : text.data());
}

/* Makes a call with room, and again where the room is too small. */
template <typename Call> written call(std::size_t room, Call function)
{
    for (;;) {
        std::unique_ptr<std::uint8_t[]> answer(new std::uint8_t[room]);
        std::size_t length = 0;
        const std::uint8_t status = function(answer.get(), room, &length);
        if (status != MODINFO_TOO_SMALL)
            return {status, std::string(reinterpret_cast<const char *>(answer.get()), length)};
        room = length;
    }
}

inline written call(document_function function, std::string_view document)
{
    return call(document.size() + 4096, [&](std::uint8_t *answer, std::size_t room, std::size_t *length) {
        return function(bytes(document), document.size(), answer, room, length);
    });
}

inline written call(text_function function, std::string_view text, std::string_view specifier, media_type media)
{
    return call(MODINFO_SOURCE_ROOM(text.size()), [&](std::uint8_t *answer, std::size_t room, std::size_t *length) {
        return function(bytes(text), text.size(), bytes(specifier), specifier.size(),
                        static_cast<std::uint8_t>(media), answer, room, length);
    });
}

inline std::string without_line_feed(std::string text)
{
    if (!text.empty() && text.back() == '\n')
        text.pop_back();
    return text;
}

/* The answer, or the fault with the report that another call writes. */
template <typename Check> std::string answer(written found, Check check)
{
    if (found.status == MODINFO_ANSWERED)
        return without_line_feed(std::move(found.text));
    if (found.status == MODINFO_NO_MEDIA_TYPE)
        throw std::invalid_argument("no media type has this number");
    if (found.text == "OutOfMemory")
        throw std::bad_alloc();
    written report = check();
    const bool has_report = report.status == MODINFO_ANSWERED;
    throw fault(found.text, has_report ? without_line_feed(std::move(report.text)) : std::string());
}

inline written no_report() { return {MODINFO_FAULT, std::string()}; }

inline std::string answer(document_function function, document_function check, std::string_view document)
{
    return answer(call(function, document), [&] { return call(check, document); });
}

inline std::string report(document_function check, std::string_view document)
{
    return answer(call(check, document), no_report);
}

} // namespace detail

/* The ModuleInfo of a source text of JavaScript or TypeScript, as JSON. The specifier is an absolute URL. */
inline std::string module_info(std::string_view text, std::string_view specifier,
                               media_type media = media_type::of_specifier)
{
    return detail::answer(detail::call(modinfo_analyze_source, text, specifier, media),
                          [&] { return detail::call(modinfo_check_source, text, specifier, media); });
}

/* The report on a source text: {"valid":true}, or where its error is. Throws the fault Input for a text or a specifier
 * that isn't UTF-8. */
inline std::string check_source(std::string_view text, std::string_view specifier,
                                media_type media = media_type::of_specifier)
{
    return detail::answer(detail::call(modinfo_check_source, text, specifier, media), detail::no_report);
}

/* Generated by tools/generate_formats: functions */

/* The ModuleInfo of a module document, as JSON. */
inline std::string analyze(std::string_view document)
{
    return detail::answer(modinfo_analyze, modinfo_check, document);
}

/* The ModuleInfo of a document with the tree of a parser, as JSON. */
inline std::string analyze_estree(std::string_view document)
{
    return detail::answer(modinfo_analyze_estree, modinfo_check_estree, document);
}

/* The stored information of one module, version 1, in version 2. */
inline std::string convert(std::string_view document)
{
    return detail::answer(modinfo_convert, modinfo_check_convert, document);
}

/* The keys that a root reaches in a graph of many modules, as JSON. */
inline std::string reach(std::string_view document)
{
    return detail::answer(modinfo_reach, modinfo_check_reach, document);
}

/* The report on a document of analyze. */
inline std::string check(std::string_view document) { return detail::report(modinfo_check, document); }

/* The report on a document of analyze_estree. */
inline std::string check_estree(std::string_view document) { return detail::report(modinfo_check_estree, document); }

/* The report on a document of convert. */
inline std::string check_convert(std::string_view document) { return detail::report(modinfo_check_convert, document); }

/* The report on a document of reach. */
inline std::string check_reach(std::string_view document) { return detail::report(modinfo_check_reach, document); }
/* end of functions */

/* The line for each line of a text, each with its line feed. The command is one of the numbers of modinfo.h; for
 * any other number std::invalid_argument is thrown. */
inline std::string run_lines(std::uint8_t command, std::string_view documents)
{
    detail::written found = detail::call(
        documents.size() + 4096, [&](std::uint8_t *answer, std::size_t room, std::size_t *length) {
            return modinfo_run_lines(command, detail::bytes(documents), documents.size(), answer, room, length);
        });
    if (found.status == MODINFO_NO_COMMAND)
        throw std::invalid_argument("no command has this number");
    if (found.status == MODINFO_FAULT)
        throw std::bad_alloc();
    return std::move(found.text);
}

} // namespace modinfo

#endif
