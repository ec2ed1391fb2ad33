// Calls the functions of modinfo.hpp, in four threads at once, and prints what differs from what is expected.
#include <iostream>
#include <string>
#include <thread>
#include <vector>

#include "modinfo.hpp"

namespace {

const std::string document =
    R"({"specifier":"file:///b.ts","mediaType":"TypeScript","source":"import \"./b.ts\";","program":{"range":[0,16],)"
    R"("body":[{"kind":"ImportDecl","range":[0,16],"src":{"value":"./b.ts","range":[7,15]}}]}})";
const std::string info =
    R"({"dependencies":[{"kind":"import","sideEffect":true,"specifier":"./b.ts","specifierRange":[[0,7],[0,15]],)"
    R"("type":"static"}]})";
const std::string valid = R"({"valid":true})";
const std::string estree =
    R"({"specifier":"file:///b.mjs","mediaType":"Mjs","source":"import './b.ts';","program":{"type":"Program","body":[)"
    R"({"type":"ImportDeclaration","start":0,"end":16,"source":{"type":"Literal","start":7,"end":15,"value":"./b.ts"}}]}})";

void expect(const std::string &found, const std::string &wanted)
{
    if (found != wanted)
        std::cout << "found " << found << "\nwanted " << wanted << "\n";
}

template <typename Call> void expect_fault(Call call, const std::string &name, const std::string &report)
{
    try {
        expect(call(), "a fault");
    } catch (const modinfo::fault &fault) {
        expect(fault.what(), name);
        expect(fault.report().substr(0, report.size()), report);
    }
}

/* For a number that is no command or no media type. */
template <typename Call> void expect_invalid(Call call)
{
    try {
        expect(call(), "an exception");
    } catch (const std::invalid_argument &) {
    }
}

void texts()
{
    const std::string longer = "xximport \"./b.ts\";xx";
    const std::string_view text = std::string_view(longer).substr(2, 16);
    expect(modinfo::module_info(text, "file:///b.ts"), info);
    expect(modinfo::module_info(text, "file:///b", modinfo::media_type::javascript), info);
    expect(modinfo::module_info({}, "file:///b.ts"), R"({"script":true})");
    expect(modinfo::check_source(text, "file:///b.ts"), valid);
    const std::string place = R"({"fault":"Syntax","pointer":"/source","at":{"line":0,"column":8,"offset":8})";
    expect(modinfo::check_source("let a = ;", "file:///b.ts").substr(0, place.size()), place);
    expect_fault([] { return modinfo::module_info("let a = ;", "file:///b.ts"); }, "Syntax", place);
    expect_fault([] { return modinfo::module_info("", ""); }, "Specifier", R"({"fault":"Specifier")");
    expect_fault([] { return modinfo::module_info("\xff", "file:///b.ts"); }, "Input", "");
    expect_fault([] { return modinfo::check_source("\xff", "file:///b.ts"); }, "Input", "");
    expect_fault([] { return modinfo::check_source("", "\xff"); }, "Input", "");
    expect_invalid([] { return modinfo::check_source("", "a:", modinfo::media_type{99}); });
    expect_invalid([] { return modinfo::module_info("", "a:", modinfo::media_type{14}); });
}

void documents()
{
    expect(modinfo::analyze(document), info);
    expect(modinfo::analyze_estree(estree), info);
    expect(modinfo::convert(info), info);
    expect(modinfo::reach(R"({"root":"a","modules":{"a":{}}})"), R"(["a"])");
    expect(modinfo::check(document), valid);
    expect(modinfo::check_estree(estree), valid);
    expect(modinfo::check_convert(info), valid);
    expect(modinfo::check_reach(R"({"root":"a","modules":{"a":{}}})"), valid);
    expect(modinfo::run_lines(MODINFO_ANALYZE, document), R"({"answer":)" + info + "}\n");
    expect_fault([] { return modinfo::analyze("{}"); }, "Tree", R"({"fault":"Tree","pointer":"","expected":)");
    expect_fault([] { return modinfo::reach(""); }, "Json", R"({"fault":"Json","at":)");
    expect_invalid([] { return modinfo::run_lines(99, document); });
    // More lines than the first room has bytes for.
    const std::string lines(5000, '\n');
    expect(std::to_string(modinfo::run_lines(MODINFO_ANALYZE, lines).size()), std::to_string(5000 * 17));
}

} // namespace

int main()
{
    std::vector<std::thread> threads;
    for (int number = 0; number < 4; number++)
        threads.emplace_back([] {
            texts();
            documents();
        });
    for (std::thread &thread : threads)
        thread.join();
}
