// Times simdjson's document: a value belongs to the parser that read it, so there is a new one for each pass.

#include "passes.h"

#include <simdjson.h>

struct Simdjson {
    using Input = simdjson::padded_string;

    static std::unique_ptr<simdjson::dom::parser> read(const Input &input) {
        auto parser = std::make_unique<simdjson::dom::parser>();
        return parser->parse(input).error() ? nullptr : std::move(parser);
    }

    static std::string write(const simdjson::dom::parser &parser) {
        return simdjson::minify(parser.doc.root());
    }

    static std::string_view view(const std::string &written) {
        return written;
    }
};

int main(int, char **arguments) {
    return run_passes<Simdjson>(arguments[1]);
}
