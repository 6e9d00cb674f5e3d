// Times RapidJSON. READ_FLAGS says how it reads.

#define RAPIDJSON_SSE42

#include "passes.h"

#include <rapidjson/document.h>
#include <rapidjson/stringbuffer.h>
#include <rapidjson/writer.h>

struct RapidJson {
    using Input = std::string;

    static std::unique_ptr<rapidjson::Document> read(const Input &input) {
        auto document = std::make_unique<rapidjson::Document>();
        document->Parse<READ_FLAGS>(input.c_str());
        return document->HasParseError() ? nullptr : std::move(document);
    }

    static rapidjson::StringBuffer write(const rapidjson::Document &document) {
        rapidjson::StringBuffer written;
        rapidjson::Writer<rapidjson::StringBuffer> writer(written);
        document.Accept(writer);
        return written;
    }

    static std::string_view view(const rapidjson::StringBuffer &written) {
        return {written.GetString(), written.GetSize()};
    }
};

int main(int, char **arguments) {
    return run_passes<RapidJson>(arguments[1]);
}
