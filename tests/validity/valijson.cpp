// Validates a document by valijson over rapidjson: valijson SCHEMA DOCUMENT.
#include <fstream>
#include <iostream>
#include <rapidjson/document.h>
#include <rapidjson/istreamwrapper.h>
#include <sstream>
#include <string>
#include <valijson/adapters/rapidjson_adapter.hpp>
#include <valijson/schema.hpp>
#include <valijson/schema_parser.hpp>
#include <valijson/validator.hpp>

static void read(const char *file, rapidjson::Document &document) {
    std::ifstream in(file, std::ios::binary);
    std::stringstream text;
    text << in.rdbuf();
    const std::string bytes = text.str();
    document.Parse(bytes.c_str(), bytes.size());
    if (document.HasParseError()) {
        std::cerr << file << " is no JSON\n";
        exit(2);
    }
}

int main(int, char **words) {
    rapidjson::Document schema_text, document;
    read(words[1], schema_text);
    read(words[2], document);
    valijson::Schema schema;
    valijson::SchemaParser parser(valijson::SchemaParser::kDraft7);
    valijson::adapters::RapidJsonAdapter schema_adapter(schema_text), adapter(document);
    parser.populateSchema(schema_adapter, schema);
    valijson::Validator validator;
    std::cout << (validator.validate(schema, adapter, nullptr) ? "valid\n" : "invalid\n");
}
