// simdjson's DOM parser, kept from call to call as its documentation advises. The text is padded by its owner.
#include <simdjson.h>

static simdjson::dom::parser parser;

extern "C" bool peer_simdjson(const uint8_t *text, size_t length) {
  return parser.parse(text, length, false).error() == simdjson::SUCCESS;
}

extern "C" bool peer_simdjson_find(const uint8_t *text, size_t length, const uint8_t *pointer, size_t pointer_length) {
  const std::string_view path(reinterpret_cast<const char *>(pointer), pointer_length);
  return parser.parse(text, length, false).at_pointer(path).error() == simdjson::SUCCESS;
}

extern "C" size_t peer_simdjson_padding() { return simdjson::SIMDJSON_PADDING; }
