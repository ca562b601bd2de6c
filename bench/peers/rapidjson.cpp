// rapidjson's SAX reader with a handler that accepts all. The text ends in a zero byte behind its length.
#include <rapidjson/reader.h>

extern "C" bool peer_rapidjson(const uint8_t *text, size_t) {
  static rapidjson::Reader reader;
  rapidjson::BaseReaderHandler<> handler;
  rapidjson::StringStream stream(reinterpret_cast<const char *>(text));
  return !reader.Parse(stream, handler).IsError();
}
