// nlohmann::json, which builds a tree whose objects are sorted maps, merges a patch into it, and writes it without
// whitespace.
#include <nlohmann/json.hpp>

extern "C" bool peer_nlohmann_write(const uint8_t *text, size_t length) {
  const auto root = nlohmann::json::parse(text, text + length, nullptr, false);
  return !root.is_discarded() && !root.dump().empty();
}

extern "C" bool peer_nlohmann_merge(const uint8_t *target, size_t target_length, const uint8_t *patch,
                                    size_t patch_length) {
  auto root = nlohmann::json::parse(target, target + target_length, nullptr, false);
  const auto changes = nlohmann::json::parse(patch, patch + patch_length, nullptr, false);
  if (root.is_discarded() || changes.is_discarded()) return false;
  root.merge_patch(changes);
  return !root.dump().empty();
}
