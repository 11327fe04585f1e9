// names: reads names of symbols from standard input, one a line, and writes each in readable form.
#include "binfarce.h"

#include <iostream>
#include <new>
#include <optional>
#include <stdexcept>
#include <string>
#include <string_view>

namespace binfarce {

inline const std::uint8_t *bytes(std::string_view text) {
    return reinterpret_cast<const std::uint8_t *>(text.empty() ? "" : text.data());
}

inline std::uint8_t *bytes(std::string &text) { return reinterpret_cast<std::uint8_t *>(text.data()); }

// A call's text, whatever its length, in a string that owns it: `call` writes into a buffer and returns the whole length.
template <typename Call> std::optional<std::string> text(Call call) {
    std::string out(256, '\0');
    binfarce_text result = call(bytes(out), out.size());
    if (result.status == BINFARCE_OK && result.length > out.size()) {
        out.resize(result.length);
        result = call(bytes(out), out.size());
    }
    switch (result.status) {
    case BINFARCE_OK: out.resize(result.length); return out;
    case BINFARCE_NONE: return std::nullopt;
    case BINFARCE_OUT_OF_MEMORY: throw std::bad_alloc();
    }
    std::string words(64, '\0');
    words.resize(binfarce_status_text(result.status, bytes(words), words.size()));
    throw std::runtime_error(words);
}

// The trimmed text of a name.
inline std::string trimmed(std::string_view name) {
    return *text([&](std::uint8_t *out, std::size_t length) {
        return binfarce_trimmed(bytes(name), name.size(), out, length);
    });
}

// The crate of a name.
inline std::optional<std::string> crate_of(std::string_view name) {
    return text([&](std::uint8_t *out, std::size_t length) {
        return binfarce_crate_of(bytes(name), name.size(), out, length);
    });
}

} // namespace binfarce

int main() {
    for (std::string name; std::getline(std::cin, name);) {
        try {
            std::cout << binfarce::trimmed(name) << '\t' << binfarce::crate_of(name).value_or("-") << '\n';
        } catch (const std::runtime_error &e) {
            std::cout << "refused: " << e.what() << '\n';
        }
    }
}
