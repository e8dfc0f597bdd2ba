// Cleans the scope paper's filter example, `rax = f();` `return;`, and prints the counts and the new listing. From the repository's root,
// after `bin/archive`:
//
//     c++ -Iinclude examples/cpp/clean.cpp target/staticlib/libpuchkewa.a -o target/clean-cpp && target/clean-cpp
#include <cstddef>
#include <cstdint>
#include <iostream>
#include <string>
#include <vector>

#include "puchkewa.h"

namespace {

enum Kind : std::uint8_t { Text, Register, Number, Keyword, Symbol, Address, Punct, Prefix };

// A tape that grows line by line and token by token (docs/TAPE.md).
class Tape {
public:
    Tape &line(std::uint8_t indent)
    {
        bytes_.insert(bytes_.end(), { 0x02, indent });
        return *this;
    }

    // The text has 1 to 65,535 bytes.
    Tape &token(Kind kind, const std::string &text)
    {
        const auto low = static_cast<std::uint8_t>(text.size() % 256), high = static_cast<std::uint8_t>(text.size() / 256);
        bytes_.insert(bytes_.end(), { static_cast<std::uint8_t>(0x10 + kind), low, high });
        bytes_.insert(bytes_.end(), text.begin(), text.end());
        return *this;
    }

    const std::vector<std::uint8_t> &end()
    {
        bytes_.push_back(0xFF);
        return bytes_;
    }

private:
    std::vector<std::uint8_t> bytes_;
};

// The texts of a tape, a line for each of its lines. What the library writes needs no question.
void print(const std::uint8_t *tape)
{
    for (bool is_first = true;; is_first = false) {
        while (*tape >= 0x10 && *tape <= 0x17) {
            const std::size_t length = tape[1] + 256u * tape[2];
            std::cout << std::string(tape + 3, tape + 3 + length);
            tape += 3 + length;
        }
        if (*tape == 0x03) {
            tape += 17;
            continue;
        }
        if (!is_first)
            std::cout << '\n';
        if (*tape == 0xFF)
            return;
        tape += *tape == 0x01 ? 10 : 2;
    }
}

} // namespace

int main()
{
    Tape raw;
    raw.line(0).token(Register, "rax").token(Punct, " = ").token(Symbol, "f").token(Punct, "();");
    raw.line(0).token(Keyword, "return").token(Punct, ";");
    const std::vector<std::uint8_t> &tape = raw.end();

    std::vector<std::uint8_t> work_a(PUCHKEWA_WORK), work_b(PUCHKEWA_WORK), out(PUCHKEWA_OUTPUT);
    puchkewa_settings settings{};
    settings.convention = PUCHKEWA_SYSV_64;
    const puchkewa_report r = puchkewa_clean(settings, tape.data(), tape.size(), work_a.data(), work_a.size(), work_b.data(), work_b.size(),
                                             out.data(), out.size());
    if (r.refusal != PUCHKEWA_FINISHED) {
        std::cout << "refused " << r.refusal << " at " << r.place << '\n';
        return 1;
    }
    std::cout << "attempts " << r.attempts_1 + r.attempts_2 + r.attempts_3 << ", removed " << r.removed << ", cut " << r.cut << '\n';
    print(out.data());
    return 0;
}
