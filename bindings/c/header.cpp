// The header in C++: bindings/run only checks that this compiles.
#include "tergyosul.h"

#include <cstdint>
#include <string>
#include <vector>

std::uint32_t triggers_of(const std::vector<std::uint8_t> &text, const std::vector<std::uint8_t> &sheet,
                          const std::vector<std::uint8_t> &topics)
{
    static const std::uint8_t nothing = 0;
    std::vector<std::uint32_t> words(TERGYOSUL_TOKEN_WORDS);
    std::uint32_t answer[TERGYOSUL_ANSWER_WORDS] = {0};
    // A vector without elements may have a null pointer.
    const std::uint8_t *text_bytes = text.empty() ? &nothing : text.data();
    const std::uint8_t *sheet_bytes = sheet.empty() ? &nothing : sheet.data();
    const std::uint8_t *topics_bytes = topics.empty() ? &nothing : topics.data();
    const std::uint8_t primary = static_cast<std::uint8_t>(tergyosul_sheet_primary(sheet_bytes, sheet.size()));
    const std::uint32_t number = tergyosul_read(text_bytes, text.size(), sheet_bytes, sheet.size(), topics_bytes,
                                                topics.size(), 0, primary, words.data(), words.size(), answer,
                                                TERGYOSUL_ANSWER_WORDS);
    return number == 0 ? answer[4] : 0;
}

bool opens_on(const std::uint32_t *trigger, tergyosul_day day)
{
    switch (trigger[0]) {
    case TERGYOSUL_AT_TIME:
        return (trigger[2] & day) != 0;
    case TERGYOSUL_AT_SOLAR:
        return (trigger[3] & day) != 0;
    default:
        return false;
    }
}

std::uint32_t first_piece_behind(const std::vector<std::uint8_t> &chain)
{
    static const std::uint8_t nothing = 0;
    std::uint32_t answer[TERGYOSUL_CHAIN_WORDS] = {0};
    const std::uint32_t number = tergyosul_next_chain(chain.empty() ? &nothing : chain.data(), chain.size(), answer,
                                                      TERGYOSUL_CHAIN_WORDS);
    return number == 0 ? answer[TERGYOSUL_CHAIN_PIECES] : number;
}

std::string text_of(const std::vector<std::uint8_t> &text, const std::vector<std::uint8_t> &sheet,
                    const std::uint32_t *lists)
{
    static const std::uint8_t nothing = 0;
    std::vector<std::uint8_t> out(TERGYOSUL_LEAST_BYTES);
    std::uint32_t answer[TERGYOSUL_WRITE_WORDS] = {0};
    const std::uint32_t number = tergyosul_write(text.empty() ? &nothing : text.data(), text.size(), &nothing, 0,
                                                 sheet.empty() ? &nothing : sheet.data(), sheet.size(), 0, 0, lists,
                                                 TERGYOSUL_ANSWER_WORDS, out.data(), out.size(), answer,
                                                 TERGYOSUL_WRITE_WORDS);
    return number == 0 ? std::string(out.begin(), out.begin() + answer[TERGYOSUL_WRITE_LENGTH]) : std::string();
}

std::string rows_of(const std::vector<std::uint8_t> &rows, const std::vector<std::uint8_t> &sheet)
{
    static const std::uint8_t nothing = 0;
    std::uint8_t out[TERGYOSUL_ROWS_LEAST_BYTES] = {0};
    std::uint32_t lists[TERGYOSUL_ANSWER_WORDS] = {0}, answer[TERGYOSUL_WRITE_WORDS] = {0};
    const std::uint8_t *rows_bytes = rows.empty() ? &nothing : rows.data();
    const std::uint8_t *sheet_bytes = sheet.empty() ? &nothing : sheet.data();
    if (tergyosul_rows(rows_bytes, rows.size(), sheet_bytes, sheet.size(), 0, 0, lists, TERGYOSUL_ANSWER_WORDS) != 0 ||
        tergyosul_rows_back(sheet_bytes, sheet.size(), 0, 0, lists, TERGYOSUL_ANSWER_WORDS, out, TERGYOSUL_ROWS_LEAST_BYTES,
                            answer, TERGYOSUL_WRITE_WORDS) != 0) {
        return std::string();
    }
    return std::string(out, out + answer[TERGYOSUL_WRITE_LENGTH]);
}
