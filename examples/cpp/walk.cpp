// Walks over the related content section in a file, from place to place, and asks its index. The header is included as it
// is.
#include "eallunsa.h"

#include <fstream>
#include <iostream>
#include <iterator>
#include <string>
#include <vector>

namespace {

std::string text(const std::uint8_t *s, eallunsa_range range)
{
    return {reinterpret_cast<const char *>(s) + range.start, range.length};
}

void print(const eallunsa_locator &l)
{
    std::cout << "  locator: date " << l.start_date << " time " << l.start_time << " duration " << l.duration;
    if (l.service.inline_service)
        std::cout << " service " << l.service.original_network_id << '.' << l.service.transport_stream_id << '.'
                  << l.service.service_id;
    else
        std::cout << " triplet " << l.service.dvb_service_triplet_id;
    if (l.identifier.identifier_type != 0)
        std::cout << " identifier " << l.identifier.id << " of type " << +l.identifier.identifier_type;
    if (l.windows.present)
        std::cout << " windows " << l.windows.early_start_window << ' ' << l.windows.late_end_window;
    std::cout << '\n';
}

} // namespace

int main(int argc, char **argv)
{
    if (argc != 2) {
        std::cerr << "usage: walk FILE\n";
        return 2;
    }
    std::ifstream file(argv[1], std::ios::binary);
    if (!file) {
        std::cerr << "walk: " << argv[1] << " cannot be read\n";
        return 2;
    }
    const std::vector<std::uint8_t> bytes{std::istreambuf_iterator<char>(file), {}};
    // The pointer of an empty vector may be null, and no call takes null.
    static const std::uint8_t nothing = 0;
    const std::uint8_t *s = bytes.empty() ? &nothing : bytes.data();

    const auto section = eallunsa_rct_check(s, bytes.size());
    if (section.refusal.number != 0) {
        std::cout << "refused " << +section.refusal.number << ' ' << section.refusal.first << ' ' << section.refusal.second
                  << '\n';
        return 1;
    }
    std::cout << "section of service " << section.header.section.table_id_extension << ", version "
              << section.header.section.version_number << ", year " << section.header.year_offset << ", "
              << section.number_of_links << " links\n";

    const std::size_t payload = section.total - 4;
    std::uint16_t at = EALLUNSA_RCT_FIRST_ENTRY;
    for (std::size_t k = 0; k < section.number_of_links; k++) {
        const auto entry = eallunsa_rct_entry(s, payload, at);
        const auto &fields = entry.fields;
        std::cout << "link " << k << ": type " << fields.link_type << " how_related " << fields.how_related << " term "
                  << fields.term_id << '\n';
        if (fields.has_media_uri)
            std::cout << "  uri: " << text(s, fields.media_uri) << '\n';
        if (fields.has_dvb_binary_locator)
            print(fields.dvb_binary_locator);
        std::uint32_t item_at = entry.items_at;
        for (std::size_t i = 0; i < fields.number_items; i++) {
            const auto step = eallunsa_item_from(s, payload, item_at);
            const auto *language = reinterpret_cast<const char *>(step.item.language_code);
            std::cout << "  item " << std::string(language, 3) << ": " << text(s, step.item.promotional_text) << '\n';
            item_at = step.next;
        }
        at = entry.next;
    }

    const auto index = eallunsa_rct_index(s, bytes.size()).index;
    std::cout << "with a URI: " << eallunsa_set_count(index.uri) << " of " << section.number_of_links
              << " links, with a locator: " << eallunsa_set_count(index.locator)
              << ", with the default icon: " << eallunsa_set_count(index.icon) << '\n';
    return 0;
}
