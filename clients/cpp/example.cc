// Every question of urszovely.hpp asked once, a layout first: what to copy from. example.out has the lines that it prints.
#include "urszovely.hpp"

#include <iostream>
#include <vector>

namespace u = urszovely;
using u::Axis;

namespace {

const u::Lengths space{{Axis::warpid, 11}, {Axis::laneid, 32}, {Axis::m, 2}};
const std::string_view tile_x = "S[(8,2,4,2):(4@laneid,1@warpid,1@laneid,1)]+R[2:4@warpid]+5@warpid";

void say(const char *question, const u::Told &answer)
{
    std::cout << question << ": " << answer.text();
    for (std::uint64_t number : answer.numbers()) std::cout << ' ' << number;
    std::cout << '\n';
}

// a text read and judged: how many cells the table needs is asked first, with nothing lent
void judge(std::string_view text)
{
    std::cout << '\n' << text << '\n';
    auto card = u::read(text, space);
    if (!card) {
        std::cout << std::string(*card.beginning(), ' ') << "^ no correct text goes on like this\n";
        return say("read", card);
    }
    std::vector<std::uint32_t> table(u::verdict(*card, {}).needed().value_or(0));
    auto judged = u::verdict(*card, table);
    say("verdict", judged);
    if (auto clash = judged.shared())
        std::cout << "elements " << clash->x.number << " and " << clash->y.number << " share cell " << clash->cell.number << '\n';
    if (auto outside = judged.outside()) std::cout << "element " << outside->flat.number << " leaves axis " << u::number_of(outside->axis) << '\n';
    if (!judged) return;
    for (u::Cell cell : {u::Cell(0), u::Cell(447)}) {
        std::optional<u::Flat> owner = judged->owners[cell];
        std::cout << "cell " << cell.number << " belongs to " << (owner ? "element " + std::to_string(owner->number) : "nobody") << '\n';
    }
}

// tile X by its iters: admitted, written, one element placed, one cell's owner, the cells of one warp
void ask_of_a_card()
{
    const u::Card card({{8, 4, Axis::laneid}, {2, 1, Axis::warpid}, {4, 1, Axis::laneid}, {2, 1, Axis::m}}, {{2, 4, Axis::warpid}},
                       {{Axis::warpid, 5}}, space);
    std::cout << '\n' << *u::write(card) << (*u::read(tile_x, space) == card ? " is tile X\n" : " is another card\n");
    say("admit", u::admit(card));

    std::array<char, 8> short_text;
    say("write", u::write(card, short_text));
    std::array<std::uint32_t, URSZOVELY_MOST_COPIES> memory;
    const std::array<std::uint64_t, 2> shape{16, 8}, last{15, 7};
    auto copies = u::place(card, shape, last, memory);
    std::cout << "element (15, 7) is in cells " << (*copies)[0].number << " and " << (*copies)[1].number << '\n';

    std::vector<std::uint32_t> table(704);
    auto owner = u::owner(card, {{Axis::warpid, 6}, {Axis::laneid, 31}, {Axis::m, 1}}, table);
    std::cout << "warpid 6, laneid 31, m 1 belongs to element " << (*owner)->number << '\n';
    auto warp = u::stretch(table, card.lengths(), Axis::warpid, {{Axis::warpid, 6}});
    std::cout << "warpid 6 has " << warp->size() << " cells from cell " << warp->first().number << " on, the first of element "
              << (*warp)[warp->first()]->number << '\n';
}

void ask_of_addresses()
{
    const u::Swizzle by = *u::mode(16, u::Mode::B128);
    std::cout << "\n16 bits in 128B mode: M " << by.m << ", B " << by.b << ", S " << by.s << "; 64 goes to " << *u::swizzle(by, 64) << '\n';
    auto bank = u::bank(16, 72);
    std::cout << "element address 72 is in line " << bank->line << ", bank " << bank->bank << '\n';
    say("swizzle", u::swizzle({3, 3, 2}, 64));

    const u::Canonical figure{u::Major::K, u::Mode::none, 32, 2, 2, 256, 128, 256};
    std::vector<std::uint32_t> table(256);
    auto encoded = u::canonical(figure, table);
    say("canonical", encoded);
    std::cout << "LBO " << encoded->lbo << " and SBO " << encoded->sbo << " of " << *u::write(*u::canonical_card(figure)) << '\n';
}

void ask_of_a_warp()
{
    const u::Kind kind = u::Kind::m8n8k4_C_f32, twice = u::Kind::m8n8k4_C_f64;
    auto place = u::fragment(kind, {5, 6});
    auto held = u::holder(kind, *place);
    std::cout << "\nlane 5, register 6 holds row " << place->row << ", column " << place->column << " of computation " << place->computation
              << ", which lane " << held->lane << " holds in register " << held->index << '\n';
    const u::Kind further = static_cast<u::Kind>(URSZOVELY_M16N8K16_F16_A);
    auto element = u::mma(further, {0, 22, 5});
    auto holder = u::mma_holder(further, *element);
    std::cout << "A of m16n8k16 .f16: lane 22, register 5 holds row " << element->row << ", column " << element->column << ", which lane " << holder->lane
              << " holds in register " << holder->index << "; its layout is " << *u::write(*u::mma_layout(further)) << '\n';

    u::Tile tile, back;
    u::Lanes lanes;
    for (std::size_t k = 0; k < 64; k++) {
        tile.sorts[k] = URSZOVELY_SINGLE;
        tile.singles[k] = static_cast<float>(k) / 2;
    }
    say("deal", u::deal(kind, 1, tile, lanes));
    say("collect", u::collect(kind, 1, lanes, back));
    std::cout << "register 6 of lane 5 is " << lanes.singles[8 * 5 + 6] << ", and what was dealt is "
              << (back.singles == tile.singles ? "collected" : "lost") << '\n';

    u::Holdings holdings{};
    say("deal_f64", u::deal_f64(twice, 0, tile, holdings));
    holdings[4 * 31 + 3] = 2.5;
    say("collect_f64", u::collect_f64(twice, 0, holdings, back));
    std::cout << "row 7, column 7 is " << back.doubles[63] << '\n';
}

void ask_of_a_mask()
{
    const std::uint64_t descriptor = 0x0203028301020100;
    std::array<std::uint8_t, URSZOVELY_MOST_MASK> bytes;
    auto mask = u::mask(32, 32, descriptor, bytes);
    std::cout << "\nmask";
    for (unsigned byte : mask->bytes) std::cout << ' ' << byte;
    std::cout << ": " << mask->zeroed_columns << " zeroed, first used " << mask->first_used << '\n';
    u::Fields fields = *u::fields(descriptor);
    std::cout << "skip span " << +fields.skip_span << ", use span " << +fields.use_span << ", written "
              << (*u::descriptor(32, fields) == descriptor ? "alike\n" : "otherwise\n");
    fields.shift = 17;
    say("descriptor", u::descriptor(32, fields));
}

// two elements on m carried from cells 0 and 1 to cells 4 and 5, and the first card stored with a note
void ask_of_plans_and_books()
{
    const u::Lengths eight{{Axis::m, 8}};
    const u::Card first({{2, 1}}, {}, {}, eight), second({{2, 1}}, {}, {{Axis::m, 4}}, eight);
    std::array<std::uint32_t, 8> one, two;
    std::array<std::uint64_t, 4> numbers;
    auto copies = u::plan(first, second, numbers, one, two);
    std::cout << '\n';
    for (std::size_t k = 0; k < copies->size(); k++)
        std::cout << "cell " << (*copies)[k].from.number << " to cell " << (*copies)[k].to.number << '\n';
    say("carry", u::carry(first, second, copies->numbers(), one, two));
    say("carry", u::carry(first, second, copies->numbers().first(2), one, two));

    const std::array<std::uint8_t, 3> note{'r', 'o', 'w'};
    std::array<std::uint8_t, URSZOVELY_BLOCK> bytes;
    auto block = u::block(first, note, bytes);
    auto page = u::page(*block);
    std::cout << "the block has " << *u::write(page->card) << " with the note " << std::string(page->note.begin(), page->note.end()) << '\n';
    bytes[8]++;
    say("page", u::page(bytes));
}

} // namespace

int main()
{
    judge(tile_x);
    judge("S[(8,2,4,2):(4@laneid,1@warpid,1@laneid,1)]+R[2:1@warpid]+5@warpid");
    judge("S[(8,2,4,2):(4@laneid,1@warpid,1@laneid,1)]+R[2:4@warpid]+6@warpid");
    judge("S[(8,2):(4@lanes,1)]");
    ask_of_a_card();
    ask_of_addresses();
    ask_of_a_warp();
    ask_of_a_mask();
    ask_of_plans_and_books();
}
