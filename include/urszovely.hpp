// urszovely.hpp: the questions of urszovely.h with types. C++20, header only, and nothing is decided here: every answer is the proved library's, and
// urszovely.h says what each question means. clients/cpp/example.cc asks each of them once.
//
// Memory is lent as a std::span; an empty one asks how much is needed(). What an answer shows of lent memory (owners, cells, copies, a text, a note,
// a mask) is a look into that memory, and lasts no longer. Any numbers may be asked, as in C; what is looked for where it is not, a cell outside a
// table or a ninth axis, throws std::out_of_range.
#ifndef URSZOVELY_HPP
#define URSZOVELY_HPP

#include "urszovely.h"

#include <algorithm>
#include <array>
#include <compare>
#include <cstddef>
#include <cstdint>
#include <initializer_list>
#include <optional>
#include <span>
#include <stdexcept>
#include <string>
#include <string_view>
#include <type_traits>
#include <utility>

namespace urszovely {

enum class Axis : std::uint64_t {
    pid = URSZOVELY_AXIS_PID,
    warpid = URSZOVELY_AXIS_WARPID,
    laneid = URSZOVELY_AXIS_LANEID,
    P = URSZOVELY_AXIS_P,
    F = URSZOVELY_AXIS_F,
    TLane = URSZOVELY_AXIS_TLANE,
    TCol = URSZOVELY_AXIS_TCOL,
    m = URSZOVELY_AXIS_M
};

enum class Refusal : std::uint64_t {
    approved = URSZOVELY_APPROVED,
    counts = URSZOVELY_COUNTS,
    limits = URSZOVELY_LIMITS,
    axis = URSZOVELY_AXIS,
    space = URSZOVELY_SPACE,
    too_many = URSZOVELY_TOO_MANY,
    swizzle = URSZOVELY_SWIZZLE,
    outside = URSZOVELY_OUTSIDE,
    shared = URSZOVELY_SHARED,
    shape = URSZOVELY_SHAPE,
    coordinate = URSZOVELY_COORDINATE,
    too_short = URSZOVELY_TOO_SHORT,
    cell = URSZOVELY_CELL,
    mask_size = URSZOVELY_MASK_SIZE,
    fragment = URSZOVELY_FRAGMENT,
    reserved = URSZOVELY_RESERVED,
    shift = URSZOVELY_SHIFT,
    idle = URSZOVELY_IDLE,
    notation = URSZOVELY_NOTATION,
    wrong_check = URSZOVELY_WRONG_CHECK,
    unused = URSZOVELY_UNUSED,
    plan = URSZOVELY_PLAN,
    canonical = URSZOVELY_CANONICAL,
    overlap = URSZOVELY_OVERLAP
};

enum class Mode : std::uint64_t { none = URSZOVELY_NO_SWIZZLE, B32 = URSZOVELY_32B, B64 = URSZOVELY_64B, B128 = URSZOVELY_128B };

enum class Major : std::uint64_t { K = URSZOVELY_K_MAJOR, MN = URSZOVELY_MN_MAJOR };

// Kinds of fragments; a further one is asked as static_cast<Kind>(number).
enum class Kind : std::uint64_t {
    m8n8k4_A_f16_row = URSZOVELY_M8N8K4_A_F16_ROW,
    m8n8k4_A_f16_column = URSZOVELY_M8N8K4_A_F16_COLUMN,
    m8n8k4_B_f16_row = URSZOVELY_M8N8K4_B_F16_ROW,
    m8n8k4_B_f16_column = URSZOVELY_M8N8K4_B_F16_COLUMN,
    m8n8k4_C_f16 = URSZOVELY_M8N8K4_C_F16,
    m8n8k4_C_f32 = URSZOVELY_M8N8K4_C_F32,
    m8n8k4_A_f64 = URSZOVELY_M8N8K4_A_F64,
    m8n8k4_B_f64 = URSZOVELY_M8N8K4_B_F64,
    m8n8k4_C_f64 = URSZOVELY_M8N8K4_C_F64
};

// The number that any of these has in urszovely.h.
template <class Name>
    requires std::is_enum_v<Name>
constexpr std::uint64_t number_of(Name name)
{
    return static_cast<std::uint64_t>(name);
}

// A flat index and a cell number are kinds of their own: neither can be passed for the other, nor a plain number for either.
struct Flat {
    std::uint64_t number;
    explicit constexpr Flat(std::uint64_t flat) : number(flat) {}
    friend constexpr auto operator<=>(Flat, Flat) = default;
};

struct Cell {
    std::uint64_t number;
    explicit constexpr Cell(std::uint64_t cell) : number(cell) {}
    friend constexpr auto operator<=>(Cell, Cell) = default;
};

static_assert(!std::is_constructible_v<Flat, Cell> && !std::is_constructible_v<Cell, Flat>);
static_assert(!std::is_convertible_v<std::uint64_t, Flat> && !std::is_convertible_v<std::uint64_t, Cell>);

// What an answer names besides its number.
struct Outside { Flat flat; Axis axis; };
struct Shared { Flat x, y; Cell cell; };
struct Idle { std::uint64_t a, b; };
struct Register { std::uint64_t lane, index; };

// The four numbers of an answer, and what its refusal names.
class Told {
    std::array<std::uint64_t, 4> numbers_;

    bool is(Refusal refusal) const { return number_of(refusal) == numbers_[0]; }

    template <class Detail>
    static std::optional<Detail> only(bool named, Detail detail)
    {
        return named ? std::optional(detail) : std::nullopt;
    }

public:
    explicit constexpr Told(const std::array<std::uint64_t, 4> &numbers) : numbers_(numbers) {}

    explicit operator bool() const { return is(Refusal::approved); }
    Refusal refusal() const { return static_cast<Refusal>(numbers_[0]); }
    const char *text() const { return urszovely_refusal_text(numbers_[0]); }
    const std::array<std::uint64_t, 4> &numbers() const { return numbers_; }

    // 7: the first element with a copy outside the space, and the axis; 8: the two elements and the cell that they share
    std::optional<Outside> outside() const { return only(is(Refusal::outside), Outside{Flat(numbers_[1]), static_cast<Axis>(numbers_[2])}); }
    std::optional<Shared> shared() const { return only(is(Refusal::shared), Shared{Flat(numbers_[1]), Flat(numbers_[2]), Cell(numbers_[3])}); }
    // 11: the length needed; 12: the axis of the coordinate that lies outside
    std::optional<std::uint64_t> needed() const { return only(is(Refusal::too_short), numbers_[1]); }
    std::optional<Axis> wrong_axis() const { return only(is(Refusal::cell), static_cast<Axis>(numbers_[1])); }
    // 14: the register whose value is of the wrong sort, lane 0 and register 0 too where there is no such kind; 16: the limit of the shift
    std::optional<Register> wrong_register() const { return only(is(Refusal::fragment), Register{numbers_[1], numbers_[2]}); }
    std::optional<std::uint64_t> shift_limit() const { return only(is(Refusal::shift), numbers_[1]); }
    // 17: the two replica combinations; 18: the bytes of the longest beginning that some correct text also has
    std::optional<Idle> idle() const { return only(is(Refusal::idle), Idle{numbers_[1], numbers_[2]}); }
    std::optional<std::uint64_t> beginning() const { return only(is(Refusal::notation), numbers_[1]); }
    // 21: the index of the copy that lies outside, or the first cell that ends wrongly; 23: the smallest cell that both cards occupy
    std::optional<std::uint64_t> wrong_copy() const { return only(is(Refusal::plan) && numbers_[1], numbers_[1] - 1); }
    std::optional<Cell> wrong_cell() const { return only(is(Refusal::plan) && !numbers_[1], Cell(numbers_[2])); }
    std::optional<Cell> overlap() const { return only(is(Refusal::overlap), Cell(numbers_[1])); }
};

struct Nothing {};

// An answer with what is said at 0, which a refusal does not have: then * and -> are as wrong as those of an empty std::optional, and value() throws.
template <class Value = Nothing>
class [[nodiscard]] Answer : public Told {
    std::optional<Value> value_;

public:
    Answer(const Told &told, std::optional<Value> value) : Told(told), value_(std::move(value)) {}

    const Value &operator*() const { return *value_; }
    const Value *operator->() const { return &*value_; }
    const Value &value() const { return value_.value(); }
};

namespace inner {

// An answer, asked for and then made a value of by its four numbers.
template <class Ask, class Make>
auto asked(Ask ask, Make make)
{
    std::array<std::uint64_t, 4> numbers{};
    ask(numbers.data());
    using Value = decltype(make(numbers));
    return Answer<Value>(Told(numbers), numbers[0] ? std::optional<Value>() : std::optional<Value>(make(numbers)));
}

template <class Ask>
Answer<> asked(Ask ask)
{
    return asked(ask, [](const auto &) { return Nothing{}; });
}

// A shape or coordinates as a count and eight numbers: of more than eight the count says so, and the library refuses them.
inline std::array<std::uint64_t, 9> counted(std::span<const std::uint64_t> numbers)
{
    std::array<std::uint64_t, 9> all{numbers.size()};
    std::copy_n(numbers.begin(), std::min<std::size_t>(numbers.size(), 8), all.begin() + 1);
    return all;
}

} // namespace inner

// A number for each axis: those that are not named are 1 as lengths, and 0 as coordinates and offsets.
template <class Number, Number otherwise>
class PerAxis {
    std::array<Number, URSZOVELY_AXES> numbers_;

public:
    struct Named { Axis axis; Number number; };

    constexpr PerAxis() { numbers_.fill(otherwise); }
    constexpr PerAxis(std::initializer_list<Named> named) : PerAxis()
    {
        for (const Named &one : named) (*this)[one.axis] = one.number;
    }

    constexpr Number &operator[](Axis axis) { return numbers_.at(number_of(axis)); }
    constexpr const Number &operator[](Axis axis) const { return numbers_.at(number_of(axis)); }
    constexpr const Number *data() const { return numbers_.data(); }
    friend constexpr bool operator==(const PerAxis &, const PerAxis &) = default;
};

using Lengths = PerAxis<std::uint64_t, 1>;
using Coordinates = PerAxis<std::uint64_t, 0>;
using Offsets = PerAxis<std::int64_t, 0>;

struct Swizzle {
    std::uint64_t m = 0, b = 0, s = 3;
    friend constexpr bool operator==(const Swizzle &, const Swizzle &) = default;
};

// An iter of a shard or of a replica; a reuse mark counts in a shard alone.
struct Iter {
    std::uint64_t extent;
    std::int64_t stride;
    Axis axis = Axis::m;
    bool reused = false;
    friend constexpr bool operator==(const Iter &, const Iter &) = default;
};

// A card: the 57 numbers of urszovely.h and the marks. More iters than a card has room for are counted and not kept, so that the library refuses it.
class Card {
    static constexpr std::size_t shard_at = 1, replica_count_at = 25, replica_at = 26, offsets_at = 38, lengths_at = 46, swizzle_at = 54;

    std::array<std::uint64_t, URSZOVELY_CARD> numbers_{};
    std::uint64_t marks_ = 0;

    Iter iter(std::size_t at) const { return {numbers_[at], static_cast<std::int64_t>(numbers_[at + 1]), static_cast<Axis>(numbers_[at + 2])}; }

    void put(std::size_t at, std::span<const Iter> iters, std::size_t most)
    {
        for (std::size_t k = 0; k < std::min(iters.size(), most); k++) {
            numbers_[at + 3 * k] = iters[k].extent;
            numbers_[at + 3 * k + 1] = static_cast<std::uint64_t>(iters[k].stride);
            numbers_[at + 3 * k + 2] = number_of(iters[k].axis);
        }
    }

public:
    explicit Card(const Lengths &lengths = {}, Swizzle swizzle = {})
    {
        set_lengths(lengths);
        set_swizzle(swizzle);
    }
    Card(std::span<const Iter> shard, std::span<const Iter> replica, const Offsets &offsets, const Lengths &lengths, Swizzle swizzle = {})
        : Card(lengths, swizzle)
    {
        numbers_[0] = shard.size();
        put(shard_at, shard, URSZOVELY_MOST_SHARD);
        for (std::size_t k = 0; k < std::min<std::size_t>(shard.size(), URSZOVELY_MOST_SHARD); k++) marks_ |= std::uint64_t{shard[k].reused} << k;
        numbers_[replica_count_at] = replica.size();
        put(replica_at, replica, URSZOVELY_MOST_REPLICA);
        for (std::size_t k = 0; k < URSZOVELY_AXES; k++) numbers_[offsets_at + k] = static_cast<std::uint64_t>(offsets[static_cast<Axis>(k)]);
    }
    Card(std::initializer_list<Iter> shard, std::initializer_list<Iter> replica, const Offsets &offsets, const Lengths &lengths, Swizzle swizzle = {})
        : Card(std::span(shard.begin(), shard.size()), std::span(replica.begin(), replica.size()), offsets, lengths, swizzle)
    {
    }
    Card(std::span<const std::uint64_t, URSZOVELY_CARD> numbers, std::uint64_t marks) : marks_(marks)
    {
        std::copy(numbers.begin(), numbers.end(), numbers_.begin());
    }

    const std::uint64_t *numbers() const { return numbers_.data(); }
    std::uint64_t marks() const { return marks_; }

    std::uint64_t shard_count() const { return numbers_[0]; }
    std::uint64_t replica_count() const { return numbers_[replica_count_at]; }
    Iter shard(std::size_t k) const
    {
        if (k >= URSZOVELY_MOST_SHARD) throw std::out_of_range("a shard has eight iters at most");
        Iter one = iter(shard_at + 3 * k);
        one.reused = marks_ >> k & 1;
        return one;
    }
    Iter replica(std::size_t k) const
    {
        if (k >= URSZOVELY_MOST_REPLICA) throw std::out_of_range("a replica has four iters at most");
        return iter(replica_at + 3 * k);
    }
    Offsets offsets() const
    {
        Offsets all;
        for (std::size_t k = 0; k < URSZOVELY_AXES; k++) all[static_cast<Axis>(k)] = static_cast<std::int64_t>(numbers_[offsets_at + k]);
        return all;
    }
    Lengths lengths() const
    {
        Lengths all;
        for (std::size_t k = 0; k < URSZOVELY_AXES; k++) all[static_cast<Axis>(k)] = numbers_[lengths_at + k];
        return all;
    }
    Swizzle swizzle() const { return {numbers_[swizzle_at], numbers_[swizzle_at + 1], numbers_[swizzle_at + 2]}; }

    void set_lengths(const Lengths &lengths) { std::copy_n(lengths.data(), std::size_t{URSZOVELY_AXES}, numbers_.begin() + lengths_at); }
    void set_swizzle(Swizzle swizzle)
    {
        numbers_[swizzle_at] = swizzle.m;
        numbers_[swizzle_at + 1] = swizzle.b;
        numbers_[swizzle_at + 2] = swizzle.s;
    }

    friend bool operator==(const Card &, const Card &) = default;
};

// Cell numbers in lent memory.
class Cells {
    std::span<const std::uint32_t> entries_;

public:
    explicit Cells(std::span<const std::uint32_t> entries) : entries_(entries) {}

    std::size_t size() const { return entries_.size(); }
    Cell operator[](std::size_t k) const
    {
        if (k >= entries_.size()) throw std::out_of_range("no such copy");
        return Cell(entries_[k]);
    }
};

// The owners of cells in a lent table, from a first cell on: an element, or nobody.
class Owners {
    Cell first_;
    std::span<const std::uint32_t> entries_;

public:
    Owners(Cell first, std::span<const std::uint32_t> entries) : first_(first), entries_(entries) {}

    Cell first() const { return first_; }
    std::size_t size() const { return entries_.size(); }
    std::optional<Flat> operator[](Cell cell) const
    {
        if (cell < first_ || cell.number - first_.number >= entries_.size()) throw std::out_of_range("a cell that these are not the owners of");
        std::uint32_t entry = entries_[cell.number - first_.number];
        return entry ? std::optional(Flat(entry - 1)) : std::nullopt;
    }
};

// The copies of a plan in lent memory.
struct Copy { Cell from, to; };

class Copies {
    std::span<const std::uint64_t> numbers_;

public:
    explicit Copies(std::span<const std::uint64_t> numbers) : numbers_(numbers) {}

    std::size_t size() const { return numbers_.size() / 2; }
    std::span<const std::uint64_t> numbers() const { return numbers_; }
    Copy operator[](std::size_t k) const
    {
        if (k >= size()) throw std::out_of_range("no such copy");
        return {Cell(numbers_[2 * k]), Cell(numbers_[2 * k + 1])};
    }
};

// The swizzle of an address.
inline Answer<std::uint64_t> swizzle(Swizzle by, std::uint64_t address)
{
    return inner::asked([&](auto *answer) { urszovely_swizzle(by.m, by.b, by.s, address, answer); }, [](const auto &n) { return n[1]; });
}

// The swizzle of element bits and mode.
inline Answer<Swizzle> mode(std::uint64_t bits, Mode mode)
{
    return inner::asked([&](auto *answer) { urszovely_mode(bits, number_of(mode), answer); },
                        [](const auto &n) { return Swizzle{n[1], n[2], n[3]}; });
}

struct Bank { std::uint64_t line, bank; };

// Line and bank of an element address.
inline Answer<Bank> bank(std::uint64_t bits, std::uint64_t address)
{
    return inner::asked([&](auto *answer) { urszovely_bank(bits, address, answer); }, [](const auto &n) { return Bank{n[1], n[2]}; });
}

struct Place { std::uint64_t computation, row, column; };

// What a register holds, and which register holds a place.
inline Answer<Place> fragment(Kind kind, Register held)
{
    return inner::asked([&](auto *answer) { urszovely_fragment(number_of(kind), held.lane, held.index, answer); },
                        [](const auto &n) { return Place{n[1], n[2], n[3]}; });
}

inline Answer<Register> holder(Kind kind, Place place)
{
    return inner::asked([&](auto *answer) { urszovely_holder(number_of(kind), place.computation, place.row, place.column, answer); },
                        [](const auto &n) { return Register{n[1], n[2]}; });
}

// A warp's register in a further kind of fragment, and a place in its matrices.
struct WarpRegister { std::uint64_t warp, lane, index; };
struct MatrixPlace { std::uint64_t matrix, row, column; };

// What a register holds in a further kind, which register holds a place, and the kind's layout.
inline Answer<MatrixPlace> mma(Kind kind, WarpRegister held)
{
    return inner::asked([&](auto *answer) { urszovely_mma(number_of(kind), held.warp, held.lane, held.index, answer); },
                        [](const auto &n) { return MatrixPlace{n[1], n[2], n[3]}; });
}

inline Answer<WarpRegister> mma_holder(Kind kind, MatrixPlace place)
{
    return inner::asked([&](auto *answer) { urszovely_mma_holder(number_of(kind), place.matrix, place.row, place.column, answer); },
                        [](const auto &n) { return WarpRegister{n[1], n[2], n[3]}; });
}

inline Answer<Card> mma_layout(Kind kind)
{
    std::array<std::uint64_t, URSZOVELY_CARD> numbers;
    return inner::asked([&](auto *answer) { urszovely_mma_layout(number_of(kind), numbers.data(), answer); },
                        [&](const auto &) { return Card(numbers, 0); });
}

// Registers as three arrays: of each its sort, URSZOVELY_EMPTY, URSZOVELY_SINGLE or URSZOVELY_DOUBLE, and the value that this names.
template <std::size_t Count>
struct Registers {
    std::array<std::uint8_t, Count> sorts{};
    std::array<float, Count> singles{};
    std::array<double, Count> doubles{};
};

using Tile = Registers<64>;                // place 8 row + column
using Lanes = Registers<256>;              // entry 8 lane + register
using Holdings = std::array<double, 128>;  // entry 4 lane + field: A, B, the two accumulators

inline Answer<> deal(Kind kind, std::uint64_t computation, const Tile &tile, Lanes &lanes)
{
    return inner::asked([&](auto *answer) {
        urszovely_deal(number_of(kind), computation, tile.sorts.data(), tile.singles.data(), tile.doubles.data(), lanes.sorts.data(),
                       lanes.singles.data(), lanes.doubles.data(), answer);
    });
}

inline Answer<> collect(Kind kind, std::uint64_t computation, const Lanes &lanes, Tile &tile)
{
    return inner::asked([&](auto *answer) {
        urszovely_collect(number_of(kind), computation, lanes.sorts.data(), lanes.singles.data(), lanes.doubles.data(), tile.sorts.data(),
                          tile.singles.data(), tile.doubles.data(), answer);
    });
}

inline Answer<> deal_f64(Kind kind, std::uint64_t computation, const Tile &tile, Holdings &holdings)
{
    return inner::asked([&](auto *answer) {
        urszovely_deal_f64(number_of(kind), computation, tile.sorts.data(), tile.singles.data(), tile.doubles.data(), holdings.data(), answer);
    });
}

inline Answer<> collect_f64(Kind kind, std::uint64_t computation, const Holdings &holdings, Tile &tile)
{
    return inner::asked([&](auto *answer) {
        urszovely_collect_f64(number_of(kind), computation, holdings.data(), tile.sorts.data(), tile.singles.data(), tile.doubles.data(), answer);
    });
}

// The fields of a zero-column mask descriptor.
struct Fields {
    std::array<std::uint8_t, 4> start_counts{};
    std::array<bool, 4> first_spans{};
    bool non_zero_mask = false;
    std::uint8_t skip_span = 0, use_span = 0;
    std::uint64_t shift = 0;
    friend constexpr bool operator==(const Fields &, const Fields &) = default;
};

inline Answer<Fields> fields(std::uint64_t descriptor)
{
    std::array<std::uint8_t, 12> read;
    return inner::asked([&](auto *answer) { urszovely_fields(descriptor, read.data(), answer); },
                        [&](const auto &) {
                     Fields all;
                     std::copy_n(read.begin(), 4, all.start_counts.begin());
                     std::transform(read.begin() + 4, read.begin() + 8, all.first_spans.begin(), [](std::uint8_t field) { return field != 0; });
                     all.non_zero_mask = read[8] != 0;
                     all.skip_span = read[9];
                     all.use_span = read[10];
                     all.shift = read[11];
                     return all;
                 });
}

// The descriptor of fields, written for M.
inline Answer<std::uint64_t> descriptor(std::uint64_t m, const Fields &fields)
{
    std::array<std::uint8_t, 11> written;
    std::copy_n(fields.start_counts.begin(), 4, written.begin());
    std::copy_n(fields.first_spans.begin(), 4, written.begin() + 4);
    written[8] = fields.non_zero_mask;
    written[9] = fields.skip_span;
    written[10] = fields.use_span;
    return inner::asked([&](auto *answer) { urszovely_descriptor(m, written.data(), fields.shift, answer); }, [](const auto &n) { return n[1]; });
}

struct Mask {
    std::uint64_t zeroed_columns, first_used;
    std::span<const std::uint8_t> bytes;
};

inline Answer<Mask> mask(std::uint64_t m, std::uint64_t n, std::uint64_t descriptor, std::span<std::uint8_t> bytes)
{
    return inner::asked([&](auto *answer) { urszovely_mask(m, n, descriptor, bytes.data(), bytes.size(), answer); },
                        [&](const auto &told) { return Mask{told[1], told[2], bytes.first(n / 8)}; });
}

// A card's own checks.
inline Answer<> admit(const Card &card)
{
    return inner::asked([&](auto *answer) { urszovely_admit(card.numbers(), card.marks(), answer); });
}

// The cells of the copies of one element.
inline Answer<Cells> place(const Card &card, std::span<const std::uint64_t> shape, std::span<const std::uint64_t> coordinates,
                           std::span<std::uint32_t> memory)
{
    return inner::asked(
        [&](auto *answer) {
            urszovely_place(card.numbers(), card.marks(), inner::counted(shape).data(), inner::counted(coordinates).data(), memory.data(),
                            memory.size(), answer);
        },
        [&](const auto &n) { return Cells(memory.first(n[1])); });
}

struct Verdict {
    std::uint64_t elements, occupied, cells;
    Owners owners;
};

inline Answer<Verdict> verdict(const Card &card, std::span<std::uint32_t> table)
{
    return inner::asked([&](auto *answer) { urszovely_verdict(card.numbers(), card.marks(), table.data(), table.size(), answer); },
                        [&](const auto &n) { return Verdict{n[1], n[2], n[3], Owners(Cell(0), table.first(n[3]))}; });
}

// The owner of the cell at coordinates, or nobody.
inline Answer<std::optional<Flat>> owner(const Card &card, const Coordinates &at, std::span<std::uint32_t> table)
{
    return inner::asked([&](auto *answer) { urszovely_owner(card.numbers(), card.marks(), at.data(), table.data(), table.size(), answer); },
                        [](const auto &n) { return n[1] ? std::optional(Flat(n[1] - 1)) : std::nullopt; });
}

// The part of a table under the coordinates of all axes up to one. With m as the axis it is the one cell at these coordinates, first().
inline Answer<Owners> stretch(std::span<const std::uint32_t> table, const Lengths &lengths, Axis axis, const Coordinates &at)
{
    return inner::asked([&](auto *answer) { urszovely_stretch(table.data(), table.size(), lengths.data(), number_of(axis), at.data(), answer); },
                        [&](const auto &n) { return Owners(Cell(n[1]), table.subspan(n[1], n[2])); });
}

// A text read, as a card in a space and with a swizzle, of which a text says nothing.
inline Answer<Card> read(std::string_view text, const Lengths &lengths = {}, Swizzle swizzle = {})
{
    Card blank(lengths, swizzle);
    std::array<std::uint64_t, URSZOVELY_CARD> numbers;
    std::array<std::uint64_t, 1> marks;
    std::copy_n(blank.numbers(), numbers.size(), numbers.begin());
    const auto *bytes = reinterpret_cast<const std::uint8_t *>(text.data());
    return inner::asked([&](auto *answer) { urszovely_read(bytes, text.size(), numbers.data(), marks.data(), answer); },
                        [&](const auto &) { return Card(numbers, marks[0]); });
}

// A card written into lent memory, or as a string of its own.
inline Answer<std::string_view> write(const Card &card, std::span<char> text)
{
    auto *bytes = reinterpret_cast<std::uint8_t *>(text.data());
    return inner::asked([&](auto *answer) { urszovely_write(card.numbers(), card.marks(), bytes, text.size(), answer); },
                        [&](const auto &n) { return std::string_view(text.data(), n[1]); });
}

inline Answer<std::string> write(const Card &card)
{
    std::array<char, URSZOVELY_TEXT> text;
    Answer<std::string_view> written = write(card, text);
    return {written, written ? std::optional(std::string(*written)) : std::nullopt};
}

// A canonical shared-memory layout: LBO and SBO in bytes, and the length of axis m.
struct Canonical {
    Major major;
    Mode mode;
    std::uint64_t bits, m, k, lbo, sbo, length_of_m;
};

// Its verdict, with LBO and SBO as a descriptor has them.
struct Encoded {
    Verdict verdict;
    std::uint64_t lbo, sbo;
};

inline Answer<Encoded> canonical(const Canonical &layout, std::span<std::uint32_t> table)
{
    std::array<std::uint64_t, 2> encodings;
    return inner::asked(
        [&](auto *answer) {
            urszovely_canonical(number_of(layout.major), number_of(layout.mode), layout.bits, layout.m, layout.k, layout.lbo, layout.sbo,
                                layout.length_of_m, table.data(), table.size(), encodings.data(), answer);
        },
        [&](const auto &n) { return Encoded{{n[1], n[2], n[3], Owners(Cell(0), table.first(n[3]))}, encodings[0], encodings[1]}; });
}

inline Answer<Card> canonical_card(const Canonical &layout)
{
    std::array<std::uint64_t, URSZOVELY_CARD> numbers;
    return inner::asked(
        [&](auto *answer) {
            urszovely_canonical_card(number_of(layout.major), number_of(layout.mode), layout.bits, layout.m, layout.k, layout.lbo, layout.sbo,
                                     layout.length_of_m, numbers.data(), answer);
        },
        [&](const auto &) { return Card(numbers, 0); });
}

// A card with a note, written as a block of the layout book.
inline Answer<std::span<const std::uint8_t>> block(const Card &card, std::span<const std::uint8_t> note, std::span<std::uint8_t> bytes)
{
    return inner::asked(
        [&](auto *answer) { urszovely_block(card.numbers(), card.marks(), note.data(), note.size(), bytes.data(), bytes.size(), answer); },
        [&](const auto &) { return std::span<const std::uint8_t>(bytes.first(URSZOVELY_BLOCK)); });
}

struct Page {
    Card card;
    std::span<const std::uint8_t> note;
};

inline Answer<Page> page(std::span<const std::uint8_t> block)
{
    std::array<std::uint64_t, URSZOVELY_CARD> numbers;
    std::array<std::uint64_t, 1> marks;
    std::array<std::uint64_t, 2> note;
    return inner::asked([&](auto *answer) { urszovely_page(block.data(), block.size(), numbers.data(), marks.data(), note.data(), answer); },
                        [&](const auto &) { return Page{Card(numbers, marks[0]), block.subspan(note[0], note[1])}; });
}

// A plan checked: any numbers, two a copy, from cell and to cell.
inline Answer<> carry(const Card &first_card, const Card &second_card, std::span<const std::uint64_t> plan, std::span<std::uint32_t> first,
                      std::span<std::uint32_t> second)
{
    return inner::asked([&](auto *answer) {
        urszovely_carry(first_card.numbers(), first_card.marks(), second_card.numbers(), second_card.marks(), plan.data(), plan.size(),
                        first.data(), first.size(), second.data(), second.size(), answer);
    });
}

// And written.
inline Answer<Copies> plan(const Card &first_card, const Card &second_card, std::span<std::uint64_t> plan, std::span<std::uint32_t> first,
                           std::span<std::uint32_t> second)
{
    return inner::asked(
        [&](auto *answer) {
            urszovely_plan(first_card.numbers(), first_card.marks(), second_card.numbers(), second_card.marks(), plan.data(), plan.size(),
                           first.data(), first.size(), second.data(), second.size(), answer);
        },
        [&](const auto &n) { return Copies(plan.first(n[1])); });
}

} // namespace urszovely

#endif
