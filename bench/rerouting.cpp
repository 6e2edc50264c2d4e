// The same work as `search_bench starts`, `passes` and `rounds`, in plain C++, for comparison: nets are taken off their
// wires one by one and get a shorter tree at the marginal lengths; a table of distances with one scale, in 4096ths, gives
// lower bounds.
//
// usage: rerouting read|starts|passes|rounds BOARD

#include "board.hpp"

#include <algorithm>
#include <cstdint>
#include <cstdio>
#include <string>
#include <utility>
#include <vector>

namespace {

using u32 = std::uint32_t;
using u64 = std::uint64_t;

constexpr u32 rounds = 8, passes = 4, full_rounds = 5;
constexpr u32 most_bounded = 6, most_starts = 41;
constexpr u64 whole = 4096, far = u64{1} << 62;

u64 scaled(u64 distance, u64 scale) { return distance / whole * scale + distance % whole * scale / whole; }

u32 other_end(const Board& board, u32 wire, u32 fpga) { return board.wires[wire].a ^ board.wires[wire].b ^ fpga; }

// A binary heap of FPGAs by key, without decrease.
class Heap {
public:
    struct Item {
        u64 key;
        u32 fpga;
    };

    void clear() { items_.clear(); }
    bool empty() const { return items_.empty(); }

    void push(u64 key, u32 fpga) {
        std::size_t i = items_.size();
        items_.push_back({key, fpga});
        for (; i > 0 && items_[(i - 1) / 2].key > key; i = (i - 1) / 2) {
            items_[i] = items_[(i - 1) / 2];
        }
        items_[i] = {key, fpga};
    }

    Item pop() {
        const Item least = items_.front(), moved = items_.back();
        items_.pop_back();
        const std::size_t count = items_.size();
        if (count == 0) {
            return least;
        }
        std::size_t i = 0;
        for (std::size_t child = 1; child < count; child = 2 * i + 1) {
            child += child + 1 < count && items_[child + 1].key < items_[child].key;
            if (items_[child].key >= moved.key) {
                break;
            }
            items_[i] = items_[child];
            i = child;
        }
        items_[i] = moved;
        return least;
    }

private:
    std::vector<Item> items_;
};

// The wires of all trees in one pool; a tree that outgrows its room moves to the end.
class Trees {
public:
    explicit Trees(std::size_t nets) : spots_(nets) {}

    const u32* begin_of(u32 net) const { return pool_.data() + spots_[net].place; }
    const u32* end_of(u32 net) const { return begin_of(net) + spots_[net].length; }

    void replace(u32 net, const std::vector<u32>& wires) {
        Spot& spot = spots_[net];
        if (wires.size() > spot.room) {
            spot.place = static_cast<u32>(pool_.size());
            spot.room = static_cast<u32>(wires.size()) + 1;
            pool_.resize(pool_.size() + spot.room);
        }
        spot.length = static_cast<u32>(wires.size());
        std::copy(wires.begin(), wires.end(), pool_.begin() + spot.place);
    }

private:
    struct Spot {
        u32 place = 0, length = 0, room = 0;
    };
    std::vector<Spot> spots_;
    std::vector<u32> pool_;
};

// The lengths of wires in a turn: twice the load and the number of the net. `rows` is the table, if there is one.
struct Lengths {
    const std::vector<u64>& twice;
    u64 own;
    const u64* rows;
    u64 scale;
    u64 of(u32 wire) const { return twice[wire] + own; }
};

// Grows trees below a limit: the terminal that is nearest to the tree is joined, again and again.
class Grower {
public:
    std::vector<u32> wires;
    u64 total = 0;

    explicit Grower(const Board& board) : board_(board), labels_(board.fpgas), open_(board.fpgas, 0) {}

    bool grow(const std::vector<u32>& terminals, const Lengths& lengths, u64 limit) {
        wires.clear();
        total = 0;
        if (lengths.rows != nullptr && terminals.size() <= most_bounded) {
            return grow_bounded(terminals, lengths, limit);
        }
        for (const u32 t : terminals) {
            open_[t] = 1;
        }
        const bool grown = grow_plain(terminals, lengths, limit);
        for (const u32 t : terminals) {
            open_[t] = 0;
        }
        return grown;
    }

    // The shortest path between two FPGAs. Steps that a bound shows to be too long are not taken.
    bool join(u32 from, u32 to, const Lengths& lengths, u64 limit) {
        const u64* row = lengths.rows == nullptr ? nullptr : lengths.rows + std::size_t{to} * board_.fpgas;
        if (row != nullptr && scaled(row[from], lengths.scale) >= limit) {
            return false;
        }
        begin();
        start(from, 0);
        while (!heap_.empty()) {
            const Heap::Item now = heap_.pop();
            if (now.key != labels_[now.fpga].distance) {
                continue;
            }
            if (now.fpga == to) {
                wires.clear();
                total = now.key;
                take_path(to, [](u32) {});
                return true;
            }
            const Neighbour* end = board_.neighbours.end_of(now.fpga);
            for (const Neighbour* x = board_.neighbours.begin_of(now.fpga); x != end; ++x) {
                const u64 distance = now.key + lengths.of(x->wire);
                const u64 bound = row == nullptr ? 0 : scaled(row[x->fpga], lengths.scale);
                if (distance + bound < limit && distance < distance_of(x->fpga)) {
                    lower(*x, distance, distance);
                }
            }
        }
        return false;
    }

private:
    struct Label {
        u64 distance = 0;
        u32 wire = none, stamp = 0;
    };

    void begin() {
        ++stamp_;
        heap_.clear();
    }
    void start(u32 fpga, u64 key) {
        labels_[fpga] = {0, none, stamp_};
        heap_.push(key, fpga);
    }
    u64 distance_of(u32 fpga) const { return labels_[fpga].stamp == stamp_ ? labels_[fpga].distance : far; }
    void lower(Neighbour to, u64 distance, u64 key) {
        labels_[to.fpga] = {distance, to.wire, stamp_};
        heap_.push(key, to.fpga);
    }

    // Takes the wires from an FPGA back to the tree, and tells each FPGA on the way but the last.
    template <typename F>
    void take_path(u32 fpga, F tell) {
        while (labels_[fpga].wire != none) {
            const u32 wire = labels_[fpga].wire;
            wires.push_back(wire);
            tell(fpga);
            fpga = other_end(board_, wire, fpga);
        }
    }

    bool grow_plain(const std::vector<u32>& terminals, const Lengths& lengths, u64 limit) {
        begin();
        open_[terminals[0]] = 0;
        start(terminals[0], 0);
        for (std::size_t left = terminals.size() - 1; left > 0;) {
            if (heap_.empty()) {
                return false;
            }
            const Heap::Item now = heap_.pop();
            if (now.key != labels_[now.fpga].distance) {
                continue;
            }
            if (open_[now.fpga]) {
                total += now.key;
                if (total >= limit) {
                    return false;
                }
                open_[now.fpga] = 0;
                --left;
                take_path(now.fpga, [this](u32 f) { start_later(f); });
                start_path();
                continue;
            }
            const Neighbour* end = board_.neighbours.end_of(now.fpga);
            for (const Neighbour* x = board_.neighbours.begin_of(now.fpga); x != end; ++x) {
                const u64 distance = now.key + lengths.of(x->wire);
                if (distance < limit - total && distance < distance_of(x->fpga)) {
                    lower(*x, distance, distance);
                }
            }
        }
        return true;
    }
    void start_later(u32 fpga) { path_.push_back(fpga); }
    void start_path() {
        for (const u32 f : path_) {
            start(f, 0);
        }
        path_.clear();
    }

    // A search for each terminal from the whole tree, by distance plus the least bound to a terminal that is left.
    bool grow_bounded(const std::vector<u32>& terminals, const Lengths& lengths, u64 limit) {
        left_.assign(terminals.begin() + 1, terminals.end());
        tree_.assign(1, terminals[0]);
        while (!left_.empty()) {
            const std::size_t hit = nearest_left(lengths, limit - total);
            if (hit == left_.size()) {
                return false;
            }
            const u32 terminal = left_[hit];
            left_.erase(left_.begin() + static_cast<std::ptrdiff_t>(hit));
            total += labels_[terminal].distance;
            take_path(terminal, [this](u32 f) { tree_.push_back(f); });
        }
        return true;
    }
    u64 bound_of(u32 fpga, const Lengths& lengths) const {
        u64 least = far;
        for (const u32 t : left_) {
            least = std::min(least, lengths.rows[std::size_t{t} * board_.fpgas + fpga]);
        }
        return scaled(least, lengths.scale);
    }
    std::size_t nearest_left(const Lengths& lengths, u64 limit) {
        begin();
        for (const u32 f : tree_) {
            start(f, bound_of(f, lengths));
        }
        while (!heap_.empty()) {
            const Heap::Item now = heap_.pop();
            const u64 here = labels_[now.fpga].distance;
            if (now.key >= limit) {
                break;
            }
            if (now.key != here + bound_of(now.fpga, lengths)) {
                continue;
            }
            const auto hit = std::find(left_.begin(), left_.end(), now.fpga);
            if (hit != left_.end()) {
                return static_cast<std::size_t>(hit - left_.begin());
            }
            const Neighbour* end = board_.neighbours.end_of(now.fpga);
            for (const Neighbour* x = board_.neighbours.begin_of(now.fpga); x != end; ++x) {
                const u64 distance = here + lengths.of(x->wire);
                if (distance >= limit || distance >= distance_of(x->fpga)) {
                    continue;
                }
                const u64 key = distance + bound_of(x->fpga, lengths);
                if (key < limit) {
                    lower(*x, distance, key);
                }
            }
        }
        return left_.size();
    }

    const Board& board_;
    std::vector<Label> labels_;
    std::vector<std::uint8_t> open_;
    std::vector<u32> left_, tree_, path_;
    Heap heap_;
    u32 stamp_ = 0;
};

class Rerouter {
public:
    Rerouter(const Board& board, Trees& trees)
        : board_(board), trees_(trees), grower_(board), nets_(static_cast<u32>(board.nets.ends.size())),
          has_table_(nets_ > 20 * board.fpgas) {}

    // Passes over all nets, and the cost of the loads afterwards in units of 2^20.
    u64 round(const std::vector<u64>& numbers, u32 done) {
        take_loads(numbers);
        fresh_ = false;
        for (u32 pass = 0; pass < passes; ++pass) {
            fresh_ = fresh_ && scale_ >= whole - 64;
            bool moved = false;
            for (u32 n = 0; n < nets_; ++n) {
                moved |= turn(n, numbers[n], pass > 0 || done >= full_rounds, done < full_rounds);
            }
            if (!moved) {
                break;
            }
        }
        unsigned __int128 cost = 0;
        for (const u64 x : twice_) {
            cost += static_cast<unsigned __int128>(x / 2) * (x / 2);
        }
        return static_cast<u64>(cost >> 20);
    }

private:
    void take_loads(const std::vector<u64>& numbers) {
        twice_.assign(board_.wires.size(), 0);
        u64 sum = 0, count = 0;
        for (u32 n = 0; n < nets_; ++n) {
            add(n, numbers[n]);
            if (numbers[n] > 0 && trees_.begin_of(n) != trees_.end_of(n)) {
                sum += numbers[n];
                ++count;
            }
        }
        heavy_ = count == 0 ? 0 : sum / count;
    }
    void add(u32 net, u64 number) {
        for (const u32* e = trees_.begin_of(net); e != trees_.end_of(net); ++e) {
            twice_[*e] += 2 * number;
        }
    }

    u64 scale_at(u64 scale, u32 wire, u64 length) const {
        return length * whole < scale * tabled_[wire] ? length * whole / tabled_[wire] : scale;
    }

    void begin_turn() {
        if (!fresh_ || (scale_ < whole - 256 && age_ >= u64{16} * board_.fpgas)) {
            tabled_ = twice_;
            table_.resize(std::size_t{board_.fpgas} * board_.fpgas);
            for (u32 f = 0; f < board_.fpgas; ++f) {
                fill_row(f, table_.data() + std::size_t{f} * board_.fpgas);
            }
            scale_ = whole;
            age_ = 0;
            fresh_ = true;
        }
        ++age_;
    }
    void fill_row(u32 root, u64* row) {
        std::fill(row, row + board_.fpgas, far);
        heap_.clear();
        row[root] = 0;
        heap_.push(0, root);
        while (!heap_.empty()) {
            const Heap::Item now = heap_.pop();
            if (now.key != row[now.fpga]) {
                continue;
            }
            const Neighbour* end = board_.neighbours.end_of(now.fpga);
            for (const Neighbour* x = board_.neighbours.begin_of(now.fpga); x != end; ++x) {
                const u64 distance = now.key + tabled_[x->wire];
                if (distance < row[x->fpga]) {
                    row[x->fpga] = distance;
                    heap_.push(distance, x->fpga);
                }
            }
        }
    }

    bool turn(u32 net, u64 number, bool lazy, bool several) {
        order_.assign(board_.nets.begin_of(net), board_.nets.end_of(net));
        if (order_.size() < 2 || number == 0) {
            return false;
        }
        if (has_table_) {
            begin_turn();
        }
        Lengths lengths{twice_, number, has_table_ ? table_.data() : nullptr, scale_};
        u64 old = 0;
        for (const u32* e = trees_.begin_of(net); e != trees_.end_of(net); ++e) {
            twice_[*e] -= 2 * number;
            old += lengths.of(*e);
            if (has_table_) {
                lengths.scale = scale_at(lengths.scale, *e, lengths.of(*e));
            }
        }
        const bool stays = has_table_ && lazy && order_.size() > 2 && stays_by_bounds(lengths, old);
        if (stays || !find_shorter(lengths, old, several && number >= heavy_)) {
            add(net, number);
            return false;
        }
        std::sort(best_.begin(), best_.end());
        left_.assign(trees_.begin_of(net), trees_.end_of(net));
        trees_.replace(net, best_);
        add(net, number);
        if (has_table_) {
            for (const u32 e : left_) {
                scale_ = scale_at(scale_, e, twice_[e]);
            }
        }
        return true;
    }

    bool stays_by_bounds(const Lengths& lengths, u64 old) {
        const auto bound_of = [&](u32 t) {
            return scaled(table_[std::size_t{t} * board_.fpgas + order_[0]], lengths.scale);
        };
        u64 sum = 0;
        for (std::size_t i = 1; i < order_.size() && sum < old; ++i) {
            sum += bound_of(order_[i]);
        }
        if (sum >= old || sum + sum / 8 < old) {
            return sum >= old;
        }
        for (std::size_t i = 1; i < order_.size() && sum < old; ++i) {
            const u64 bound = bound_of(order_[i]), enough = bound + (old - sum);
            sum += (grower_.join(order_[0], order_[i], lengths, enough) ? grower_.total : enough) - bound;
        }
        return sum >= old;
    }

    // Looks for a tree that is shorter than the old one, from several starts if so asked.
    bool find_shorter(const Lengths& lengths, u64 old, bool several) {
        if (order_.size() == 2) {
            const bool found = grower_.join(order_[0], order_[1], lengths, old);
            best_.swap(grower_.wires);
            return found;
        }
        const std::size_t starts = several ? std::min<std::size_t>(order_.size(), most_starts) : 1;
        bool found = false;
        for (std::size_t i = 0; i < starts; ++i) {
            std::swap(order_[0], order_[i]);
            if (grower_.grow(order_, lengths, old)) {
                found = true;
                old = grower_.total;
                best_.swap(grower_.wires);
            }
            std::swap(order_[0], order_[i]);
        }
        return found;
    }

    const Board& board_;
    Trees& trees_;
    Grower grower_;
    u32 nets_;
    bool has_table_, fresh_ = false;
    u64 heavy_ = 0, scale_ = whole, age_ = 0;
    std::vector<u64> twice_, tabled_, table_;
    std::vector<u32> order_, best_, left_;
    Heap heap_;
};

// A tree of few wires for each net, by the same searches over lengths of 1.
Trees first_trees(const Board& board) {
    const u32 nets = static_cast<u32>(board.nets.ends.size());
    Trees trees(nets);
    Grower grower(board);
    const std::vector<u64> zero(board.wires.size(), 0);
    std::vector<u32> terminals;
    for (u32 n = 0; n < nets; ++n) {
        terminals.assign(board.nets.begin_of(n), board.nets.end_of(n));
        grower.grow(terminals, Lengths{zero, 1, nullptr, 0}, far);
        std::sort(grower.wires.begin(), grower.wires.end());
        trees.replace(n, grower.wires);
    }
    return trees;
}

u64 number_of(u32 n, u32 done) {
    const u64 base = (n * u32{2654435761} >> 20) + 256;
    const u64 noise = (n * u32{40503} + done * u32{2246822519}) >> 24;
    return base * (noise + 1024) / 1024;
}

}  // namespace

int main(int count, char** words) {
    if (count != 3) {
        std::fprintf(stderr, "usage: rerouting read|starts|passes|rounds BOARD\n");
        return 2;
    }
    const std::string what = words[1];
    const Board board = board_of(text_of(words[2]));
    u64 cost = 0;
    if (what != "read") {
        Trees trees = first_trees(board);
        Rerouter rerouter(board, trees);
        std::vector<u64> numbers(board.nets.ends.size());
        for (u32 done = 0; done < (what == "rounds" ? rounds : what == "passes" ? 1 : 0); ++done) {
            for (u32 n = 0; n < numbers.size(); ++n) {
                numbers[n] = number_of(n, done);
            }
            cost = rerouter.round(numbers, done);
        }
    }
    std::printf("%llu\n", static_cast<unsigned long long>(cost));
    return 0;
}
