// The same work as the crate `search_bench`, in plain C++, for comparison: a search by Dijkstra with a binary heap of
// std::push_heap and std::pop_heap, stamped labels, and flat rows of neighbours.
//
// usage: searches WHAT BOARD, with the words of `search_bench`. The text of the board is taken as it is.

#include "board.hpp"

#include <algorithm>
#include <cstdint>
#include <cstdio>
#include <functional>
#include <string>
#include <utility>
#include <vector>

namespace {

constexpr int turns = 10;

// Lengths from 8 to 1,031, which the number of the wire mixes.
std::vector<std::uint64_t> lengths_of(const Board& board) {
    std::vector<std::uint64_t> lengths;
    for (std::uint32_t e = 0; e < board.wires.size(); ++e) {
        lengths.push_back(8 + ((e * std::uint32_t{2654435761}) >> 22));
    }
    return lengths;
}

class Search {
public:
    Search(const Board& board, const std::vector<std::uint64_t>& lengths)
        : board_(board), lengths_(lengths), labels_(board.fpgas), goals_(board.fpgas, 0) {}

    void begin() {
        ++stamp_;
        queue_.clear();
    }

    bool is_goal(std::uint32_t fpga) const { return goals_[fpga] != 0; }
    void mark(std::uint32_t fpga, bool goal) { goals_[fpga] = goal; }
    void add_source(std::uint32_t fpga) { lower(fpga, 0, none); }

    std::uint64_t distance(std::uint32_t fpga) const {
        return labels_[fpga].stamp == stamp_ ? labels_[fpga].distance : UINT64_MAX;
    }

    // The nearest goal, or `none` where all is settled.
    std::uint32_t nearest_goal() {
        while (!queue_.empty()) {
            const auto [far, fpga] = queue_.front();
            if (distance(fpga) == far && is_goal(fpga)) {
                return fpga;
            }
            std::pop_heap(queue_.begin(), queue_.end(), std::greater<>());
            queue_.pop_back();
            if (distance(fpga) != far) {
                continue;
            }
            const Neighbour* end = board_.neighbours.end_of(fpga);
            for (const Neighbour* x = board_.neighbours.begin_of(fpga); x != end; ++x) {
                const std::uint64_t onward = far + lengths_[x->wire];
                if (onward < distance(x->fpga)) {
                    lower(x->fpga, onward, x->wire);
                }
            }
        }
        return none;
    }

    // Appends the wires from the goal back to the tree, and makes the FPGAs on this way sources.
    void join(std::uint32_t goal, std::vector<std::uint32_t>& wires) {
        mark(goal, false);
        std::uint32_t fpga = goal;
        while (labels_[fpga].wire != none) {
            const std::uint32_t e = labels_[fpga].wire;
            wires.push_back(e);
            add_source(fpga);
            fpga = board_.wires[e].a == fpga ? board_.wires[e].b : board_.wires[e].a;
        }
    }

private:
    struct Label {
        std::uint64_t distance = 0;
        std::uint32_t wire = none;
        std::uint32_t stamp = 0;
    };

    void lower(std::uint32_t fpga, std::uint64_t distance, std::uint32_t wire) {
        labels_[fpga] = {distance, wire, stamp_};
        queue_.emplace_back(distance, fpga);
        std::push_heap(queue_.begin(), queue_.end(), std::greater<>());
    }

    const Board& board_;
    const std::vector<std::uint64_t>& lengths_;
    std::vector<Label> labels_;
    std::vector<std::uint8_t> goals_;
    std::vector<std::pair<std::uint64_t, std::uint32_t>> queue_;
    std::uint32_t stamp_ = 0;
};

std::uint64_t forests(const Board& board, Search& search) {
    std::uint64_t sum = 0;
    for (int turn = 0; turn < turns; ++turn) {
        for (std::uint32_t root = 0; root < board.fpgas; ++root) {
            search.begin();
            search.add_source(root);
            search.nearest_goal();
            sum += search.distance(board.fpgas - 1);
        }
    }
    return sum;
}

std::uint64_t trees(const Board& board, const std::vector<std::uint64_t>& lengths, Search& search) {
    std::uint64_t sum = 0;
    std::vector<std::uint32_t> wires;
    for (std::size_t n = 0; n < board.nets.ends.size(); ++n) {
        const std::uint32_t* terminals = board.nets.begin_of(n);
        const std::uint32_t* end = board.nets.end_of(n);
        wires.clear();
        search.begin();
        for (const std::uint32_t* t = terminals + 1; t != end; ++t) {
            search.mark(*t, true);
        }
        search.add_source(*terminals);
        for (auto left = end - terminals - 1; left > 0; --left) {
            search.join(search.nearest_goal(), wires);
        }
        std::sort(wires.begin(), wires.end());
        for (const std::uint32_t e : wires) {
            sum += lengths[e];
        }
    }
    return sum;
}

}  // namespace

int main(int count, char** words) {
    if (count != 3) {
        std::fprintf(stderr, "usage: searches read|forests|trees BOARD\n");
        return 2;
    }
    const std::string what = words[1];
    const Board board = board_of(text_of(words[2]));
    const std::vector<std::uint64_t> lengths = lengths_of(board);
    Search search(board, lengths);
    std::uint64_t sum = 0;
    if (what == "forests") {
        sum = forests(board, search);
    } else if (what == "trees") {
        sum = trees(board, lengths, search);
    }
    std::printf("%llu\n", static_cast<unsigned long long>(sum));
    return 0;
}
