// Prints the best assignment of the sheet on standard input, or the number of its refusal, as ./run does: example < a.sheet
#include <cazdrob.h>
#include <iostream>
#include <iterator>
#include <variant>
#include <vector>

using Bytes = std::vector<std::uint8_t>;

// an empty vector may have a null pointer, and none may be passed
template <class T> auto pointer(T &v) {
    static typename T::value_type none{};
    return v.empty() ? &none : v.data();
}

struct Assignment {
    std::uint32_t density;
    Bytes columns;  // top terminals in order, then bottom
};

// Searches one sheet after another on the same work cells: a search leaves them 0 and needs no clearing.
class Placer {
    std::vector<std::uint16_t> work;

public:
    // the best assignment, or the number of the refusal
    std::variant<Assignment, std::uint32_t> assign(const Bytes &sheet) {
        if (auto refused = cazdrob_check(pointer(sheet), sheet.size())) return refused;
        auto cells = cazdrob_cells(sheet.data(), sheet.size());
        if (work.size() < cells) work.resize(cells);
        // a sound sheet has 12 bytes for each terminal and 12 of its trailer
        Assignment found{0, Bytes(sheet.size() / 12 - 1)};
        if (auto refused = cazdrob_search(sheet.data(), sheet.size(), pointer(found.columns), found.columns.size(), work.data(),
                                          work.size(), &found.density))
            return refused;
        return found;
    }
};

// The lines of a side; at `field` the trailer has the offset of its section and then the number of its terminals.
void print_side(char side, const Bytes &sheet, std::size_t field, const std::uint8_t *columns) {
    auto number = [&](std::size_t at) { return sheet[at] + 256 * sheet[at + 1]; };
    for (int i = 0; i < number(field + 2); i++)
        std::cout << side << ' ' << i + 1 << " net " << number(number(field) + 12 * i) << " col " << +columns[i] << '\n';
}

int main() {
    Bytes sheet{std::istreambuf_iterator<char>(std::cin), {}};
    auto answer = Placer().assign(sheet);
    if (auto refused = std::get_if<std::uint32_t>(&answer)) {
        std::cout << "refused " << *refused << '\n';
        return 0;
    }
    auto &[density, columns] = std::get<Assignment>(answer);
    auto trailer = sheet.size() - 12;
    auto p = sheet[trailer + 2];
    std::cout << "density " << density << '\n';
    print_side('T', sheet, trailer, pointer(columns));
    print_side('B', sheet, trailer + 4, pointer(columns) + p);
}
