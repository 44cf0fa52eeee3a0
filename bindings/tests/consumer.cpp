// A C++ caller: handles that free themselves, and columns over vectors.
#include <yurkije_arrow.h>

#include <cstdio>
#include <stdexcept>
#include <string>
#include <utility>
#include <vector>

class Expression {
  public:
    Expression(const std::string &text, const std::vector<yk_field> &fields) {
        char message[200];
        yk_error error{};
        error.message = {message, sizeof message};
        if (yk_expression_new(text.data(), text.size(), fields.data(), fields.size(), &raw, &error))
            throw std::invalid_argument(message);
    }
    Expression(Expression &&other) noexcept : raw(std::exchange(other.raw, yk_expression{})) {}
    Expression(const Expression &) = delete;
    Expression &operator=(const Expression &) = delete;
    ~Expression() { yk_expression_free(&raw); }

    std::vector<std::uint64_t> select(const std::vector<yk_column> &columns, std::size_t rows) {
        char message[200];
        yk_error error{};
        error.message = {message, sizeof message};
        std::vector<std::uint64_t> numbers(rows);
        std::size_t count = 0;
        if (yk_arrow_select(&raw, 0, columns.data(), columns.size(), rows, numbers.data(), &count, &error))
            throw std::runtime_error(message);
        numbers.resize(count);
        return numbers;
    }

  private:
    yk_expression raw{};
};

int main() {
    std::vector<std::int64_t> numbers(20000);
    for (std::size_t i = 0; i < numbers.size(); i++)
        numbers[i] = static_cast<std::int64_t>(i);
    yk_field field{{"n", 1}, YK_I64, false};
    yk_column column{};
    column.kind = YK_I64;
    column.rows = numbers.size();
    column.i64 = {numbers.data(), numbers.size()};
    Expression made("n between 7 and 9 or n > 19997", {field}), moved(std::move(made));
    const std::vector<std::uint64_t> expected{7, 8, 9, 19998, 19999};
    bool refused = false;
    try {
        Expression("m < 2", {field});
    } catch (const std::invalid_argument &) {
        refused = true;
    }
    if (moved.select({column}, numbers.size()) != expected || !refused)
        return 1;
    std::puts("C++: as expected");
}
